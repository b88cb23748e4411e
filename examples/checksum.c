/* CRC-32 (ISO 3309) of 256 bytes, by a table that the program makes first. Most of its work is loads and exclusive ors. */
#include "program.h"

static unsigned int table[256];

static void make_table(void)
{
    for (unsigned int byte = 0; byte < 256; byte++) {
        unsigned int rest = byte;
        for (int bit = 0; bit < 8; bit++)
            rest = rest & 1 ? 0xEDB88320u ^ rest >> 1 : rest >> 1;
        table[byte] = rest;
    }
}

int main(void)
{
    make_table();
    unsigned int crc = 0xFFFFFFFFu;
    for (unsigned int place = 0; place < 256; place++) {
        unsigned char byte = (unsigned char)(place * 7 + 3);
        crc = table[(crc ^ byte) & 0xFF] ^ crc >> 8;
    }
    put_number(~crc);
    put('\n');
    return 0;
}
