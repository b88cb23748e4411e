/* What the C library (picolibc) asks of its machine: a stream that puts each byte by ECALL, and the end of a program. */
#include <stdio.h>

static int put(char byte, FILE *stream)
{
    register unsigned int a0 __asm__("a0") = (unsigned char)byte;
    register unsigned int a7 __asm__("a7") = 1;
    (void)stream;
    __asm__ volatile("ecall" : : "r"(a0), "r"(a7) : "memory");
    return (unsigned char)byte;
}

static FILE console = FDEV_SETUP_STREAM(put, NULL, NULL, _FDEV_SETUP_WRITE);

FILE *const stdout = &console;
FILE *const stderr = &console;
FILE *const stdin = &console; /* a read gives the end of the file */

void _exit(int code)
{
    register int a0 __asm__("a0") = code;
    register int a7 __asm__("a7") = 93;
    for (;;)
        __asm__ volatile("ecall" : : "r"(a0), "r"(a7) : "memory");
}
