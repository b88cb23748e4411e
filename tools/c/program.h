/* The calls of a program under avf: put one byte, and end. main's result is the exit code. */
#ifndef PROGRAM_H
#define PROGRAM_H

#ifdef HOST /* to check the expected output on the machine at hand */
#include <stdio.h>
static inline void put(unsigned char byte) { putchar(byte); }
#else
static inline void put(unsigned char byte)
{
    register unsigned int a0 __asm__("a0") = byte;
    register unsigned int a7 __asm__("a7") = 1;
    __asm__ volatile("ecall" : : "r"(a0), "r"(a7) : "memory");
}
#endif

static inline void put_text(const char *text)
{
    while (*text != 0)
        put((unsigned char)*text++);
}

static inline void put_number(unsigned int number)
{
    char digits[10];
    int count = 0;
    do {
        digits[count++] = (char)('0' + number % 10);
        number /= 10;
    } while (number != 0);
    while (count > 0)
        put((unsigned char)digits[--count]);
}

#endif
