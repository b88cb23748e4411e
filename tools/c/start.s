# Where a program begins: a stack at the end of the first MiB of RAM, then main, then the end with main's result.
        .globl _start
        .section .text.start
_start: lui sp, 0x110
        call main
        li a7, 93
        ecall
