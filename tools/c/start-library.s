# Where a program with the C library begins: a stack at the end of the first MiB of RAM, the thread's own variables (errno), then main, and
# the end by exit with main's result.
        .globl _start
        .section .text.start
_start: lui sp, 0x110
        la tp, __tls_base
        li a0, 0
        li a1, 0
        call main
        call exit
