# A loop of a load, a store, three additions and a taken branch, over a table of 4 KiB; COUNT is put in by the script.
_start: la s0, table
        li s1, COUNT
        li s2, 0
        li s3, 0
loop:   add t1, s0, s3
        lw t0, 0(t1)
        add s2, s2, t0
        sw s2, 0(t1)
        addi s3, s3, 68
        andi s3, s3, 2044
        addi s1, s1, -1
        bnez s1, loop
        mv a0, s2
        li a7, 93
        ecall
        .data
table:  .space 4096
