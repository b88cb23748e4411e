# A loop of additions and exclusive ors alone: no access of memory, hardly a cycle without an instruction.
_start: li s1, COUNT
        li s2, 1
        li s3, 2
loop:   add s2, s2, s3
        xor s3, s3, s2
        add s4, s2, s1
        xor s2, s2, s4
        slli s5, s2, 3
        add s3, s3, s5
        addi s1, s1, -1
        bnez s1, loop
        mv a0, s3
        li a7, 93
        ecall
