# The greatest common divisor of two numbers by Euclid's algorithm, put in decimal digits.
_start:  lui sp, 0x110
         la t0, pair
         lw a0, 0(t0)
         lw a1, 4(t0)
         call divisor
         call print
         li a0, 10                # a line feed
         li a7, 1
         ecall
         li a0, 0
         li a7, 93
         ecall

# a0 and a1 -> a0
divisor: beqz a1, found
         remu t0, a0, a1
         mv a0, a1
         mv a1, t0
         j divisor
found:   ret

# puts a0, the digits in front by calling itself
print:   addi sp, sp, -16
         sw ra, 12(sp)
         sw a0, 8(sp)
         li t0, 10
         divu a0, a0, t0
         beqz a0, last
         call print
last:    lw a0, 8(sp)
         li t0, 10
         remu a0, a0, t0
         addi a0, a0, 48
         li a7, 1
         ecall
         lw ra, 12(sp)
         addi sp, sp, 16
         ret

         .data
pair:    .word 461952
         .word 116298
