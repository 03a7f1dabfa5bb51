# A function that makes three acts N times and then faults, one call below the start: its call path is
# followed by `try`.
    .text
    .globl _start
_start:
    jal ra, under
    li a7, 93
    ecall

    .type under, @function
under:
    li t0, N
1:  addi t0, t0, -1
    addi t1, t1, 3
    bnez t0, 1b
    ld t2, 0(zero)
    .size under, . - under
