# N system calls in a loop. WAY 0 asks for the hart's tid, which reaches no device; WAY 1 writes one
# byte of the stack to standard output.
        .globl  _start
_start: li      s0, N
1:
#if WAY == 0
        li      a7, 178
#else
        li      a0, 1
        mv      a1, sp
        li      a2, 1
        li      a7, 64
#endif
        ecall
        addi    s0, s0, -1
        bnez    s0, 1b
        li      a0, 0
        li      a7, 93
        ecall
