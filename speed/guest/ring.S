# HARTS harts (the first one too) take turns at one futex, N rounds: whose turn it isn't waits at the word, and whose
# turn it is makes WORK rounds of four register instructions, hands the turn on and wakes all.
#include "clone.h"
        .globl  _start
_start: la      s2, turn
        li      s1, 1
1:      li      t0, HARTS
        bgeu    s1, t0, work
        clone   0x50f00, zero  # CLONE_VM, FS, FILES, SIGHAND, THREAD, SYSVSEM
        addi    s1, s1, 1
        j       1b
child:  jal     ra, rounds
        li      a0, 0
        li      a7, 93
        ecall
work:   li      s1, 0
        jal     ra, rounds
        li      a0, 0
        li      a7, 94
        ecall
bad:    neg     a0, a0
        li      a7, 94
        ecall
rounds: li      s0, N
2:      lw      s3, 0(s2)
        li      t1, HARTS
        remu    t0, s3, t1
        beq     t0, s1, 3f
        mv      a0, s2
        li      a1, 0               # FUTEX_WAIT while the word is still this
        mv      a2, s3
        li      a3, 0
        li      a7, 98
        ecall
        j       2b
3:      li      t2, WORK
4:      addi    a5, a5, 3
        xor     a6, a6, a5
        addi    t2, t2, -1
        bnez    t2, 4b
        addi    s3, s3, 1
        sw      s3, 0(s2)
        mv      a0, s2
        li      a1, 1               # FUTEX_WAKE
        li      a2, HARTS
        li      a7, 98
        ecall
        addi    s0, s0, -1
        bnez    s0, 2b
        ret
        .bss
        .balign 4096
turn:   .space  4096
stacks: .space  65536
