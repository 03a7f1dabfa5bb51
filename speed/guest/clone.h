# Makes the hart s1, whose stack is the page s1 of `stacks`, and goes on at `child` in it; at `bad` where it can't.
        .macro  clone flags, cleared
        li      a0, \flags
        la      a1, stacks
        slli    a2, s1, 12
        add     a1, a1, a2
        li      a2, 0
        li      a3, 0
        mv      a4, \cleared
        li      a7, 220
        ecall
        beqz    a0, child
        bltz    a0, bad
        .endm
