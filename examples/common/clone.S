# long clone(flags, stack, place for the tid, tls, clear place): the answer is the new hart's tid or
# an error. The new hart has the same registers, but its own stack and a0 = 0: it calls what stands
# on its stack, and is gone when that returns.
    .file "clone.S"
    .text
    .globl clone
    .type clone, @function
clone:
    li a7, 220                  # clone
    ecall
    beqz a0, new_hart
    ret
new_hart:
    ld a0, 0(sp)                # the argument
    ld t0, 8(sp)                # the body
    jalr t0
    li a0, 0
    li a7, 93                   # exit
    ecall
    .size clone, . - clone
