# A guest's first instructions. The stack pointer is ready and aligned, and main's arguments lie from
# there on, as the psABI has them at a process's start: argc, argv with a null pointer behind it,
# environ with one. Under rescue these bytes are zero: no arguments, and no environment.
    .file "start.S"
    .text
    .globl _start
    .type _start, @function
_start:
    # the linker may shorten addresses by way of gp, but not in the line that sets it
    .option push
    .option norelax
    lla gp, __global_pointer$
    .option pop
    ld a0, 0(sp)                # argc
    addi a1, sp, 8              # argv
    slli a2, a0, 3
    add a2, a2, a1
    addi a2, a2, 8              # environ, as main's third argument
    call main
    li a7, 94                   # exit_group, with what main returned
    ecall
    .size _start, . - _start
