# The first instructions of a guest with picolibc. The stack pointer is ready and aligned, and the
# loader has put the first values of variables where they belong. main's arguments lie from sp on, as
# in ../start.S.
    .file "start.S"
    .text
    .globl _start
    .type _start, @function
_start:
    # the linker may shorten addresses by way of gp, but not in the line that sets it
    .option push
    .option norelax
    lla gp, __global_pointer$
    .option pop
    mv s0, sp
    # Other systems than rescue may leave bytes of the file behind the variables that have values.
    lla a0, __bss_start
    li a1, 0
    lla a2, __bss_size
    call memset
    # This hart's own variables, errno among them, lie at the end of its stack.
    mv a0, sp
    lla t0, __tls_size
    sub sp, sp, t0
    andi sp, sp, -16
    call put_own_variables
    mv tp, a0
    # a null pointer stands behind argv, and environ behind that
    ld s1, 0(s0)                # argc
    addi s0, s0, 8              # argv
    slli s2, s1, 3
    add s2, s2, s0
    addi s2, s2, 8
    lla t0, environ
    sd s2, 0(t0)
    call __libc_init_array
    mv a0, s1
    mv a1, s0
    mv a2, s2
    call main
    call exit                   # with what main returned
    .size _start, . - _start
