# The program of `rescue load`, instruction by instruction, with names. Four threads read single
# bytes. Each byte goes to serve, the rescue point, which adds it to the sum; at a zero byte it adds
# 1,000 and then reads where no memory is. The first thread waits until all are done, and writes the
# sum, 8 bytes.
    .option norvc
    .option norelax

    .bss
    .globl sum
    .type sum, @object
    .size sum, 8
sum:
    .skip 8                     # then the count of threads that are done, bytes, stacks
    .skip 4088

    .text
    .globl _start
    .type _start, @function
_start:
    lui s0, 0x20                # the address of sum
    addi s1, zero, 0
    addi s2, zero, 3
1:  lui a0, 0x10                # three clones, which share the memory
    addi a0, a0, 0x100
    addi s1, s1, 1
    slli a1, s1, 10
    add a1, a1, s0
    addi a1, a1, 1024
    addi a7, zero, 220
    ecall
    beq zero, a0, work
    addi s2, s2, -1
    bne zero, s2, 1b
    addi s1, zero, 0
    .size _start, . - _start

    .type work, @function
work:
    slli s3, s1, 3
    add s3, s3, s0
    addi s3, s3, 64
2:  addi a0, zero, 0            # reads a byte
    addi a1, s3, 0
    addi a2, zero, 1
    addi a7, zero, 63
    ecall
    bge zero, a0, done
    lbu a0, 0(s3)
    jal ra, serve
    jal zero, 2b
    .size work, . - work

    .type done, @function
done:
    addi t0, s0, 8
    addi t1, zero, 1
    amoadd.w t2, t1, (t0)
    bne zero, s1, 5f
3:  lw a2, 8(s0)                # the first waits until four are done
    addi t2, zero, 4
    beq a2, t2, 4f
    addi a0, s0, 8
    addi a1, zero, 0
    addi a3, zero, 0
    addi a7, zero, 98
    ecall
    jal zero, 3b
4:  addi a0, zero, 1            # and writes the sum
    addi a1, s0, 0
    addi a2, zero, 8
    addi a7, zero, 64
    ecall
    jal zero, 6f
5:  addi a0, s0, 8              # another wakes it
    addi a1, zero, 1
    addi a2, zero, 1
    addi a7, zero, 98
    ecall
6:  addi a0, zero, 0
    addi a7, zero, 93
    ecall
    .size done, . - done

    .globl serve
    .type serve, @function
serve:
    addi sp, sp, -16
    addi t0, a0, 0
    bne zero, a0, 7f
    addi t0, zero, 1000
7:  amoadd.d t1, t0, (s0)
    sd t1, 0(sp)
    bne zero, a0, 8f
    ld t2, 0(zero)
8:  addi sp, sp, 16
    jalr zero, 0(ra)
    .size serve, . - serve
