/* Calls, as docs/GUESTS.md numbers them; the numbers are Linux's. An answer below 0 is a negative
   error number. */
#ifndef CALLS_H
#define CALLS_H

enum {
    CALL_CLOSE = 57, CALL_READ = 63, CALL_WRITE = 64, CALL_EXIT = 93, CALL_EXIT_GROUP = 94,
    CALL_FUTEX = 98, CALL_YIELD = 124, CALL_BRK = 214, CALL_MUNMAP = 215, CALL_MMAP = 222
};

static inline long call(long number, long first, long second, long third)
{
    register long a0 __asm__("a0") = first;
    register long a1 __asm__("a1") = second;
    register long a2 __asm__("a2") = third;
    register long a7 __asm__("a7") = number;
    __asm__ volatile("ecall" : "+r"(a0) : "r"(a1), "r"(a2), "r"(a7) : "memory");
    return a0;
}

static inline long call_of_six(long number, long first, long second, long third, long fourth,
                               long fifth, long sixth)
{
    register long a0 __asm__("a0") = first;
    register long a1 __asm__("a1") = second;
    register long a2 __asm__("a2") = third;
    register long a3 __asm__("a3") = fourth;
    register long a4 __asm__("a4") = fifth;
    register long a5 __asm__("a5") = sixth;
    register long a7 __asm__("a7") = number;
    __asm__ volatile("ecall" : "+r"(a0)
                     : "r"(a1), "r"(a2), "r"(a3), "r"(a4), "r"(a5), "r"(a7) : "memory");
    return a0;
}

#endif
