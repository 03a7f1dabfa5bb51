/* What the host's own calls cost a program that makes them directly, beside the table of
   docs/LIMITS.md:

       gcc -O2 -o host_calls host_calls.c && ./host_calls

   Prints processor time for each call; the file it writes to is removed at once. */
#define _GNU_SOURCE
#include <fcntl.h>
#include <stdio.h>
#include <stdlib.h>
#include <sys/mman.h>
#include <time.h>
#include <unistd.h>

enum { PAGE = 4096, CALLS = 300000, ROUNDS = 20 };

/* Processor time so far, in seconds. */
static double now(void)
{
    struct timespec time;
    clock_gettime(CLOCK_PROCESS_CPUTIME_ID, &time);
    return (double)time.tv_sec + (double)time.tv_nsec * 1e-9;
}

/* Maps so many bytes, stores to each page, and unmaps them. */
static void come_and_go(size_t size)
{
    char *pages = mmap(NULL, size, PROT_READ | PROT_WRITE, MAP_PRIVATE | MAP_ANONYMOUS, -1, 0);
    if (pages == MAP_FAILED)
        exit(1);
    for (size_t at = 0; at < size; at += PAGE)
        pages[at] = 1;
    munmap(pages, size);
}

int main(void)
{
    char name[] = "host_calls_XXXXXX", byte = 1;
    int file = mkstemp(name);
    if (file < 0 || unlink(name) != 0)
        return 1;
    double began = now();
    for (int i = 0; i < CALLS; i++)
        if (pwrite(file, &byte, 1, i) != 1)
            return 1;
    printf("a write of one byte: %.0f ns\n", (now() - began) / CALLS * 1e9);
    began = now();
    for (int i = 0; i < CALLS; i++)
        if (pread(file, &byte, 1, i) != 1)
            return 1;
    printf("a read of one byte: %.0f ns\n", (now() - began) / CALLS * 1e9);
    began = now();
    for (int i = 0; i < CALLS / 10; i++)
        come_and_go(PAGE);
    printf("a page mapped, stored to and unmapped: %.0f ns\n", (now() - began) / (CALLS / 10) * 1e9);
    began = now();
    for (int i = 0; i < ROUNDS; i++)
        come_and_go((size_t)64 << 20);
    printf("64 MiB mapped, stored to and unmapped: %.1f ms\n", (now() - began) / ROUNDS * 1e3);
    return 0;
}
