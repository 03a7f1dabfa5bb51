/* Stands before the C library's malloc, and refuses the calls that it is told to.

       gcc -O2 -shared -fPIC -o refuse.so refuse.c

   REFUSE_AT=N refuses the Nth call that takes memory, REFUSE_FROM=N that one and all behind it. At
   the end the number of calls is written to the file REFUSE_COUNT. REFUSE_THREADS=N refuses the Nth
   thread and all behind it. */
#define _GNU_SOURCE
#include <dlfcn.h>
#include <errno.h>
#include <fcntl.h>
#include <pthread.h>
#include <stdatomic.h>
#include <stdio.h>
#include <stdlib.h>
#include <sys/syscall.h>
#include <unistd.h>

void *__libc_malloc(size_t size);
void *__libc_calloc(size_t count, size_t size);
void *__libc_realloc(void *old, size_t size);
void *__libc_memalign(size_t alignment, size_t size);

static atomic_long calls, threads;
static long at, from, threads_from;
static const char *count_file;
static int (*make_thread)(pthread_t *, const pthread_attr_t *, void *(*)(void *), void *);

/* Reads the environment before the program's own code runs. */
__attribute__((constructor)) static void begin(void)
{
    const char *text = getenv("REFUSE_AT");
    at = text ? atol(text) : 0;
    text = getenv("REFUSE_FROM");
    from = text ? atol(text) : 0;
    text = getenv("REFUSE_THREADS");
    threads_from = text ? atol(text) : 0;
    count_file = getenv("REFUSE_COUNT");
    *(void **)&make_thread = dlsym(RTLD_NEXT, "pthread_create");
    atomic_store(&calls, 0);
}

__attribute__((destructor)) static void end(void)
{
    char text[32];
    int length = snprintf(text, sizeof text, "%ld\n", atomic_load(&calls));
    int file = count_file ? open(count_file, O_WRONLY | O_CREAT | O_TRUNC, 0600) : -1;

    if (file < 0 || write(file, text, (size_t)length) != length)
        return;
    close(file);
}

/* A program that has threads ends by this call, and runs no destructor. */
void _exit(int status)
{
    end();
    syscall(SYS_exit_group, status);
    __builtin_unreachable();
}

/* Counts a call, and says whether it is refused. */
static int refused(void)
{
    long number = atomic_fetch_add(&calls, 1) + 1;

    if (number == at || (from && number >= from)) {
        errno = ENOMEM;
        return 1;
    }
    return 0;
}

void *malloc(size_t size)
{
    return refused() ? NULL : __libc_malloc(size);
}

void *calloc(size_t count, size_t size)
{
    return refused() ? NULL : __libc_calloc(count, size);
}

void *realloc(void *old, size_t size)
{
    return refused() ? NULL : __libc_realloc(old, size);
}

void *aligned_alloc(size_t alignment, size_t size)
{
    return refused() ? NULL : __libc_memalign(alignment, size);
}

int posix_memalign(void **place, size_t alignment, size_t size)
{
    *place = refused() ? NULL : __libc_memalign(alignment, size);
    return *place ? 0 : ENOMEM;
}

/* Makes a thread, or refuses it. */
int pthread_create(pthread_t *thread, const pthread_attr_t *attributes, void *(*code)(void *),
                   void *argument)
{
    if (threads_from && atomic_fetch_add(&threads, 1) + 1 >= threads_from)
        return EAGAIN;
    return make_thread(thread, attributes, code, argument);
}
