#include "thread.h"
#include "calls.h"
#include "memory.h"

enum { WAIT = 0, WAKE = 1, ALL = 0x7fffffff, WANT_OF_MEMORY = -12 };

/* VM, FS, FILES, SIGHAND, THREAD and SYSVSEM make a thread of Linux's, and SETTLS sets its tp. With
   PARENT_SETTID and CHILD_CLEARTID its tid stands at a place, and becomes 0 there when the hart is
   gone. */
enum { THREAD_FLAGS = 0x3d0f00 };

enum { STACK_SIZE = 16 * PAGE_SIZE, NO_RIGHTS = 0, PRIVATE_AND_ANONYMOUS = 0x22 };

/* The first bytes that a new hart takes from its stack; clone.S knows their order. */
struct first { void *argument; void (*body)(void *); };

/* In clone.S. */
long clone(long flags, struct first *stack, int *tid, char *own, int *clear);

/* Without a C library a thread has none. */
__attribute__((weak)) char *put_own_variables(char *end)
{
    return end;
}

/* A page without rights at this place, where none is. mmap gives the lowest page that is free: those
   below are held until the place's turn has come. */
static void put_guard(char *place)
{
    char *page = (char *)call_of_six(CALL_MMAP, (long)place, PAGE_SIZE, NO_RIGHTS,
                                     PRIVATE_AND_ANONYMOUS, -1, 0);
    if ((long)page < 0)
        return;
    if (page < place)
        put_guard(place);
    if (page != place)
        unmap(page, PAGE_SIZE);
}

long start(struct thread *thread, void (*body)(void *), void *argument)
{
    thread->stack = map(STACK_SIZE);
    if (!thread->stack)
        return WANT_OF_MEMORY;
    /* the lowest page can't be used: a stack that overflows is a fault */
    unmap(thread->stack, PAGE_SIZE);
    put_guard(thread->stack);
    char *own = put_own_variables((char *)thread->stack + STACK_SIZE);
    struct first *first = (struct first *)own - 1;
    first->argument = argument;
    first->body = body;
    long tid = clone(THREAD_FLAGS, first, &thread->tid, own, &thread->tid);
    if (tid < 0)
        unmap(thread->stack, STACK_SIZE);
    return tid < 0 ? tid : 0;
}

long sleep_at(int *place, int value)
{
    return call_of_six(CALL_FUTEX, (long)place, WAIT, value, 0, 0, 0);
}

static void wake_at(int *place, int most)
{
    call_of_six(CALL_FUTEX, (long)place, WAKE, most, 0, 0, 0);
}

void join(struct thread *thread)
{
    int tid;
    while ((tid = __atomic_load_n(&thread->tid, __ATOMIC_ACQUIRE)))
        sleep_at(&thread->tid, tid);
    unmap(thread->stack, STACK_SIZE);
}

/* A lock is free, held, or held while others may sleep at it. */
enum { FREE, HELD, AWAITED };

int try_take(struct lock *lock)
{
    int expected = FREE;
    return __atomic_compare_exchange_n(&lock->state, &expected, HELD, 0, __ATOMIC_ACQUIRE,
                                       __ATOMIC_RELAXED);
}

void take(struct lock *lock)
{
    if (try_take(lock))
        return;
    while (__atomic_exchange_n(&lock->state, AWAITED, __ATOMIC_ACQUIRE) != FREE)
        sleep_at(&lock->state, AWAITED);
}

void give(struct lock *lock)
{
    if (__atomic_exchange_n(&lock->state, FREE, __ATOMIC_RELEASE) == AWAITED)
        wake_at(&lock->state, 1);
}

void wait_for(struct condition *condition, struct lock *lock)
{
    int told = condition->told;
    give(lock);
    sleep_at(&condition->told, told);
    take(lock);
}

void tell_all(struct condition *condition)
{
    __atomic_add_fetch(&condition->told, 1, __ATOMIC_RELAXED);
    wake_at(&condition->told, ALL);
}
