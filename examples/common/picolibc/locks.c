/* The locks that picolibc asks for, over ../thread's. */
#include <stdlib.h>
#include <sys/lock.h>
#include "heap.h"
#include "../thread.h"

/* One hart may take it again while it holds it; the first time takes the lock. */
struct __lock { struct lock lock; char *holder; int depth; };

/* The lock of malloc, free and exit's list. */
struct __lock __lock___libc_recursive_mutex;

/* Each hart has variables of its own, and so a name. */
static char *own_name(void)
{
    char *name;
    __asm__("mv %0, tp" : "=r"(name));
    return name;
}

static int is_held_here(struct __lock *lock)
{
    return __atomic_load_n(&lock->holder, __ATOMIC_RELAXED) == own_name();
}

void __retarget_lock_acquire_recursive(struct __lock *lock)
{
    if (!is_held_here(lock)) {
        take(&lock->lock);
        __atomic_store_n(&lock->holder, own_name(), __ATOMIC_RELAXED);
    }
    lock->depth++;
}

void __retarget_lock_release_recursive(struct __lock *lock)
{
    if (--lock->depth)
        return;
    __atomic_store_n(&lock->holder, NULL, __ATOMIC_RELAXED);
    give(&lock->lock);
}

int __retarget_lock_try_acquire_recursive(struct __lock *lock)
{
    if (!is_held_here(lock)) {
        if (!try_take(&lock->lock))
            return 0;
        __atomic_store_n(&lock->holder, own_name(), __ATOMIC_RELAXED);
    }
    lock->depth++;
    return 1;
}

void __retarget_lock_init_recursive(_LOCK_T *lock)
{
    *lock = calloc(1, sizeof **lock);
}

void __retarget_lock_close_recursive(struct __lock *lock)
{
    free(lock);
}

/* The locks of streams, which are taken once. */

void __retarget_lock_init(_LOCK_T *lock) { __retarget_lock_init_recursive(lock); }
void __retarget_lock_close(struct __lock *lock) { __retarget_lock_close_recursive(lock); }
void __retarget_lock_acquire(struct __lock *lock) { take(&lock->lock); }
void __retarget_lock_release(struct __lock *lock) { give(&lock->lock); }
int __retarget_lock_try_acquire(struct __lock *lock) { return try_take(&lock->lock); }

void hold_heap(void) { __retarget_lock_acquire_recursive(&__lock___libc_recursive_mutex); }
void release_heap(void) { __retarget_lock_release_recursive(&__lock___libc_recursive_mutex); }
