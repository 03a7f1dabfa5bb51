#include <stdlib.h>
#include "threads.h"
#include "../calls.h"

enum { KEYS = 32 };

struct thrd {
    struct thread thread;
    thrd_start_t body;
    void *argument;
    int result;
    struct thrd *next;                  /* of those that are detached */
};

static struct thrd first;               /* the one that main runs in */
static _Thread_local struct thrd *current;

static struct lock detached_lock;
static struct thrd *detached;

static int key_count;
static tss_dtor_t destructors[KEYS];
static _Thread_local void *values[KEYS];

/* Calls the destructors of this thread's values, until there are none or often enough. */
static void destroy_values(void)
{
    for (int i = 0; i < TSS_DTOR_ITERATIONS * KEYS; i++) {
        void *value = values[i % KEYS];
        values[i % KEYS] = NULL;
        if (value && destructors[i % KEYS])
            destructors[i % KEYS](value);
    }
}

static void run_thread(void *thread)
{
    current = thread;
    current->result = current->body(current->argument);
    destroy_values();
}

/* Gives back what detached threads that are gone have left. */
static void sweep_detached(void)
{
    take(&detached_lock);
    for (struct thrd **place = &detached; *place;) {
        struct thrd *thread = *place;
        if (__atomic_load_n(&thread->thread.tid, __ATOMIC_ACQUIRE)) {
            place = &thread->next;
        } else {
            *place = thread->next;
            join(&thread->thread);
            free(thread);
        }
    }
    give(&detached_lock);
}

int thrd_create(thrd_t *thread, thrd_start_t body, void *argument)
{
    sweep_detached();
    struct thrd *new = calloc(1, sizeof *new);
    if (!new)
        return thrd_nomem;
    new->body = body;
    new->argument = argument;
    *thread = new;
    if (start(&new->thread, run_thread, new) >= 0)
        return thrd_success;
    free(new);
    return thrd_error;
}

thrd_t thrd_current(void)
{
    return current ? current : &first;
}

int thrd_equal(thrd_t one, thrd_t other)
{
    return one == other;
}

int thrd_join(thrd_t thread, int *result)
{
    join(&thread->thread);
    if (result)
        *result = thread->result;
    free(thread);
    return thrd_success;
}

int thrd_detach(thrd_t thread)
{
    take(&detached_lock);
    thread->next = detached;
    detached = thread;
    give(&detached_lock);
    return thrd_success;
}

void thrd_yield(void)
{
    call(CALL_YIELD, 0, 0, 0);
}

void thrd_exit(int result)
{
    thrd_current()->result = result;
    destroy_values();
    for (;;)
        call(CALL_EXIT, 0, 0, 0);
}

int mtx_init(mtx_t *mutex, int type)
{
    *mutex = (mtx_t){ .type = type };
    return thrd_success;
}

static int is_held_here(mtx_t *mutex)
{
    return mutex->type & mtx_recursive
        && __atomic_load_n(&mutex->holder, __ATOMIC_RELAXED) == thrd_current();
}

static int hold_mutex(mtx_t *mutex)
{
    __atomic_store_n(&mutex->holder, thrd_current(), __ATOMIC_RELAXED);
    mutex->depth++;
    return thrd_success;
}

int mtx_lock(mtx_t *mutex)
{
    if (!is_held_here(mutex))
        take(&mutex->lock);
    return hold_mutex(mutex);
}

int mtx_trylock(mtx_t *mutex)
{
    return is_held_here(mutex) || try_take(&mutex->lock) ? hold_mutex(mutex) : thrd_busy;
}

int mtx_unlock(mtx_t *mutex)
{
    if (--mutex->depth)
        return thrd_success;
    __atomic_store_n(&mutex->holder, NULL, __ATOMIC_RELAXED);
    give(&mutex->lock);
    return thrd_success;
}

void mtx_destroy(mtx_t *mutex)
{
    (void)mutex;
}

int cnd_init(cnd_t *condition)
{
    *condition = (cnd_t){ 0 };
    return thrd_success;
}

/* C asks that a recursive one is held once here. */
int cnd_wait(cnd_t *condition, mtx_t *mutex)
{
    mutex->depth--;
    __atomic_store_n(&mutex->holder, NULL, __ATOMIC_RELAXED);
    wait_for(condition, &mutex->lock);
    return hold_mutex(mutex);
}

int cnd_signal(cnd_t *condition)
{
    return cnd_broadcast(condition);
}

int cnd_broadcast(cnd_t *condition)
{
    tell_all(condition);
    return thrd_success;
}

void cnd_destroy(cnd_t *condition)
{
    (void)condition;
}

int tss_create(tss_t *key, tss_dtor_t destructor)
{
    int new = __atomic_fetch_add(&key_count, 1, __ATOMIC_RELAXED);
    if (new >= KEYS)
        return thrd_error;
    destructors[new] = destructor;
    *key = new;
    return thrd_success;
}

void *tss_get(tss_t key)
{
    return values[key];
}

int tss_set(tss_t key, void *value)
{
    values[key] = value;
    return thrd_success;
}

void tss_delete(tss_t key)
{
    destructors[key] = NULL;
}

/* Others wait until the one that came first is through. */
void call_once(once_flag *flag, void (*body)(void))
{
    if (__atomic_load_n(&flag->done, __ATOMIC_ACQUIRE))
        return;
    take(&flag->lock);
    if (!flag->done) {
        body();
        __atomic_store_n(&flag->done, 1, __ATOMIC_RELEASE);
    }
    give(&flag->lock);
}
