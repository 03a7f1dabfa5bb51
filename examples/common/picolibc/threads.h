/* C11's <threads.h> over ../thread.h. There is no clock, so nothing here waits for a time: mtx_timedlock,
   cnd_timedwait and thrd_sleep are missing. Nothing may wait inside a call of a rescue point. */
#ifndef THREADS_H
#define THREADS_H

#include "../thread.h"

#define thread_local _Thread_local
#define ONCE_FLAG_INIT { { 0 }, 0 }
#define TSS_DTOR_ITERATIONS 4

enum { thrd_success, thrd_busy, thrd_error, thrd_nomem, thrd_timedout };
enum { mtx_plain = 0, mtx_recursive = 1, mtx_timed = 2 };

typedef int (*thrd_start_t)(void *);
typedef struct thrd *thrd_t;
int thrd_create(thrd_t *thread, thrd_start_t body, void *argument);
thrd_t thrd_current(void);
int thrd_equal(thrd_t one, thrd_t other);
int thrd_join(thrd_t thread, int *result);
int thrd_detach(thrd_t thread);
void thrd_yield(void);
_Noreturn void thrd_exit(int result);

/* The holder counts for a recursive one alone. */
typedef struct { struct lock lock; thrd_t holder; int type, depth; } mtx_t;
int mtx_init(mtx_t *mutex, int type);
int mtx_lock(mtx_t *mutex);
int mtx_trylock(mtx_t *mutex);
int mtx_unlock(mtx_t *mutex);
void mtx_destroy(mtx_t *mutex);

/* cnd_signal wakes all that wait, which C allows. */
typedef struct condition cnd_t;
int cnd_init(cnd_t *condition);
int cnd_wait(cnd_t *condition, mtx_t *mutex);
int cnd_signal(cnd_t *condition);
int cnd_broadcast(cnd_t *condition);
void cnd_destroy(cnd_t *condition);

/* At most 32 keys, which are never free again. */
typedef int tss_t;
typedef void (*tss_dtor_t)(void *);
int tss_create(tss_t *key, tss_dtor_t destructor);
void *tss_get(tss_t key);
int tss_set(tss_t key, void *value);
void tss_delete(tss_t key);

typedef struct { struct lock lock; int done; } once_flag;
void call_once(once_flag *flag, void (*body)(void));

#endif
