/* Harts of the guest's own, and what they wait for. Nothing here may wait inside a call of a
   rescue point: nobody could wake the hart there, so the wait is a fault. */
#ifndef THREAD_H
#define THREAD_H

/* A thread: a hart with a stack of its own. */
struct thread {
    int tid;                            /* 0 once the hart is gone; its clear place */
    void *stack;
};

/* A new hart calls body with the argument and is gone when it returns. 0, or an error number. */
long start(struct thread *thread, void (*body)(void *), void *argument);

/* start calls it: puts the variables that each thread has for itself before this end of its stack.
   Its tp gets the place of the first one, a multiple of 16. A guest with picolibc has one that does;
   else there are none, and the place is the end. */
char *put_own_variables(char *end);

/* Waits until the thread's hart is gone, and gives its stack back. */
void join(struct thread *thread);

/* Sleeps until it is woken, if the word at the place has this value: 0, else an error number. */
long sleep_at(int *place, int value);

/* One hart at a time holds a lock. One of zeros is free. */
struct lock { int state; };
void take(struct lock *lock);
int try_take(struct lock *lock);        /* 0, and the lock as it was, if it is held */
void give(struct lock *lock);

/* What harts wait for that hold a lock: wait_for gives the lock, sleeps until another hart tells
   all, and takes the lock again. It may wake without cause, so look again. One of zeros is new. */
struct condition { int told; };
void wait_for(struct condition *condition, struct lock *lock);
void tell_all(struct condition *condition);

#endif
