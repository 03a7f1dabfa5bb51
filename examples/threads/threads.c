/* Four threads add to one sum under a lock; then four more hand a word round, each in its turn.
   The output is the same however the harts take turns. */
#include "../common/guest.h"
#include "../common/thread.h"

enum { THREADS = 4, ADDITIONS = 250, HANDS = 12 };

static struct lock lock;

/* The first four. */

static long sum;

/* Adds this number to the sum, again and again. */
static void add(void *number)
{
    for (int i = 0; i < ADDITIONS; i++) {
        take(&lock);
        sum += (long)number;
        give(&lock);
    }
}

/* The other four. */

static char word[] = "rescue";
static int handed;                      /* how often the word has been handed on */
static struct condition handed_on;

/* The first letter goes to the end. */
static void turn_word(void)
{
    char first = word[0];
    int last = sizeof word - 2;
    for (int i = 0; i < last; i++)
        word[i] = word[i + 1];
    word[last] = first;
}

static void tell_word(long thread)
{
    struct line line = { .length = 0 };
    add_text(&line, "thread ");
    add_number(&line, thread);
    add_text(&line, " has ");
    add_text(&line, word);
    put_line(&line);
}

/* Waits for each of its turns, and turns the word. */
static void hand_round(void *number)
{
    take(&lock);
    for (long turn = (long)number; turn <= HANDS; turn += THREADS) {
        while (handed + 1 < turn)
            wait_for(&handed_on, &lock);
        turn_word();
        tell_word((long)number);
        handed++;
        tell_all(&handed_on);
    }
    give(&lock);
}

/* Runs four threads, numbered from 1, until all are done. 0 where one couldn't be started. */
static int run_all(void (*body)(void *))
{
    struct thread threads[THREADS];
    for (long i = 0; i < THREADS; i++)
        if (start(&threads[i], body, (void *)(i + 1)) < 0)
            return 0;
    for (int i = 0; i < THREADS; i++)
        join(&threads[i]);
    return 1;
}

int main(void)
{
    struct line line = { .length = 0 };
    if (!run_all(add))
        return 1;
    add_text(&line, "sum ");
    add_number(&line, sum);
    put_line(&line);
    return run_all(hand_round) ? 0 : 1;
}
