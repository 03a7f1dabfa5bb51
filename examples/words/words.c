/* Four threads over a C library. Each takes the next line that no other one has taken, and sorts
   its words; main reads the lines before and prints the answers behind, in the order of the lines.

   sorted forgets that a line may have no words, and reads at a null pointer then, with memory of
   malloc in its hands. It is a rescue point: such a line is answered with `none`, and the heap is
   as before. A thread holds the heap round the call, because malloc may not wait in it. */
#include <stdio.h>
#include <stdlib.h>
#include <string.h>
#include "../common/picolibc/heap.h"
#include "../common/thread.h"

enum { THREADS = 4, LINES = 100, SIZE = 80 };

static char lines[LINES][SIZE];
static char *answers[LINES];
static int count;                       /* how many lines there are */
static int taken;                       /* how many have been taken; it goes on past the count */

static int in_order(const void *one, const void *other)
{
    return strcmp(*(char *const *)one, *(char *const *)other);
}

/* The words of the line, with a null pointer behind the last one; the line is cut into them. */
static char **split(char *line, int *length)
{
    char **words = malloc(SIZE * sizeof *words), *rest = line;
    *length = 0;
    while ((words[*length] = strtok_r(rest, " \n", &rest)))
        ++*length;
    return words;
}

/* The rescue point: the words of the line in order, in memory of malloc. `noipa` keeps the function
   whole: its calls stay calls, and its callers count on nothing but its declaration. */
__attribute__((noipa)) char *sorted(char *line)
{
    int length;
    char *text = malloc(SIZE + 1);
    char **words = split(line, &length);
    qsort(words, length, sizeof *words, in_order);
    strcpy(text, words[0]);             /* faults where there are none */
    for (int i = 1; i < length; i++) {
        strcat(text, " ");
        strcat(text, words[i]);
    }
    free(words);
    return text;
}

static void sort_lines(void *unused)
{
    int line;
    (void)unused;
    while ((line = __atomic_fetch_add(&taken, 1, __ATOMIC_RELAXED)) < count) {
        char *copy = strdup(lines[line]);
        hold_heap();
        answers[line] = sorted(copy);
        release_heap();
        free(copy);
    }
}

int main(void)
{
    struct thread threads[THREADS];
    while (count < LINES && fgets(lines[count], SIZE, stdin))
        count++;
    for (int i = 0; i < THREADS; i++)
        if (start(&threads[i], sort_lines, NULL) < 0)
            return 1;
    for (int i = 0; i < THREADS; i++)
        join(&threads[i]);
    for (int i = 0; i < count; i++)
        puts(answers[i] ? answers[i] : "none");
    return 0;
}
