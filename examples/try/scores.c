/* Tables of scores, over the C library. A line `NAME SCORE` adds to the table, and an empty line
   puts it, the highest score first. A line may lack its score, and `by_score` forgets that: so the
   fault lies in a function that `qsort` of the library calls, and the library's own functions stand
   on the call path, too.

   The program ends well, with 0, where it comes to the end of its input. It doesn't look at the
   order of what it put. */
#include <stdio.h>
#include <stdlib.h>

/* Keeps a function whole: its calls stay calls, and its symbol stays. */
#define WHOLE __attribute__((noipa))

enum { ROWS = 16 };

struct row { char name[16]; long *score; };

static struct row rows[ROWS];
static long scores[ROWS];
static size_t count;

/* Adds a row; its score stays a null pointer where the line has none. */
WHOLE int add(const char *line)
{
    struct row *row = &rows[count];
    if (count == ROWS)
        return -1;
    row->score = 0;
    switch (sscanf(line, "%15s %ld", row->name, &scores[count])) {
    case 2:
        row->score = &scores[count];
        break;
    case 1:
        break;
    default:
        return -1;
    }
    count++;
    return 0;
}

/* The order of two rows. */
WHOLE int by_score(const void *a, const void *b)
{
    const struct row *first = a, *second = b;
    long ahead = *second->score - *first->score;        /* faults where a score is missing */
    return ahead > 0 ? 1 : ahead < 0 ? -1 : 0;
}

/* Sorts the table; -1 where it can't be sorted. */
WHOLE int rank(void)
{
    qsort(rows, count, sizeof rows[0], by_score);
    return 0;
}

/* Puts the table, or why there is none, and empties it. */
WHOLE int put_table(void)
{
    if (rank() < 0)
        puts("a score is missing");
    else
        for (size_t k = 0; k < count; k++)
            printf("%zu %s %ld\n", k + 1, rows[k].name, rows[k].score ? *rows[k].score : 0L);
    puts("");
    count = 0;
    return 0;
}

int main(void)
{
    char line[64];
    while (fgets(line, sizeof line, stdin)) {
        int done = line[0] == '\n' ? put_table() : add(line);
        if (done < 0)
            return 1;
    }
    return 0;
}
