/* Four threads answer requests that main reads, a line each, and puts into a queue:

       sum A B        A + B
       first N        the place in the alphabet of the first letter of the word for N
       letters N ..   how many letters the words for these numbers have together; marks them
       mark N         marks N in a table; the answer is N
       apply K A      the operation K on A: 0 doubles, 1 squares, 2 adds one
       climb N        N, counted by N calls within each other
       wait           waits until somebody wakes it

   Requests come from the first port and answers go to it, if there is one. Each answer is a line
   with its request's number, as they come. handle has a mistake for most faults that there are, and
   is a rescue point: a request that faults is answered with an error, and what it wrote is taken
   back, while the other threads' work stays. letters is a rescue point in it: a number that has no
   word is left out, and the request goes on. */
#include "../common/port.h"
#include "../common/text.h"
#include "../common/thread.h"

enum { THREADS = 4, PLACES = 3, UNKNOWN = -22 };

static struct channel channel;          /* main reads from it, and all write to it */

struct request { long number, length; char line[40]; };

/* The queue: the places of the numbers from taken to added, each modulo PLACES. */
static struct request queue[PLACES];
static long added, taken;
static int is_complete;                 /* no more will be added */
static struct lock lock;
static struct condition changed;

/* 0 behind the last one. */
static int receive_request(struct request *request)
{
    request->length = receive_line(&channel, request->line, sizeof request->line);
    request->number++;
    return request->length >= 0;
}

static void add_request(const struct request *request)
{
    take(&lock);
    while (added - taken == PLACES)
        wait_for(&changed, &lock);
    queue[added++ % PLACES] = *request;
    tell_all(&changed);
    give(&lock);
}

static void complete(void)
{
    take(&lock);
    is_complete = 1;
    tell_all(&changed);
    give(&lock);
}

/* 0 where the queue is empty and complete. */
static int take_request(struct request *request)
{
    take(&lock);
    while (added == taken && !is_complete)
        wait_for(&changed, &lock);
    int is_there = added > taken;
    if (is_there)
        *request = queue[taken++ % PLACES];
    tell_all(&changed);
    give(&lock);
    return is_there;
}

/* The answers. */

static const char *const words[16] = {
    "zero", "one", "two", "three", "four", "five", "six", "seven", "eight", "nine", "ten"
};

static long first_letter(long number)
{
    return *words[number] - 'a' + 1;    /* null from 11 on */
}

static char marks[64];

static long mark(long number)
{
    marks[number] = 1;                  /* faults where the number is far past the table */
    return number;
}

/* The inner rescue point. `noipa` keeps the function whole: its calls stay calls, and its callers
   count on nothing but its declaration. */
__attribute__((noipa)) long letters(long number)
{
    long count = 0;
    for (const char *at = words[number]; *at; at++)     /* null from 11 on */
        count++;
    return count;
}

static long letters_of_all(struct text *text)
{
    long sum = 0, number;
    while (take_number(text, &number)) {
        sum += letters(number);
        mark(number);
        take_word(text, " ");
    }
    return sum;
}

static long doubled(long value) { return 2 * value; }
static long squared(long value) { return value * value; }
static long one_more(long value) { return value + 1; }

/* Behind the operations lie other words. Operation 3 jumps to 1002, which is no multiple of 4, and
   operation 4 to data: both fault. */
static struct {
    long (*operations[3])(long);
    unsigned long largest;
    void *marks;
} table = { { doubled, squared, one_more }, 1002, marks };

static long apply(long operation, long value)
{
    return table.operations[operation](value);
}

/* Each call takes some of the stack: with too many of them it overflows, and that faults. */
static long climb(long number)
{
    volatile long step = 1;
    return number ? climb(number - 1) + step : 0;
}

/* How many requests were answered without a fault: a call that is taken back isn't among them. */
static long answered;

/* The outer rescue point. */
__attribute__((noipa)) long handle(struct text text)
{
    static int never;
    long first, second;
    __atomic_add_fetch(&answered, 1, __ATOMIC_RELAXED);
    if (take_word(&text, "sum ") && take_number(&text, &first) && take_word(&text, " ")
        && take_number(&text, &second))
        return first + second;
    if (take_word(&text, "first ") && take_number(&text, &first))
        return first_letter(first);
    if (take_word(&text, "letters "))
        return letters_of_all(&text);
    if (take_word(&text, "mark ") && take_number(&text, &first))
        return mark(first);
    if (take_word(&text, "apply ") && take_number(&text, &first) && take_word(&text, " ")
        && take_number(&text, &second))
        return apply(first, second);
    if (take_word(&text, "climb ") && take_number(&text, &first))
        return climb(first);
    if (take_word(&text, "wait"))
        return sleep_at(&never, 0);     /* no other hart can wake it: a fault */
    return UNKNOWN;
}

static void answer_requests(void *unused)
{
    struct request request;
    struct line line = { .length = 0 };
    (void)unused;
    while (take_request(&request)) {
        long answer = handle((struct text){ request.line, request.line + request.length });
        add_number(&line, request.number);
        add_text(&line, answer < 0 ? ": error " : ": ");
        add_number(&line, answer < 0 ? -answer : answer);
        send_line(&channel, &line);
    }
}

int main(void)
{
    struct thread threads[THREADS];
    struct request request = { .number = 0 };
    struct line line = { .length = 0 };
    open_channel(&channel, FIRST_PORT);
    for (int i = 0; i < THREADS; i++)
        if (start(&threads[i], answer_requests, 0) < 0)
            return 1;
    while (receive_request(&request))
        add_request(&request);
    complete();
    for (int i = 0; i < THREADS; i++)
        join(&threads[i]);
    add_text(&line, "answered ");
    add_number(&line, answered);
    send_line(&channel, &line);
    return 0;
}
