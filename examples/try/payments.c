/* Payments between accounts, a request a line:

       pay A B V     V goes from account A to account B; the answer is what A holds then
       hold A        the answer is what account A holds

   `give` forgets that an account may be missing. A request that goes there meets the fault three
   calls below `serve`, and `rescue try` says at which of the functions on the way a point would
   have let the program end well.

   What "well" means is the program's own word: at the end of its input it looks whether each
   request was answered and whether the accounts still hold together what they held at the start.
   It exits with 0 where both are so, with 1 where money is missing, and with 2 where a request
   is. */
#include "../common/guest.h"
#include "../common/text.h"

/* Keeps a function whole: its calls stay calls, and its symbol stays. */
#define WHOLE __attribute__((noipa))

enum { ACCOUNTS = 8, EACH = 100 };

struct account { long holds; };
struct request { long from, to, value; int pays; };

static struct account books[ACCOUNTS];
static struct account *accounts[ACCOUNTS];      /* null where the account is missing */
static long answered;

/* What a request's line says; -1 where it says nothing that is known. */
WHOLE long parse(const char *line, long length, struct request *request)
{
    struct text text = { line, line + length };
    if (take_word(&text, "pay ")) {
        request->pays = 1;
        if (take_number(&text, &request->from) && take_word(&text, " ")
            && take_number(&text, &request->to) && take_word(&text, " ")
            && take_number(&text, &request->value))
            return 0;
    } else if (take_word(&text, "hold ")) {
        request->pays = 0;
        if (take_number(&text, &request->from))
            return 0;
    }
    return -1;
}

/* The account of a number, if there is one. */
WHOLE struct account *look_up(long number)
{
    return number >= 0 && number < ACCOUNTS ? accounts[number] : 0;
}

WHOLE long give(long number, long value)
{
    look_up(number)->holds += value;            /* faults where the account is missing */
    return 0;
}

/* Makes a payment whose first account is known: what that holds then, or -1. An error of `give`
   comes too late: the money has left the first account, and nothing puts it back. */
WHOLE long apply(struct account *from, const struct request *request)
{
    if (from->holds < request->value)
        return -1;
    from->holds -= request->value;
    if (give(request->to, request->value) < 0)
        return -1;
    return from->holds;
}

/* The answer to a request, or -1 for one that is wrong. */
WHOLE long handle(const char *line, long length)
{
    struct request request;
    struct account *from;
    if (parse(line, length, &request) < 0)
        return -1;
    from = look_up(request.from);
    if (!from)
        return -1;
    return request.pays ? apply(from, &request) : from->holds;
}

/* Reads a request and answers it. An answer of -1 is the end of the input to main. */
WHOLE long serve(void)
{
    char request[64];
    struct line line = { .length = 0 };
    long length = read_line(request, sizeof request);
    if (length < 0)
        return -1;
    long answer = handle(request, length);
    if (answer < 0)
        add_text(&line, "error");
    else
        add_number(&line, answer);
    put_line(&line);
    answered++;
    return 0;
}

int main(void)
{
    long held = 0;
    for (int k = 0; k < ACCOUNTS - 1; k++) {
        books[k].holds = EACH;
        accounts[k] = &books[k];
    }
    while (serve() == 0)
        ;
    for (int k = 0; k < ACCOUNTS; k++)
        held += books[k].holds;
    if (held != EACH * (ACCOUNTS - 1))
        return 1;
    return next_byte() < 0 ? 0 : 2;
}
