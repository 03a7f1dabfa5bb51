/* A ledger. It answers one request a line:

       put N V       account N holds V from now on; the answer is V
       get N         the answer is what account N holds
       pay A B V     V goes from account A to account B; the answer is what A holds then

   handle returns -1 for a request that it knows to be wrong. It forgets that an account may
   be missing (a null pointer) and that a number may be past the table. Under a rescue point at
   handle such a request, too, returns -1, and what it had written is taken back. */
#include "../common/guest.h"

static long balances[16];
static long *accounts[16];              /* null where the account is missing */

static long put(long number, long value)
{
    balances[number] = value;           /* faults where the number is far past the table */
    accounts[number] = &balances[number];
    return value;
}

static long get(long number)
{
    return *accounts[number];           /* faults where the account is missing */
}

static long pay(long from, long to, long value)
{
    if (*accounts[from] < value)
        return -1;
    *accounts[from] -= value;
    *accounts[to] += value;             /* faults where it is missing: by then it has been paid */
    return *accounts[from];
}

/* What is still unread of a request. */
struct text { const char *at, *end; };

static int take_word(struct text *text, const char *word)
{
    const char *at = text->at;
    for (; *word; word++, at++)
        if (at == text->end || *at != *word)
            return 0;
    text->at = at;
    return 1;
}

/* A space and 1 to 9 digits. */
static int take_number(struct text *text, long *number)
{
    int count = 0;
    *number = 0;
    if (!take_word(text, " "))
        return 0;
    for (; text->at < text->end && *text->at >= '0' && *text->at <= '9'; text->at++, count++)
        *number = *number * 10 + (*text->at - '0');
    return count >= 1 && count <= 9;
}

/* The rescue point. `noipa` keeps the function whole: its calls stay calls, its symbol stays, and
   the callers count on nothing but its declaration. */
__attribute__((noipa)) long handle(const char *line, long length)
{
    struct text text = { line, line + length };
    long first, second, value;
    if (take_word(&text, "put") && take_number(&text, &first) && take_number(&text, &value))
        return put(first, value);
    if (take_word(&text, "get") && take_number(&text, &first))
        return get(first);
    if (take_word(&text, "pay") && take_number(&text, &first) && take_number(&text, &second)
        && take_number(&text, &value))
        return pay(first, second, value);
    return -1;
}

/* The next line without its end, cut to the size; its length, or -1 after the last. */
static long read_line(char *line, long size)
{
    long length = 0;
    int byte = next_byte();
    if (byte < 0)
        return -1;
    for (; byte >= 0 && byte != '\n'; byte = next_byte())
        if (length < size)
            line[length++] = byte;
    return length;
}

int main(void)
{
    char request[64];
    struct line line = { .length = 0 };
    for (;;) {
        long length = read_line(request, sizeof request);
        if (length < 0)
            return 0;
        long answer = handle(request, length);
        if (answer < 0)
            add_text(&line, "error");
        else
            add_number(&line, answer);
        put_line(&line);
    }
}
