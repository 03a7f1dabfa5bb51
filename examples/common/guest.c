#include "guest.h"
#include "calls.h"

long read_some(long descriptor, void *place, long size)
{
    return call(CALL_READ, descriptor, (long)place, size);
}

long write_some(long descriptor, const void *place, long size)
{
    return call(CALL_WRITE, descriptor, (long)place, size);
}

int next_byte(void)
{
    static unsigned char bytes[4096];
    static long taken, held;
    if (taken == held) {
        taken = 0;
        held = read_some(INPUT, bytes, sizeof bytes);
        if (held <= 0) {
            held = 0;
            return -1;
        }
    }
    return bytes[taken++];
}

static void add_byte(struct line *line, char byte)
{
    if (line->length < (long)sizeof line->bytes)
        line->bytes[line->length++] = byte;
}

void add_text(struct line *line, const char *text)
{
    while (*text)
        add_byte(line, *text++);
}

void add_number(struct line *line, long number)
{
    unsigned long rest = number < 0 ? -(unsigned long)number : (unsigned long)number;
    char digits[20];
    int count = 0;
    if (number < 0)
        add_byte(line, '-');
    do {
        digits[count++] = '0' + rest % 10;
        rest /= 10;
    } while (rest);
    while (count)
        add_byte(line, digits[--count]);
}

void put_line(struct line *line)
{
    add_byte(line, '\n');
    write_some(OUTPUT, line->bytes, line->length);
    line->length = 0;
}

/* The compiler may call these two by itself, and no library is linked. */
void *memset(void *place, int byte, unsigned long size)
{
    for (char *at = place; size--; at++)
        *at = byte;
    return place;
}

void *memcpy(void *to, const void *from, unsigned long size)
{
    char *into = to;
    for (const char *at = from; size--; at++)
        *into++ = *at;
    return to;
}
