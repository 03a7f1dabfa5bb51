#include "text.h"
#include "guest.h"

int take_word(struct text *text, const char *word)
{
    const char *at = text->at;
    for (; *word; word++, at++)
        if (at == text->end || *at != *word)
            return 0;
    text->at = at;
    return 1;
}

int take_number(struct text *text, long *number)
{
    const char *at = text->at;
    long value = 0;
    for (; at < text->end && *at >= '0' && *at <= '9'; at++)
        value = value * 10 + (*at - '0');
    if (at == text->at || at > text->at + 9)
        return 0;
    text->at = at;
    *number = value;
    return 1;
}

struct text take_item(struct text *text)
{
    struct text item = { text->at, text->at };
    while (item.end < text->end && *item.end != ' ')
        item.end++;
    text->at = item.end < text->end ? item.end + 1 : item.end;
    return item;
}

long read_line(char *line, long size)
{
    long length = 0;
    int byte = next_byte();
    if (byte < 0)
        return -1;
    for (; byte >= 0 && byte != '\n'; byte = next_byte())
        if (length < size)
            line[length++] = byte;
    return length;
}
