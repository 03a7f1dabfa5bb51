/* Counts the lines, words and bytes of its input. */
#include "../common/guest.h"

static int is_space(int byte)
{
    return byte == ' ' || byte == '\t' || byte == '\n';
}

int main(void)
{
    long lines = 0, words = 0, bytes = 0;
    int before = ' ';
    for (int byte = next_byte(); byte >= 0; byte = next_byte()) {
        bytes++;
        lines += byte == '\n';
        words += is_space(before) && !is_space(byte);
        before = byte;
    }
    struct line line = { .length = 0 };
    add_text(&line, "lines ");
    add_number(&line, lines);
    add_text(&line, " words ");
    add_number(&line, words);
    add_text(&line, " bytes ");
    add_number(&line, bytes);
    put_line(&line);
    return 0;
}
