/* Requests, a line each, read word by word. */
#ifndef TEXT_H
#define TEXT_H

/* What is still unread of a line. */
struct text { const char *at, *end; };

/* This word, or a number of 1 to 9 digits, if it stands at the front: then they answer 1 and move
   on. Else they answer 0. */
int take_word(struct text *text, const char *word);
int take_number(struct text *text, long *number);

/* What stands before the next space or the end; moves on behind that space. */
struct text take_item(struct text *text);

/* The next line of the input without its end, cut to the size; its length, or -1 after the last. */
long read_line(char *line, long size);

#endif
