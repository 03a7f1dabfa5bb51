/* What the examples use in place of a C library. */
#ifndef GUEST_H
#define GUEST_H

enum { INPUT = 0, OUTPUT = 1, ERRORS = 2 };

/* The calls as they are: the answer is the number of bytes, or a negative error number. */
long read_some(long descriptor, void *place, long size);
long write_some(long descriptor, const void *place, long size);

/* The next byte of the input, or -1 where it has ended or can't be read. */
int next_byte(void);

/* A line for the output, put together here and written by one call. What doesn't fit is cut. */
struct line { char bytes[80]; long length; };
void add_text(struct line *line, const char *text);
void add_number(struct line *line, long number);
void put_line(struct line *line);

#endif
