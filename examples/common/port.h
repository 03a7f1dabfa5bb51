/* A port, or standard input and output in its place, as a channel of lines. */
#ifndef PORT_H
#define PORT_H

#include "guest.h"

/* The first port of the command line has descriptor 3, the next one 4. */
enum { FIRST_PORT = 3 };

struct channel {
    long input, output;                 /* descriptors */
    long taken, held;                   /* the bytes from taken to held are still to be given */
    unsigned char bytes[4096];
};

/* The channel of this port, or of standard input and output where it isn't there. */
void open_channel(struct channel *channel, long port);

/* As read_line of text.h and put_line of guest.h. One hart at a time may read. */
long receive_line(struct channel *channel, char *line, long size);
void send_line(struct channel *channel, struct line *line);

#endif
