#include "port.h"

/* A read of nothing succeeds where the descriptor is there. */
static int is_there(long descriptor)
{
    return read_some(descriptor, 0, 0) == 0;
}

void open_channel(struct channel *channel, long port)
{
    int has_port = is_there(port);
    channel->input = has_port ? port : INPUT;
    channel->output = has_port ? port : OUTPUT;
    channel->taken = channel->held = 0;
}

/* The next byte, or -1 where the input has ended or can't be read. */
static int receive_byte(struct channel *channel)
{
    if (channel->taken == channel->held) {
        long count = read_some(channel->input, channel->bytes, sizeof channel->bytes);
        channel->taken = 0;
        channel->held = count > 0 ? count : 0;
        if (count <= 0)
            return -1;
    }
    return channel->bytes[channel->taken++];
}

long receive_line(struct channel *channel, char *line, long size)
{
    long length = 0;
    int byte = receive_byte(channel);
    if (byte < 0)
        return -1;
    for (; byte >= 0 && byte != '\n'; byte = receive_byte(channel))
        if (length < size)
            line[length++] = byte;
    return length;
}

void send_line(struct channel *channel, struct line *line)
{
    add_text(line, "\n");
    write_some(channel->output, line->bytes, line->length);
    line->length = 0;
}
