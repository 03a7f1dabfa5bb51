/* The standard streams of picolibc, over the calls read and write. What is put on stdout leaves
   when 4,096 bytes are there, by fflush, and at exit; on stderr it leaves at the end of each line
   too. What hasn't left is memory: a rescue takes it back. One hart at a time may use a stream. */
#include <stdio.h>
#include "../calls.h"

enum { SIZE = 4096 };

/* A stream begins with picolibc's part of it, so that its address is that part's. */
struct stream {
    FILE file;
    long descriptor;
    int goes_by_line;
    long taken, held;                   /* the bytes from taken to held are in the buffer */
    char bytes[SIZE];
};

/* The next byte, read with all that is there. */
static int get(FILE *file)
{
    struct stream *stream = (struct stream *)file;
    if (stream->taken == stream->held) {
        long count = call(CALL_READ, stream->descriptor, (long)stream->bytes, SIZE);
        stream->taken = 0;
        stream->held = count > 0 ? count : 0;
        if (count <= 0)
            return count < 0 ? _FDEV_ERR : _FDEV_EOF;
    }
    return (unsigned char)stream->bytes[stream->taken++];
}

/* Writes what is in the buffer. What can't be written is dropped. */
static int flush(FILE *file)
{
    struct stream *stream = (struct stream *)file;
    long count = 0;
    while (stream->taken < stream->held && count >= 0) {
        count = call(CALL_WRITE, stream->descriptor, (long)stream->bytes + stream->taken,
                     stream->held - stream->taken);
        stream->taken += count > 0 ? count : 0;
    }
    stream->taken = stream->held = 0;
    return count < 0 ? EOF : 0;
}

static int put(char byte, FILE *file)
{
    struct stream *stream = (struct stream *)file;
    stream->bytes[stream->held++] = byte;
    if (stream->held == SIZE || (stream->goes_by_line && byte == '\n'))
        return flush(file);
    return 0;
}

static struct stream input = {
    .file = FDEV_SETUP_STREAM(NULL, get, NULL, _FDEV_SETUP_READ), .descriptor = 0
};
static struct stream output = {
    .file = FDEV_SETUP_STREAM(put, NULL, flush, _FDEV_SETUP_WRITE), .descriptor = 1
};
static struct stream errors = {
    .file = FDEV_SETUP_STREAM(put, NULL, flush, _FDEV_SETUP_WRITE), .descriptor = 2,
    .goes_by_line = 1
};

FILE *const stdin = &input.file;
FILE *const stdout = &output.file;
FILE *const stderr = &errors.file;

/* exit calls it. */
__attribute__((destructor)) static void flush_all(void)
{
    flush(stdout);
    flush(stderr);
}
