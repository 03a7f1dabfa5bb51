/* What picolibc asks of the system below it. There are the guest's descriptors and a heap, and
   nothing else: no files, no clock, no signals. */
#include <errno.h>
#include <fcntl.h>
#include <signal.h>
#include <stddef.h>
#include <unistd.h>
#include "../calls.h"

void _exit(int code)
{
    for (;;)
        call(CALL_EXIT_GROUP, code, 0, 0);
}

/* The answer of a call as C has it: -1 and errno for an error. */
static long told(long answer)
{
    if (answer >= 0)
        return answer;
    errno = -answer;
    return -1;
}

static long refused(int error)
{
    errno = error;
    return -1;
}

ssize_t read(int descriptor, void *place, size_t size)
{
    return told(call(CALL_READ, descriptor, (long)place, size));
}

ssize_t write(int descriptor, const void *place, size_t size)
{
    return told(call(CALL_WRITE, descriptor, (long)place, size));
}

int close(int descriptor)
{
    return told(call(CALL_CLOSE, descriptor, 0, 0));
}

/* The heap's end moves by so many bytes; where it was. malloc holds its lock meanwhile. */
void *sbrk(ptrdiff_t size)
{
    static char *end;
    if (!end)
        end = (char *)call(CALL_BRK, 0, 0, 0);
    char *before = end, *wanted = before + size;
    if ((char *)call(CALL_BRK, (long)wanted, 0, 0) != wanted)
        return (void *)refused(ENOMEM);
    end = wanted;
    return before;
}

/* There are no files and no processes. */

int open(const char *name, int flags, ...)
{
    (void)name;
    (void)flags;
    return refused(ENOENT);
}

int unlink(const char *name)
{
    (void)name;
    return refused(ENOENT);
}

off_t lseek(int descriptor, off_t to, int from)
{
    (void)descriptor;
    (void)to;
    (void)from;
    return refused(ESPIPE);
}

pid_t getpid(void)
{
    return 1;
}

int kill(pid_t process, int number)
{
    return process == getpid() ? raise(number) : refused(ESRCH);
}
