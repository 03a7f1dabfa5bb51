/* There is no clock: who asks for the time is told -1. time and clock of the C library ask here. */
#include <errno.h>
#include <sys/time.h>
#include <sys/times.h>
#include <time.h>

static int no_clock(void)
{
    errno = ENOSYS;
    return -1;
}

int gettimeofday(struct timeval *restrict time, void *restrict zone)
{
    (void)time;
    (void)zone;
    return no_clock();
}

int clock_gettime(clockid_t clock, struct timespec *time)
{
    (void)clock;
    (void)time;
    return no_clock();
}

clock_t times(struct tms *buffer)
{
    (void)buffer;
    return no_clock();
}
