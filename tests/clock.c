/* A clock that is as many seconds ahead as the variable AHEAD says, or the file that it names: preloaded by state_clocks.py.
   STEADY says it of the clock that never goes back. */
#define _GNU_SOURCE
#include <fcntl.h>
#include <stdlib.h>
#include <sys/syscall.h>
#include <time.h>
#include <unistd.h>

static long seconds_of(const char *ahead)
{
    char text[32] = {0};
    int file = ahead[0] == '/' ? open(ahead, O_RDONLY) : -1;
    if (file < 0)
        return atol(ahead);
    ssize_t count = read(file, text, sizeof text - 1);
    close(file);
    return count > 0 ? atol(text) : 0;
}

int clock_gettime(clockid_t clock, struct timespec *now)
{
    const char *ahead = clock == CLOCK_REALTIME ? getenv("AHEAD") : clock == CLOCK_MONOTONIC ? getenv("STEADY") : NULL;
    int failed = syscall(SYS_clock_gettime, clock, now);
    if (!failed && ahead)
        now->tv_sec += seconds_of(ahead);
    return failed;
}
