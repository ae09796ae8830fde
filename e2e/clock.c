/* The system's clock, for a program that is started with this before its C library (LD_PRELOAD): it is ahead by the seconds
   that stand in the file CLOCK_FILE, 8 bytes, whatever is written there meanwhile. */
#define _GNU_SOURCE
#include <fcntl.h>
#include <stdlib.h>
#include <sys/mman.h>
#include <sys/syscall.h>
#include <time.h>
#include <unistd.h>

int clock_gettime(clockid_t clock, struct timespec *now)
{
    static const volatile long long *ahead;
    int status = syscall(SYS_clock_gettime, clock, now);
    if (ahead == NULL)
        ahead = mmap(NULL, sizeof *ahead, PROT_READ, MAP_SHARED, open(getenv("CLOCK_FILE"), O_RDONLY), 0);
    if (clock == CLOCK_REALTIME)
        now->tv_sec += *ahead;
    return status;
}
