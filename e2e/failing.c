/* Calls of the system that fail, for a program that is started with this before its C library (LD_PRELOAD). The file CALLS_FILE
   holds numbers of 8 bytes: which call is to fail, the first and the last time from the program's start on that it does, and how
   often each was made by now. Whatever is written there meanwhile counts from then on. */
#define _GNU_SOURCE
#include <dlfcn.h>
#include <errno.h>
#include <fcntl.h>
#include <stdlib.h>
#include <sys/mman.h>
#include <sys/socket.h>
#include <sys/syscall.h>
#include <unistd.h>

/* In the order of CALLS in failing_calls.py. */
enum { MALLOC = 1, REALLOC, CLOCK, POLL, WAIT, WATCH, ACCEPT, SOCKET, CONNECT, SOCKET_ERROR, OPTION, RECEIVE, SEND, SHUTDOWN, CLOSE, OPEN,
       OPEN_AT, READ, WRITE, READ_AT, WRITE_AT, SYNC, SYNC_FOLDER, RENAME, UNLINK, STATUS, LOCK, LIST, MAKE, BIND, LISTEN, KINDS };

struct told { volatile unsigned long kind, first, last, made[KINDS]; };

void *__libc_malloc(size_t count);
void *__libc_realloc(void *old, size_t count);

static int fails(int kind)
{
    static struct told *told;
    if (told == NULL) {
        int file = syscall(SYS_openat, AT_FDCWD, getenv("CALLS_FILE"), O_RDWR);
        told = mmap(NULL, sizeof *told, PROT_READ | PROT_WRITE, MAP_SHARED, file, 0);
        syscall(SYS_close, file);
    }
    unsigned long number = ++told->made[kind];
    return told->kind == kind && told->first <= number && number <= told->last;
}

void *malloc(size_t count)
{
    return fails(MALLOC) ? NULL : __libc_malloc(count);
}

void *realloc(void *old, size_t count)
{
    return fails(REALLOC) ? NULL : __libc_realloc(old, count);
}

/* Each has six words at most, and answers -1 where it fails. */
#define CALL(name, kind, error)                                             \
    long call_##name(long a, long b, long c, long d, long e, long f) __asm__(#name); \
    long call_##name(long a, long b, long c, long d, long e, long f)        \
    {                                                                       \
        static long (*made)(long, long, long, long, long, long);            \
        if (made == NULL)                                                   \
            made = (long (*)(long, long, long, long, long, long))dlsym(RTLD_NEXT, #name); \
        if (!fails(kind))                                                   \
            return made(a, b, c, d, e, f);                                  \
        errno = error;                                                      \
        return -1;                                                          \
    }

CALL(clock_gettime, CLOCK, EINVAL)
CALL(epoll_create1, POLL, EMFILE)
CALL(epoll_wait, WAIT, EINTR)
CALL(epoll_ctl, WATCH, ENOSPC)
CALL(accept4, ACCEPT, EMFILE)
CALL(socket, SOCKET, EMFILE)
CALL(connect, CONNECT, EADDRNOTAVAIL)
CALL(getsockopt, SOCKET_ERROR, ENOBUFS)
CALL(setsockopt, OPTION, ENOBUFS)
CALL(recv, RECEIVE, ECONNRESET)
CALL(shutdown, SHUTDOWN, ENOTCONN)
CALL(open, OPEN, EMFILE)
CALL(openat, OPEN_AT, EMFILE)
CALL(read, READ, EIO)
CALL(write, WRITE, ENOSPC)
CALL(pread, READ_AT, EIO)
CALL(pwrite, WRITE_AT, ENOSPC)
CALL(fdatasync, SYNC, EIO)
CALL(fsync, SYNC_FOLDER, EIO)
CALL(rename, RENAME, ENOSPC)
CALL(unlink, UNLINK, EIO)
CALL(statx, STATUS, EIO)
CALL(flock, LOCK, ENOLCK)
CALL(getdents64, LIST, EIO)
CALL(mkdir, MAKE, ENOSPC)
CALL(bind, BIND, EADDRINUSE)
CALL(listen, LISTEN, EADDRINUSE)

/* A connection that takes no more is over: what comes of it is an end. */
ssize_t send(int handle, const void *bytes, size_t count, int how)
{
    if (!fails(SEND))
        return syscall(SYS_sendto, handle, bytes, count, how, NULL, 0);
    syscall(SYS_shutdown, handle, SHUT_RDWR);
    errno = EPIPE;
    return -1;
}

/* The handle is given back all the same (close(2), "Dealing with error returns from close()"). */
int close(int handle)
{
    int status = syscall(SYS_close, handle);
    if (!fails(CLOSE))
        return status;
    errno = EIO;
    return -1;
}
