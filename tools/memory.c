/* The memory of a program that is started with this before its C library (LD_PRELOAD): the allocation of the number in
   REFUSED, from 1, is refused. At the end it says on standard error how many were asked for. */
#include <stdio.h>
#include <stdlib.h>

void *__libc_malloc(size_t size);
void *__libc_realloc(void *old, size_t size);

static unsigned long count;

static int is_refused(void)
{
    const char *number = getenv("REFUSED");
    count++;
    return number != NULL && strtoul(number, NULL, 10) == count;
}

void *malloc(size_t size)
{
    return is_refused() ? NULL : __libc_malloc(size);
}

void *realloc(void *old, size_t size)
{
    return is_refused() ? NULL : __libc_realloc(old, size);
}

__attribute__((destructor)) static void tell(void)
{
    fprintf(stderr, "%lu allocations\n", count);
}
