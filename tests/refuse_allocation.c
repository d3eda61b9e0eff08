/* Stands before the C library's allocator, and refuses the allocation with the number REFUSED, counted from 1; with
   REFUSED_ON set, every later one as well. */
#include <errno.h>
#include <stddef.h>
#include <stdlib.h>

extern void *__libc_malloc(size_t);
extern void *__libc_calloc(size_t, size_t);
extern void *__libc_realloc(void *, size_t);

static int is_refused(void)
{
    static long calls;
    const char *refused = getenv("REFUSED");
    long number = refused ? atol(refused) : 0;
    /* Each call has a number of its own, also where two threads call at once. */
    long call = __atomic_add_fetch(&calls, 1, __ATOMIC_SEQ_CST);
    if (number == 0 || call < number || (call > number && !getenv("REFUSED_ON")))
        return 0;
    errno = ENOMEM;
    return 1;
}

void *malloc(size_t size)
{
    return is_refused() ? NULL : __libc_malloc(size);
}

void *calloc(size_t count, size_t size)
{
    return is_refused() ? NULL : __libc_calloc(count, size);
}

void *realloc(void *block, size_t size)
{
    return is_refused() ? NULL : __libc_realloc(block, size);
}
