/* Stands before the C library's calls on a disk's file, and fails the call with the number FAILED, counted from 1: a read
   at an offset, a write at an offset, or a sync. */
#define _GNU_SOURCE
#include <dlfcn.h>
#include <errno.h>
#include <stdlib.h>
#include <sys/types.h>

static int fails(void)
{
    static long calls;
    const char *failed = getenv("FAILED");
    if (!failed || ++calls != atol(failed))
        return 0;
    errno = EIO;
    return 1;
}

#define AT_OFFSET(name, buffer)                                                    \
    ssize_t name(int file, buffer bytes, size_t count, off_t at)                   \
    {                                                                              \
        ssize_t (*call)(int, buffer, size_t, off_t) = dlsym(RTLD_NEXT, #name);     \
        return fails() ? -1 : call(file, bytes, count, at);                        \
    }

#define SYNC(name)                                                                 \
    int name(int file)                                                             \
    {                                                                              \
        int (*call)(int) = dlsym(RTLD_NEXT, #name);                                \
        return fails() ? -1 : call(file);                                          \
    }

AT_OFFSET(pread, void *)
AT_OFFSET(pread64, void *)
AT_OFFSET(pwrite, const void *)
AT_OFFSET(pwrite64, const void *)
SYNC(fsync)
SYNC(fdatasync)
