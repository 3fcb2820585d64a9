// Stands before a program's own calls of the C library, and refuses one of them: the allocation, the read of standard input or
// the write to standard output whose number, from 1, stands in REFUSED_ALLOCATION, REFUSED_READ or REFUSED_WRITE. The write
// whose number stands in EMPTY_WRITE takes nothing. Where FROM_THEN_ON stands, each later call of that kind is refused too. No
// read gives and no write takes more bytes than SHORT_READS and SHORT_WRITES say. The calls of all threads are counted together.
#define _GNU_SOURCE
#include <dlfcn.h>
#include <errno.h>
#include <stddef.h>
#include <stdlib.h>
#include <sys/types.h>

static long asked[4];
static long made[4];

static int refuses(int kind, const char *name)
{
    long number;
    if (!asked[kind]) {
        const char *text = getenv(name);
        asked[kind] = text && atol(text) > 0 ? atol(text) : -1;
    }
    if (asked[kind] < 0)
        return 0;
    number = __atomic_add_fetch(&made[kind], 1, __ATOMIC_RELAXED);
    return number == asked[kind] || (number > asked[kind] && getenv("FROM_THEN_ON"));
}

static size_t at_most(size_t size, const char *name)
{
    const char *text = getenv(name);
    size_t most = text ? strtoul(text, NULL, 10) : 0;
    return most && most < size ? most : size;
}

static int refuses_allocation(void)
{
    if (!refuses(0, "REFUSED_ALLOCATION"))
        return 0;
    errno = ENOMEM;
    return 1;
}

void *malloc(size_t size)
{
    static void *(*own)(size_t);
    if (!own)
        own = (void *(*)(size_t))dlsym(RTLD_NEXT, "malloc");
    return refuses_allocation() ? NULL : own(size);
}

void *calloc(size_t count, size_t size)
{
    static void *(*own)(size_t, size_t);
    if (!own)
        own = (void *(*)(size_t, size_t))dlsym(RTLD_NEXT, "calloc");
    return refuses_allocation() ? NULL : own(count, size);
}

void *realloc(void *kept, size_t size)
{
    static void *(*own)(void *, size_t);
    if (!own)
        own = (void *(*)(void *, size_t))dlsym(RTLD_NEXT, "realloc");
    return refuses_allocation() ? NULL : own(kept, size);
}

void *aligned_alloc(size_t alignment, size_t size)
{
    static void *(*own)(size_t, size_t);
    if (!own)
        own = (void *(*)(size_t, size_t))dlsym(RTLD_NEXT, "aligned_alloc");
    return refuses_allocation() ? NULL : own(alignment, size);
}

int posix_memalign(void **place, size_t alignment, size_t size)
{
    static int (*own)(void **, size_t, size_t);
    if (!own)
        own = (int (*)(void **, size_t, size_t))dlsym(RTLD_NEXT, "posix_memalign");
    return refuses_allocation() ? ENOMEM : own(place, alignment, size);
}

ssize_t read(int file, void *into, size_t size)
{
    static ssize_t (*own)(int, void *, size_t);
    if (!own)
        own = (ssize_t (*)(int, void *, size_t))dlsym(RTLD_NEXT, "read");
    if (file == 0 && refuses(1, "REFUSED_READ")) {
        errno = EIO;
        return -1;
    }
    return own(file, into, file == 0 ? at_most(size, "SHORT_READS") : size);
}

ssize_t write(int file, const void *from, size_t size)
{
    static ssize_t (*own)(int, const void *, size_t);
    if (!own)
        own = (ssize_t (*)(int, const void *, size_t))dlsym(RTLD_NEXT, "write");
    if (file == 1 && refuses(2, "REFUSED_WRITE")) {
        errno = EIO;
        return -1;
    }
    if (file == 1 && refuses(3, "EMPTY_WRITE"))
        return 0;
    return own(file, from, file == 1 ? at_most(size, "SHORT_WRITES") : size);
}
