/* Loaded before the C library by LD_PRELOAD, it refuses requests for memory, for scripts/check/refuse: the one with the
   number REFUSE, or with REFUSE_FROM all from that number on. Requests count from 1. With REFUSE_COUNT it refuses none. When
   the program ends, it writes the number of requests to the file descriptor with the number REFUSE_COUNT. */
#define _GNU_SOURCE
#include <errno.h>
#include <stddef.h>
#include <stdio.h>
#include <stdlib.h>
#include <unistd.h>

extern void *__libc_malloc(size_t size);
extern void *__libc_calloc(size_t count, size_t size);
extern void *__libc_realloc(void *old, size_t size);
extern void *__libc_memalign(size_t align, size_t size);

static long requests = 0;

static long number(const char *name)
{
    const char *text = getenv(name);
    return text ? atol(text) : 0;
}

static int is_refused(void)
{
    long one = number("REFUSE");
    long from = number("REFUSE_FROM");
    requests++;
    if (requests == one || (from > 0 && requests >= from)) {
        errno = ENOMEM;
        return 1;
    }
    return 0;
}

void *malloc(size_t size)
{
    return is_refused() ? NULL : __libc_malloc(size);
}

void *calloc(size_t count, size_t size)
{
    return is_refused() ? NULL : __libc_calloc(count, size);
}

void *realloc(void *old, size_t size)
{
    return is_refused() ? NULL : __libc_realloc(old, size);
}

void *aligned_alloc(size_t align, size_t size)
{
    return is_refused() ? NULL : __libc_memalign(align, size);
}

int posix_memalign(void **made, size_t align, size_t size)
{
    if (is_refused())
        return ENOMEM;
    *made = __libc_memalign(align, size);
    return *made ? 0 : ENOMEM;
}

__attribute__((destructor)) static void tell(void)
{
    char text[32];
    int file = (int)number("REFUSE_COUNT");
    if (file > 0) {
        int length = snprintf(text, sizeof text, "%ld", requests);
        if (write(file, text, (size_t)length) != length)
            _exit(125);
    }
}
