/* Loaded before the C library by LD_PRELOAD, it makes streams fail, for scripts/check/runs. What fails, fails with
   EIO. Reads and writes count from 1. The environment says what happens:

     STREAMS_READ     the read with this number fails, and with STREAMS_READ_FROM all from this number on
     STREAMS_OUT      the same for writes to the standard output, as STREAMS_OUT_FROM
     STREAMS_ERR      the same for writes to the standard error, as STREAMS_ERR_FROM
     STREAMS_LITTLE   a read or a write moves at most one byte
     STREAMS_DRY      there are no random bytes
     STREAMS_FILE     each write to a file fails
     STREAMS_NAME     no file gets another name
     STREAMS_MODE     no file gets other permissions
     STREAMS_COPY     no file gets another name, and from then on each write to a file fails */
#define _GNU_SOURCE
#include <errno.h>
#include <fcntl.h>
#include <stdio.h>
#include <stddef.h>
#include <stdlib.h>
#include <sys/stat.h>
#include <sys/syscall.h>
#include <sys/types.h>
#include <unistd.h>

static long reads = 0;
static long outs = 0;
static long errs = 0;
static long are_files_full = 0;

static long number(const char *name)
{
    const char *text = getenv(name);
    return text ? atol(text) : 0;
}

/* Counts one more, and returns whether it has to fail. */
static int is_failed(long *count, const char *one, const char *from)
{
    long first = number(from);
    ++*count;
    if (*count != number(one) && (first == 0 || *count < first))
        return 0;
    errno = EIO;
    return 1;
}

static size_t share(size_t count)
{
    return count > 1 && number("STREAMS_LITTLE") ? 1 : count;
}

ssize_t read(int file, void *bytes, size_t count)
{
    if (is_failed(&reads, "STREAMS_READ", "STREAMS_READ_FROM"))
        return -1;
    return syscall(SYS_read, file, bytes, share(count));
}

ssize_t write(int file, const void *bytes, size_t count)
{
    if (file == STDOUT_FILENO && is_failed(&outs, "STREAMS_OUT", "STREAMS_OUT_FROM"))
        return -1;
    if (file == STDERR_FILENO && is_failed(&errs, "STREAMS_ERR", "STREAMS_ERR_FROM"))
        return -1;
    if (file > STDERR_FILENO && (are_files_full || number("STREAMS_FILE"))) {
        errno = EIO;
        return -1;
    }
    return syscall(SYS_write, file, bytes, share(count));
}

int rename(const char *from, const char *to)
{
    if (number("STREAMS_NAME") || number("STREAMS_COPY")) {
        are_files_full = number("STREAMS_COPY");
        errno = EIO;
        return -1;
    }
    return syscall(SYS_renameat2, AT_FDCWD, from, AT_FDCWD, to, 0);
}

int fchmod(int file, mode_t mode)
{
    if (number("STREAMS_MODE")) {
        errno = EIO;
        return -1;
    }
    return syscall(SYS_fchmod, file, mode);
}

int getentropy(void *bytes, size_t count)
{
    if (number("STREAMS_DRY")) {
        errno = EIO;
        return -1;
    }
    return syscall(SYS_getrandom, bytes, count, 0) == (long)count ? 0 : -1;
}
