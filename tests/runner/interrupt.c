/*
 * A read() and a write() to put before the C library's. The system calls are made directly, since the library's own functions are the
 * names that these hide.
 *
 * read() gives one byte at a time, and before each one it fails as if a signal had come. After READ_FAILS_AFTER bytes, if that variable
 * is set, it fails for good.
 *
 * write() fails at every other call, from the first on, as if a signal had come, if WRITE_INTERRUPTED is set. It writes one byte at a
 * time if WRITE_SHORT is set.
 */
#define _GNU_SOURCE
#include <errno.h>
#include <stdlib.h>
#include <sys/syscall.h>
#include <unistd.h>

ssize_t read(int fd, void *buf, size_t count)
{
    static unsigned long calls, bytes;
    const char *fails_after = getenv("READ_FAILS_AFTER");
    ssize_t got;
    if (calls++ % 2 == 0) {
        errno = EINTR;
        return -1;
    }
    if (fails_after != NULL && bytes >= strtoul(fails_after, NULL, 10)) {
        errno = EIO;
        return -1;
    }
    got = syscall(SYS_read, fd, buf, count < 1 ? count : 1);
    if (got > 0) {
        bytes += (unsigned long)got;
    }
    return got;
}

ssize_t write(int fd, const void *buf, size_t count)
{
    static unsigned long calls;
    if (getenv("WRITE_INTERRUPTED") != NULL && calls++ % 2 == 0) {
        errno = EINTR;
        return -1;
    }
    return syscall(SYS_write, fd, buf, getenv("WRITE_SHORT") != NULL && count > 1 ? 1 : count);
}
