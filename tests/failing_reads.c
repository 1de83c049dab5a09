/* Preloaded into a program under test, whose name IN gives: reads of standard input deliver AFTER bytes, then fail
   with ERROR (a number of errno). With MOST a read delivers at most so many bytes, and with INTERRUPTED every other
   read fails with EINTR first. With SLOW_OUTPUT every other write to standard output fails with EINTR, and the others
   take a byte. */
#define _GNU_SOURCE
#include <dlfcn.h>
#include <errno.h>
#include <stdlib.h>
#include <string.h>
#include <unistd.h>

static size_t number(const char *name, size_t otherwise)
{
    const char *text = getenv(name);

    return text ? strtoul(text, NULL, 10) : otherwise;
}

static int tested(void)
{
    const char *in = getenv("IN");

    return in && strcmp(in, program_invocation_short_name) == 0;
}

ssize_t write(int fd, const void *buffer, size_t size)
{
    static size_t calls;
    ssize_t (*next)(int, const void *, size_t) = (ssize_t (*)(int, const void *, size_t))dlsym(RTLD_NEXT, "write");

    if (fd != STDOUT_FILENO || !tested() || !getenv("SLOW_OUTPUT"))
        return next(fd, buffer, size);
    if (calls++ % 2 == 0) {
        errno = EINTR;
        return -1;
    }
    return next(fd, buffer, size > 1 ? 1 : size);
}

ssize_t read(int fd, void *buffer, size_t size)
{
    static size_t delivered, calls;
    ssize_t (*next)(int, void *, size_t) = (ssize_t (*)(int, void *, size_t))dlsym(RTLD_NEXT, "read");
    size_t left = number("AFTER", (size_t)-1) - delivered;
    size_t most = number("MOST", (size_t)-1);
    ssize_t got;

    if (fd != STDIN_FILENO || !tested())
        return next(fd, buffer, size);
    if (getenv("INTERRUPTED") && calls++ % 2 == 0) {
        errno = EINTR;
        return -1;
    }
    if (left == 0) {
        errno = (int)number("ERROR", EIO);
        return -1;
    }
    if (size > left)
        size = left;
    if (size > most)
        size = most;
    got = next(fd, buffer, size);
    if (got > 0)
        delivered += (size_t)got;
    return got;
}
