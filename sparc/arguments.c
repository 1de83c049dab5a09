/*
 * What the host program asks of its arguments and of errno, in the place of the kit's part in C, which is compiled for
 * x86-64 alone: there are no arguments.
 */
#include <errno.h>
#include <stddef.h>

size_t rattle_arg_count(void)
{
    return 1;
}

ptrdiff_t rattle_arg(size_t i, unsigned char *buffer, size_t size)
{
    (void)i;
    (void)buffer;
    (void)size;
    return -1;
}

int rattle_errno(void)
{
    return errno;
}

void rattle_set_errno(int error)
{
    errno = error;
}
