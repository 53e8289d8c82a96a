/* On Linux they are standard input and output. */
#include "pipes.h"

#include <unistd.h>

size_t pipes_read(void *bytes, size_t length)
{
    ssize_t got = read(STDIN_FILENO, bytes, length);

    return got < 0 ? 0 : (size_t)got;
}

int pipes_write(const void *bytes, size_t length)
{
    return write(STDOUT_FILENO, bytes, length) == (ssize_t)length;
}
