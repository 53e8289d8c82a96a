/* On a board they are the files `requests` and `answers` where the emulator runs. */
#include "pipes.h"

#include "semihosting.h"

enum { FOR_READING = 1, FOR_WRITING = 5 };

static intptr_t opened(const char *name, size_t length, uintptr_t how)
{
    const uintptr_t arguments[] = {(uintptr_t)name, how, length};

    return semihosting(SEMIHOSTING_OPEN, arguments);
}

/* Semihosting answers how many bytes were left over. */
static size_t moved(enum semihosting_operation operation, intptr_t file, const void *bytes, size_t length)
{
    const uintptr_t arguments[] = {(uintptr_t)file, (uintptr_t)bytes, length};
    size_t left = (size_t)semihosting(operation, arguments);

    return left > length ? 0 : length - left;
}

/* Opened in the order in which the other side opens them: each waits there for the other. */
static intptr_t requests = -1, answers = -1;

static void open_both(void)
{
    if (requests != -1)
        return;
    requests = opened("requests", sizeof "requests" - 1, FOR_READING);
    answers = opened("answers", sizeof "answers" - 1, FOR_WRITING);
}

size_t pipes_read(void *bytes, size_t length)
{
    open_both();
    return moved(SEMIHOSTING_READ, requests, bytes, length);
}

int pipes_write(const void *bytes, size_t length)
{
    open_both();
    return moved(SEMIHOSTING_WRITE, answers, bytes, length) == length;
}
