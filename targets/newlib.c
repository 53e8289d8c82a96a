/* What newlib asks of a board, by semihosting: standard output is the file `output` where the emulator runs, standard error the console. Memory for
 * its buffers lies between the program's data and the last 3 KB, which are the stack's. */
#include "semihosting.h"

#include "console.h"

#include <errno.h>
#include <string.h>
#include <sys/stat.h>

extern char end[], stack_top[];

enum { OUTPUT = 1, STACK = 3072, FOR_WRITING = 5 };

int _close(int file);
int _fstat(int file, struct stat *status);
int _getpid(void);
int _isatty(int file);
int _kill(int process, int signal);
int _lseek(int file, int offset, int from);
int _read(int file, char *bytes, int length);
void *_sbrk(int more);
int _write(int file, const char *bytes, int length);
void _exit(int status) __attribute__((noreturn));

static intptr_t output(void)
{
    static intptr_t handle = -1;
    static const char name[] = "output";

    if (handle == -1) {
        const uintptr_t arguments[] = {(uintptr_t)name, FOR_WRITING, sizeof name - 1};

        handle = semihosting(SEMIHOSTING_OPEN, arguments);
    }
    return handle;
}

/* The console takes text that ends in 0. */
static int write_console(const char *bytes, int length)
{
    char text[2] = {0, 0};

    for (int i = 0; i < length; i++) {
        text[0] = bytes[i];
        console_write(text);
    }
    return length;
}

int _write(int file, const char *bytes, int length)
{
    if (file != OUTPUT)
        return write_console(bytes, length);
    const uintptr_t arguments[] = {(uintptr_t)output(), (uintptr_t)bytes, (uintptr_t)length};

    return length - (int)semihosting(SEMIHOSTING_WRITE, arguments);
}

void *_sbrk(int more)
{
    static char *top = end;
    char *before = top;

    if (more > stack_top - top - STACK) {
        errno = ENOMEM;
        return (void *)-1;
    }
    top += more;
    return before;
}

void _exit(int status)
{
    console_end(status);
    for (;;)
        continue;
}

int _fstat(int file, struct stat *status)
{
    (void)file;
    memset(status, 0, sizeof *status);
    return 0;
}

int _close(int file)
{
    (void)file;
    return 0;
}

int _isatty(int file)
{
    (void)file;
    return 0;
}

int _lseek(int file, int offset, int from)
{
    (void)file, (void)offset, (void)from;
    return 0;
}

int _read(int file, char *bytes, int length)
{
    (void)file, (void)bytes, (void)length;
    return 0;
}

int _getpid(void)
{
    return 1;
}

int _kill(int process, int signal)
{
    (void)process, (void)signal;
    return -1;
}
