/* The console of console.h by semihosting. */
#include "semihosting.h"

#include "console.h"

void console_write(const char *text)
{
    semihosting(SEMIHOSTING_WRITE0, text);
}

void console_end(int status)
{
    semihosting_exit(status);
}
