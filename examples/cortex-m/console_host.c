/* The console of console.h on a Linux machine, for `run --second`. */
#include "console.h"

#include <stdio.h>
#include <stdlib.h>

void console_write(const char *text)
{
    fputs(text, stdout);
}

void console_end(int status)
{
    exit(status);
}
