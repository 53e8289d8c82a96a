#include "bad_lines.h"

#include <ctype.h>
#include <stdarg.h>
#include <stdio.h>

enum { REPORTED_MAX = 10 };

const char *word_shown(struct span word, char text[WORD_TEXT_ROOM])
{
    char *end = text;

    for (size_t i = 0; i < word.length && i < WORD_SHOWN_MAX; i++) {
        unsigned char byte = (unsigned char)word.start[i];
        if (isprint(byte))
            *end++ = (char)byte;
        else
            end += sprintf(end, "\\x%02X", (unsigned)byte);
    }
    sprintf(end, "%s", word.length > WORD_SHOWN_MAX ? ".." : "");
    return text;
}

void bad_line(struct bad_lines *bad, struct place place, const char *format, ...)
{
    bad->count++;
    if (bad->count > REPORTED_MAX)
        return;

    va_list arguments;
    va_start(arguments, format);
    fprintf(stderr, "replay: %s:%zu: ", place.name, place.line);
    vfprintf(stderr, format, arguments);
    fputc('\n', stderr);
    va_end(arguments);
}

void bad_lines_end(const struct bad_lines *bad)
{
    if (bad->count > REPORTED_MAX)
        fprintf(stderr, "replay: %zu more bad line%s\n", bad->count - REPORTED_MAX, bad->count == REPORTED_MAX + 1 ? "" : "s");
    fprintf(stderr, "replay: nothing applied\n");
}
