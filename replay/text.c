#include "text.h"

#include <errno.h>
#include <stdint.h>
#include <stdio.h>
#include <stdlib.h>
#include <string.h>

enum { FIRST_ROOM = 65536 };

static bool grow(struct text *text, size_t *room)
{
    if (*room > SIZE_MAX / 2) {
        errno = ENOMEM;
        return false;
    }
    size_t greater = *room == 0 ? FIRST_ROOM : 2 * *room;
    char *bytes = realloc(text->bytes, greater);
    if (bytes == NULL) {
        errno = ENOMEM;
        return false;
    }
    text->bytes = bytes;
    *room = greater;
    return true;
}

static bool read_stream(FILE *stream, struct text *text)
{
    size_t room = 0;

    while (!feof(stream)) {
        if (text->length == room && !grow(text, &room))
            return false;
        text->length += fread(text->bytes + text->length, 1, room - text->length, stream);
        if (ferror(stream))
            return false;
    }
    return true;
}

bool text_read(const char *file_name, struct text *text)
{
    *text = (struct text){NULL, 0};
    if (strcmp(file_name, "-") == 0)
        return read_stream(stdin, text);

    FILE *stream = fopen(file_name, "rb");
    if (stream == NULL)
        return false;
    bool whole = read_stream(stream, text);
    int reason = errno;
    fclose(stream);
    errno = reason;
    return whole;
}

bool text_line(const struct text *text, size_t *from, struct span *line, bool *has_newline)
{
    if (*from == text->length)
        return false;

    size_t left = text->length - *from;
    line->start = text->bytes + *from;
    const char *newline = memchr(line->start, '\n', left);
    *has_newline = newline != NULL;
    line->length = *has_newline ? (size_t)(newline - line->start) : left;
    *from += line->length + (*has_newline ? 1 : 0);
    return true;
}
