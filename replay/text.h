/* Files read whole, and their lines. */
#ifndef REPLAY_TEXT_H
#define REPLAY_TEXT_H

#include <stdbool.h>
#include <stddef.h>

struct text {
    char *bytes;
    size_t length;
};

/* A part of a text: a line, a word. */
struct span {
    char *start;
    size_t length;
};

/* Reads the file, or standard input for "-", to its end. False if that fails, and errno says why; free(text->bytes) in either case. */
bool text_read(const char *file_name, struct text *text);

/*
 * The line that begins at *from, without its newline; *from moves past it. *has_newline is false for a last line that lacks one.
 * False at the text's end.
 */
bool text_line(const struct text *text, size_t *from, struct span *line, bool *has_newline);

#endif
