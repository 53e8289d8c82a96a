/* The words of a line, and numbers and bytes written as words. */
#ifndef REPLAY_WORDS_H
#define REPLAY_WORDS_H

#include "call.h"
#include "text.h"

#include <stdio.h>

/* Takes the next word off the front of rest. False, and an empty word, if there is none. */
bool word_take(struct span *rest, struct span *word);

bool word_is(struct span word, const char *expected);

/* Whether rest has exactly as many words as expected, the same ones. */
bool words_are(struct span rest, size_t count, const char *const expected[]);

size_t words_count(struct span rest);

/* Whether a word can only be meant as a decimal number. */
bool word_begins_number(struct span word);

/* False if the word is no whole number as the form has it, its range included. */
bool word_number(struct span word, const struct number_form *form, int64_t *number);

bool word_is_hexadecimal(struct span word);

/*
 * Writes the bytes that a word of pairs of hexadecimal digits stands for. bytes may lie on the word's own digits or before them: each
 * byte is written after its two digits are read.
 */
void word_bytes(struct span word, uint8_t *bytes);

/* Each byte as a space and two hexadecimal digits. */
void bytes_print(FILE *stream, const uint8_t *bytes, size_t length);

#endif
