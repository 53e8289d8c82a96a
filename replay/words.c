#include "words.h"

#include <string.h>

enum { NO_DIGIT = 16 };

/* Above every number that a list may hold, and far enough below the type's end for one more digit. */
static const int64_t TOO_GREAT = INT64_C(1) << 40;

static bool is_blank(char byte)
{
    return byte == ' ' || byte == '\t';
}

static void drop(struct span *rest, size_t length)
{
    rest->start += length;
    rest->length -= length;
}

bool word_take(struct span *rest, struct span *word)
{
    size_t length = 0;

    while (rest->length > 0 && is_blank(rest->start[0]))
        drop(rest, 1);
    while (length < rest->length && !is_blank(rest->start[length]))
        length++;
    *word = (struct span){rest->start, length};
    drop(rest, length);
    return length > 0;
}

bool word_is(struct span word, const char *expected)
{
    return word.length == strlen(expected) && memcmp(word.start, expected, word.length) == 0;
}

bool words_are(struct span rest, size_t count, const char *const expected[])
{
    struct span word;

    for (size_t i = 0; i < count; i++)
        if (!word_take(&rest, &word) || !word_is(word, expected[i]))
            return false;
    return !word_take(&rest, &word);
}

size_t words_count(struct span rest)
{
    struct span word;
    size_t count = 0;

    while (word_take(&rest, &word))
        count++;
    return count;
}

static int digit_value(char byte)
{
    if (byte >= '0' && byte <= '9')
        return byte - '0';
    if (byte >= 'A' && byte <= 'F')
        return byte - 'A' + 10;
    if (byte >= 'a' && byte <= 'f')
        return byte - 'a' + 10;
    return NO_DIGIT;
}

bool word_begins_number(struct span word)
{
    return word.length > 0 && (word.start[0] == '-' || digit_value(word.start[0]) < 10);
}

/* A number of many digits stays at TOO_GREAT, so that nothing overflows. */
static bool digits_number(struct span digits, int base, int64_t *number)
{
    *number = 0;
    for (size_t i = 0; i < digits.length; i++) {
        int value = digit_value(digits.start[i]);
        if (value >= base)
            return false;
        *number = *number * base + value;
        if (*number > TOO_GREAT)
            *number = TOO_GREAT;
    }
    return digits.length > 0;
}

bool word_number(struct span word, const struct number_form *form, int64_t *number)
{
    bool hexadecimal = form->may_be_hexadecimal && word.length > 2 && memcmp(word.start, "0x", 2) == 0;
    bool negative = form->least < 0 && word.length > 0 && word.start[0] == '-';

    if (hexadecimal)
        drop(&word, 2);
    if (negative)
        drop(&word, 1);
    if (!digits_number(word, hexadecimal ? 16 : 10, number))
        return false;
    if (negative)
        *number = -*number;
    return *number >= form->least && *number <= form->greatest;
}

bool word_is_hexadecimal(struct span word)
{
    int64_t unused;

    return digits_number(word, 16, &unused);
}

void word_bytes(struct span word, uint8_t *bytes)
{
    for (size_t i = 0; i + 1 < word.length; i += 2)
        *bytes++ = (uint8_t)(16 * digit_value(word.start[i]) + digit_value(word.start[i + 1]));
}

void bytes_print(FILE *stream, const uint8_t *bytes, size_t length)
{
    for (size_t i = 0; i < length; i++)
        fprintf(stream, " %02X", bytes[i]);
}
