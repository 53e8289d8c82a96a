/* A call of a list: which one, its arguments, where it stands. */
#ifndef REPLAY_CALL_H
#define REPLAY_CALL_H

#include "gauge.h"

#include <stdbool.h>

enum call_kind {
    CALL_OPEN,
    CALL_LOAD,
    CALL_WINDOW,
    CALL_REST,
    CALL_WRITE,
    CALL_READ,
    CALL_PREVIEW,
    CALL_ESTIMATE,
    CALL_NAC,
    CALL_LMD,
    CALL_DONE,
    CALL_RESET,
    CALL_PARTIAL,
    CALL_REPEAT, /* no call, nor is the next: what stands between the two is repeated */
    CALL_END,
    CALL_KINDS
};

enum { CALL_NUMBERS_MAX = 3, ROUNDS_MAX = 10000 };

/* A line of a list, counted from 1. */
struct place {
    const char *name;
    size_t line;
};

/*
 * numbers are within the ranges of call_forms; bytes, of open and load alone, are at least one. A preview of a key is a CALL_PREVIEW, that of a
 * command has the command's kind.
 */
struct call {
    enum call_kind kind;
    bool previewed; /* it is shown what the call would do, and nothing is done */
    struct place place;
    int64_t numbers[CALL_NUMBERS_MAX];
    const uint8_t *bytes;
    size_t length;
};

/* A number of a call. The range is that of its C type: what the gauge accepts is for the gauge to say. */
struct number_form {
    const char *name;
    int64_t least;
    int64_t greatest;
    bool may_be_hexadecimal;
    bool shown_hexadecimal;
};

struct call_form {
    const char *word;
    size_t count;
    struct number_form numbers[CALL_NUMBERS_MAX];
    bool is_command;
};

/* By kind. */
extern const struct call_form call_forms[CALL_KINDS];

/* Whether it is a call, and no repeat or end. */
bool call_is_one(const struct call *call);

/* What stands before the word of a call: the word of a preview before that of a command, else nothing. */
const char *call_prefix(const struct call *call);

/* Prints the call in its one normal form. */
void call_print(const struct call *call);

#endif
