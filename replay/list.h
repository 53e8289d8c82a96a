/* Lists: text becomes calls. */
#ifndef REPLAY_LIST_H
#define REPLAY_LIST_H

#include "bad_lines.h"
#include "call.h"
#include "text.h"

/* A repeat may stand in another one. Three in each other could make more windows than 64 bits count. */
enum { REPEATS_DEEP_MAX = 2 };

/*
 * All calls of the run, in order. What is repeated stands between a CALL_REPEAT and its CALL_END, which are no calls. Starts as zeros;
 * free(list->calls) after use.
 */
struct list {
    struct call *calls;
    size_t count;
    size_t room;
    bool opened;                           /* an open, load or c v t line was there, so that a gauge is asked for no more */
    size_t repeats;                        /* those that have not ended yet, in a bad list also too many of them */
    size_t repeat_lines[REPEATS_DEEP_MAX]; /* where they begin */
};

/*
 * Adds the calls of one LIST and reports its bad lines. Bytes of open and load are put into the text in place of their digits, and the
 * calls refer to them there: the text has to stay as long as the calls. False if there is no memory for the calls.
 */
bool list_add(struct list *list, const struct text *text, const char *name, struct bad_lines *bad);

/* The windows of all calls that the gauge may accept, in every round: the run takes at most this time. */
uint64_t list_windows(const struct list *list);

#endif
