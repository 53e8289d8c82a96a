/* The table on standard output: a heading, a row for each call or round, a summary. */
#ifndef REPLAY_TABLE_H
#define REPLAY_TABLE_H

#include "calls.h"

enum { LAST_REFUSAL = GAUGE_REFUSED_ESTIMATE_VOLTAGE };

struct refusals {
    size_t count;
    struct place first;
};

struct table {
    size_t columns;
    int time_width;
    size_t calls;
    size_t refused;
    struct refusals refusals[LAST_REFUSAL + 1]; /* by number */
};

/* Prints the heading. most_windows: the run takes no more time than these; the first column is as wide as that needs. */
void table_begin(struct table *table, bool all, uint64_t most_windows);

/* Prints the row of a call that answered number and left the run as it stands, and below it what an accepted call put into the reply. */
void table_row(struct table *table, const struct call *call, uint32_t number, const struct run *run, const struct reply *reply);

/* For the summary alone: a call without a row. */
void table_count(struct table *table, const struct call *call, uint32_t number);

/* Prints the line above the rows of a part that is made so often. */
void table_repeat(uint32_t rounds);

/* Prints the row of a round that left the run as it stands. number is 0, or that of the first call which was refused in it. */
void table_round(const struct table *table, uint32_t round, uint32_t rounds, uint32_t number, const struct run *run);

/* Prints the summary. */
void table_end(const struct table *table);

#endif
