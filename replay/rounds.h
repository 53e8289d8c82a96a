/* The calls of a list made one after the other, repeated parts round by round, and their rows. */
#ifndef REPLAY_ROUNDS_H
#define REPLAY_ROUNDS_H

#include "calls.h"
#include "list.h"
#include "table.h"

/*
 * Every call is made in every round. The rows: of a part that is one call, one for each round; of any other the first and the last round call by
 * call, and after each round one more. In a round that has no rows nothing has.
 */
void rounds_make(const struct list *list, struct run *run, struct table *table);

#endif
