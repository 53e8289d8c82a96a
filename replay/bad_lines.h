/* The bad lines of the lists: reported on standard error, the first ones in full. */
#ifndef REPLAY_BAD_LINES_H
#define REPLAY_BAD_LINES_H

#include "call.h"
#include "text.h"

struct bad_lines {
    size_t count;
};

/* Room for a word's beginning, each byte shown by at most four, and "..". */
enum { WORD_SHOWN_MAX = 40, WORD_TEXT_ROOM = 4 * WORD_SHOWN_MAX + 3 };

/* The word for a message: its beginning if it is long, bytes that do not print as \xHH. */
const char *word_shown(struct span word, char text[WORD_TEXT_ROOM]);

/* Reports one bad line. The format has what is wrong, "; expected " and what is expected. */
void bad_line(struct bad_lines *bad, struct place place, const char *format, ...);

/* How many more there are than were reported, and that no call was made. */
void bad_lines_end(const struct bad_lines *bad);

#endif
