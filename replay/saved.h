/* The saved bytes, which are of the newest form, as a list of one load line. */
#ifndef REPLAY_SAVED_H
#define REPLAY_SAVED_H

#include "calls.h"

/* Writes the list to the file. Without a gauge there is none to write. False, after a message, if nothing or not all was written. */
bool saved_write(const struct run *run, const char *file_name);

#endif
