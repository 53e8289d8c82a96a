/* The two pipes on the processor where the calls are made. */
#ifndef PIPES_H
#define PIPES_H

#include <stddef.h>

/* At least one byte and at most length; 0 at the end. */
size_t pipes_read(void *bytes, size_t length);

/* False where they cannot be written. */
int pipes_write(const void *bytes, size_t length);

#endif
