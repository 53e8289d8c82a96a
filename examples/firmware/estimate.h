/* The charge of a rested cell, for the handset from the rack and the one from the shelf: asked for and shown, and NAC set by it where it is far off. */
#ifndef ESTIMATE_H
#define ESTIMATE_H

#include <stdint.h>

/* What the handset does with a voltage that it measured. Without an estimate NAC stays what it is. */
void start_at(int32_t voltage);

#endif
