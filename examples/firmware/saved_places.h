/*
 * Where form 5 keeps some of its fields, for programs that damage them, put numbers into them or look at the count of rest windows, which no
 * register has. Firmware needs none of this.
 */
#ifndef SAVED_PLACES_H
#define SAVED_PLACES_H

#include <stdint.h>

/* The first byte of each, which is the lowest. */
enum saved_place {
    SAVED_FORM = 0,
    SAVED_CHARGE = 11,
    SAVED_RUN_DRAIN = 19,
    SAVED_SI = 29,
    SAVED_TEMP = 35,
    SAVED_FLAGS = 40,
    SAVED_REST_COUNT = 41,
    SAVED_CYCLES = 45,
    SAVED_CYCLE_DRAIN = 47
};

/* The bytes of a charge or drain, of the count of rest windows, and of SI, TEMP or CYCT. */
enum { SAVED_GRAINS_LENGTH = 8, SAVED_REST_COUNT_LENGTH = 4, SAVED_PAIR_LENGTH = 2 };

static inline uint32_t saved_rest_count(const uint8_t *saved)
{
    uint32_t count = 0;

    for (int i = SAVED_REST_COUNT_LENGTH - 1; i >= 0; i--)
        count = 256 * count + saved[SAVED_REST_COUNT + i];
    return count;
}

#endif
