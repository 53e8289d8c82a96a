/* Random numbers that are the same on every target: of 32 bits, from a seed. */
#ifndef RANDOM_H
#define RANDOM_H

#include <stdbool.h>
#include <stddef.h>
#include <stdint.h>

void random_begin(uint32_t seed);
uint32_t random_number(void);

/* 0 to limit - 1; a limit is at most 65536, so that no product wraps. */
uint32_t random_below(uint32_t limit);

/* True once in so many times. */
bool random_once_in(uint32_t times);

/* Between two limits; at times at one of them, just beyond, or any number at all. */
int32_t random_near(int32_t least, int32_t greatest);

void random_bytes(uint8_t *bytes, size_t length);

#endif
