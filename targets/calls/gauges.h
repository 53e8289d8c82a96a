/* Bytes that are handed in as a gauge: whole ones, older forms of them, and damaged ones. */
#ifndef GAUGES_H
#define GAUGES_H

#include <stddef.h>
#include <stdint.h>

/* Ten configuration bytes, now and then with a capacity of 0. */
void gauges_pack(uint8_t *pack);

/* Turns a gauge of the newest form into another form of it, as a version that had that form would have kept it. Answers its length. */
size_t gauges_in_form(uint8_t *gauge, uint8_t form);

/* A bit or a byte changed, a field changed, or other bytes altogether. */
void gauges_damage(uint8_t *gauge);

#endif
