/* What a call is lent: buffers at any address, with bytes beside them that a call must leave, and numbers. */
#ifndef LENT_H
#define LENT_H

#include "gauge.h"

enum { BESIDE = 8, SAVED_ROOM = GAUGE_SAVED_LENGTH + 9, REPLY_ROOM = GAUGE_REGISTERS + 8 };

/* A buffer begins anywhere in the eight bytes before its room; all around it is seen by the record. */
struct lent {
    _Alignas(8) uint8_t saved_whole[BESIDE + SAVED_ROOM + BESIDE];
    _Alignas(8) uint8_t reply_whole[BESIDE + REPLY_ROOM + BESIDE];
    uint8_t *saved, *reply;
    size_t saved_length, reply_length;
    uint8_t command;
    uint16_t estimate;
    int32_t distance;
};

#endif
