/* Calls on the saved bytes. */
#ifndef REPLAY_CALLS_H
#define REPLAY_CALLS_H

#include "call.h"

/* A run as it stands after a call. Starts as zeros: no gauge, no time. */
struct run {
    uint8_t saved[GAUGE_SAVED_LENGTH]; /* in the newest form, whatever form was loaded */
    uint64_t windows; /* the time passed */
};

/* What an accepted read, preview or estimate hands out. */
struct reply {
    uint8_t registers[GAUGE_REGISTERS]; /* those that a read asked for, from the first place on; of a preview all, as they would stand */
    uint8_t command;                    /* of a preview: the command that would be obeyed */
    uint16_t estimate;                  /* counts */
    int32_t distance;                   /* of the estimate from NAC, counts */
};

/* Makes the call and answers its number, 0 or a refusal's. A refused call changes nothing; a read, a preview or an estimate only the reply. */
uint32_t call_make(const struct call *call, struct run *run, struct reply *reply);

#endif
