/* The ten configuration bytes of paper 01's bench pack: LMD 1,024, EDVF 2,800, E1 3,000, S0 10, DMF 2. For programs that try the gauge. */
#ifndef BENCH_PACK_H
#define BENCH_PACK_H

#include "gauge.h"

static const uint8_t bench_pack[GAUGE_CONFIGURATION_LENGTH] = {
    0x04, 0x5E, 0x77, 0x05, 0x21, 0x10, 0x00, 0x00, 0x6C, 0x15,
};

#endif
