/* What the firmware measures. samples.c stands for the handset's sense resistor, its analogue-to-digital converter and its thermometer. */
#ifndef SAMPLES_H
#define SAMPLES_H

#include <stdbool.h>
#include <stdint.h>

/* The average of a window of 5.12 s, in the gauge's units. */
struct sample {
    int32_t current;     /* units of 3.57 uV over the sense resistor, positive charging */
    int32_t voltage;     /* mV */
    int32_t temperature; /* quarter kelvins */
};

/* The next window's. False where there is none any more; a handset would wait for the converter here. */
bool samples_next(struct sample *sample);

#endif
