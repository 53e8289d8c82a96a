/* Looks for the longest rest of WINDOWS windows, by itself of thirty days: from the greatest charge, with every SD and at every temperature. Prints the
 * ticks of the longest, and its SD and temperature. */
#include "bench_pack.h"
#include "timer.h"

#include <stdio.h>
#include <string.h>

#ifndef WINDOWS
#define WINDOWS GAUGE_REST_MAX
#endif

enum { DMFSD = 4, RATES = 16 };

/* A full gauge with the capacity 65535. */
static uint32_t filled(uint8_t rate, uint8_t *saved)
{
    static const struct {
        uint8_t address, value;
    } writes[] = {
        {GAUGE_REG_AR, 0xFF},           {GAUGE_REG_AR + 1, 0xFF},     {GAUGE_REG_MODE, GAUGE_MODE_WRTLMD},
        {GAUGE_REG_CTRL, GAUGE_KEY_WRTLMD}, {GAUGE_REG_MODE, GAUGE_MODE_DONE}, {GAUGE_REG_CTRL, GAUGE_KEY_DONE},
    };
    uint8_t pack[GAUGE_CONFIGURATION_LENGTH];
    uint32_t numbers;

    memcpy(pack, bench_pack, sizeof pack);
    pack[DMFSD] = (uint8_t)((pack[DMFSD] & 0xF0) | rate);
    numbers = gauge_open(pack, sizeof pack, saved, GAUGE_SAVED_LENGTH);
    for (size_t i = 0; i < sizeof writes / sizeof writes[0]; i++)
        numbers |= gauge_write(saved, GAUGE_SAVED_LENGTH, writes[i].address, writes[i].value);
    return numbers;
}

int main(void)
{
    uint8_t full[GAUGE_SAVED_LENGTH], saved[GAUGE_SAVED_LENGTH];
    uint32_t numbers = 0, longest = 0;
    unsigned rate_of = 0, temperature_of = 0;

    timer_start();
    for (unsigned rate = 0; rate < RATES; rate++) {
        numbers |= filled((uint8_t)rate, full);
        for (int32_t temperature = GAUGE_TEMPERATURE_MIN; temperature <= GAUGE_TEMPERATURE_MAX; temperature++) {
            memcpy(saved, full, sizeof saved);
            uint32_t before = timer_ticks();
            numbers |= gauge_rest(saved, sizeof saved, WINDOWS, temperature);
            uint32_t ticks = timer_ticks() - before;
            if (ticks > longest) {
                longest = ticks;
                rate_of = rate;
                temperature_of = (unsigned)temperature;
            }
        }
    }
    printf("%lu %u %u\n", (unsigned long)longest, rate_of, temperature_of);
    return numbers == GAUGE_OK ? 0 : 1;
}
