/* A stub: an hour and a half of a handset that leaves its cradle full, works, stops on the cradle and works again. */
#include "samples.h"

#include <stddef.h>

static const struct {
    uint16_t windows;
    struct sample sample;
} drive[] = {
    {1, {20, 4150, 1192}},    /* full by taper */
    {420, {-900, 3700, 1200}}, /* a row */
    {60, {3000, 3950, 1210}}, /* the cradle, too short to fill the cell */
    {420, {-900, 3600, 1204}},
    {150, {-12, 3750, 1196}}, /* standby */
    {1, {40000, 3750, 1196}}, /* a converter out of order: the gauge refuses it */
};

bool samples_next(struct sample *sample)
{
    static size_t step;
    static uint16_t taken;

    if (step == sizeof drive / sizeof drive[0])
        return false;
    *sample = drive[step].sample;
    taken++;
    if (taken == drive[step].windows) {
        taken = 0;
        step++;
    }
    return true;
}
