#include "estimate.h"

#include "firmware.h"

#include <stdbool.h>
#include <stdio.h>
#include <string.h>

/*
 * NAC is set where the estimate is further from it than one part in so many of LMD: a twentieth, 50 permille. From 3600 to 3700 mV, where the
 * table is steepest, a mV is 2.1 permille. A voltage 20 mV off, by the measurement and by a cell that has not settled quite, and the 3 mV that the
 * table cuts off at most are 48 permille together. So a smaller distance says nothing against the sum of the gauge, and WRTNAC would end a run that
 * may teach LMD.
 */
enum { SETTING_PART = 20 };

/* The last estimate that was not refused. */
static struct estimate {
    uint16_t counts;
    int32_t distance; /* from NAC */
} estimate;

static void show_refused_estimate(uint32_t number, const struct estimate *before)
{
    bool kept = estimate.counts == before->counts && estimate.distance == before->distance;

    printf("%-24s %u, %s\n", "  refused", (unsigned)number, gauge_refusal_text(number));
    printf("%-24s %s\n", "  estimate and distance", kept ? "unchanged" : "changed");
}

static uint32_t estimate_at(int32_t voltage)
{
    struct estimate estimate_before = estimate;
    uint8_t before[GAUGE_SAVED_LENGTH];

    memcpy(before, saved, sizeof saved);
    uint32_t number = gauge_estimate(saved, sizeof saved, voltage, &estimate.counts, &estimate.distance);
    if (number == GAUGE_OK)
        printf("%-24s %u counts, distance %ld\n", "  estimate", (unsigned)estimate.counts, (long)estimate.distance);
    else
        show_refused_estimate(number, &estimate_before);
    show_gauge("  asked", before);
    return number;
}

static bool is_far(void)
{
    int32_t limit = (int32_t)(shown_read().lmd / SETTING_PART);

    return estimate.distance > limit || estimate.distance < -limit;
}

/* An estimate is at most LMD, so that WRTNAC takes it as it is. AR is the host's again afterwards. */
static void set_by_estimate(void)
{
    unsigned ar = at_rate();

    write_at_rate(estimate.counts);
    must("WRTNAC", command(GAUGE_MODE_WRTNAC, GAUGE_KEY_WRTNAC));
    write_at_rate(ar);
    show("  NAC set");
}

void start_at(int32_t voltage)
{
    printf("%ld mV\n", (long)voltage);
    if (estimate_at(voltage) != GAUGE_OK)
        return;
    if (is_far())
        set_by_estimate();
    else
        show("  NAC left");
}
