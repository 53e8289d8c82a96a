/*
 * A handset from a dealer's shelf, where it lay switched off from autumn to spring. When it is switched on, it works out from its clock how many
 * windows it slept and hands them over in rests of at most GAUGE_REST_MAX. Then it asks for the charge by its cell's voltage, and sets NAC where the
 * two are far apart: switched off, the handset draws a little for its clock, which no rest counts and which adds up in months.
 */
#include "bench_pack.h"
#include "estimate.h"
#include "firmware.h"

#include <inttypes.h>
#include <stdio.h>
#include <stdlib.h>

/* 25 windows of 5.12 s are 128 s: in 25ths of a second a window has a whole number of parts, so that no time is rounded away. */
enum { PARTS_A_SECOND = 25, PARTS_A_WINDOW = 128 };

/* A clock that says more, ten years, has lost the time. */
static const uint64_t longest_sleep = UINT64_C(3650) * 86400;

/* What the handset keeps beside the gauge, in the same memory. */
static struct asleep {
    uint64_t since;      /* seconds of the clock */
    int32_t temperature; /* the last one that was measured, quarter kelvins */
    unsigned left_over;  /* parts that were slept and not handed over, fewer than a window has */
} asleep;

/* Seconds since then by the clock. One that was set back, or that has lost the time, says nothing. */
static uint64_t seconds_slept(uint64_t now)
{
    return now < asleep.since || now - asleep.since > longest_sleep ? 0 : now - asleep.since;
}

/* The whole windows in so many seconds and in what was left over before. What is left over now is kept for the next sleep. */
static uint64_t windows_in(uint64_t seconds)
{
    unsigned parts = (unsigned)(seconds % PARTS_A_WINDOW) * PARTS_A_SECOND + asleep.left_over;

    asleep.left_over = parts % PARTS_A_WINDOW;
    return seconds / PARTS_A_WINDOW * PARTS_A_SECOND + parts / PARTS_A_WINDOW;
}

/* What was handed over to the gauge. */
struct rests {
    uint64_t windows;
    unsigned calls;
};

/* Any number of windows in rests that the gauge takes. Of 0 windows none is made, which would be refused with 6. */
static struct rests rest(uint64_t windows, int32_t temperature)
{
    struct rests made = {0, 0};

    while (made.windows < windows) {
        uint64_t left = windows - made.windows;
        uint32_t part = left < GAUGE_REST_MAX ? (uint32_t)left : GAUGE_REST_MAX;
        must("gauge_rest", gauge_rest(saved, sizeof saved, part, temperature));
        made.windows += part;
        made.calls++;
    }
    return made;
}

static void fall_asleep(uint64_t now, int32_t temperature)
{
    asleep.since = now;
    asleep.temperature = temperature;
}

/* Of the temperatures in between nothing is known. The warmer of the two that were measured takes more leak rather than less. */
static struct rests wake(uint64_t now, int32_t temperature)
{
    int32_t warmer = temperature > asleep.temperature ? temperature : asleep.temperature;

    return rest(windows_in(seconds_slept(now)), warmer);
}

static void show_rests(struct rests made)
{
    printf("%-24s %" PRIu64 " windows in %u rests, %u of %d parts left over\n", "  slept", made.windows, made.calls, asleep.left_over,
           (int)PARTS_A_WINDOW);
}

static void onto_the_shelf(uint64_t now)
{
    must("gauge_open", gauge_open(bench_pack, sizeof bench_pack, saved, sizeof saved));
    windows(1, 20, 4150, 1192);
    windows(60, -2800, 3650, 1200);
    show("onto the shelf");
    fall_asleep(now, 1140);
}

static void found_in_spring(uint64_t now)
{
    printf("found in spring\n");
    show_rests(wake(now, 1120));
    show("  after the rests");
    start_at(3747);
    windows(1, -3000, 3600, 1132);
    show("on the way");
}

/* Seven seconds are a window and a part of one. In 128 sleeps these parts are 47 windows, and what was left over before them is left over again. */
static void short_sleeps(uint64_t now)
{
    enum { SLEEPS = 128, SECONDS = 7 };
    struct rests all = {0, 0};

    for (int i = 0; i < SLEEPS; i++) {
        fall_asleep(now, 1132);
        now += SECONDS;
        struct rests made = wake(now, 1132);
        all.windows += made.windows;
        all.calls += made.calls;
    }
    printf("%d sleeps of %d s\n", (int)SLEEPS, (int)SECONDS);
    show_rests(all);
}

static void wrong_clocks(uint64_t now)
{
    printf("clock set back\n");
    fall_asleep(now, 1132);
    show_rests(wake(now - 1, 1132));
    printf("clock without the time\n");
    fall_asleep(now, 1132);
    show_rests(wake(UINT64_MAX, 1132));
}

int main(void)
{
    /* Seconds since 1970: the morning of 1 October 2026, and 180 days and an hour and a half later. */
    uint64_t autumn = UINT64_C(1790841600), spring = UINT64_C(1806399000);

    shown_heading();
    onto_the_shelf(autumn);
    found_in_spring(spring);
    short_sleeps(spring);
    wrong_clocks(spring);
    return EXIT_SUCCESS;
}
