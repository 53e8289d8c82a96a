/*
 * Updates in the middle of a drive. The new firmware finds bytes in flash that an older version of the gauge kept, brings them over and the drive
 * goes on with the charge, the capacity and the run that it had.
 *
 * Version 1.0.0 kept form 1. SI alone, and STTE with it, differ after the update: that version cut SI to whole units in every window, so that a
 * steady load just above it was never shown.
 * Version 2.1.1 kept form 2, and every register goes on as it would have done.
 * Neither counted the windows of rests. The count begins with the update, and an estimate asks for a rest after it.
 * Version 3.0.0 kept form 3, with that count: the cell had rested for an hour, and an estimate is given at once.
 * None of the three counted cycles: CYCT begins with 0 at the update, however old the cell is.
 * Version 4.0.0 kept form 4, with CYCT and the drain of the cycle under way, which the drive after the update completes. Its count of rest windows had
 * stopped at 65535 after five days on the shelf: it is carried over as that number and goes on from it.
 */
#include "firmware.h"
#include "older_forms.h"
#include "saved_places.h"

#include <stdbool.h>
#include <stdio.h>
#include <stdlib.h>
#include <string.h>

enum { PARTS = 4, MOMENT_ROOM = 32 };

/* The drive after an update. */
static const struct part {
    const char *moment;
    unsigned count;
    int32_t current, voltage, temperature;
} parts[PARTS] = {
    {"standby", 60, -12, 3800, 1196},
    {"run", 40, -8000, 3500, 1192},
    {"run taught", 1, -8000, 3000, 1192},
    {"cradle again", 30, 5000, 3900, 1208},
};

/* What an older version kept, and what it showed: NAC, LMD, RSOC, FLAGS, CAC, TTE, SI, STTE. */
static const struct version {
    const char *name;
    const uint8_t *kept;
    size_t length;
    bool si_in_units;
    uint32_t rest_windows;     /* the count in the bytes; 0 where the form has none */
    unsigned cycles;           /* CYCT likewise */
    struct shown shown;        /* when it kept the bytes */
    struct shown after[PARTS]; /* where it went on with the drive itself */
    unsigned cycles_after;     /* CYCT at the end of that */
} versions[] = {
    {
        .name = "1.0.0",
        .kept = kept_form_1,
        .length = sizeof kept_form_1,
        .si_in_units = true,
        .shown = {545, 1024, 53, 20, 428, 9, 5, 6540},
        .after =
            {
                {544, 1024, 53, 20, 544, 2720, 5, 6528},
                {89, 1024, 8, 20, 0, 0, 5, 1068},
                {63, 1008, 6, 2, 0, 0, 5, 756},
                {276, 1008, 27, 128, 276, 65535, 5, 3312},
            },
    },
    {
        .name = "2.1.1",
        .kept = kept_form_2,
        .length = sizeof kept_form_2,
        .shown = {545, 1024, 53, 20, 545, 65535, 7, 4671},
        .after =
            {
                {544, 1024, 53, 20, 544, 2720, 12, 2720},
                {89, 1024, 8, 20, 0, 0, 12, 445},
                {63, 1008, 6, 2, 0, 0, 12, 315},
                {276, 1008, 27, 128, 276, 65535, 12, 1380},
            },
    },
    {
        .name = "3.0.0",
        .kept = kept_form_3,
        .length = sizeof kept_form_3,
        .rest_windows = 703,
        .shown = {545, 1024, 53, 20, 545, 65535, 7, 4671},
        .after =
            {
                {544, 1024, 53, 20, 544, 2720, 12, 2720},
                {89, 1024, 8, 20, 0, 0, 12, 445},
                {63, 1008, 6, 2, 0, 0, 12, 315},
                {276, 1008, 27, 128, 276, 65535, 12, 1380},
            },
    },
    {
        .name = "4.0.0",
        .kept = kept_form_4,
        .length = sizeof kept_form_4,
        .rest_windows = 65535,
        .cycles = 268,
        .shown = {544, 1024, 53, 20, 544, 65535, 7, 4662},
        .after =
            {
                {543, 1024, 53, 20, 543, 2715, 12, 2715},
                {88, 1024, 8, 20, 0, 0, 12, 440},
                {63, 1009, 6, 2, 0, 0, 12, 315},
                {276, 1009, 27, 128, 276, 65535, 12, 1380},
            },
        .cycles_after = 269,
    },
};

/*
 * What firmware does at every start with the bytes that it finds in flash. The first of them is the form and says how many there are. A
 * number that is no form of this version has length 0, which is refused with 14 as damaged bytes are: take another copy, or open anew.
 */
static uint32_t start(const uint8_t *flash)
{
    return gauge_convert(flash, gauge_form_length(flash[0]), saved, sizeof saved);
}

/* Every other call answers 14 to an older form. */
static void show_older_form(const uint8_t *flash)
{
    uint8_t copy[GAUGE_SAVED_LENGTH], nac[2];
    size_t length = gauge_form_length(flash[0]);
    char call[MOMENT_ROOM];

    memcpy(copy, flash, sizeof copy);
    snprintf(call, sizeof call, "read of form %u", (unsigned)flash[0]);
    show_refusal(call, gauge_read(copy, length, GAUGE_REG_NAC, 2, nac, sizeof nac, 0), copy, flash);
    snprintf(call, sizeof call, "window on form %u", (unsigned)flash[0]);
    show_refusal(call, gauge_window(copy, length, -12, 3800, 1196), copy, flash);
}

static uint32_t estimate(uint16_t *counts, int32_t *distance)
{
    return gauge_estimate(saved, sizeof saved, 3700, counts, distance);
}

/* The windows of a rest before the update count where that version counted them. */
static void show_estimate(const struct version *version)
{
    uint8_t before[GAUGE_SAVED_LENGTH];
    uint16_t counts = 0;
    int32_t distance = 0;

    memcpy(before, saved, sizeof saved);
    uint32_t number = estimate(&counts, &distance);
    if (version->rest_windows < GAUGE_ESTIMATE_REST_MIN) {
        show_refusal("estimate", number, saved, before);
        return;
    }
    must("gauge_estimate", number);
    printf("%-24s %u counts, distance %ld\n", "estimate", (unsigned)counts, (long)distance);
}

/* Ends the program unless it goes on as the older version. */
static void must_be(const char *what, const struct version *version, bool same)
{
    if (same)
        return;
    printf("%s: not as version %s\n", what, version->name);
    exit(EXIT_FAILURE);
}

/* The registers are those that the older version showed. */
static void must_go_on_as(const char *moment, const struct version *version, const struct shown *shown)
{
    struct shown now = shown_read();

    must_be(moment, version,
            now.nac == shown->nac && now.lmd == shown->lmd && now.rsoc == shown->rsoc && now.flags == shown->flags &&
                now.cac == shown->cac && now.tte == shown->tte &&
                (version->si_in_units || (now.si == shown->si && now.stte == shown->stte)));
}

static void show_host_bytes(void)
{
    printf("%-24s 0x%02X, %u\n", "MODE and AR", (unsigned)mode(), at_rate());
}

static void show_cycles(const char *moment, const struct version *version, unsigned of_version)
{
    printf("%-24s %u\n", moment, cycles());
    must_be(moment, version, cycles() == of_version);
}

/* The number is carried over as it was kept, and the next rest goes on from it. */
static void show_rest_windows(const struct version *version)
{
    uint8_t copy[GAUGE_SAVED_LENGTH];

    memcpy(copy, saved, sizeof copy);
    must("gauge_rest", gauge_rest(copy, sizeof copy, 1, 1192));
    printf("%-24s %lu, with one more %lu\n", "windows of rest", (unsigned long)saved_rest_count(saved),
           (unsigned long)saved_rest_count(copy));
    must_be("windows of rest", version, saved_rest_count(saved) == version->rest_windows);
}

static void show_by_version(const char *moment, const struct version *version, const struct shown *shown)
{
    char by_version[MOMENT_ROOM];

    snprintf(by_version, sizeof by_version, "%s by version %s", moment, version->name);
    shown_print(by_version, shown);
}

static void go_on(const struct part *part, const struct version *version, const struct shown *shown)
{
    windows(part->count, part->current, part->voltage, part->temperature);
    show(part->moment);
    show_by_version(" ", version, shown);
    must_go_on_as(part->moment, version, shown);
}

static void update(const struct version *version)
{
    uint8_t flash[GAUGE_SAVED_LENGTH] = {0};

    memcpy(flash, version->kept, version->length);
    show_by_version("kept", version, &version->shown);
    show_older_form(flash);
    must("gauge_convert", start(flash));
    show("converted");
    must_go_on_as("converted", version, &version->shown);
    show_host_bytes();
    show_cycles("CYCT", version, version->cycles);
    show_rest_windows(version);
    show_estimate(version);
    for (size_t i = 0; i < PARTS; i++)
        go_on(&parts[i], version, &version->after[i]);
    show_cycles("CYCT after the drive", version, version->cycles_after);
}

/* The new firmware keeps the newest form. At the next start that comes out of gauge_convert as it is, the windows of rest with it. */
static void show_next_start(void)
{
    uint8_t flash[GAUGE_SAVED_LENGTH];
    uint16_t counts;
    int32_t distance;

    must("gauge_rest", gauge_rest(saved, sizeof saved, GAUGE_ESTIMATE_REST_MIN, 1192));
    memcpy(flash, saved, sizeof saved);
    must("gauge_convert", start(flash));
    must("gauge_estimate", estimate(&counts, &distance));
    printf("%-24s form %u, gauge %s\n", "next start", (unsigned)flash[0],
           memcmp(saved, flash, sizeof saved) == 0 ? "unchanged" : "changed");
}

static void show_later_form(void)
{
    uint8_t flash[GAUGE_SAVED_LENGTH], before[GAUGE_SAVED_LENGTH];

    memcpy(flash, saved, sizeof saved);
    memcpy(before, saved, sizeof saved);
    flash[0] = GAUGE_FORM + 1;
    show_refusal("kept by a later version", start(flash), saved, before);
}

int main(void)
{
    shown_heading();
    for (size_t i = 0; i < sizeof versions / sizeof *versions; i++)
        update(&versions[i]);
    show_next_start();
    show_later_form();
    return EXIT_SUCCESS;
}
