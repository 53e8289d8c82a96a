/* Makes one kind of call a given number of times, for run, which takes the instructions of two such runs apart; or, for a kind of rest
 * that begins at DONE, prints the counts that one call loses: KIND TIMES, or KIND lost. */
#include "bench_pack.h"
#include "gauge.h"
#include "older_forms.h"

#include <stdbool.h>
#include <stdio.h>
#include <stdlib.h>
#include <string.h>

static uint8_t saved[GAUGE_SAVED_LENGTH];
static uint8_t converted[GAUGE_SAVED_LENGTH];
static uint8_t reply[GAUGE_REGISTERS];
static uint8_t command;
static uint16_t estimate;
static int32_t distance;

/* A gauge on its way from full, so that a window takes the discharge path and TTE, CAC and FCAC are divided out. */
static uint32_t start(void)
{
    uint32_t numbers = gauge_open(bench_pack, sizeof bench_pack, saved, sizeof saved);

    numbers |= gauge_window(saved, sizeof saved, 20, 4150, 1192);
    numbers |= gauge_window(saved, sizeof saved, -3000, 3600, 1192);
    return numbers;
}

/* A host about to set NAC: a preview then has a command to show. */
static uint32_t choose_wrtnac(void)
{
    uint32_t numbers = gauge_write(saved, sizeof saved, GAUGE_REG_AR, 0x64);

    numbers |= gauge_write(saved, sizeof saved, GAUGE_REG_MODE, GAUGE_MODE_WRTNAC);
    return numbers;
}

static uint32_t set_lmd(unsigned counts)
{
    uint32_t numbers = gauge_write(saved, sizeof saved, GAUGE_REG_AR, (uint8_t)(counts & 0xFF));

    numbers |= gauge_write(saved, sizeof saved, GAUGE_REG_AR + 1, (uint8_t)(counts >> 8));
    numbers |= gauge_write(saved, sizeof saved, GAUGE_REG_MODE, GAUGE_MODE_WRTLMD);
    numbers |= gauge_write(saved, sizeof saved, GAUGE_REG_CTRL, GAUGE_KEY_WRTLMD);
    return numbers;
}

/* The bench pack with GAF 3. */
static const uint8_t ageing_pack[GAUGE_CONFIGURATION_LENGTH] = {
    0x04, 0x5E, 0x77, 0x05, 0x21, 0x10, 0x00, 0x03, 0x6C, 0x15,
};

/* A gauge on its way from full with 39 cycles, which one window of the greatest current brings where LMD is one count: CAC is
 * compensated for age too. */
static uint32_t grow_old(void)
{
    uint32_t numbers = gauge_open(ageing_pack, sizeof ageing_pack, saved, sizeof saved);

    numbers |= set_lmd(1);
    numbers |= gauge_window(saved, sizeof saved, -GAUGE_CURRENT_MAX, 3600, 1192);
    numbers |= set_lmd(1024);
    numbers |= gauge_window(saved, sizeof saved, 20, 4150, 1192);
    numbers |= gauge_window(saved, sizeof saved, -3000, 3600, 1192);
    return numbers;
}

/* The bench pack with ILMD 255 and SD 15: from DONE no configuration leaks more. */
static const uint8_t leaking_pack[GAUGE_CONFIGURATION_LENGTH] = {
    0xFF, 0x5E, 0x77, 0x05, 0x2F, 0x10, 0x00, 0x00, 0x6C, 0x15,
};

/* The windows of a day, and of the longest rest, thirty days. */
enum { DAY = 16875, MONTH = GAUGE_REST_MAX };

/* A rest from DONE, named by the counts that it loses. */
struct rest {
    const char *kind;
    uint32_t windows;
    const uint8_t *pack;
    int32_t temperature;
};

static const struct rest rests[] = {
    {"rest-2-counts", DAY, bench_pack, 1192},
    {"rest-972-counts", DAY, leaking_pack, 1192},
    {"rest-13929-counts", DAY, leaking_pack, 1372},
    {"month-31-counts", MONTH, bench_pack, 1192},
    {"month-23656-counts", MONTH, leaking_pack, 1192},
    {"month-65231-counts", MONTH, leaking_pack, 1372},
};

/* NULL for a kind that is none of these. */
static const struct rest *rest_of(const char *kind)
{
    for (size_t i = 0; i < sizeof rests / sizeof rests[0]; i++)
        if (strcmp(kind, rests[i].kind) == 0)
            return &rests[i];
    return NULL;
}

/* The gauge at which each of these rests begins. */
static uint8_t at_done[GAUGE_SAVED_LENGTH];

static uint32_t bring_to_done(const uint8_t *pack)
{
    uint32_t numbers = gauge_open(pack, GAUGE_CONFIGURATION_LENGTH, at_done, sizeof at_done);

    numbers |= gauge_write(at_done, sizeof at_done, GAUGE_REG_MODE, GAUGE_MODE_DONE);
    numbers |= gauge_write(at_done, sizeof at_done, GAUGE_REG_CTRL, GAUGE_KEY_DONE);
    return numbers;
}

/* The copy is the caller's code, the same with empty calls, so that it cancels too. */
static uint32_t rest_from_done(uint32_t windows, int32_t temperature)
{
    memcpy(saved, at_done, sizeof saved);
    return gauge_rest(saved, sizeof saved, windows, temperature);
}

/* The numbers of all calls are joined, so that a refused call, which would be shorter, cannot pass unseen. */
#define REPEAT(call)                                                                                                                 \
    for (unsigned long i = 0; i < times; i++)                                                                                        \
        *numbers |= (call)

static bool repeat_from_done(const char *kind, unsigned long times, uint32_t *numbers)
{
    const struct rest *rest = rest_of(kind);

    if (rest == NULL)
        return false;
    *numbers |= bring_to_done(rest->pack);
    REPEAT(rest_from_done(rest->windows, rest->temperature));
    return true;
}

static bool repeat_convert(const char *kind, unsigned long times, uint32_t *numbers)
{
    if (strcmp(kind, "convert-1") == 0)
        REPEAT(gauge_convert(kept_form_1, sizeof kept_form_1, converted, sizeof converted));
    else if (strcmp(kind, "convert-2") == 0)
        REPEAT(gauge_convert(kept_form_2, sizeof kept_form_2, converted, sizeof converted));
    else if (strcmp(kind, "convert-3") == 0)
        REPEAT(gauge_convert(kept_form_3, sizeof kept_form_3, converted, sizeof converted));
    else if (strcmp(kind, "convert-4") == 0)
        REPEAT(gauge_convert(kept_form_4, sizeof kept_form_4, converted, sizeof converted));
    else if (strcmp(kind, "convert-5") == 0)
        REPEAT(gauge_convert(saved, sizeof saved, converted, sizeof converted));
    else
        return false;
    return true;
}

/* Calls on a gauge that other calls bring there first. */
static bool repeat_prepared(const char *kind, unsigned long times, uint32_t *numbers)
{
    if (strcmp(kind, "window-cycles") == 0) {
        *numbers |= set_lmd(1);
        REPEAT(gauge_window(saved, sizeof saved, -GAUGE_CURRENT_MAX, 3600, 1192));
    } else if (strcmp(kind, "read-aged") == 0) {
        *numbers |= grow_old();
        REPEAT(gauge_read(saved, sizeof saved, GAUGE_REG_CAC, 2, reply, sizeof reply, 0));
    } else if (strcmp(kind, "preview") == 0) {
        *numbers |= choose_wrtnac();
        REPEAT(gauge_preview(saved, sizeof saved, GAUGE_KEY_WRTNAC, reply, sizeof reply, &command));
    } else if (strcmp(kind, "estimate") == 0) {
        *numbers |= gauge_rest(saved, sizeof saved, GAUGE_ESTIMATE_REST_MIN, 1192);
        REPEAT(gauge_estimate(saved, sizeof saved, 3700, &estimate, &distance));
    } else
        return repeat_from_done(kind, times, numbers);
    return true;
}

/* False for a kind that is none. */
static bool repeat(const char *kind, unsigned long times, uint32_t *numbers)
{
    if (strcmp(kind, "open") == 0)
        REPEAT(gauge_open(bench_pack, sizeof bench_pack, saved, sizeof saved));
    else if (strcmp(kind, "window") == 0)
        REPEAT(gauge_window(saved, sizeof saved, -3000, 3600, 1192));
    else if (strcmp(kind, "read-2") == 0)
        REPEAT(gauge_read(saved, sizeof saved, GAUGE_REG_NAC, 2, reply, sizeof reply, 0));
    else if (strcmp(kind, "read-128") == 0)
        REPEAT(gauge_read(saved, sizeof saved, 0, GAUGE_REGISTERS, reply, sizeof reply, 0));
    else if (strcmp(kind, "write") == 0)
        REPEAT(gauge_write(saved, sizeof saved, GAUGE_REG_AR, 0x64));
    else if (strcmp(kind, "rest-1") == 0)
        REPEAT(gauge_rest(saved, sizeof saved, 1, 1192));
    else if (strcmp(kind, "rest-100") == 0)
        REPEAT(gauge_rest(saved, sizeof saved, 100, 1192));
    else if (strcmp(kind, "rest-16875") == 0)
        REPEAT(gauge_rest(saved, sizeof saved, DAY, 1192));
    else
        return repeat_convert(kind, times, numbers) || repeat_prepared(kind, times, numbers);
    return true;
}

static unsigned nac_of(const uint8_t *gauge, uint32_t *numbers)
{
    uint8_t nac[2];

    *numbers |= gauge_read(gauge, GAUGE_SAVED_LENGTH, GAUGE_REG_NAC, sizeof nac, nac, sizeof nac, 0);
    return gauge_pair(nac);
}

/* Prints the counts that one call of the kind loses. False for a kind that does not begin at DONE. */
static bool print_lost(const char *kind, uint32_t *numbers)
{
    const struct rest *rest = rest_of(kind);

    if (rest == NULL)
        return false;
    *numbers |= bring_to_done(rest->pack);
    *numbers |= rest_from_done(rest->windows, rest->temperature);
    unsigned before = nac_of(at_done, numbers);
    unsigned after = nac_of(saved, numbers);
    printf("%u\n", before - after);
    return true;
}

int main(int arguments, char **argument)
{
    if (arguments != 3)
        return 2;
    const char *kind = argument[1];
    uint32_t numbers = start();
    bool known;

    if (strcmp(argument[2], "lost") == 0)
        known = print_lost(kind, &numbers);
    else
        known = repeat(kind, strtoul(argument[2], NULL, 10), &numbers);
    if (!known)
        return 2;
    return numbers == GAUGE_OK ? 0 : 1;
}
