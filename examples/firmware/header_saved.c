/*
 * Holds what the header says of the saved bytes to the gauge: the forms and their lengths, where the counts of rest windows and of cycles stop, and
 * how the compensation ages with the cycles. Gauges of any age, and gauges that have rested for centuries, are made by putting the numbers into the
 * bytes, as no firmware should.
 */
#include "bench_pack.h"
#include "gauge.h"
#include "older_forms.h"
#include "saved_places.h"

#include <limits.h>
#include <stdbool.h>
#include <stdio.h>
#include <string.h>

enum { TEMPERATURE = 1192, GRAINS_A_COUNT = 135000000 };

static int failures;

static void fail(const char *what)
{
    printf("%s\n", what);
    failures++;
}

static void put(uint8_t *place, uint64_t number, size_t length)
{
    for (size_t i = 0; i < length; i++)
        place[i] = (uint8_t)(number >> 8 * i);
}

/* After a rest, the count of rest windows that was so many before it. */
static void rest_count(uint32_t before, uint32_t windows, uint32_t expected)
{
    uint8_t saved[GAUGE_SAVED_LENGTH] = {0};
    uint32_t number = gauge_open(bench_pack, sizeof bench_pack, saved, sizeof saved);

    put(saved + SAVED_REST_COUNT, before, SAVED_REST_COUNT_LENGTH);
    if (number == GAUGE_OK)
        number = gauge_rest(saved, sizeof saved, windows, TEMPERATURE);
    if (number == GAUGE_OK && saved_rest_count(saved) == expected)
        return;
    printf("%lu rest windows and %lu more: answered %u, counted %lu\n", (unsigned long)before, (unsigned long)windows, (unsigned)number,
           (unsigned long)saved_rest_count(saved));
    failures++;
}

/* 65535 is where the count stopped before form 5. */
static void rest_counts(void)
{
    rest_count(0, GAUGE_REST_MAX, GAUGE_REST_MAX);
    rest_count(65534, 1, 65535);
    rest_count(65535, 1, 65536);
    rest_count(GAUGE_REST_COUNT_MAX - GAUGE_REST_MAX - 1, GAUGE_REST_MAX, GAUGE_REST_COUNT_MAX - 1);
    rest_count(GAUGE_REST_COUNT_MAX - GAUGE_REST_MAX, GAUGE_REST_MAX, GAUGE_REST_COUNT_MAX);
    rest_count(GAUGE_REST_COUNT_MAX - GAUGE_REST_MAX + 1, GAUGE_REST_MAX, GAUGE_REST_COUNT_MAX);
    rest_count(GAUGE_REST_COUNT_MAX, GAUGE_REST_MAX, GAUGE_REST_COUNT_MAX);
}

static unsigned pair(const uint8_t *saved, enum gauge_register address)
{
    uint8_t bytes[2];

    if (gauge_read(saved, GAUGE_SAVED_LENGTH, address, sizeof bytes, bytes, sizeof bytes, 0) != GAUGE_OK)
        return UINT_MAX;
    return gauge_pair(bytes);
}

/* The bench pack with this ID3, full, after so many cycles and, but for a grain, one more. */
static uint32_t aged(uint8_t id3, unsigned cycles, uint8_t *saved)
{
    uint8_t pack[GAUGE_CONFIGURATION_LENGTH];

    memcpy(pack, bench_pack, sizeof pack);
    pack[GAUGE_REG_ID3 - GAUGE_REG_ILMD] = id3;
    uint32_t number = gauge_open(pack, sizeof pack, saved, GAUGE_SAVED_LENGTH);
    put(saved + SAVED_CYCLES, cycles, SAVED_PAIR_LENGTH);
    put(saved + SAVED_CYCLE_DRAIN, UINT64_C(1024) * GRAINS_A_COUNT - 1, SAVED_GRAINS_LENGTH);
    if (number == GAUGE_OK)
        number = gauge_write(saved, GAUGE_SAVED_LENGTH, GAUGE_REG_MODE, GAUGE_MODE_DONE);
    return number != GAUGE_OK ? number : gauge_write(saved, GAUGE_SAVED_LENGTH, GAUGE_REG_CTRL, GAUGE_KEY_DONE);
}

/* The least current that counts has more than the grain. */
static unsigned cycles_after_one_more(unsigned cycles)
{
    uint8_t saved[GAUGE_SAVED_LENGTH];
    uint32_t number = aged(0, cycles, saved);

    if (number == GAUGE_OK)
        number = gauge_window(saved, sizeof saved, -3, 3900, TEMPERATURE);
    return number != GAUGE_OK ? UINT_MAX : pair(saved, GAUGE_REG_CYCT);
}

static void cycle_counts(void)
{
    if (cycles_after_one_more(0) != 1 || cycles_after_one_more(GAUGE_CYCLES_MAX - 1) != GAUGE_CYCLES_MAX ||
        cycles_after_one_more(GAUGE_CYCLES_MAX) != GAUGE_CYCLES_MAX)
        fail("the count of cycles stops elsewhere");
}

/* CAC on a load that asks for compensation. The window counts no cycle, as it leaves no more than its own counts in the drain. */
static unsigned cac(uint8_t id3, unsigned cycles)
{
    uint8_t saved[GAUGE_SAVED_LENGTH];
    uint32_t number = aged(id3, cycles, saved);

    put(saved + SAVED_CYCLE_DRAIN, 0, SAVED_GRAINS_LENGTH);
    if (number == GAUGE_OK)
        number = gauge_window(saved, sizeof saved, -800, 3600, TEMPERATURE);
    return number != GAUGE_OK ? UINT_MAX : pair(saved, GAUGE_REG_CAC);
}

/* CAC falls with the first cycle of a step and stays with the others. */
static void age_steps(void)
{
    for (unsigned cycles = 1; cycles <= 8 * GAUGE_CYCLES_AN_AGE_STEP; cycles++) {
        unsigned before = cac(GAUGE_ID3_GAF, cycles - 1), now = cac(GAUGE_ID3_GAF, cycles);
        if (cycles % GAUGE_CYCLES_AN_AGE_STEP == 0 ? now < before : now == before)
            continue;
        printf("CYCT %u: CAC %u, %u the cycle before\n", cycles, now, before);
        failures++;
    }
}

/* Of ID3 these bits alone matter, each number of them ages faster than the one before, and 0 does not age. */
static void gaf(void)
{
    enum { CYCLES = 10 * GAUGE_CYCLES_AN_AGE_STEP };

    for (unsigned id3 = 0; id3 <= UINT8_MAX; id3++)
        if (cac((uint8_t)id3, CYCLES) != cac(id3 & GAUGE_ID3_GAF, CYCLES)) {
            printf("ID3 0x%02X: another bit than GAF ages\n", id3);
            failures++;
        }
    for (uint8_t number = 1; number <= GAUGE_ID3_GAF; number++)
        if (cac(number, CYCLES) >= cac((uint8_t)(number - 1), CYCLES))
            fail("a greater GAF ages no faster");
    if (cac(0, CYCLES) != cac(0, 0))
        fail("GAF 0 ages");
}

/* By form, up to the newest one, which is what gauge_open makes. */
static const struct {
    const uint8_t *bytes;
    size_t length;
} older_forms[GAUGE_FORM] = {
    [1] = {kept_form_1, sizeof kept_form_1},
    [2] = {kept_form_2, sizeof kept_form_2},
    [3] = {kept_form_3, sizeof kept_form_3},
    [4] = {kept_form_4, sizeof kept_form_4},
};

static bool is_form(unsigned number)
{
    return number >= GAUGE_FORM_OLDEST && number <= GAUGE_FORM;
}

/* Converts as many bytes as asked for of a gauge in that form. A number that is no form stands on a gauge of the newest one. */
static uint32_t convert(unsigned form, size_t length)
{
    uint8_t old[GAUGE_SAVED_LENGTH + 1] = {0}, saved[GAUGE_SAVED_LENGTH] = {0};

    if (length > sizeof old)
        return GAUGE_REFUSED_SAVED;
    if (is_form(form) && form != GAUGE_FORM)
        memcpy(old, older_forms[form].bytes, older_forms[form].length);
    else if (gauge_open(bench_pack, sizeof bench_pack, old, GAUGE_SAVED_LENGTH) != GAUGE_OK || old[0] != GAUGE_FORM)
        return GAUGE_REFUSED_SAVED;
    old[0] = (uint8_t)form;
    uint32_t number = gauge_convert(old, length, saved, sizeof saved);
    return number == GAUGE_OK && saved[0] != GAUGE_FORM ? GAUGE_REFUSED_SAVED : number;
}

/* Each form is taken in its own length alone and comes out as the newest one. The other numbers are no forms in any length. */
static void forms(void)
{
    for (unsigned number = 0; number <= UINT8_MAX; number++) {
        size_t own = gauge_form_length((uint8_t)number);
        if (is_form(number) != (own != 0)) {
            printf("form %u: length %u\n", number, (unsigned)own);
            failures++;
        }
        for (size_t length = 0; length <= GAUGE_SAVED_LENGTH + 1; length++) {
            uint32_t answer = convert(number, length);
            if (answer == (is_form(number) && length == own ? GAUGE_OK : GAUGE_REFUSED_SAVED))
                continue;
            printf("form %u in %u bytes: answered %u\n", number, (unsigned)length, (unsigned)answer);
            failures++;
        }
    }
}

int main(void)
{
    rest_counts();
    cycle_counts();
    age_steps();
    gaf();
    forms();
    return failures == 0 ? 0 : 1;
}
