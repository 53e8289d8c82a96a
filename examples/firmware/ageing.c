/*
 * A handset of two seasons. The gauge counts cycles, one for each LMD of counts that was discharged, and its compensation grows with them: under load
 * an old cell gives less of its charge than a new one. The firmware has nothing to do for it but to choose GAF in ID3 when it opens the pack. Here
 * the first shift and one two seasons later have the same charge and the same load, and TTE promises less in the later one.
 */
#include "bench_pack.h"
#include "firmware.h"

#include <stdio.h>
#include <stdlib.h>
#include <string.h>

enum { SEASON_DAYS = 180, SHIFTS_A_DAY = 2 };

/* What is looked at in a shift, and how many windows apart: a shift of 85 minutes. */
enum { MOMENTS = 5, MOMENT_WINDOWS = 200 };

enum { LOAD = -560, NIGHT_WINDOWS = 11250, NIGHT_TEMPERATURE = 1152 };

/* The bench pack with the greatest GAF. With 0, as the bench pack itself has it, cycles are counted too, and the compensation is that of a new cell. */
static void open_pack(void)
{
    uint8_t pack[GAUGE_CONFIGURATION_LENGTH];

    memcpy(pack, bench_pack, sizeof pack);
    pack[GAUGE_REG_ID3 - GAUGE_REG_ILMD] |= GAUGE_ID3_GAF;
    must("gauge_open", gauge_open(pack, sizeof pack, saved, sizeof saved));
}

static void show_cycles(const char *moment)
{
    unsigned count = cycles();

    printf("%-24s CYCT %u, %u steps of age\n", moment, count, count / GAUGE_CYCLES_AN_AGE_STEP);
}

/* From the charger, which says that the cell is full. */
static void shift(struct shown moments[MOMENTS])
{
    must("DONE", command(GAUGE_MODE_DONE, GAUGE_KEY_DONE));
    for (size_t i = 0; i < MOMENTS; i++) {
        windows(MOMENT_WINDOWS, LOAD, 3650, 1200);
        moments[i] = shown_read();
    }
}

/* A charge counts no cycles, nor does a night's rest. */
static void season(void)
{
    struct shown moments[MOMENTS];

    for (int day = 0; day < SEASON_DAYS; day++) {
        for (int i = 0; i < SHIFTS_A_DAY; i++)
            shift(moments);
        must("gauge_rest", gauge_rest(saved, sizeof saved, NIGHT_WINDOWS, NIGHT_TEMPERATURE));
    }
}

static void show_side_by_side(const struct shown new_cell[MOMENTS], const struct shown old_cell[MOMENTS])
{
    printf("%-24s %5s %9s %5s %9s %5s\n", "a shift", "NAC", "new: CAC", "TTE", "old: CAC", "TTE");
    for (size_t i = 0; i < MOMENTS; i++) {
        if (old_cell[i].nac != new_cell[i].nac) {
            printf("the charge is not the same\n");
            exit(EXIT_FAILURE);
        }
        printf("  after %-4u windows     %5u %9u %5u %9u %5u\n", (unsigned)(i + 1) * MOMENT_WINDOWS, new_cell[i].nac, new_cell[i].cac,
               new_cell[i].tte, old_cell[i].cac, old_cell[i].tte);
    }
}

/* The cell is the same after PRST. FRST is for another one: the gauge is as opened, and its LMD and charge are to be found anew. */
static void resets(void)
{
    must("PRST", command(GAUGE_MODE_PRST, GAUGE_KEY_PRST));
    show_cycles("PRST");
    must("FRST", command(GAUGE_MODE_FRST, GAUGE_KEY_FRST));
    show_cycles("FRST, another cell");
}

int main(void)
{
    struct shown new_cell[MOMENTS], old_cell[MOMENTS];

    open_pack();
    show_cycles("opened");
    shift(new_cell);
    show_cycles("first shift");
    season();
    show_cycles("a season");
    season();
    show_cycles("two seasons");
    shift(old_cell);
    show_side_by_side(new_cell, old_cell);
    resets();
    shift(old_cell);
    printf("%-24s TTE %u after %u windows\n", "its first shift", old_cell[MOMENTS - 1].tte, (unsigned)MOMENTS * MOMENT_WINDOWS);
    return EXIT_SUCCESS;
}
