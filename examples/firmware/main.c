/*
 * A drive as a handset's firmware would run it on the bench pack. The numbers printed are fixed by the rules of the gauge alone;
 * expected.txt holds them, worked out by another implementation.
 */
#include "bench_pack.h"
#include "firmware.h"
#include "saved_places.h"

#include <stdio.h>
#include <stdlib.h>
#include <string.h>

static void show_refusals(void)
{
    uint8_t before[GAUGE_SAVED_LENGTH], reply[4] = {0};
    uint32_t number;

    memcpy(before, saved, sizeof saved);
    number = gauge_window(saved, sizeof saved, 28012, 3600, 1192);
    show_refusal("current 28012", number, saved, before);
    number = gauge_window(saved, sizeof saved, -100, 2599, 1192);
    show_refusal("voltage 2599", number, saved, before);
    number = gauge_window(saved, sizeof saved, -100, 3600, 1373);
    show_refusal("temperature 1373", number, saved, before);
    number = gauge_rest(saved, sizeof saved, 0, 1192);
    show_refusal("rest 0", number, saved, before);
    number = gauge_write(saved, sizeof saved, GAUGE_REG_ARTTE, 1);
    show_refusal("write to ARTTE", number, saved, before);
    number = gauge_write(saved, sizeof saved, GAUGE_REG_CTRL, GAUGE_KEY_DONE);
    show_refusal("key without command", number, saved, before);
    number = gauge_read(saved, sizeof saved, 0x7F, 2, reply, sizeof reply, 0);
    show_refusal("read 0x7F, 2", number, saved, before);
    number = gauge_read(saved, sizeof saved, GAUGE_REG_NAC, 2, reply, sizeof reply, 3);
    show_refusal("reply 4, place 3", number, saved, before);
}

/* Flips bits of a byte, as a bad flash cell would. */
static void show_damage(const char *field, size_t place, uint8_t bits)
{
    uint8_t damaged[GAUGE_SAVED_LENGTH], before[GAUGE_SAVED_LENGTH];

    memcpy(damaged, saved, sizeof saved);
    damaged[place] ^= bits;
    memcpy(before, damaged, sizeof damaged);
    show_refusal(field, gauge_window(damaged, sizeof damaged, -100, 3600, 1192), damaged, before);
}

static void show_damages(void)
{
    show_damage("another form", SAVED_FORM, 0x80);
    show_damage("charge above capacity", SAVED_CHARGE + SAVED_GRAINS_LENGTH - 1, 0x40);
    show_damage("drain without a run", SAVED_RUN_DRAIN, 0x01);
    show_damage("SI above its limit", SAVED_SI + SAVED_PAIR_LENGTH - 1, 0x02);
    show_damage("temperature of no range", SAVED_TEMP + SAVED_PAIR_LENGTH - 1, 0x80);
    show_damage("flag that is none", SAVED_FLAGS, 0x08);
    show_damage("cycle drain too great", SAVED_CYCLE_DRAIN + SAVED_GRAINS_LENGTH - 1, 0x01);
}

static void power_cut(void)
{
    uint8_t flash[GAUGE_SAVED_LENGTH], before[GAUGE_REGISTERS], after[GAUGE_REGISTERS];

    must("gauge_read", gauge_read(saved, sizeof saved, 0, GAUGE_REGISTERS, before, sizeof before, 0));
    memcpy(flash, saved, sizeof saved);
    memset(saved, 0, sizeof saved);

    /* Cleared bytes are no gauge, so the firmware takes the copy. Without a copy it would open a new gauge here. */
    uint32_t number = gauge_read(saved, sizeof saved, 0, GAUGE_REGISTERS, after, sizeof after, 0);
    printf("%-24s refused %u\n", "after the power cut", (unsigned)number);
    if (number == GAUGE_REFUSED_SAVED)
        memcpy(saved, flash, sizeof saved);

    must("gauge_read", gauge_read(saved, sizeof saved, 0, GAUGE_REGISTERS, after, sizeof after, 0));
    printf("%-24s registers %s\n", "copied back", memcmp(before, after, sizeof before) == 0 ? "equal" : "differ");
}

static void on_the_charger(void)
{
    must("gauge_open", gauge_open(bench_pack, sizeof bench_pack, saved, sizeof saved));
    show("opened");
    windows(1, 2, 3700, 1192);
    show("2 units count as 0");
    windows(1, 20, 4150, 1192);
    show("full by taper");
    windows(1, -3000, 3600, 1192);
    show("first drain");
}

/* Three rows, each with a stop on the cradle too short to fill the cell. */
static void rows(void)
{
    for (int row = 1; row <= 3; row++) {
        windows(60, -2800, 3650, 1200);
        printf("row %d\n", row);
        show("  off the cradle");
        windows(9, 4000, 3950, 1216);
        show("  cradle stop");
    }
}

/* SI settles at the standby load, so STTE comes to be the TTE of that load. */
static void standby(void)
{
    windows(40, -15, 3800, 1196);
    show("standby");
}

/* A rest counts no current and keeps SI. A handset that wakes in every window may make rests of one: the gauge ends the same. */
static void day_off(void)
{
    enum { DAY_WINDOWS = 16875 };
    uint8_t woken[GAUGE_SAVED_LENGTH];

    memcpy(woken, saved, sizeof woken);
    must("gauge_rest", gauge_rest(saved, sizeof saved, DAY_WINDOWS, 1180));
    show("a day off");
    for (int window = 0; window < DAY_WINDOWS; window++)
        must("gauge_rest", gauge_rest(woken, sizeof woken, 1, 1180));
    printf("%-24s gauge %s\n", "woken in every window", memcmp(woken, saved, sizeof woken) == 0 ? "equal" : "differs");
}

/* The charger reports that the cell is full; NAC is set to LMD and a run begins. */
static void done_by_the_host(void)
{
    must("DONE", command(GAUGE_MODE_DONE, GAUGE_KEY_DONE));
    show("DONE by the host");
    printf("%-24s 0x%02X\n", "MODE after DONE", (unsigned)mode());
}

/* A run from full to the first end-of-discharge voltage teaches the capacity, and CI is cleared. */
static void learning_run(void)
{
    windows(80, -8000, 3500, 1192);
    show("run");
    windows(1, -8000, 3000, 1192);
    show("run taught");
    windows(1, -8000, 2800, 1192);
    show("final voltage");
    windows(30, 5000, 3900, 1208);
    show("cradle again");
}

int main(void)
{
    shown_heading();
    on_the_charger();
    rows();
    standby();
    day_off();
    done_by_the_host();
    learning_run();
    show_refusals();
    show_damages();
    power_cut();
    windows(1, -3000, 3700, 1200);
    show("on the way again");
    return EXIT_SUCCESS;
}
