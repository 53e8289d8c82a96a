/*
 * A service menu in the middle of a drive. Staff set NAC and LMD by hand and look at the result first: gauge_preview says which command a key
 * would obey and how every register would stand after it, and the gauge is not moved. Only then the key is sent.
 */
#include "bench_pack.h"
#include "firmware.h"

#include <stdio.h>
#include <stdlib.h>
#include <string.h>

enum { SENSE_MILLIOHMS = 20 };

/* What the menu holds of the last preview that was not refused. */
static struct preview {
    uint8_t registers[GAUGE_REGISTERS];
    uint8_t command;
} preview;

/* A count is 3.57 uVh over the sense resistor; to the nearest tenth. */
static unsigned long tenths_of_mah(unsigned counts)
{
    return (3570ul * counts + 50 * SENSE_MILLIOHMS) / (100 * SENSE_MILLIOHMS);
}

static void show_charge(const char *name, unsigned now, unsigned then)
{
    unsigned long from = tenths_of_mah(now), to = tenths_of_mah(then);

    printf("%-24s %u -> %u counts, %lu.%lu -> %lu.%lu mAh\n", name, now, then, from / 10, from % 10, to / 10, to % 10);
}

static void show_preview(void)
{
    struct shown now = shown_read(), then = shown_of(preview.registers + GAUGE_REG_FLAGS);

    printf("%-24s %s\n", "  would be obeyed", gauge_command_name(preview.command));
    show_charge("  NAC", now.nac, then.nac);
    show_charge("  LMD", now.lmd, then.lmd);
    printf("%-24s %u -> %u percent\n", "  RSOC", now.rsoc, then.rsoc);
}

static void show_refused_preview(uint32_t number, const struct preview *before)
{
    printf("%-24s %u, %s\n", "  would be refused", (unsigned)number, gauge_refusal_text(number));
    printf("%-24s %s\n", "  reply and command", memcmp(&preview, before, sizeof preview) == 0 ? "unchanged" : "changed");
}

static void look(uint8_t key)
{
    struct preview preview_before = preview;
    uint8_t before[GAUGE_SAVED_LENGTH];

    memcpy(before, saved, sizeof saved);
    uint32_t number = gauge_preview(saved, sizeof saved, key, preview.registers, sizeof preview.registers, &preview.command);
    if (number == GAUGE_OK)
        show_preview();
    else
        show_refused_preview(number, &preview_before);
    show_gauge("  looked at", before);
}

/* AR and MODE are written before the look, as for the command itself. */
static void look_at_setting(uint8_t bit, unsigned value, uint8_t key)
{
    write_at_rate(value);
    choose_command(bit);
    look(key);
}

/* Decided against. No command bit is left in MODE for a key sent by mistake, and AR is the host's again. */
static void put_back(unsigned ar)
{
    choose_command(0);
    write_at_rate(ar);
}

/* The registers are then those that were looked at, all 128. */
static void send(uint8_t key)
{
    uint8_t registers[GAUGE_REGISTERS];

    must("gauge_write", gauge_write(saved, sizeof saved, GAUGE_REG_CTRL, key));
    must("gauge_read", gauge_read(saved, sizeof saved, 0, GAUGE_REGISTERS, registers, sizeof registers, 0));
    printf("%-24s registers %s\n", "  sent", memcmp(registers, preview.registers, sizeof registers) == 0 ? "equal" : "differ");
}

static void middle_of_a_drive(void)
{
    must("gauge_open", gauge_open(bench_pack, sizeof bench_pack, saved, sizeof saved));
    windows(1, 20, 4150, 1192);
    windows(100, -2800, 3650, 1200);
    write_at_rate(1000);
    show("middle of a drive");
}

static void set_nac(void)
{
    printf("NAC by hand: 400\n");
    look_at_setting(GAUGE_MODE_WRTNAC, 400, GAUGE_KEY_WRTNAC);
    send(GAUGE_KEY_WRTNAC);
    show("  NAC set");
}

/* 96 in place of 960 would make a cell of 39 percent a full one. */
static void decide_against(void)
{
    uint8_t before[GAUGE_SAVED_LENGTH];
    unsigned ar = at_rate();

    memcpy(before, saved, sizeof saved);
    printf("LMD by hand: 96, a slip\n");
    look_at_setting(GAUGE_MODE_WRTLMD, 96, GAUGE_KEY_WRTLMD);
    put_back(ar);
    show_gauge("  MODE and AR put back", before);
    show_refusal("  key all the same", gauge_write(saved, sizeof saved, GAUGE_REG_CTRL, GAUGE_KEY_WRTLMD), saved, before);
}

static void set_lmd(void)
{
    printf("LMD by hand: 960\n");
    look_at_setting(GAUGE_MODE_WRTLMD, 960, GAUGE_KEY_WRTLMD);
    send(GAUGE_KEY_WRTLMD);
    show("  LMD set");
}

static void look_at_refusals(void)
{
    unsigned ar = at_rate();

    printf("key that is none\n");
    look_at_setting(GAUGE_MODE_WRTNAC, 400, 0x57);
    printf("no command chosen\n");
    look_at_setting(0, 400, GAUGE_KEY_WRTNAC);
    printf("LMD with the key of NAC\n");
    look_at_setting(GAUGE_MODE_WRTLMD, 960, GAUGE_KEY_WRTNAC);
    printf("LMD by hand: 0\n");
    look_at_setting(GAUGE_MODE_WRTLMD, 0, GAUGE_KEY_WRTLMD);
    put_back(ar);
}

int main(void)
{
    shown_heading();
    middle_of_a_drive();
    set_nac();
    decide_against();
    set_lmd();
    look_at_refusals();
    windows(1, -3000, 3700, 1200);
    show("on the way again");
    return EXIT_SUCCESS;
}
