#include "firmware.h"

#include <stdio.h>
#include <stdlib.h>
#include <string.h>

uint8_t saved[GAUGE_SAVED_LENGTH];

void must(const char *call, uint32_t number)
{
    if (number != GAUGE_OK) {
        printf("%s: refused %u (%s)\n", call, (unsigned)number, gauge_refusal_text(number));
        exit(EXIT_FAILURE);
    }
}

void windows(unsigned count, int32_t current, int32_t voltage, int32_t temperature)
{
    for (unsigned i = 0; i < count; i++)
        must("gauge_window", gauge_window(saved, sizeof saved, current, voltage, temperature));
}

uint8_t mode(void)
{
    uint8_t byte[1];

    must("gauge_read", gauge_read(saved, sizeof saved, GAUGE_REG_MODE, 1, byte, sizeof byte, 0));
    return byte[0];
}

void choose_command(uint8_t bit)
{
    uint8_t kept = (uint8_t)(mode() & ~GAUGE_MODE_COMMAND_BITS);

    must("gauge_write", gauge_write(saved, sizeof saved, GAUGE_REG_MODE, kept | bit));
}

uint32_t command(uint8_t bit, uint8_t key)
{
    choose_command(bit);
    return gauge_write(saved, sizeof saved, GAUGE_REG_CTRL, key);
}

static unsigned pair(enum gauge_register address)
{
    uint8_t bytes[2];

    must("gauge_read", gauge_read(saved, sizeof saved, address, sizeof bytes, bytes, sizeof bytes, 0));
    return gauge_pair(bytes);
}

unsigned at_rate(void)
{
    return pair(GAUGE_REG_AR);
}

unsigned cycles(void)
{
    return pair(GAUGE_REG_CYCT);
}

void write_at_rate(unsigned value)
{
    must("gauge_write", gauge_write(saved, sizeof saved, GAUGE_REG_AR, (uint8_t)(value % 256)));
    must("gauge_write", gauge_write(saved, sizeof saved, GAUGE_REG_AR + 1, (uint8_t)(value / 256)));
}

struct shown shown_of(const uint8_t *flags)
{
    return (struct shown){
        .nac = gauge_pair(flags + GAUGE_REG_NAC - GAUGE_REG_FLAGS),
        .lmd = gauge_pair(flags + GAUGE_REG_LMD - GAUGE_REG_FLAGS),
        .rsoc = flags[GAUGE_REG_RSOC - GAUGE_REG_FLAGS],
        .flags = flags[0],
        .cac = gauge_pair(flags + GAUGE_REG_CAC - GAUGE_REG_FLAGS),
        .tte = gauge_pair(flags + GAUGE_REG_TTE - GAUGE_REG_FLAGS),
        .si = gauge_pair(flags + GAUGE_REG_SI - GAUGE_REG_FLAGS),
        .stte = gauge_pair(flags + GAUGE_REG_STTE - GAUGE_REG_FLAGS),
    };
}

/* One read brings FLAGS to STTE. The host's frame has two bytes of its own before the registers, which the read keeps. */
struct shown shown_read(void)
{
    enum { first = GAUGE_REG_FLAGS, count = GAUGE_REG_STTE + 2 - GAUGE_REG_FLAGS, header = 2 };
    uint8_t frame[header + count] = {first, count};

    must("gauge_read", gauge_read(saved, sizeof saved, first, count, frame, sizeof frame, header));
    if (frame[0] != first || frame[1] != count) {
        printf("the frame's header changed\n");
        exit(EXIT_FAILURE);
    }
    return shown_of(frame + header);
}

void shown_heading(void)
{
    printf("%-24s %5s %5s %5s %5s %5s %5s %5s %5s\n", "", "NAC", "LMD", "RSOC", "FLAGS", "CAC", "TTE", "SI", "STTE");
}

void shown_print(const char *moment, const struct shown *shown)
{
    printf("%-24s %5u %5u %5u %5u %5u %5u %5u %5u\n", moment, shown->nac, shown->lmd, shown->rsoc, shown->flags, shown->cac, shown->tte,
           shown->si, shown->stte);
}

void show(const char *moment)
{
    struct shown shown = shown_read();

    shown_print(moment, &shown);
}

void show_gauge(const char *moment, const uint8_t *before)
{
    printf("%-24s gauge %s\n", moment, memcmp(saved, before, sizeof saved) == 0 ? "unchanged" : "changed");
}

void show_refusal(const char *call, uint32_t number, const uint8_t *gauge, const uint8_t *before)
{
    printf("%-24s refused %u, gauge %s\n", call, (unsigned)number,
           memcmp(gauge, before, GAUGE_SAVED_LENGTH) == 0 ? "unchanged" : "changed");
}
