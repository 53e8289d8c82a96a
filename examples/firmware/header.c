/*
 * Holds the header's limits, lengths, commands and configuration addresses to the gauge: what lies on a limit is accepted, and what lies
 * just beyond is refused with the limit's own number. The addresses of the other registers are held by replay, whose tables name them. The two
 * spellings of the version agree, and no two numbers have one text. What the header says of the saved bytes is held by header_saved.c.
 */
#include "bench_pack.h"
#include "gauge.h"

#include <stdio.h>
#include <string.h>

enum { CURRENT = -100, VOLTAGE = 3600, TEMPERATURE = 1192 };

static int failures;

static void fail(const char *what)
{
    printf("%s\n", what);
    failures++;
}

static void limit(const char *name, uint32_t on_it, uint32_t beyond, enum gauge_refusal refusal)
{
    if (on_it == GAUGE_OK && beyond == refusal)
        return;
    printf("%s: %u on the limit, %u beyond it (%s)\n", name, (unsigned)on_it, (unsigned)beyond, gauge_refusal_text(beyond));
    failures++;
}

static uint32_t open(size_t configuration_length, size_t saved_length)
{
    uint8_t configuration[GAUGE_CONFIGURATION_LENGTH + 1] = {0}, saved[GAUGE_SAVED_LENGTH + 1];

    memcpy(configuration, bench_pack, sizeof bench_pack);
    return gauge_open(configuration, configuration_length, saved, saved_length);
}

/* The calls below are each made on a new gauge. */
static uint32_t window(int32_t current, int32_t voltage, int32_t temperature)
{
    uint8_t saved[GAUGE_SAVED_LENGTH];
    uint32_t number = gauge_open(bench_pack, sizeof bench_pack, saved, sizeof saved);

    return number != GAUGE_OK ? number : gauge_window(saved, sizeof saved, current, voltage, temperature);
}

static uint32_t rest(uint32_t windows)
{
    uint8_t saved[GAUGE_SAVED_LENGTH];
    uint32_t number = gauge_open(bench_pack, sizeof bench_pack, saved, sizeof saved);

    return number != GAUGE_OK ? number : gauge_rest(saved, sizeof saved, windows, TEMPERATURE);
}

static uint32_t read(uint32_t count)
{
    uint8_t saved[GAUGE_SAVED_LENGTH], reply[GAUGE_REGISTERS + 1];
    uint32_t number = gauge_open(bench_pack, sizeof bench_pack, saved, sizeof saved);

    return number != GAUGE_OK ? number : gauge_read(saved, sizeof saved, 0, count, reply, sizeof reply, 0);
}

/* With AR 1, which WRTLMD needs. */
static uint32_t preview(enum gauge_command bit, enum gauge_key key, size_t reply_length, uint8_t *command)
{
    uint8_t saved[GAUGE_SAVED_LENGTH], reply[GAUGE_REGISTERS + 1];
    uint32_t number = gauge_open(bench_pack, sizeof bench_pack, saved, sizeof saved);

    if (number == GAUGE_OK)
        number = gauge_write(saved, sizeof saved, GAUGE_REG_AR, 1);
    if (number == GAUGE_OK)
        number = gauge_write(saved, sizeof saved, GAUGE_REG_MODE, (uint8_t)bit);
    return number != GAUGE_OK ? number : gauge_preview(saved, sizeof saved, (uint8_t)key, reply, reply_length, command);
}

static uint32_t preview_into(size_t reply_length)
{
    uint8_t command;

    return preview(GAUGE_MODE_WRTNAC, GAUGE_KEY_WRTNAC, reply_length, &command);
}

/* Each command by its bit and its key, and the number and the name by which a preview knows it. */
static const struct command {
    enum gauge_command bit;
    enum gauge_key key;
    enum gauge_command_number number;
    const char *name;
} commands[] = {
    {GAUGE_MODE_WRTNAC, GAUGE_KEY_WRTNAC, GAUGE_COMMAND_WRTNAC, "WRTNAC"},
    {GAUGE_MODE_DONE, GAUGE_KEY_DONE, GAUGE_COMMAND_DONE, "DONE"},
    {GAUGE_MODE_PRST, GAUGE_KEY_PRST, GAUGE_COMMAND_PRST, "PRST"},
    {GAUGE_MODE_FRST, GAUGE_KEY_FRST, GAUGE_COMMAND_FRST, "FRST"},
    {GAUGE_MODE_WRTLMD, GAUGE_KEY_WRTLMD, GAUGE_COMMAND_WRTLMD, "WRTLMD"},
};

static void command_numbers(void)
{
    for (size_t i = 0; i < sizeof commands / sizeof *commands; i++) {
        const struct command *expected = &commands[i];
        uint8_t command = 0;
        uint32_t number = preview(expected->bit, expected->key, GAUGE_REGISTERS, &command);
        if (number == GAUGE_OK && command == expected->number && strcmp(gauge_command_name(command), expected->name) == 0)
            continue;
        printf("%s: answered %u, command %u (%s)\n", expected->name, (unsigned)number, (unsigned)command, gauge_command_name(command));
        failures++;
    }
}

/* On a new gauge that has rested so long. */
static uint32_t estimate(uint32_t windows, int32_t voltage, uint16_t *counts)
{
    uint8_t saved[GAUGE_SAVED_LENGTH];
    int32_t distance;
    uint32_t number = gauge_open(bench_pack, sizeof bench_pack, saved, sizeof saved);

    if (number == GAUGE_OK)
        number = gauge_rest(saved, sizeof saved, windows, TEMPERATURE);
    return number != GAUGE_OK ? number : gauge_estimate(saved, sizeof saved, voltage, counts, &distance);
}

static uint32_t estimate_after(uint32_t windows)
{
    uint16_t counts;

    return estimate(windows, VOLTAGE, &counts);
}

static uint32_t estimate_at(int32_t voltage)
{
    uint16_t counts;

    return estimate(GAUGE_ESTIMATE_REST_MIN, voltage, &counts);
}

/* Between two entries of the table the lower one is taken. From 3600 to 3700 mV the next entry is several counts of the bench pack more. */
static void table_step(void)
{
    for (int32_t entry = 3600; entry < 3700; entry += GAUGE_ESTIMATE_VOLTAGE_STEP) {
        uint16_t on_it = 0, below_next = 0, next = 0;
        uint32_t number = estimate(GAUGE_ESTIMATE_REST_MIN, entry, &on_it);
        number |= estimate(GAUGE_ESTIMATE_REST_MIN, entry + GAUGE_ESTIMATE_VOLTAGE_STEP - 1, &below_next);
        number |= estimate(GAUGE_ESTIMATE_REST_MIN, entry + GAUGE_ESTIMATE_VOLTAGE_STEP, &next);
        if (number == GAUGE_OK && on_it == below_next && below_next < next)
            continue;
        printf("step of the table at %d mV: %u, %u, %u counts\n", (int)entry, (unsigned)on_it, (unsigned)below_next, (unsigned)next);
        failures++;
    }
}

/* Ten bytes that all differ, so that none can stand for another. */
static void configuration_addresses(void)
{
    static const enum gauge_register addresses[GAUGE_CONFIGURATION_LENGTH] = {
        GAUGE_REG_ILMD,  GAUGE_REG_SEDVF, GAUGE_REG_SEDV1, GAUGE_REG_ISLC,  GAUGE_REG_DMFSD,
        GAUGE_REG_TAPER, GAUGE_REG_PKCFG, GAUGE_REG_ID3,   GAUGE_REG_DCOMP, GAUGE_REG_TCOMP,
    };
    uint8_t pack[GAUGE_CONFIGURATION_LENGTH], saved[GAUGE_SAVED_LENGTH], shown[1];

    for (unsigned i = 0; i < GAUGE_CONFIGURATION_LENGTH; i++)
        pack[i] = (uint8_t)(i + 1);
    uint32_t number = gauge_open(pack, sizeof pack, saved, sizeof saved);
    for (unsigned i = 0; i < GAUGE_CONFIGURATION_LENGTH; i++) {
        number |= gauge_read(saved, sizeof saved, addresses[i], 1, shown, sizeof shown, 0);
        if (number == GAUGE_OK && shown[0] == pack[i])
            continue;
        printf("configuration byte %u is not at 0x%02X\n", i, (unsigned)addresses[i]);
        failures++;
    }
}

static void version(void)
{
    unsigned major = 0, minor = 0, rest_of_it = 0;

    if (sscanf(GAUGE_VERSION, "%u.%u.%u", &major, &minor, &rest_of_it) != 3 ||
        10000 * major + 100 * minor + rest_of_it != GAUGE_VERSION_NUMBER)
        fail("the version's two spellings differ");
}

/* Each number has a text of its own, and those beyond the last one share another. */
static void refusal_texts(void)
{
    enum { BEYOND = GAUGE_REFUSED_ESTIMATE_VOLTAGE + 1 };

    for (uint32_t number = GAUGE_OK; number <= BEYOND; number++)
        for (uint32_t other = GAUGE_OK; other < number; other++)
            if (strcmp(gauge_refusal_text(number), gauge_refusal_text(other)) == 0) {
                printf("%u and %u have one text\n", (unsigned)other, (unsigned)number);
                failures++;
            }
    if (strcmp(gauge_refusal_text(BEYOND), gauge_refusal_text(UINT32_MAX)) != 0)
        fail("a number beyond the last one has a text of its own");
}

static void limits_of_windows_and_rests(void)
{
    limit("greatest charge current", window(GAUGE_CURRENT_MAX, VOLTAGE, TEMPERATURE),
          window(GAUGE_CURRENT_MAX + 1, VOLTAGE, TEMPERATURE), GAUGE_REFUSED_CURRENT);
    limit("greatest discharge current", window(-GAUGE_CURRENT_MAX, VOLTAGE, TEMPERATURE),
          window(-GAUGE_CURRENT_MAX - 1, VOLTAGE, TEMPERATURE), GAUGE_REFUSED_CURRENT);
    limit("least voltage", window(CURRENT, GAUGE_VOLTAGE_MIN, TEMPERATURE), window(CURRENT, GAUGE_VOLTAGE_MIN - 1, TEMPERATURE),
          GAUGE_REFUSED_VOLTAGE);
    limit("greatest voltage", window(CURRENT, GAUGE_VOLTAGE_MAX, TEMPERATURE),
          window(CURRENT, GAUGE_VOLTAGE_MAX + 1, TEMPERATURE), GAUGE_REFUSED_VOLTAGE);
    limit("least temperature", window(CURRENT, VOLTAGE, GAUGE_TEMPERATURE_MIN), window(CURRENT, VOLTAGE, GAUGE_TEMPERATURE_MIN - 1),
          GAUGE_REFUSED_TEMPERATURE);
    limit("greatest temperature", window(CURRENT, VOLTAGE, GAUGE_TEMPERATURE_MAX),
          window(CURRENT, VOLTAGE, GAUGE_TEMPERATURE_MAX + 1), GAUGE_REFUSED_TEMPERATURE);
    limit("longest rest", rest(GAUGE_REST_MAX), rest(GAUGE_REST_MAX + 1), GAUGE_REFUSED_REST_LENGTH);
}

static void limits_of_lengths(void)
{
    limit("registers", read(GAUGE_REGISTERS), read(GAUGE_REGISTERS + 1), GAUGE_REFUSED_COUNT);
    limit("configuration", open(GAUGE_CONFIGURATION_LENGTH, GAUGE_SAVED_LENGTH),
          open(GAUGE_CONFIGURATION_LENGTH + 1, GAUGE_SAVED_LENGTH), GAUGE_REFUSED_CONFIGURATION_LENGTH);
    limit("saved bytes", open(GAUGE_CONFIGURATION_LENGTH, GAUGE_SAVED_LENGTH),
          open(GAUGE_CONFIGURATION_LENGTH, GAUGE_SAVED_LENGTH + 1), GAUGE_REFUSED_REPLY);
    limit("reply of a preview", preview_into(GAUGE_REGISTERS), preview_into(GAUGE_REGISTERS + 1), GAUGE_REFUSED_REPLY);
    limit("reply of a preview", preview_into(GAUGE_REGISTERS), preview_into(GAUGE_REGISTERS - 1), GAUGE_REFUSED_REPLY);
}

static void limits_of_an_estimate(void)
{
    limit("least rest before an estimate", estimate_after(GAUGE_ESTIMATE_REST_MIN), estimate_after(GAUGE_ESTIMATE_REST_MIN - 1),
          GAUGE_REFUSED_NOT_RESTED);
    limit("least voltage of an estimate", estimate_at(GAUGE_ESTIMATE_VOLTAGE_MIN), estimate_at(GAUGE_ESTIMATE_VOLTAGE_MIN - 1),
          GAUGE_REFUSED_ESTIMATE_VOLTAGE);
    limit("greatest voltage of an estimate", estimate_at(GAUGE_ESTIMATE_VOLTAGE_MAX), estimate_at(GAUGE_ESTIMATE_VOLTAGE_MAX + 1),
          GAUGE_REFUSED_ESTIMATE_VOLTAGE);
}

int main(void)
{
    version();
    limits_of_windows_and_rests();
    limits_of_lengths();
    limits_of_an_estimate();
    table_step();
    command_numbers();
    configuration_addresses();
    refusal_texts();
    return failures == 0 ? 0 : 1;
}
