#include "table.h"

#include "words.h"

#include <assert.h>
#include <inttypes.h>
#include <stdio.h>
#include <string.h>

enum { TIME_ROOM = 32, NUMBER_WIDTH = 6, BYTES_A_LINE = 16 };

/* 25 windows of 5.12 s are 128 s to the hundredth. */
enum { WINDOW_HUNDREDTHS = 512, WHOLE_WINDOWS = 25, WHOLE_SECONDS = 128 };

/* Of a gauge that comes from an opening. A gauge made up by hand and loaded may have more flags, and its row is then longer. */
enum { FLAGS_WIDTH = sizeof "CI+EDV1+EDVF" - 1, FLAGS_ROOM = sizeof "CHGS+CI+VDQ+EDV1+EDVF" };

enum shown_as { DECIMAL, HEXADECIMAL, FLAG_NAMES };

struct column {
    const char *name;
    enum gauge_register address;
    int bytes;
    enum shown_as shown_as;
};

/* Without --all the first ones. */
enum { USUAL_COLUMNS = 6 };

static const struct column columns[] = {
    {"NAC", GAUGE_REG_NAC, 2, DECIMAL},
    {"LMD", GAUGE_REG_LMD, 2, DECIMAL},
    {"RSOC", GAUGE_REG_RSOC, 1, DECIMAL},
    {"FLAGS", GAUGE_REG_FLAGS, 1, FLAG_NAMES},
    {"CAC", GAUGE_REG_CAC, 2, DECIMAL},
    {"TTE", GAUGE_REG_TTE, 2, DECIMAL},
    {"MODE", GAUGE_REG_MODE, 1, HEXADECIMAL},
    {"AR", GAUGE_REG_AR, 2, DECIMAL},
    {"ARTTE", GAUGE_REG_ARTTE, 2, DECIMAL},
    {"TEMP", GAUGE_REG_TEMP, 2, DECIMAL},
    {"VOLT", GAUGE_REG_VOLT, 2, DECIMAL},
    {"FCAC", GAUGE_REG_FCAC, 2, DECIMAL},
    {"IAV", GAUGE_REG_IAV, 2, DECIMAL},
    {"TTF", GAUGE_REG_TTF, 2, DECIMAL},
    {"SI", GAUGE_REG_SI, 2, DECIMAL},
    {"STTE", GAUGE_REG_STTE, 2, DECIMAL},
    {"CEDV", GAUGE_REG_CEDV, 2, DECIMAL},
    {"CYCT", GAUGE_REG_CYCT, 2, DECIMAL},
};

static const struct {
    unsigned bit;
    const char *name;
} flags[] = {
    {GAUGE_FLAG_CHGS, "CHGS"}, {GAUGE_FLAG_CI, "CI"},     {GAUGE_FLAG_VDQ, "VDQ"},
    {GAUGE_FLAG_EDV1, "EDV1"}, {GAUGE_FLAG_EDVF, "EDVF"},
};

static int column_width(const struct column *column)
{
    int name = (int)strlen(column->name);
    int value = column->bytes == 2 ? 5 : 3;

    if (column->shown_as == FLAG_NAMES)
        value = FLAGS_WIDTH;
    return name > value ? name : value;
}

/* Answers the text's length. A repeat in a repeat with hundreds of months in it has more hundredths than 64 bits hold, but not more seconds. */
static int time_text(uint64_t windows, char text[TIME_ROOM])
{
    uint64_t hundredths = windows % WHOLE_WINDOWS * WINDOW_HUNDREDTHS;
    uint64_t seconds = windows / WHOLE_WINDOWS * WHOLE_SECONDS + hundredths / 100, minutes = seconds / 60;

    return snprintf(text, TIME_ROOM, "%" PRIu64 ":%02u:%02u.%02u", minutes / 60, (unsigned)(minutes % 60),
                    (unsigned)(seconds % 60), (unsigned)(hundredths % 100));
}

static void flags_text(unsigned byte, char text[FLAGS_ROOM])
{
    text[0] = '\0';
    for (size_t i = 0; i < sizeof flags / sizeof *flags; i++)
        if ((byte & flags[i].bit) != 0) {
            if (text[0] != '\0')
                strcat(text, "+");
            strcat(text, flags[i].name);
        }
    if (text[0] == '\0')
        strcpy(text, "-");
}

static void print_register(const struct column *column, const uint8_t *registers)
{
    const uint8_t *place = registers + column->address;
    unsigned value = column->bytes == 2 ? gauge_pair(place) : *place;
    char names[FLAGS_ROOM];

    switch (column->shown_as) {
    case DECIMAL:
        printf(" %*u", column_width(column), value);
        break;
    case HEXADECIMAL:
        printf(" 0x%02X", value);
        break;
    case FLAG_NAMES:
        flags_text(value, names);
        printf(" %*s", column_width(column), names);
        break;
    }
}

static void print_registers(const struct table *table, const uint8_t *registers)
{
    for (size_t i = 0; i < table->columns; i++)
        print_register(&columns[i], registers);
}

static void print_no_registers(const struct table *table)
{
    for (size_t i = 0; i < table->columns; i++)
        printf(" %*s", column_width(&columns[i]), "-");
}

static void print_read(uint32_t address, uint32_t count, const uint8_t *reply)
{
    for (uint32_t from = 0; from < count; from += BYTES_A_LINE) {
        uint32_t left = count - from;
        printf("# 0x%02X:", (unsigned)(address + from));
        bytes_print(stdout, reply + from, left < BYTES_A_LINE ? left : BYTES_A_LINE);
        putchar('\n');
    }
}

/* The registers stand under their headings. */
static void print_preview(const struct table *table, const struct reply *reply)
{
    printf("#%*s", table->time_width + NUMBER_WIDTH, "would be");
    print_registers(table, reply->registers);
    printf(" by %s\n", gauge_command_name(reply->command));
}

/* The estimate stands under NAC, from which its distance is. */
static void print_estimate(const struct table *table, const struct reply *reply)
{
    printf("#%*s %*u distance %" PRId32 "\n", table->time_width + NUMBER_WIDTH, "estimate", column_width(&columns[0]),
           (unsigned)reply->estimate, reply->distance);
}

void table_begin(struct table *table, bool all, uint64_t most_windows)
{
    char longest[TIME_ROOM];

    *table = (struct table){.columns = all ? sizeof columns / sizeof *columns : USUAL_COLUMNS};
    table->time_width = time_text(most_windows, longest);
    printf("%*s %*s", table->time_width, "time", NUMBER_WIDTH, "number");
    for (size_t i = 0; i < table->columns; i++)
        printf(" %*s", column_width(&columns[i]), columns[i].name);
    printf(" call\n");
}

void table_count(struct table *table, const struct call *call, uint32_t number)
{
    table->calls++;
    if (number == GAUGE_OK)
        return;
    assert(number <= LAST_REFUSAL);
    table->refused++;
    if (table->refusals[number].count++ == 0)
        table->refusals[number].first = call->place;
}

/* What an accepted call handed out. */
static void print_reply(const struct table *table, const struct call *call, const struct reply *reply)
{
    if (call->kind == CALL_READ)
        print_read((uint32_t)call->numbers[0], (uint32_t)call->numbers[1], reply->registers);
    if (call->kind == CALL_ESTIMATE)
        print_estimate(table, reply);
    if (call->previewed)
        print_preview(table, reply);
}

/* Time, number and registers, with a space after them. */
static void print_standing(const struct table *table, uint32_t number, const struct run *run)
{
    uint8_t registers[GAUGE_REGISTERS];
    char time[TIME_ROOM];

    time_text(run->windows, time);
    printf("%*s %*u", table->time_width, time, NUMBER_WIDTH, (unsigned)number);
    if (gauge_read(run->saved, sizeof run->saved, 0, GAUGE_REGISTERS, registers, sizeof registers, 0) == GAUGE_OK)
        print_registers(table, registers);
    else
        print_no_registers(table);
    putchar(' ');
}

void table_row(struct table *table, const struct call *call, uint32_t number, const struct run *run, const struct reply *reply)
{
    print_standing(table, number, run);
    call_print(call);
    if (number == GAUGE_OK)
        print_reply(table, call, reply);
    table_count(table, call, number);
}

void table_repeat(uint32_t rounds)
{
    printf("# repeat %u\n", (unsigned)rounds);
}

void table_round(const struct table *table, uint32_t round, uint32_t rounds, uint32_t number, const struct run *run)
{
    print_standing(table, number, run);
    printf("round %u of %u\n", (unsigned)round, (unsigned)rounds);
}

void table_end(const struct table *table)
{
    printf("# %zu call%s, ", table->calls, table->calls == 1 ? "" : "s");
    if (table->refused == 0) {
        printf("none refused\n");
        return;
    }
    printf("%zu refused\n", table->refused);
    for (uint32_t number = 0; number <= LAST_REFUSAL; number++) {
        const struct refusals *refusals = &table->refusals[number];
        if (refusals->count > 0)
            printf("# refused with %u (%s): %zu, first %s:%zu\n", (unsigned)number, gauge_refusal_text(number),
                   refusals->count, refusals->first.name, refusals->first.line);
    }
}
