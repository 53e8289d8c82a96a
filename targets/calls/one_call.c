#include "one_call.h"

#include "gauges.h"
#include "random.h"

#include <string.h>

/* No call here has two random numbers among its arguments: in which order these are worked out is the compiler's choice. */

/* The gauge that the calls go on from: what the last successful one left. */
static uint8_t kept[GAUGE_SAVED_LENGTH];

static uint32_t converted[GAUGE_FORM + 1];

uint32_t converted_from(uint8_t form)
{
    return converted[form];
}

/* The bytes of a call: the gauge, at times damaged, in an older form or of another length. */
static void lend(struct lent *lent)
{
    random_bytes(lent->saved_whole, sizeof lent->saved_whole);
    random_bytes(lent->reply_whole, sizeof lent->reply_whole);
    lent->saved = lent->saved_whole + random_below(BESIDE);
    lent->reply = lent->reply_whole + random_below(BESIDE);
    memcpy(lent->saved, kept, sizeof kept);
    lent->saved_length = sizeof kept;
    lent->reply_length = random_once_in(8) ? random_below(REPLY_ROOM + 1) : GAUGE_REGISTERS;
    lent->command = (uint8_t)random_below(256);
    lent->estimate = (uint16_t)random_below(65536);
    lent->distance = (int32_t)random_number();
    if (random_once_in(10))
        gauges_damage(lent->saved);
    if (random_once_in(40))
        lent->saved_length = gauges_in_form(lent->saved, (uint8_t)(1 + random_below(GAUGE_FORM)));
    if (random_once_in(60))
        lent->saved_length = random_below(SAVED_ROOM + 1);
}

static uint32_t open(struct lent *lent)
{
    uint8_t pack[GAUGE_CONFIGURATION_LENGTH + 1];

    gauges_pack(pack);
    return gauge_open(pack, random_once_in(12) ? random_below(sizeof pack + 1) : GAUGE_CONFIGURATION_LENGTH, lent->saved, lent->saved_length);
}

/* The old bytes lie in the reply's room, so that saved is what the call fills. */
static uint32_t convert(struct lent *lent)
{
    uint8_t form = (uint8_t)(1 + random_below(GAUGE_FORM));
    size_t length = lent->saved_length;
    uint32_t number;

    memcpy(lent->reply, lent->saved, GAUGE_SAVED_LENGTH);
    if (length == GAUGE_SAVED_LENGTH)
        length = gauges_in_form(lent->reply, form);
    number = gauge_convert(lent->reply, length, lent->saved, random_once_in(16) ? random_below(SAVED_ROOM + 1) : GAUGE_SAVED_LENGTH);
    if (number == GAUGE_OK)
        converted[lent->reply[0]]++;
    return number;
}

/* Often at the edge of a band of the leak, or just below. */
static int32_t temperature(void)
{
    enum { FIRST_BAND = 1092, BAND = 40, BANDS = 7 };

    if (random_once_in(4))
        return (int32_t)(FIRST_BAND + BAND * random_below(BANDS) - random_below(2));
    return random_near(GAUGE_TEMPERATURE_MIN, GAUGE_TEMPERATURE_MAX);
}

static uint32_t window(struct lent *lent)
{
    int32_t within = random_once_in(3) ? 40 : GAUGE_CURRENT_MAX;
    int32_t current = random_near(-within, within);
    int32_t voltage = random_near(GAUGE_VOLTAGE_MIN, GAUGE_VOLTAGE_MAX);

    return gauge_window(lent->saved, lent->saved_length, current, voltage, temperature());
}

static uint32_t rest(struct lent *lent)
{
    int32_t most = random_once_in(16) ? GAUGE_REST_MAX : random_once_in(2) ? 1000 : 10;
    uint32_t windows = (uint32_t)random_near(1, most);

    return gauge_rest(lent->saved, lent->saved_length, windows, temperature());
}

static uint8_t key(void)
{
    return (uint8_t)(random_once_in(8) ? random_below(256) : random_once_in(4) ? GAUGE_KEY_WRTLMD : GAUGE_KEY_DONE);
}

static uint32_t write(struct lent *lent)
{
    static const uint8_t modes[] = {GAUGE_MODE_WRTNAC, GAUGE_MODE_DONE, GAUGE_MODE_PRST, GAUGE_MODE_FRST, GAUGE_MODE_WRTLMD, 0, 0xFF};
    uint32_t address = random_once_in(16) ? random_number() : random_below(5);
    uint8_t value = (uint8_t)(random_once_in(3) ? 0 : random_below(256));

    if (address == GAUGE_REG_CTRL)
        value = key();
    if (address == GAUGE_REG_MODE)
        value = random_once_in(4) ? value : modes[random_below(sizeof modes)];
    return gauge_write(lent->saved, lent->saved_length, address, value);
}

static uint32_t read(struct lent *lent)
{
    uint32_t address = (uint32_t)random_near(0, GAUGE_REGISTERS - 1);
    uint32_t count = random_once_in(4) ? (uint32_t)random_near(1, GAUGE_REGISTERS) : 1 + random_below(4);
    uint32_t place = random_once_in(4) ? (uint32_t)random_near(0, GAUGE_REGISTERS) : 0;

    if (random_once_in(4)) {
        address = 0;
        count = GAUGE_REGISTERS;
        place = 0;
    }
    return gauge_read(lent->saved, lent->saved_length, address, count, lent->reply, lent->reply_length, place);
}

static uint32_t preview(struct lent *lent)
{
    return gauge_preview(lent->saved, lent->saved_length, key(), lent->reply, lent->reply_length, &lent->command);
}

static uint32_t estimate(struct lent *lent)
{
    int32_t voltage = random_near(GAUGE_ESTIMATE_VOLTAGE_MIN, GAUGE_ESTIMATE_VOLTAGE_MAX);

    return gauge_estimate(lent->saved, lent->saved_length, voltage, &lent->estimate, &lent->distance);
}

/* Openings are rare, so that a gauge lives long. Estimates come after rests, several in a row: each shows one entry of a table of 301. */
static enum call chosen(enum call before, uint32_t number)
{
    static const enum call in_turn[] = {WINDOW, WINDOW, REST, WRITE, WRITE, READ, PREVIEW, ESTIMATE, CONVERT};

    if (number == GAUGE_OK && (before == REST || before == ESTIMATE) && !random_once_in(4))
        return ESTIMATE;
    return random_once_in(100) ? OPEN : in_turn[random_below(sizeof in_turn / sizeof in_turn[0])];
}

enum call one_call(struct lent *lent, uint32_t *number)
{
    static uint32_t (*const calls[CALLS_OF_C])(struct lent *) = {open, convert, window, rest, write, read, preview, estimate};
    static enum call call = OPEN;
    static uint32_t answered = GAUGE_OK;

    call = chosen(call, answered);
    lend(lent);
    answered = calls[call](lent);
    if (answered == GAUGE_OK)
        memcpy(kept, lent->saved, sizeof kept);
    *number = answered;
    return call;
}
