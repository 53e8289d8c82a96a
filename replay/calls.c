#include "calls.h"

#include <string.h>

struct command {
    uint8_t bit;
    uint8_t key;
    bool takes_value;
};

static const struct command commands[CALL_KINDS] = {
    [CALL_NAC] = {GAUGE_MODE_WRTNAC, GAUGE_KEY_WRTNAC, true},
    [CALL_LMD] = {GAUGE_MODE_WRTLMD, GAUGE_KEY_WRTLMD, true},
    [CALL_DONE] = {GAUGE_MODE_DONE, GAUGE_KEY_DONE, false},
    [CALL_RESET] = {GAUGE_MODE_FRST, GAUGE_KEY_FRST, false},
    [CALL_PARTIAL] = {GAUGE_MODE_PRST, GAUGE_KEY_PRST, false},
};

static uint32_t write_value(uint8_t *saved, unsigned value)
{
    uint32_t number = gauge_write(saved, GAUGE_SAVED_LENGTH, GAUGE_REG_AR, (uint8_t)(value % 256));

    if (number != GAUGE_OK)
        return number;
    return gauge_write(saved, GAUGE_SAVED_LENGTH, GAUGE_REG_AR + 1, (uint8_t)(value / 256));
}

static uint32_t write_mode(uint8_t *saved, uint8_t bit)
{
    uint8_t mode;
    uint32_t number = gauge_read(saved, GAUGE_SAVED_LENGTH, GAUGE_REG_MODE, 1, &mode, 1, 0);

    if (number != GAUGE_OK)
        return number;
    mode = (uint8_t)((mode & ~GAUGE_MODE_COMMAND_BITS) | bit);
    return gauge_write(saved, GAUGE_SAVED_LENGTH, GAUGE_REG_MODE, mode);
}

/* A copy of the saved bytes with AR and MODE as the host writes them before the command's key. */
static uint32_t prepare(const uint8_t *saved, const struct command *command, unsigned value, uint8_t copy[GAUGE_SAVED_LENGTH])
{
    uint32_t number = GAUGE_OK;

    memcpy(copy, saved, GAUGE_SAVED_LENGTH);
    if (command->takes_value)
        number = write_value(copy, value);
    return number != GAUGE_OK ? number : write_mode(copy, command->bit);
}

/* Several writes, refused as one: they work on a copy, so a key that is refused leaves AR and MODE as they were. */
static uint32_t give_command(uint8_t *saved, const struct command *command, unsigned value)
{
    uint8_t copy[GAUGE_SAVED_LENGTH];
    uint32_t number = prepare(saved, command, value, copy);

    if (number == GAUGE_OK)
        number = gauge_write(copy, sizeof copy, GAUGE_REG_CTRL, command->key);
    if (number == GAUGE_OK)
        memcpy(saved, copy, sizeof copy);
    return number;
}

static uint32_t preview_key(const uint8_t *saved, uint8_t key, struct reply *reply)
{
    return gauge_preview(saved, GAUGE_SAVED_LENGTH, key, reply->registers, sizeof reply->registers, &reply->command);
}

/* AR and MODE too are written on the copy alone. */
static uint32_t preview_command(const uint8_t *saved, const struct command *command, unsigned value, struct reply *reply)
{
    uint8_t copy[GAUGE_SAVED_LENGTH];
    uint32_t number = prepare(saved, command, value, copy);

    return number != GAUGE_OK ? number : preview_key(copy, command->key, reply);
}

static uint32_t make(const struct call *call, uint8_t *saved, struct reply *reply)
{
    const int64_t *numbers = call->numbers;

    switch (call->kind) {
    case CALL_OPEN:
        return gauge_open(call->bytes, call->length, saved, GAUGE_SAVED_LENGTH);
    case CALL_LOAD:
        return gauge_convert(call->bytes, call->length, saved, GAUGE_SAVED_LENGTH);
    case CALL_WINDOW:
        return gauge_window(saved, GAUGE_SAVED_LENGTH, (int32_t)numbers[0], (int32_t)numbers[1], (int32_t)numbers[2]);
    case CALL_REST:
        return gauge_rest(saved, GAUGE_SAVED_LENGTH, (uint32_t)numbers[0], (int32_t)numbers[1]);
    case CALL_WRITE:
        return gauge_write(saved, GAUGE_SAVED_LENGTH, (uint32_t)numbers[0], (uint8_t)numbers[1]);
    case CALL_READ:
        return gauge_read(saved, GAUGE_SAVED_LENGTH, (uint32_t)numbers[0], (uint32_t)numbers[1], reply->registers,
                          sizeof reply->registers, 0);
    case CALL_PREVIEW:
        return preview_key(saved, (uint8_t)numbers[0], reply);
    case CALL_ESTIMATE:
        return gauge_estimate(saved, GAUGE_SAVED_LENGTH, (int32_t)numbers[0], &reply->estimate, &reply->distance);
    default:
        if (call->previewed)
            return preview_command(saved, &commands[call->kind], (unsigned)numbers[0], reply);
        return give_command(saved, &commands[call->kind], (unsigned)numbers[0]);
    }
}

uint32_t call_make(const struct call *call, struct run *run, struct reply *reply)
{
    uint32_t number = make(call, run->saved, reply);

    if (number == GAUGE_OK && call->kind == CALL_WINDOW)
        run->windows++;
    if (number == GAUGE_OK && call->kind == CALL_REST)
        run->windows += (uint64_t)call->numbers[0];
    return number;
}
