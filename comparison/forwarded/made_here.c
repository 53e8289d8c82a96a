/* Makes each call that comes in on the archive that this is linked with, and answers with its number, every byte of its buffers and the numbers handed
 * out. The buffers begin at odd addresses, with bytes beside them that no call may change. Ends where no more calls come. */
#include "gauge.h"
#include "message.h"
#include "pipes.h"

#include <stdbool.h>
#include <string.h>

enum { BESIDE = 15, BESIDE_BYTE = 0xC3 };

struct buffer {
    _Alignas(8) uint8_t before[BESIDE];
    uint8_t bytes[BUFFER_ROOM + BESIDE];
};

static struct message message;
static struct buffer first, second;

static void lend(struct buffer *buffer, const uint8_t *bytes, size_t length)
{
    memset(buffer->before, BESIDE_BYTE, sizeof buffer->before);
    memcpy(buffer->bytes, bytes, length);
    memset(buffer->bytes + length, BESIDE_BYTE, BESIDE);
}

static bool beside_kept(const struct buffer *buffer, size_t length)
{
    for (size_t i = 0; i < BESIDE; i++)
        if (buffer->before[i] != BESIDE_BYTE || buffer->bytes[length + i] != BESIDE_BYTE)
            return false;
    return true;
}

static uint32_t preview(uint32_t *numbers, size_t saved_length, size_t reply_length)
{
    uint8_t command = (uint8_t)numbers[COMMAND];
    uint32_t number = gauge_preview(first.bytes, saved_length, (uint8_t)numbers[KEY], second.bytes, reply_length, &command);

    numbers[COMMAND] = command;
    return number;
}

static uint32_t estimate(uint32_t *numbers, size_t saved_length)
{
    uint16_t counts = (uint16_t)numbers[ESTIMATED];
    int32_t distance = (int32_t)numbers[DISTANCE];
    uint32_t number = gauge_estimate(first.bytes, saved_length, (int32_t)numbers[ESTIMATE_VOLTAGE], &counts, &distance);

    numbers[ESTIMATED] = counts;
    numbers[DISTANCE] = (uint32_t)distance;
    return number;
}

static uint32_t made(enum call call, uint32_t *numbers, size_t length, size_t other)
{
    switch (call) {
    case OPEN:
        return gauge_open(first.bytes, length, second.bytes, other);
    case CONVERT:
        return gauge_convert(first.bytes, length, second.bytes, other);
    case WINDOW:
        return gauge_window(first.bytes, length, (int32_t)numbers[CURRENT], (int32_t)numbers[VOLTAGE], (int32_t)numbers[TEMPERATURE]);
    case REST:
        return gauge_rest(first.bytes, length, numbers[WINDOWS], (int32_t)numbers[REST_TEMPERATURE]);
    case WRITE:
        return gauge_write(first.bytes, length, numbers[WRITE_ADDRESS], (uint8_t)numbers[VALUE]);
    case READ:
        return gauge_read(first.bytes, length, numbers[READ_ADDRESS], numbers[COUNT], second.bytes, other, numbers[PLACE]);
    case PREVIEW:
        return preview(numbers, length, other);
    default:
        return estimate(numbers, length);
    }
}

static void answer(void)
{
    size_t length = message.first_length, other = message.second_length;

    lend(&first, message.bytes, length);
    lend(&second, message.bytes + length, other);
    message.call = made((enum call)message.call, message.numbers, length, other);
    if (!beside_kept(&first, length) || !beside_kept(&second, other))
        message.call = BESIDE_CHANGED;
    memcpy(message.bytes, first.bytes, length);
    memcpy(message.bytes + length, second.bytes, other);
}

/* A whole message; false at the end. */
static bool received(void)
{
    size_t have = 0;

    do {
        size_t got = pipes_read((uint8_t *)&message + have, sizeof message - have);

        if (got == 0)
            return false;
        have += got;
    } while (have < HEAD_LENGTH || have < message_length(&message));
    return true;
}

int main(void)
{
    while (received()) {
        answer();
        if (!pipes_write(&message, message_length(&message)))
            return 1;
    }
    return 0;
}
