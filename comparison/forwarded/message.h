/* A call that is made on another processor: what goes there and what comes back. Both are little-endian, and one message is under way at a time. */
#ifndef MESSAGE_H
#define MESSAGE_H

#include <stdint.h>

enum call { OPEN, CONVERT, WINDOW, REST, WRITE, READ, PREVIEW, ESTIMATE };

/* Longer than any buffer of the comparison. */
enum { BUFFER_ROOM = 512, NUMBERS = 4 };

/* What the answer has in the place of a call's number where bytes beside a buffer were changed. */
#define BESIDE_CHANGED UINT32_MAX

struct message {
    uint32_t call; /* in an answer the call's number */
    uint32_t numbers[NUMBERS];
    uint32_t first_length, second_length;
    uint8_t bytes[2 * BUFFER_ROOM]; /* the first buffer, then the second */
};

enum { HEAD_LENGTH = 4 * (1 + NUMBERS + 2) };

static inline uint32_t message_length(const struct message *message)
{
    return HEAD_LENGTH + message->first_length + message->second_length;
}

/* The numbers that a call is handed, and those that it hands out, which hold their values before. */
enum window_number { CURRENT, VOLTAGE, TEMPERATURE };
enum rest_number { WINDOWS, REST_TEMPERATURE };
enum write_number { WRITE_ADDRESS, VALUE };
enum read_number { READ_ADDRESS, COUNT, PLACE };
enum preview_number { KEY, COMMAND };
enum estimate_number { ESTIMATE_VOLTAGE, ESTIMATED, DISTANCE };

#endif
