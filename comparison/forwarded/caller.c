/* The eight calls of gauge.h, each made on another processor: the comparison is linked with these. GAUGE_REQUESTS and GAUGE_ANSWERS name the pipes there. */
#include "gauge.h"
#include "message.h"

#include <fcntl.h>
#include <stdio.h>
#include <stdlib.h>
#include <string.h>
#include <unistd.h>

static struct message message;

static void failed(const char *what)
{
    fprintf(stderr, "caller: %s\n", what);
    exit(1);
}

static int opened(const char *variable, int how)
{
    const char *path = getenv(variable);
    int file = path == NULL ? -1 : open(path, how);

    if (file < 0)
        failed(variable);
    return file;
}

static void put(size_t place, const uint8_t *bytes, size_t length)
{
    if (length > BUFFER_ROOM)
        failed("a buffer is longer than the message has room for");
    if (length > 0)
        memcpy(message.bytes + place, bytes, length);
}

static void begin(enum call call, const uint8_t *first, size_t first_length, const uint8_t *second, size_t second_length)
{
    message.call = call;
    put(0, first, first_length);
    put(first_length, second, second_length);
    message.first_length = (uint32_t)first_length;
    message.second_length = (uint32_t)second_length;
}

/* Sends the message and waits for its answer, which has buffers of the same lengths. */
static uint32_t answered(void)
{
    static int requests = -1, answers = -1;
    size_t length = message_length(&message), have = 0;

    if (requests < 0) {
        requests = opened("GAUGE_REQUESTS", O_WRONLY);
        answers = opened("GAUGE_ANSWERS", O_RDONLY);
    }
    if (write(requests, &message, length) != (ssize_t)length)
        failed("a request cannot be written");
    while (have < length) {
        ssize_t got = read(answers, (uint8_t *)&message + have, length - have);

        if (got <= 0)
            failed("the other processor answers no more");
        have += (size_t)got;
    }
    return message.call;
}

static void take(size_t place, uint8_t *bytes, size_t length)
{
    if (length > 0)
        memcpy(bytes, message.bytes + place, length);
}

/* A buffer that a call only reads has to come back as it went. */
static void unchanged(const uint8_t *bytes, size_t length)
{
    if (length > 0 && memcmp(bytes, message.bytes, length) != 0)
        failed("a call changed bytes that it only reads");
}

uint32_t gauge_open(const uint8_t *configuration, size_t configuration_length, uint8_t *saved, size_t saved_length)
{
    begin(OPEN, configuration, configuration_length, saved, saved_length);
    uint32_t number = answered();

    unchanged(configuration, configuration_length);
    take(configuration_length, saved, saved_length);
    return number;
}

uint32_t gauge_convert(const uint8_t *old, size_t old_length, uint8_t *saved, size_t saved_length)
{
    begin(CONVERT, old, old_length, saved, saved_length);
    uint32_t number = answered();

    unchanged(old, old_length);
    take(old_length, saved, saved_length);
    return number;
}

uint32_t gauge_window(uint8_t *saved, size_t saved_length, int32_t current, int32_t voltage, int32_t temperature)
{
    begin(WINDOW, saved, saved_length, NULL, 0);
    message.numbers[CURRENT] = (uint32_t)current;
    message.numbers[VOLTAGE] = (uint32_t)voltage;
    message.numbers[TEMPERATURE] = (uint32_t)temperature;
    uint32_t number = answered();

    take(0, saved, saved_length);
    return number;
}

uint32_t gauge_rest(uint8_t *saved, size_t saved_length, uint32_t windows, int32_t temperature)
{
    begin(REST, saved, saved_length, NULL, 0);
    message.numbers[WINDOWS] = windows;
    message.numbers[REST_TEMPERATURE] = (uint32_t)temperature;
    uint32_t number = answered();

    take(0, saved, saved_length);
    return number;
}

uint32_t gauge_write(uint8_t *saved, size_t saved_length, uint32_t address, uint8_t value)
{
    begin(WRITE, saved, saved_length, NULL, 0);
    message.numbers[WRITE_ADDRESS] = address;
    message.numbers[VALUE] = value;
    uint32_t number = answered();

    take(0, saved, saved_length);
    return number;
}

uint32_t gauge_read(const uint8_t *saved, size_t saved_length, uint32_t address, uint32_t count, uint8_t *reply, size_t reply_length,
                    uint32_t place)
{
    begin(READ, saved, saved_length, reply, reply_length);
    message.numbers[READ_ADDRESS] = address;
    message.numbers[COUNT] = count;
    message.numbers[PLACE] = place;
    uint32_t number = answered();

    unchanged(saved, saved_length);
    take(saved_length, reply, reply_length);
    return number;
}

uint32_t gauge_preview(const uint8_t *saved, size_t saved_length, uint8_t key, uint8_t *reply, size_t reply_length, uint8_t *command)
{
    begin(PREVIEW, saved, saved_length, reply, reply_length);
    message.numbers[KEY] = key;
    message.numbers[COMMAND] = *command;
    uint32_t number = answered();

    unchanged(saved, saved_length);
    take(saved_length, reply, reply_length);
    *command = (uint8_t)message.numbers[COMMAND];
    return number;
}

uint32_t gauge_estimate(const uint8_t *saved, size_t saved_length, int32_t voltage, uint16_t *estimate, int32_t *distance)
{
    begin(ESTIMATE, saved, saved_length, NULL, 0);
    message.numbers[ESTIMATE_VOLTAGE] = (uint32_t)voltage;
    message.numbers[ESTIMATED] = *estimate;
    message.numbers[DISTANCE] = (uint32_t)*distance;
    uint32_t number = answered();

    unchanged(saved, saved_length);
    *estimate = (uint16_t)message.numbers[ESTIMATED];
    *distance = (int32_t)message.numbers[DISTANCE];
    return number;
}
