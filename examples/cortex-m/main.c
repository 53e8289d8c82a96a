/*
 * A gauge in a Cortex-M's firmware: it is opened, fed one sample a window, and answers register reads of the host. On a handset the loop
 * waits for the converter's interrupt, the host's reads come over I2C or HDQ between two windows, and the 55 bytes are copied to
 * non-volatile memory.
 */
#include "console.h"
#include "gauge.h"
#include "samples.h"

/* The ten configuration bytes of the pack. */
static const uint8_t pack[GAUGE_CONFIGURATION_LENGTH] = {
    0x04, 0x5E, 0x77, 0x05, 0x21, 0x10, 0x00, 0x00, 0x6C, 0x15,
};

static uint8_t saved[GAUGE_SAVED_LENGTH];

/* A decimal number, right-aligned in the given places. */
static void write_number(unsigned number, unsigned places)
{
    char text[12];
    char *digit = text + sizeof text - 1;
    unsigned written = 0;

    *digit = '\0';
    do {
        *--digit = (char)('0' + number % 10);
        number /= 10;
        written++;
    } while (number > 0);
    for (; written < places; written++)
        *--digit = ' ';
    console_write(digit);
}

/* What the host asks for on the bus: this many registers from this one on. */
struct request {
    const char *name;
    uint8_t address, count;
};

static const struct request host[] = {
    {"NAC", GAUGE_REG_NAC, 2}, {"LMD", GAUGE_REG_LMD, 2}, {"RSOC", GAUGE_REG_RSOC, 1}, {"FLAGS", GAUGE_REG_FLAGS, 1}, {"TTE", GAUGE_REG_TTE, 2},
};

enum { REQUESTS = sizeof host / sizeof host[0] };

/* One read of the host: the reply's bytes would go out on the bus. */
static uint32_t answer(const struct request *request)
{
    uint8_t reply[2] = {0, 0};
    uint32_t number = gauge_read(saved, sizeof saved, request->address, request->count, reply, sizeof reply, 0);

    if (number != GAUGE_OK)
        return number;
    console_write("  ");
    console_write(request->name);
    write_number(gauge_pair(reply), 6);
    return GAUGE_OK;
}

static uint32_t answer_all(unsigned windows)
{
    uint32_t number = GAUGE_OK;

    console_write("window ");
    write_number(windows, 4);
    for (unsigned i = 0; i < REQUESTS && number == GAUGE_OK; i++)
        number = answer(&host[i]);
    console_write("\n");
    return number;
}

static int failed(const char *call, uint32_t number)
{
    console_write(call);
    console_write(" refused: ");
    console_write(gauge_refusal_text(number));
    console_write("\n");
    return 1;
}

int main(void)
{
    enum { WINDOWS_BETWEEN_READS = 150 };
    struct sample sample;
    unsigned windows = 0;
    uint32_t number = gauge_open(pack, sizeof pack, saved, sizeof saved);

    if (number != GAUGE_OK)
        return failed("gauge_open", number);
    while (samples_next(&sample)) {
        windows++;
        number = gauge_window(saved, sizeof saved, sample.current, sample.voltage, sample.temperature);
        if (number != GAUGE_OK)
            failed("gauge_window", number); /* the gauge is as it was: the next sample goes on from there */
        if (windows % WINDOWS_BETWEEN_READS != 1)
            continue;
        number = answer_all(windows);
        if (number != GAUGE_OK)
            return failed("gauge_read", number);
    }
    number = answer_all(windows);
    return number == GAUGE_OK ? 0 : failed("gauge_read", number);
}
