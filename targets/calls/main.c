/*
 * Makes CALLS random calls from SEED and writes a record of each to standard output: which call, its number, every byte of both buffers and beside
 * them, and the numbers handed out. The same program on two targets writes the same bytes. It fails where a call gives a number that gauge.h
 * does not say, or where one that it says, or a form that is converted, was never met.
 */
#include "one_call.h"
#include "random.h"

#include <stdio.h>
#include <string.h>

enum { NUMBERS = GAUGE_REFUSED_ESTIMATE_VOLTAGE + 1, NUMBER_BYTES = 1 + 1 + 1 + 2 + 4 };

struct said {
    const char *name;
    uint32_t numbers; /* bit by bit */
};

#define BIT(number) (UINT32_C(1) << (number))

/* What gauge.h says that each call answers. */
static const struct said said[CALLS_OF_C] = {
    [OPEN] = {"gauge_open", BIT(0) | BIT(1) | BIT(2) | BIT(13)},
    [CONVERT] = {"gauge_convert", BIT(0) | BIT(14) | BIT(13)},
    [WINDOW] = {"gauge_window", BIT(0) | BIT(14) | BIT(3) | BIT(4) | BIT(5)},
    [REST] = {"gauge_rest", BIT(0) | BIT(14) | BIT(6) | BIT(5)},
    [WRITE] = {"gauge_write", BIT(0) | BIT(14) | BIT(7) | BIT(8) | BIT(9) | BIT(10) | BIT(11)},
    [READ] = {"gauge_read", BIT(0) | BIT(14) | BIT(12) | BIT(13)},
    [PREVIEW] = {"gauge_preview", BIT(0) | BIT(14) | BIT(8) | BIT(9) | BIT(10) | BIT(11) | BIT(13)},
    [ESTIMATE] = {"gauge_estimate", BIT(0) | BIT(14) | BIT(15) | BIT(16)},
};

static uint32_t met[CALLS_OF_C];

static void put(const void *bytes, size_t length)
{
    fwrite(bytes, 1, length, stdout);
}

static void put_record(enum call call, uint32_t number, const struct lent *lent)
{
    uint32_t distance = (uint32_t)lent->distance;
    uint8_t numbers[NUMBER_BYTES] = {
        (uint8_t)call, (uint8_t)number, lent->command, (uint8_t)lent->estimate, (uint8_t)(lent->estimate >> 8),
        (uint8_t)distance, (uint8_t)(distance >> 8), (uint8_t)(distance >> 16), (uint8_t)(distance >> 24),
    };

    put(numbers, sizeof numbers);
    put(lent->saved_whole, sizeof lent->saved_whole);
    put(lent->reply_whole, sizeof lent->reply_whole);
}

static int failed(const char *what, uint32_t number, const char *how)
{
    fprintf(stderr, "calls: %s: %lu %s\n", what, (unsigned long)number, how);
    return 1;
}

static int never_met(void)
{
    for (int call = 0; call < CALLS_OF_C; call++)
        for (uint32_t number = 0; number < NUMBERS; number++)
            if ((said[call].numbers & ~met[call] & BIT(number)) != 0)
                return failed(said[call].name, number, "was never met");
    for (uint8_t form = GAUGE_FORM_OLDEST; form <= GAUGE_FORM; form++)
        if (converted_from(form) == 0)
            return failed("form", form, "was never converted");
    return 0;
}

int main(void)
{
    static struct lent lent;

    random_begin(SEED);
    for (uint32_t i = 0; i < CALLS; i++) {
        uint32_t number;
        enum call call = one_call(&lent, &number);

        if (number >= NUMBERS || (said[call].numbers & BIT(number)) == 0)
            return failed(said[call].name, number, "is no number of this call");
        met[call] |= BIT(number);
        put_record(call, number, &lent);
    }
    if (fflush(stdout) != 0)
        return failed("standard output", 0, "cannot be written");
    return never_met();
}
