/* The deepest place of the stack that a call of each kind was seen to change, in bytes below the stack pointer before it: lines of a name and bytes. For
 * performance/targets, which sees that none is deeper than what stack.py gives. */
#include "bench_pack.h"
#include "older_forms.h"

#include <stdio.h>
#include <string.h>

enum { PAINTED = 1400, PAINT = 0xA5 };

static uint8_t saved[GAUGE_SAVED_LENGTH], other[GAUGE_SAVED_LENGTH], reply[GAUGE_REGISTERS];
static uint8_t command;
static uint16_t estimate;
static int32_t distance;
static uint32_t numbers;

static inline uintptr_t stack_pointer(void)
{
    uintptr_t at;

    __asm__ volatile("mov %0, sp" : "=r"(at));
    return at;
}

/* Paints what lies below the stack pointer. */
#define PAINT_BELOW(at)                                                                                                              \
    for (volatile uint8_t *byte = (volatile uint8_t *)((at) - PAINTED); (uintptr_t)byte < (at); byte++)                              \
        *byte = PAINT

static void report(const char *name, uintptr_t at)
{
    const volatile uint8_t *byte = (const volatile uint8_t *)(at - PAINTED);

    while ((uintptr_t)byte < at && *byte == PAINT)
        byte++;
    printf("%s %lu\n", name, (unsigned long)(at - (uintptr_t)byte));
}

#define DEEPEST(name, call)                                                                                                          \
    do {                                                                                                                             \
        uintptr_t at = stack_pointer();                                                                                              \
        PAINT_BELOW(at);                                                                                                             \
        numbers |= (call);                                                                                                           \
        report(name, at);                                                                                                            \
    } while (0)

int main(void)
{
    printf("painted %d\n", PAINTED); /* newlib's buffers are then there */
    DEEPEST("gauge_open", gauge_open(bench_pack, sizeof bench_pack, saved, sizeof saved));
    DEEPEST("gauge_window", gauge_window(saved, sizeof saved, 20, 4150, 1192));
    DEEPEST("gauge_window", gauge_window(saved, sizeof saved, -3000, 3600, 1192));
    DEEPEST("gauge_write", gauge_write(saved, sizeof saved, GAUGE_REG_MODE, GAUGE_MODE_DONE));
    DEEPEST("gauge_preview", gauge_preview(saved, sizeof saved, GAUGE_KEY_DONE, reply, sizeof reply, &command));
    DEEPEST("gauge_write", gauge_write(saved, sizeof saved, GAUGE_REG_CTRL, GAUGE_KEY_DONE));
    DEEPEST("gauge_rest", gauge_rest(saved, sizeof saved, GAUGE_REST_MAX, 1372));
    DEEPEST("gauge_read", gauge_read(saved, sizeof saved, GAUGE_REG_CAC, 2, reply, sizeof reply, 0));
    DEEPEST("gauge_read", gauge_read(saved, sizeof saved, 0, GAUGE_REGISTERS, reply, sizeof reply, 0));
    DEEPEST("gauge_read", gauge_read(saved, sizeof saved, GAUGE_REG_FLAGS, 20, reply, sizeof reply, 1));
    DEEPEST("gauge_estimate", gauge_estimate(saved, sizeof saved, 3700, &estimate, &distance));
    DEEPEST("gauge_convert", gauge_convert(kept_form_1, sizeof kept_form_1, other, sizeof other));
    return numbers == GAUGE_OK ? 0 : 1;
}
