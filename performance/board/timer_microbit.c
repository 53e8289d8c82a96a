/* The first timer of the micro:bit's nRF51: it counts up at 16 MHz, two ticks in 125 ns. */
#include "timer.h"

#define TIMER0(offset) (*(volatile uint32_t *)(0x40008000u + (offset)))

enum { TASK_START = 0x000, TASK_CLEAR = 0x00C, TASK_CAPTURE_0 = 0x040, BIT_MODE = 0x508, PRESCALER = 0x510, CAPTURED_0 = 0x540 };
enum { BITS_32 = 3 };

void timer_start(void)
{
    TIMER0(BIT_MODE) = BITS_32;
    TIMER0(PRESCALER) = 0;
    TIMER0(TASK_CLEAR) = 1;
    TIMER0(TASK_START) = 1;
}

uint32_t timer_ticks(void)
{
    TIMER0(TASK_CAPTURE_0) = 1;
    return TIMER0(CAPTURED_0);
}
