/* The first timer of ARM's CMSDK on the MPS2 board: it counts down at 25 MHz, a tick in 40 ns. */
#include "timer.h"

struct cmsdk_timer {
    volatile uint32_t control, value, reload;
};

#define TIMER0 ((struct cmsdk_timer *)0x40000000)

void timer_start(void)
{
    TIMER0->reload = UINT32_MAX;
    TIMER0->value = UINT32_MAX;
    TIMER0->control = 1;
}

uint32_t timer_ticks(void)
{
    return UINT32_MAX - TIMER0->value;
}
