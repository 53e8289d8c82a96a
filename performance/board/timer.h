/* A timer of the board. The emulator moves it by instructions alone (-icount), so its ticks are a count of these. */
#ifndef TIMER_H
#define TIMER_H

#include <stdint.h>

void timer_start(void);

/* Ticks since the start, of 32 bits. */
uint32_t timer_ticks(void);

#endif
