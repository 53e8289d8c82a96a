/* Start-up of a Cortex-M: the vector table and what has to be done before main. The same for both boards. */
#include "console.h"

#include <stdint.h>

extern uint8_t data_initial[], data_start[], data_end[], bss_start[], bss_end[], stack_top[];

int main(void);
void reset(void);
void fault(void);

/* The compiler would make a call of memcpy or memset of these loops, which is as good. */
void reset(void)
{
    const uint8_t *from = data_initial;

    for (uint8_t *to = data_start; to < data_end; to++)
        *to = *from++;
    for (uint8_t *to = bss_start; to < bss_end; to++)
        *to = 0;
    console_end(main());
}

/* HardFault and all else: nothing here expects an interrupt. A handset would restart. */
void fault(void)
{
    console_write("fault\n");
    console_end(1);
}

/* The initial stack pointer, then the handlers of the 15 exceptions that every Cortex-M has. The board's interrupts follow; none is enabled here. */
struct vectors {
    uint8_t *stack;
    void (*handlers[15])(void);
};

__attribute__((section(".vectors"), used)) static const struct vectors vectors = {
    .stack = stack_top,
    .handlers = {reset, fault, fault, fault, fault, fault, fault, fault, fault, fault, fault, fault, fault, fault, fault},
};
