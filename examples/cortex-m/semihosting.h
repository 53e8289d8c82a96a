/* ARM's semihosting: the debugger or emulator does what the program asks for at a breakpoint. Without one attached the processor stops there. */
#ifndef SEMIHOSTING_H
#define SEMIHOSTING_H

#include <stdint.h>

enum semihosting_operation {
    SEMIHOSTING_OPEN = 0x01,
    SEMIHOSTING_WRITE0 = 0x04,
    SEMIHOSTING_WRITE = 0x05,
    SEMIHOSTING_READ = 0x06,
    SEMIHOSTING_GET_COMMAND_LINE = 0x15,
    SEMIHOSTING_EXIT = 0x18
};

static inline intptr_t semihosting(enum semihosting_operation operation, const void *argument)
{
    register intptr_t r0 __asm__("r0") = (intptr_t)operation;
    register const void *r1 __asm__("r1") = argument;

    __asm__ volatile("bkpt 0xAB" : "+r"(r0) : "r"(r1) : "memory");
    return r0;
}

/* Ends the program. */
static inline void semihosting_exit(int status)
{
    const uintptr_t application_exit = 0x20026, run_time_error = 0x20023;

    semihosting(SEMIHOSTING_EXIT, (const void *)(status == 0 ? application_exit : run_time_error));
    for (;;)
        continue;
}

#endif
