/* Reads four bytes at an odd address. An ARMv6-M processor faults there; an ARMv7-M one reads them. For targets/run, which sees that the board on
 * which the calls are tried does fault: calls that agree there make no such access. */
#include <stdint.h>
#include <stdio.h>

int main(void)
{
    static _Alignas(4) uint8_t bytes[8] = {0, 1, 2, 3, 4, 5, 6, 7};
    volatile uintptr_t address = (uintptr_t)bytes + 1;
    uint32_t number = *(const volatile uint32_t *)address;

    printf("read %08lx\n", (unsigned long)number);
    return 0;
}
