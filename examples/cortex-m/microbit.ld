/* The BBC micro:bit with its nRF51822, a Cortex-M0. */
MEMORY
{
    FLASH (rx) : ORIGIN = 0x00000000, LENGTH = 256K
    RAM (rwx) : ORIGIN = 0x20000000, LENGTH = 16K
}

INCLUDE sections.ld
