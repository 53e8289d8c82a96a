/* ARM's MPS2 board with the Cortex-M4 of application note 386. */
MEMORY
{
    FLASH (rx) : ORIGIN = 0x00000000, LENGTH = 4M
    RAM (rwx) : ORIGIN = 0x20000000, LENGTH = 4M
}

INCLUDE sections.ld
