/* Where a program's parts go on a board that defines FLASH and RAM: code and constants stay in FLASH, initial values are copied to RAM by start.c. */
ENTRY(reset)

SECTIONS
{
    .text : {
        KEEP(*(.vectors))
        *(.text .text.* .rodata .rodata.*)
        . = ALIGN(8);
    } >FLASH

    /* Unwinding tables of the C library, which nothing here uses. */
    .ARM.exidx : { *(.ARM.exidx .ARM.exidx.*) } >FLASH

    .data : ALIGN(8) {
        data_start = .;
        *(.data .data.*)
        . = ALIGN(8);
        data_end = .;
    } >RAM AT>FLASH
    data_initial = LOADADDR(.data);

    .bss (NOLOAD) : ALIGN(8) {
        bss_start = .;
        *(.bss .bss.* COMMON)
        . = ALIGN(8);
        bss_end = .;
    } >RAM

    end = .; /* where a C library's heap begins */
    stack_top = ORIGIN(RAM) + LENGTH(RAM);
    ASSERT(stack_top - end >= 3072, "less than 3 KB is left for the stack")
}
