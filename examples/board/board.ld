/* Where a board's flash and RAM lie: change the two lines of MEMORY for yours. 23 KiB of RAM are enough for this firmware. */
MEMORY
{
    FLASH (rx) : ORIGIN = 0x00000000, LENGTH = 256K
    RAM (rwx)  : ORIGIN = 0x20000000, LENGTH = 32K
}

ENTRY(reset)

SECTIONS
{
    .text : { KEEP(*(.vectors)) *(.text*) *(.rodata*) . = ALIGN(4); } >FLASH
    .exidx : { *(.ARM.exidx*) } >FLASH
    .data : { data_start = .; *(.data*) . = ALIGN(4); data_end = .; } >RAM AT>FLASH
    data_kept = LOADADDR(.data);
    .stacks (NOLOAD) : { *(.stacks) } >RAM
    .bss (NOLOAD) : { bss_start = .; *(.bss*) *(COMMON) . = ALIGN(4); bss_end = .; } >RAM
}
