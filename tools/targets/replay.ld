/* For replay.c and state.c on an emulated Cortex-M board, whose RAM is all zeros at the start. */
ENTRY(begin)
SECTIONS
{
    . = 0;
    .text : { KEEP(*(.vectors)) *(.text*) *(.rodata*) }
    .ARM.exidx : { *(.ARM.exidx*) }
    . = 0x20000000;
    .bss (NOLOAD) : { *(.bss*) }
    /DISCARD/ : { *(.data*) }
}
