/* Where the parts of an image are: code and constants in flash, variables in the 256 words of globals. What doesn't fit
   there is refused by the linker. Of the stack region 960 words are usable; the arena is the board's (sts_allocate). */
MEMORY
{
    flash (rx) : ORIGIN = 0x00000000, LENGTH = 256K
    globals (rw) : ORIGIN = 0x20000000, LENGTH = 1K
}

SECTIONS
{
    .text : { KEEP(*(.header)) *(.text .text.*) *(.rodata .rodata.*) . = ALIGN(4); } > flash
    .data : { data_begin = .; *(.data .data.*) . = ALIGN(4); data_end = .; } > globals AT > flash
    data_in_flash = LOADADDR(.data);
    .bss (NOLOAD) : { *(.bss .bss.*) *(COMMON) } > globals
    /DISCARD/ : { *(.ARM.exidx*) *(.ARM.extab*) }
}
