/* an image's three words, `SVC 0` at 0000000C, to which main returns, and the code */
ENTRY(start)
SECTIONS
{
    .head 0 : { LONG(0x20003F80) LONG(start + 1) LONG(0xd) SHORT(0xdf00) }
    .text 0x10 : { *(.start) *(.text*) *(.rodata*) }
    .bss 0x20000000 (NOLOAD) : { *(.bss*) *(COMMON) }
    /DISCARD/ : { *(.ARM*) *(.comment) }
}
