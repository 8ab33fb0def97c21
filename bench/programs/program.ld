/* Flash and RAM of the one task; no data but zeros is in the RAM, whose lowest 512 bytes are the stack. */
SECTIONS
{
    . = 0x08000000;
    .text : { *(.start) *(.text*) *(.rodata*) }
    . = 0x20000200;
    .bss (NOLOAD) : { *(.bss*) *(COMMON) }
    /DISCARD/ : { *(.comment) *(.ARM.*) *(.note*) }
    ASSERT(SIZEOF(.bss) <= 0xE00, "the RAM is full")
}
