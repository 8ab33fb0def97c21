/* A task from 0 on, its variables from 0x20000000 on. Neither is where they come to lie: what holds an address is told by name
   in the source that is made of this, so the builder places it (to-source.sh). */
SECTIONS
{
    . = 0;
    .text : { KEEP(*(.start)) *(.text*) *(.rodata*) . = ALIGN(4); data_load = .; }
    . = 0x20000000;
    .data : AT(SIZEOF(.text)) { data_begin = .; *(.data*) . = ALIGN(4); data_end = .; }
    .bss (NOLOAD) : { *(.bss*) *(COMMON) . = ALIGN(4); bss_end = .; }
    /DISCARD/ : { *(.comment) *(.ARM.*) *(.note*) }
}
