/* The player for a RISC-V emulator of programs, which gives it any memory. Code and data lie in different pages. */
ENTRY(start)
SECTIONS
{
    . = 0x10000 + SIZEOF_HEADERS;
    .text : { *(.text*) *(.rodata*) *(.srodata*) }
    . = ALIGN(0x1000);
    .data : { *(.data*) *(.sdata*) }
    .bss : { *(.sbss*) *(.bss*) *(COMMON) }
}
