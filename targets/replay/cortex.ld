/* The player on the board mps2-an386 of the emulator: 4 MB of memory for code from 0, 4 MB for data. The emulator loads every section to its
 * place, so that nothing is copied at the start. */
MEMORY
{
    CODE (rx) : ORIGIN = 0x00000000, LENGTH = 4M
    DATA (rwx) : ORIGIN = 0x20000000, LENGTH = 4M
}
ENTRY(run_player)
SECTIONS
{
    .text : { KEEP(*(.vectors)) *(.text*) *(.rodata*) } > CODE
    .ARM.exidx : { *(.ARM.exidx*) } > CODE
    .data : { *(.data*) } > DATA
    .bss : { . = ALIGN(4); bss_start = .; *(.bss*) *(COMMON) . = ALIGN(4); bss_end = .; } > DATA
    stack_top = ORIGIN(DATA) + LENGTH(DATA);
}
