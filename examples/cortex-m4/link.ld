/* Memory of the machine mps2-an386. The stack lies lowest in RAM: one that grows too far leaves RAM and ends in a fault. */
MEMORY {
    CODE (rx) : ORIGIN = 0x00000000, LENGTH = 4M
    RAM (rwx) : ORIGIN = 0x20000000, LENGTH = 4M
}

SECTIONS {
    .text : { KEEP(*(.vectors)) *(.text* .rodata* .ARM.*) } > CODE
    .stack (NOLOAD) : { . += 16K; stack_top = .; } > RAM
    .kept (NOLOAD) : { *(.kept) } > RAM
    .data : { data = .; *(.data*) data_end = .; } > RAM AT > CODE
    .bss (NOLOAD) : { bss = .; *(.bss* COMMON) bss_end = .; } > RAM
    data_load = LOADADDR(.data);
}
