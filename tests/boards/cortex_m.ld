/* Memory of a Cortex-M board; --defsym gives its amounts, flash_length and ram_length. */
MEMORY
{
    FLASH (rx) : ORIGIN = 0x00000000, LENGTH = flash_length
    RAM (rwx) : ORIGIN = 0x20000000, LENGTH = ram_length
}
ENTRY(board_start)
SECTIONS
{
    .text : { KEEP(*(.vectors)) *(.text*) *(.rodata*) } > FLASH
    .ARM.extab : { *(.ARM.extab*) } > FLASH
    .ARM.exidx : { *(.ARM.exidx*) } > FLASH
    .data : { . = ALIGN(4); data_start = .; *(.data*) . = ALIGN(4); data_end = .; } > RAM AT > FLASH
    data_load = LOADADDR(.data);
    .bss : { . = ALIGN(4); bss_start = .; *(.bss*) *(COMMON) . = ALIGN(4); bss_end = .; } > RAM
    stack_top = ORIGIN(RAM) + LENGTH(RAM);
}
