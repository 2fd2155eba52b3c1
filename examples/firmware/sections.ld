/* What the boards have in common: each gives FLASH, RAM and STACK_SIZE. The stack stands at the bottom of RAM, so that an overflow
 * leaves RAM and faults; static data stands above it. */
ENTRY(reset)
SECTIONS
{
    .text : { KEEP(*(.vectors)) *(.text*) *(.rodata*) . = ALIGN(8); } > FLASH
    .ARM.exidx : { *(.ARM.exidx*) . = ALIGN(8); } > FLASH
    .stack (NOLOAD) : { . += STACK_SIZE; _stack_top = .; } > RAM
    .data : ALIGN(8) { _data = .; *(.data*) . = ALIGN(8); _data_end = .; } > RAM AT> FLASH
    _data_load = LOADADDR(.data);
    .bss (NOLOAD) : ALIGN(8) { _bss = .; *(.bss*) *(COMMON) . = ALIGN(8); _bss_end = .; } > RAM
}
