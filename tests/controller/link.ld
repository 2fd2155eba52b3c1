/* A controller's memory: flash at 0, RAM at 0x20000000. The stack stands at the bottom of RAM, so that an overflow leaves RAM and
 * faults; static data and the lent buffers stand above it. SPARE bytes at RAM's end must stay free, or the link fails.
 * The C preprocessor puts in RAM_SIZE, STACK_SIZE and SPARE. */
MEMORY
{
    FLASH (rx) : ORIGIN = 0x00000000, LENGTH = 256K
    RAM (rwx) : ORIGIN = 0x20000000, LENGTH = RAM_SIZE
}
ENTRY(reset)
SECTIONS
{
    .text : { KEEP(*(.vectors)) *(.text*) *(.rodata*) . = ALIGN(8); } > FLASH
    .ARM.exidx : { *(.ARM.exidx*) . = ALIGN(8); } > FLASH
    .stack (NOLOAD) : { _stack_bottom = .; . += STACK_SIZE; _stack_top = .; } > RAM
    .data : ALIGN(8) { _data = .; *(.data*) . = ALIGN(8); _data_end = .; } > RAM AT> FLASH
    _data_load = LOADADDR(.data);
    .bss (NOLOAD) : ALIGN(8) { _bss = .; *(.bss*) *(COMMON) . = ALIGN(8); _bss_end = .; } > RAM
    .stack_sizes 0 : { *(.stack_sizes) }
    ASSERT(_bss_end + SPARE <= ORIGIN(RAM) + LENGTH(RAM), "too little RAM is left")
}
