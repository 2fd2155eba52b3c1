/* STM32F405, a Cortex-M4 with an FPU: 128 KB of its RAM. */
MEMORY
{
    FLASH (rx) : ORIGIN = 0x08000000, LENGTH = 1024K
    RAM (rwx) : ORIGIN = 0x20000000, LENGTH = 128K
}
STACK_SIZE = 16K;
INCLUDE sections.ld
