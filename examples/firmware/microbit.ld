/* micro:bit, an nRF51822 with a Cortex-M0: its RAM is all stack but for 1 KB. */
MEMORY
{
    FLASH (rx) : ORIGIN = 0x00000000, LENGTH = 256K
    RAM (rwx) : ORIGIN = 0x20000000, LENGTH = 16K
}
STACK_SIZE = 15K;
INCLUDE sections.ld
