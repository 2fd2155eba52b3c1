/* Start-up without a debugger or a C library: the vector table, reset, and a halt for faults and for main's end. */
#include <stdint.h>

extern uint32_t _stack_top, _data, _data_end, _data_load, _bss, _bss_end;   /* sections.ld */
int main(void);
void reset(void);

static void halt(void)
{
    for (;;)
        __asm__ volatile("wfi");
}

/* The stack stands at the bottom of RAM: where it overflows it leaves RAM, and the core stops. */
__attribute__((section(".vectors"), used)) static const void *const vectors[16] = {
    &_stack_top, (void *)reset, (void *)halt, (void *)halt, (void *)halt, (void *)halt, (void *)halt};

/* A firmware for an FPU has to switch it on; the library does not use it. */
static void start_fpu(void)
{
#ifdef __ARM_FP
    volatile uint32_t *const access = (volatile uint32_t *)0xE000ED88;
    *access |= 0xF << 20;
    __asm__ volatile("dsb\n\tisb" ::: "memory");
#endif
}

void reset(void)
{
    start_fpu();
    for (volatile uint32_t *from = &_data_load, *to = &_data; to < &_data_end;)
        *to++ = *from++;
    for (volatile uint32_t *to = &_bss; to < &_bss_end;)
        *to++ = 0;
    main();
    halt();
}
