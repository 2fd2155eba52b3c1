/* The controller's part of board.h: vectors, reset, files of the host by semihosting, and the painted stack. */
#include <stddef.h>
#include "board.h"

extern uint32_t _stack_bottom, _stack_top, _data, _data_end, _data_load, _bss, _bss_end;
int main(void);
void reset(void);

/* Semihosting operations, and the words with which a program reports its end. */
enum { OPEN = 1, PRINT = 4, WRITE = 5, READ = 6, EXIT = 0x18, ENDED = 0x20026, FAILED = 0x20023 };
enum { READ_BINARY = 1, WRITE_BINARY = 5 };

static uint32_t host(uint32_t operation, const void *argument)
{
    register uint32_t r0 __asm__("r0") = operation;
    register const void *r1 __asm__("r1") = argument;
    __asm__ volatile("bkpt 0xab" : "+r"(r0) : "r"(r1) : "memory");
    return r0;
}

static int open_as(const char *name, uint32_t mode)
{
    uint32_t length = 0;
    while (name[length])
        length++;
    uint32_t arguments[3] = {(uint32_t)name, mode, length};
    return host(OPEN, arguments);
}

static void leave(uint32_t how)
{
    host(EXIT, (const void *)how);
    for (;;)
        ;
}

int open_read(const char *name) { return open_as(name, READ_BINARY); }
int open_write(const char *name) { return open_as(name, WRITE_BINARY); }

uint32_t read_bytes(int file, void *to, uint32_t n)
{
    uint32_t arguments[3] = {file, (uint32_t)to, n};
    return n - host(READ, arguments);
}

void write_bytes(int file, const void *from, uint32_t n)
{
    uint32_t arguments[3] = {file, (uint32_t)from, n};
    if (host(WRITE, arguments) != 0)
        leave(FAILED);
}

#define PAINT 0xC5C5C5C5u

__attribute__((noinline)) uint32_t stack_pointer(void)
{
    uint32_t sp;
    __asm__ volatile("mov %0, sp" : "=r"(sp));
    return sp;
}

__attribute__((noinline)) void paint_stack(void)
{
    uint32_t end = stack_pointer();
    for (volatile uint32_t *p = &_stack_bottom; (uint32_t)p < end; p++)
        *p = PAINT;
}

static void fault(void)
{
    host(PRINT, "FAULT\n");
    leave(FAILED);
}

/* A stack that was written down to its bottom ends the run: it may have gone on below, which not every emulated board sees. */
__attribute__((noinline)) uint32_t stack_used(uint32_t from)
{
    const uint32_t *p = &_stack_bottom;
    if (*p != PAINT)
        fault();
    while (*p == PAINT)
        p++;
    return from - (uint32_t)p;
}

__attribute__((section(".vectors"), used)) static const void *const vectors[16] = {
    &_stack_top, (void *)reset, (void *)fault, (void *)fault, (void *)fault, (void *)fault, (void *)fault};

void reset(void)
{
    for (uint32_t *from = &_data_load, *to = &_data; to < &_data_end;)
        *to++ = *from++;
    for (uint32_t *to = &_bss; to < &_bss_end;)
        *to++ = 0;
    leave(main() == 0 ? ENDED : FAILED);
}
