/* What the programs of this test ask of their surroundings: a board under the emulator (start.c), or x86-64 (host.c). */
#ifndef BOARD_H
#define BOARD_H
#include <stdint.h>

int open_read(const char *name);
int open_write(const char *name);
uint32_t read_bytes(int file, void *to, uint32_t n);    /* the bytes read: fewer at the file's end */
void write_bytes(int file, const void *from, uint32_t n);

uint32_t stack_pointer(void);
void paint_stack(void);                                 /* fills the stack below its caller with one value */
uint32_t stack_used(uint32_t from);                     /* the bytes below `from` that were written since */
#endif
