/* x86-64's part of board.h: files are files, and no stack is measured. */
#include <stdio.h>
#include "board.h"

static FILE *files[8];
static int count;

static int open_as(const char *name, const char *mode)
{
    files[count] = fopen(name, mode);
    return files[count] ? count++ : -1;
}

int open_read(const char *name) { return open_as(name, "rb"); }
int open_write(const char *name) { return open_as(name, "wb"); }
uint32_t read_bytes(int file, void *to, uint32_t n) { return fread(to, 1, n, files[file]); }
void write_bytes(int file, const void *from, uint32_t n) { fwrite(from, 1, n, files[file]); }
uint32_t stack_pointer(void) { return 0; }
void paint_stack(void) {}
uint32_t stack_used(uint32_t from) { return from; }
