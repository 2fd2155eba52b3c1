/* Tries the memory functions of tools/controller_memory.s byte by byte: every length up to LENGTHS, both ends at each of eight
 * places, moves that overlap upwards and downwards. Sends how many cases there were, and how many of them were wrong: any byte of
 * the room counts, so that a write past the end does. A core without unaligned access faults where a word does not stand on words. */
#include <stddef.h>
#include "say.h"

enum { ROOM = 192, LENGTHS = 70, FROM = 24, TO = 104, BYTE = 0x8A5 };

typedef void copy(void *, const void *, size_t);
typedef void set(void *, size_t, int);
typedef void clear(void *, size_t);
copy __aeabi_memcpy, __aeabi_memcpy4, __aeabi_memcpy8, __aeabi_memmove, __aeabi_memmove4, __aeabi_memmove8;
set __aeabi_memset, __aeabi_memset4, __aeabi_memset8;
clear __aeabi_memclr, __aeabi_memclr4, __aeabi_memclr8;

static union { uint8_t bytes[ROOM]; uint64_t aligned; } got, before;
static uint32_t cases, wrong;

static void begin(void)
{
    for (int i = 0; i < ROOM; i++)
        got.bytes[i] = before.bytes[i] = i * 37 + 11;
}

/* The n bytes at `to` must be those at `from` before, or all one byte where from is negative; all others as they were. */
static void compare(int to, int from, int n, uint8_t byte)
{
    int right = 1;
    for (int i = 0; i < ROOM; i++) {
        uint8_t wanted = i < to || i >= to + n ? before.bytes[i] : from < 0 ? byte : before.bytes[from + i - to];
        right &= got.bytes[i] == wanted;
    }
    cases++;
    wrong += !right;
}

static void try_copy(copy *function, int to, int from, int n)
{
    begin();
    function(got.bytes + to, got.bytes + from, n);
    compare(to, from, n, 0);
}

static void try_set(set *function, int to, int n)
{
    begin();
    function(got.bytes + to, n, BYTE);
    compare(to, -1, n, (uint8_t)BYTE);
}

static void try_clear(clear *function, int to, int n)
{
    begin();
    function(got.bytes + to, n);
    compare(to, -1, n, 0);
}

/* Those of one alignment: `step` apart stand the places that are tried. */
static void try_all(copy *copies, copy *moves, set *sets, clear *clears, int step)
{
    for (int n = 0; n <= LENGTHS; n++)
        for (int to = 0; to < 8; to += step) {
            try_set(sets, FROM + to, n);
            try_clear(clears, FROM + to, n);
            for (int from = 0; from < 8; from += step) {
                try_copy(copies, TO + to, FROM + from, n);
                try_copy(moves, TO + to, FROM + from, n);
                try_copy(moves, FROM + to, FROM + from, n);
                try_copy(moves, FROM + to, FROM + 16 + from, n);
                try_copy(moves, FROM + 16 + to, FROM + from, n);
            }
        }
}

int main(void)
{
    try_all(__aeabi_memcpy, __aeabi_memmove, __aeabi_memset, __aeabi_memclr, 1);
    try_all(__aeabi_memcpy4, __aeabi_memmove4, __aeabi_memset4, __aeabi_memclr4, 4);
    try_all(__aeabi_memcpy8, __aeabi_memmove8, __aeabi_memset8, __aeabi_memclr8, 8);
    serial_open();
    say(cases);
    say(wrong);
    return 0;
}
