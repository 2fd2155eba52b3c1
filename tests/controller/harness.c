/* Makes the calls that the file `cases` holds, one after the other, and writes to `answers` what each gave; on a board, to
 * `stack` the deepest stack of each call. A case is a head of six u32 and then the bytes of first input, second input, output
 * buffer and 8 more. They are put into the arena side by side, `skew` bytes from its start, so that an input may stand at any
 * address. An answer is the number (u32), the place (u64), and all those bytes as the call left them.
 */
#include <string.h>
#include "board.h"
#include "tonekit.h"

struct head { uint32_t call, first, second, room, behind, skew; };

/* The calls, by the numbers that the recorded samples give them (crates/replay/README.md). */
enum { CHECK_PACK = 1, CHECK_QUERY, CHECK_SHEET, WRITE_SHAPE, WRITE_SHEET, JUDGE, JUDGE_SHEET, LN = 10, LOG2, EXP, ROOT, NARROW, CALLS };

static union { uint8_t bytes[ARENA]; uint64_t aligned; } arena;
static uint32_t deepest[CALLS];
static uint32_t entered;    /* the stack pointer from which a call is made */

/* A function of numbers, on every f64 of the input. */
static uint32_t map(uint32_t call, const uint8_t *from, uint32_t n, uint8_t *to)
{
    for (uint32_t i = 0; i + 8 <= n; i += 8) {
        uint64_t bits;
        memcpy(&bits, from + i, 8);
        if (call == NARROW) {
            uint32_t narrow = tonekit_narrow(bits);
            memcpy(to + i / 2, &narrow, 4);
            continue;
        }
        bits = call == LN ? tonekit_ln(bits) : call == LOG2 ? tonekit_log2(bits) : call == EXP ? tonekit_exp(bits) : tonekit_root(bits);
        memcpy(to + i, &bits, 8);
    }
    return 0;
}

/* Where counting of instructions ends; `make` is where it begins (count.c). */
__attribute__((noinline)) void made(void) { __asm__ volatile(""); }

__attribute__((noinline)) uint32_t make(const struct head *h, uint8_t *first, uint64_t *place)
{
    uint8_t *second = first + h->first, *out = second + h->second;
    entered = stack_pointer();
    switch (h->call) {
    case CHECK_PACK: return tonekit_check_pack(first, h->first, place);
    case CHECK_QUERY: return tonekit_check_query(first, h->first, place);
    case CHECK_SHEET: return tonekit_check_sheet(first, h->first, place);
    case WRITE_SHAPE: return tonekit_write_shape(first, h->first, out, h->room, place);
    case WRITE_SHEET: return tonekit_write_sheet(first, h->first, out, h->room, place);
    case JUDGE: return tonekit_judge(first, h->first, second, h->second, out, h->room, place);
    case JUDGE_SHEET: return tonekit_judge_sheet(first, h->first, second, h->second, out, h->room, place);
    default: return map(h->call, first, h->first, out);
    }
}

int main(void)
{
    struct head h;
    int cases = open_read("cases"), answers = open_write("answers");
    while (read_bytes(cases, &h, sizeof h) == sizeof h) {
        uint32_t length = h.first + h.second + h.room + h.behind;
        if (h.skew + length > sizeof arena || h.call >= CALLS || read_bytes(cases, arena.bytes + h.skew, length) != length)
            return 1;
        uint64_t place = 0x5555555555555555;
        paint_stack();
        uint32_t number = make(&h, arena.bytes + h.skew, &place);
        made();
        uint32_t used = stack_used(entered);
        if (used > deepest[h.call])
            deepest[h.call] = used;
        write_bytes(answers, &number, sizeof number);
        write_bytes(answers, &place, sizeof place);
        write_bytes(answers, arena.bytes + h.skew, length);
    }
    write_bytes(open_write("stack"), deepest, sizeof deepest);
    return 0;
}
