/* Every operation of the soft-float library that f64 and f32 code needs, on the pairs of f64s that the file `pairs` holds; the
 * results go to the file `results`, NaNs as one NaN. Run on a board and on x86-64, whose results are IEEE 754's (floats.py). */
#include "board.h"

enum { PAIRS = 32 };
typedef union { double value; uint64_t bits; } f64;
typedef union { float value; uint32_t bits; } f32;

static uint64_t pairs[PAIRS][2];
static struct {
    uint64_t add, sub, mul, div, widened, from_u64, from_i64, from_u32;
    int64_t to_i64;
    uint64_t to_u64;
    uint32_t add32, sub32, mul32, div32, narrowed, from_u32_32;
    uint32_t order, order32;
    uint64_t from_i32;
} results[PAIRS];

static uint64_t bits64(volatile double x)
{
    f64 v = {.value = x};
    return x != x ? 0x7FF8000000000000 : v.bits;
}

static uint32_t bits32(volatile float x)
{
    f32 v = {.value = x};
    return x != x ? 0x7FC00000 : v.bits;
}

#define ORDER(x, y) \
    ((x < y) | (x <= y) << 1 | (x > y) << 2 | (x >= y) << 3 | (x == y) << 4 | (x != y) << 5 | __builtin_isunordered(x, y) << 6)

int main(void)
{
    int in = open_read("pairs"), out = open_write("results");
    uint32_t n;
    while ((n = read_bytes(in, pairs, sizeof pairs) / sizeof pairs[0]) > 0) {
        for (uint32_t i = 0; i < n; i++) {
            uint64_t a = pairs[i][0], b = pairs[i][1];
            volatile double x = (f64){.bits = a}.value, y = (f64){.bits = b}.value;
            volatile float f = (f32){.bits = a >> 13}.value, g = (f32){.bits = b >> 17}.value;
            results[i].add = bits64(x + y);
            results[i].sub = bits64(x - y);
            results[i].mul = bits64(x * y);
            results[i].div = bits64(x / y);
            results[i].widened = bits64(f);
            results[i].from_u64 = bits64(a);
            results[i].from_i64 = bits64((int64_t)a);
            results[i].from_u32 = bits64((uint32_t)a);
            results[i].from_i32 = bits64((int32_t)a);
            results[i].to_i64 = x > -9e18 && x < 9e18 ? (int64_t)x : 0;
            results[i].to_u64 = x >= 0 && x < 1.8e19 ? (uint64_t)x : 0;
            results[i].add32 = bits32(f + g);
            results[i].sub32 = bits32(f - g);
            results[i].mul32 = bits32(f * g);
            results[i].div32 = bits32(f / g);
            results[i].narrowed = bits32(x);
            results[i].from_u32_32 = bits32((uint32_t)a);
            results[i].order = ORDER(x, y);
            results[i].order32 = ORDER(f, g);
        }
        write_bytes(out, results, n * sizeof results[0]);
    }
    return 0;
}
