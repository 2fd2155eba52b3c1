#!/usr/bin/env python3
"""floats.py make FILE [COUNT]: writes pairs of f64s, for floats.c: special values, all differences of exponents, full and sparse
digits, and the pair that libgcc for ARMv7-M is known to get wrong.
floats.py compare PAIRS RESULTS WANTED: how many pairs differ, by operation, with the first of each. Fails if one does."""
import random
import struct
import sys

SPECIAL = [0, 1 << 63, 1, (1 << 52) - 1, 1 << 52, 0x7FEFFFFFFFFFFFFF, 0x7FF0000000000000, 0xFFF0000000000000, 0x7FF8000000000000,
           0x3FF0000000000000, 0x3FF0000000000001, 0x3FEFFFFFFFFFFFFF, 0x4000000000000000, 0xBFF0000000000000]
KNOWN = (0x3FCFFFFFFFFFFFD9, 0xC1D0000000001000)  # the sum ends in 2000, not in 2001
FORMAT = '<10Q8IQ'
NAMES = ('add sub mul div f32-to-f64 u64-to-f64 i64-to-f64 u32-to-f64 f64-to-i64 f64-to-u64 '
         'f32-add f32-sub f32-mul f32-div f64-to-f32 u32-to-f32 order f32-order i32-to-f64').split()


def near(r, exponent, spread):
    """A number whose exponent is within spread of the one given, its digits random, few, or nearly all ones."""
    digits = r.choice([r.getrandbits(52), r.getrandbits(8), ((1 << 52) - 1) ^ r.getrandbits(6), r.getrandbits(26) << 26, 1 << r.randrange(52)])
    return r.getrandbits(1) << 63 | max(0, min(2046, exponent + r.randint(-spread, spread))) << 52 | digits


def make(name, count):
    r = random.Random(3)
    pairs = [KNOWN] + [(a, b) for a in SPECIAL for b in SPECIAL]
    while len(pairs) < count:
        exponent = r.choice([1023, 1023, 1023, 1, 2046, r.randrange(2047)])
        pairs.append((near(r, exponent, 3), near(r, exponent, r.choice([0, 1, 3, 30, 40, 60, 1100]))))
        if len(pairs) % 4 == 0:
            pairs.append((r.getrandbits(64), r.getrandbits(64)))
    with open(name, 'wb') as out:
        out.write(b''.join(struct.pack('<QQ', *p) for p in pairs))


def compare(pairs, got, wanted):
    pairs, got, wanted = (open(name, 'rb').read() for name in (pairs, got, wanted))
    size = struct.calcsize(FORMAT)
    count = len(pairs) // 16
    if not len(got) == len(wanted) == size * count:
        sys.exit(f'{count} pairs, but {len(got)} and {len(wanted)} bytes of results')
    wrong, differ = {}, 0
    for i in range(count):
        if got[i * size:(i + 1) * size] == wanted[i * size:(i + 1) * size]:
            continue
        differ += 1
        for name, g, w in zip(NAMES, struct.unpack_from(FORMAT, got, i * size), struct.unpack_from(FORMAT, wanted, i * size)):
            if g != w:
                wrong.setdefault(name, []).append((*struct.unpack_from('<QQ', pairs, 16 * i), g, w))
    print(f'soft-float: {count} pairs, {differ} differ')
    for name, cases in wrong.items():
        print('  %s: %d wrong; of 0x%016X and 0x%016X it gives 0x%X, right is 0x%X' % (name, len(cases), *cases[0]))
    return differ == 0


if __name__ == '__main__':
    if sys.argv[1] == 'make':
        make(sys.argv[2], int(sys.argv[3]) if len(sys.argv) > 3 else 200000)
    else:
        sys.exit(not compare(*sys.argv[2:5]))
