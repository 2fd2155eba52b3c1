#!/usr/bin/env python3
"""sample.py DIR: writes sample.pack and sample.query, the bytes that the examples use, from what stands below. sample.pack.txt is
the pack as a person writes it and sample.csv the pitch track of the query; tests build other queries with what stands here."""
import os
import struct
import sys


def f32(*values):
    return b''.join(struct.pack('<f', v) for v in values)


def knots(values):
    return bytes([len(values)]) + f32(*values, *[0.0] * (10 - len(values)))


def tone(number, prior, curve, region=None, tail=None):
    """tail: what a creaky ending is worth to the tone, at the end of a phrase and elsewhere."""
    flag, start, end = (1, *region) if region else (0, 0.0, 0.0)
    behind = bytes([7]) + f32(*tail) if tail else b''
    return bytes([2, number]) + f32(prior) + knots(curve) + bytes([flag]) + f32(start, end) + behind


def accent(number, parent, *tolerances):
    return bytes([3, number, parent]) + f32(*tolerances)


def rule(label, of, prev, final, *parts):
    """parts: (weight, curve); one of weight 1 is a single rule, form 2, else a mixture, form 3."""
    form = 2 if len(parts) == 1 and parts[0][0] == 1.0 else 3
    head = bytes([4]) + struct.pack('<H', label) + bytes([of, prev, final, form])
    return head + b''.join(bytes([5]) + f32(weight) + knots(curve) for weight, curve in parts)


# Five tones in Chao values: high, rising, low, falling, and a neutral one that has a curve in context only. The low tone may
# be creaky in its middle, and a creaky ending speaks for it. A rule's final is 0 any, 1 not at the end of a phrase, 2 at its end.
PACK = b''.join([
    bytes([1]) + f32(1.0, 0.5),
    tone(1, 0.25, [5.0]),
    tone(2, 0.2, [3.0, 5.0]),
    tone(3, 0.2, [2.0, 1.0, 4.0], region=(0.375, 0.75), tail=(1.5, 0.75)),
    tone(4, 0.25, [5.0, 1.0]),
    tone(5, 0.1, []),
    accent(1, 0, 0.5, 0.5, 0.5, 0.125),
    rule(30, 3, 0, 1, (1.0, [2.0, 1.0])),
    rule(31, 3, 0, 2, (0.75, [2.0, 1.0, 4.0]), (0.25, [2.0, 1.0, 1.5])),
    rule(50, 5, 0, 0, (1.0, [2.5])),
    rule(51, 5, 1, 0, (1.0, [2.0])),
    rule(53, 5, 3, 0, (1.0, [4.0])),
    rule(54, 5, 4, 0, (1.0, [1.0])),
    accent(2, 1, 0.625, 0.5, 0.75, 0.125),
    rule(21, 2, 0, 0, (1.0, [3.0, 2.5, 5.0])),
    rule(32, 3, 0, 0, (1.0, [2.0, 1.25])),
    accent(7, 2, 0.5, 0.5, 0.5, 0.25),
    rule(44, 4, 4, 0, (0.5, [5.0, 2.0]), (0.5, [5.0, 3.0])),
    bytes([6]),
])


def query(of, graded, prev, final, hertz, variants=()):
    """Frames of these pitches, None where unvoiced; the speaker's register is 7 to 19 semitones above 55 Hz."""
    used = b''.join(bytes([t]) + f32(w) for t, w in variants)
    body = bytes([48, graded, of, prev, final]) + struct.pack('<II', 0, len(hertz)) + f32(7.0, 19.0)
    body += struct.pack('<H', 0) + bytes([len(variants)]) + used + bytes(20 - len(used)) + struct.pack('<H', len(hertz))
    return body + b''.join(bytes([50, h is not None]) + f32(h or 0.0, 0.9) for h in hertz)


# A low tone after a falling one, at the end of a phrase: 30 frames, four of them unvoiced.
QUERY = query(3, 2, 4, 1, [None if 13 <= i < 17 else 105.0 - 1.25 * min(i, 15) + 0.25 * max(i - 20, 0) for i in range(30)])

if __name__ == '__main__':
    for name, content in [('sample.pack', PACK), ('sample.query', QUERY)]:
        with open(os.path.join(sys.argv[1], name), 'wb') as out:
            out.write(content)
