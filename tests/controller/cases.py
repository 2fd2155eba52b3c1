#!/usr/bin/env python3
"""cases.py HOST FILE [ARENA [STEP]]: writes the cases that harness.c makes, those that fit into an arena of so many bytes (24,576 if
not said), or every STEPth of them, and prints how many there are of each call. HOST is the x86-64 harness, which gives the sheets
that cases begin from.
The recorded calls (crates/replay/data: refusals of every kind, damaged inputs, -0, NaN) come with rooms exact, short and long;
then packs, sheets and queries made here, up to the largest that load, whole and damaged."""
import os
import random
import struct
import subprocess
import sys
import tempfile

ROOT = os.path.dirname(os.path.dirname(os.path.dirname(os.path.abspath(__file__))))
sys.path.insert(0, os.path.join(ROOT, 'examples'))
from sample import PACK, QUERY, accent, f32, query, rule, tone  # noqa: E402

CALLS = {1: 'check_pack', 2: 'check_query', 3: 'check_sheet', 4: 'write_shape', 5: 'write_sheet', 6: 'judge', 7: 'judge_sheet',
         10: 'ln', 11: 'log2', 12: 'exp', 13: 'root', 14: 'narrow'}
CHECK_PACK, CHECK_QUERY, CHECK_SHEET, WRITE_SHAPE, WRITE_SHEET, JUDGE, JUDGE_SHEET = range(1, 8)
FILES = ['checks.bin', 'shapes.bin', 'sheets.bin', 'judgements.bin', 'functions.bin']
ARENA, BEHIND = 24576, 8
PACK_MAX, SHEET_MAX, QUERY_MAX, SHAPE, RECORD = 7018, 13338, 10287, 124, 64


def case(call, first, second=b'', room=0, skew=0, held=None):
    """The bytes of one case; `held` is what the output buffer and the 8 bytes behind it hold."""
    held = held or bytes(i * 37 + 11 & 255 for i in range(room + BEHIND))
    return struct.pack('<6I', call, len(first), len(second), room, BEHIND, skew) + first + second + held


def answers(host, cases):
    """What the x86-64 harness answers to cases: number, place, and the bytes of the output buffer."""
    with tempfile.TemporaryDirectory() as folder:
        with open(os.path.join(folder, 'cases'), 'wb') as out:
            out.write(b''.join(cases))
        subprocess.run([os.path.abspath(host)], cwd=folder, check=True)
        data = open(os.path.join(folder, 'answers'), 'rb').read()
    found, at = [], 0
    for c in cases:
        _, first, second, room, behind, _ = struct.unpack_from('<6I', c)
        number, place = struct.unpack_from('<IQ', data, at)
        at += 12 + first + second
        found.append((number, place, data[at:at + room]))
        at += room + behind
    return found


def recorded():
    """The recorded calls: call, inputs, number, and the answer's length."""
    for name in FILES:
        data, at = open(os.path.join(ROOT, 'crates', 'replay', 'data', name), 'rb').read(), 0
        while at < len(data):
            call, inputs = data[at], []
            at += 1
            for _ in range(2):
                length, = struct.unpack_from('<I', data, at)
                inputs.append(data[at + 4:at + 4 + length])
                at += 4 + length
            number, length = struct.unpack_from('<BI', data, at)
            at += 5 + (length if number == 0 else 0)
            if call in CALLS:
                yield call, *inputs, number, length


def curve(r, knots):
    return [r.choice([r.uniform(0.5, 5.5), r.uniform(-100, 100), 0.0, -0.0, 3.0]) for _ in range(knots)]


def some_tail(r):
    return [r.choice([r.uniform(-50, 50), 50.0, -50.0, 0.0, -0.0]) for _ in range(2)]


def largest_pack(r):
    """7,018 bytes, whose sheet has 13,338: in each accent each tone has its citation, and one rule of two parts."""
    tones = [tone(t, 0.125, curve(r, 10), (0.25, 0.75), some_tail(r)) for t in range(1, 9)]
    accents = [accent(a, 0, 0.5, 0.75, 1.0, 0.25) + b''.join(rule(8 * a + t, t, 1 + (t + a) % 8, 1 + a % 2,
               (0.25, curve(r, 10)), (0.75, curve(r, 10))) for t in range(1, 9)) for a in range(1, 9)]
    return bytes([1]) + f32(1.0, 0.25) + b''.join(tones + accents) + bytes([6])


def of_one_mark(n):
    """Two points for list n: with them lists differ, and have one mark all the same (crates/tonekit_sheet/specs/Marks.antt)."""
    return struct.pack('<II', 0x40000000 + 256 * n, 0x40400000 - 33 * 256 * n)


def alike_pack(one_mark=False):
    """A largest pack whose 64 rules are lists of one owner and label that differ in the last point alone, or in the last two and
    have one mark, so that comparing lists takes longest; eight accents, each the parent of the next, share them."""
    def knots(t, prev):
        end = struct.unpack('<2f', of_one_mark(8 * t + prev)) if one_mark else (2.0, t + prev / 16)
        return [2.0] * 8 + list(end)
    tones = [tone(t, 0.125, [3.0] * 10, tail=(1.0, -1.0)) for t in range(1, 9)]
    rules = [rule(7, t, prev, 0, (0.25, [2.0] * 10), (0.75, knots(t, prev))) for t in range(1, 9) for prev in range(1, 9)]
    accents = [accent(a, a - 1, 0.5, 0.75, 1.0, 0.25) + (b''.join(rules) if a == 1 else b'') for a in range(1, 9)]
    return bytes([1]) + f32(1.0, 0.25) + b''.join(tones + accents) + bytes([6])


def heavy_pack():
    """A largest pack that is longest to judge against: eight accents, each the parent of the next, 64 rules in the first, and the
    last of them, for every tone, is a mixture of four parts."""
    tones = [tone(t, 0.125, [3.0] * 10, (0.25, 0.75), (t / 8, -t / 8)) for t in range(1, 9)]
    others = [rule(n, n % 8 + 1, 8, 2, *[(1.0, [2.0] * 10)] * (2 if n < 40 else 1)) for n in range(56)]
    rules = others + [rule(100 + t, t, 0, 0, *[(0.25, [p + k * t / 16 for k in range(10)]) for p in range(4)]) for t in range(1, 9)]
    accents = [accent(a, a - 1, 0.5, 0.75, 1.0, 0.25) + (b''.join(rules) if a == 1 else b'') for a in range(1, 9)]
    return bytes([1]) + f32(1.0, 0.25) + b''.join(tones + accents) + bytes([6])


def some_pack(r):
    tones, accents = r.randint(1, 8), r.randint(1, 8)
    head = bytes([1]) + f32(r.uniform(0.5, 2), r.uniform(0.1, 0.9))
    body = [tone(t, r.uniform(0.1, 1), curve(r, r.randint(1, 10)), r.choice([None, (0.25, 0.5)]), r.choice([None, some_tail(r)])) for t in range(1, tones + 1)]
    for a in range(1, accents + 1):
        body.append(accent(a, r.randrange(a), *[r.uniform(0.1, 2) for _ in range(4)]))
        for label in range(r.randint(0, 64 // accents)):
            parts = [(r.choice([1.0, 0.5, 0.0]), curve(r, r.randint(1, 10))) for _ in range(r.randint(1, 2))]
            body.append(rule(label, r.randint(0, tones), r.randint(0, tones), r.randint(0, 2), *parts))
    return head + b''.join(body) + bytes([6])


def some_query(r, frames, tones=8):
    """Frames of a curve with holes, half of them with a creaky tail; now and then a pitch or a register of any bits."""
    pitch, step = r.uniform(60, 300), r.uniform(-60, 60)
    hertz = [None if r.random() < 0.1 else pitch + step * i / (frames or 1) + r.uniform(-2, 2) for i in range(frames)]
    variants = [(r.randint(1, tones), r.choice([0.25, 0.125, -0.0])) for _ in range(r.choice([0, 0, 1, 2, 4]))]
    q = bytearray(query(r.randint(1, tones), r.randint(1, 8), r.randint(0, tones), r.randint(0, 1), hertz, variants))
    q[22] = r.choice([0, 2])
    for _ in range(r.choice([0, 0, 0, 1, 5])):
        at = r.choice([13, 17] + ([48 + 10 * r.randrange(frames)] if frames else []))
        q[at:at + 4] = r.choice([bytes(4), r.randbytes(4), f32(float('nan')), f32(float('inf')), f32(-0.0), f32(1e-40)])
    return bytes(q)


def cold(q):
    """The query as a new speaker's, with kind 55 behind its record."""
    return q[:46] + bytes([55]) + q[46:]


def cold_query(r, frames):
    """A new speaker's query: pitches as in others, of one value, of two neighbours, or of any size; some with kind 55 where it is not due."""
    q = bytearray(some_query(r, frames))
    level = struct.unpack('<I', f32(r.uniform(60, 300)))[0]
    pitch = r.choice([None, None, lambda: level, lambda: level + r.randrange(2), lambda: r.getrandbits(31)])
    for at in range(48, len(q), 10):
        if pitch:
            q[at:at + 4] = struct.pack('<I', pitch())
    q[13:21] = r.choice([q[13:21], r.randbytes(8), b'\xff' * 8])
    return r.choice([cold(bytes(q))] * 9 + [cold(cold(bytes(q))), bytes(q[:56]) + bytes([55]) + bytes(q[56:])])


def damaged(r, data):
    """A byte changed, the end cut off, or bytes added."""
    at = r.randrange(len(data))
    return r.choice([data[:at] + r.randbytes(1) + data[at + 1:], data[:at], data + r.randbytes(1 + at % 9)])


def made(r, host):
    """Calls on packs, sheets and queries made here, in the form of `recorded`."""
    packs = [largest_pack(r), alike_pack(), alike_pack(True), heavy_pack(), PACK] + [some_pack(r) for _ in range(36)]
    queries = [some_query(r, n) for n in [1024, 1024, 1023, 0, 1, 2, 3, 7, 8, 9, 30, 200]] + [QUERY]
    queries += [some_query(r, r.randint(0, 1024)) for _ in range(30)]
    # What was made before is made as it was, from the same source of chance; what is new has one of its own.
    new = random.Random(3)
    colds = [cold(q) for q in queries[:13]] + [cold_query(new, n) for n in [1024, 1024, 1023, 0, 1, 2, 3, 7, 8, 9, 30, 200]]
    colds += [cold_query(new, new.randint(0, 1024)) for _ in range(30)]
    sheets = [out[:place] for number, place, out in answers(host, [case(WRITE_SHEET, p, room=SHEET_MAX) for p in packs]) if number == 0]
    assert len(sheets) == len(packs) and max(map(len, packs)) == PACK_MAX and max(map(len, sheets)) == SHEET_MAX
    assert max(map(len, queries)) + 1 == QUERY_MAX
    for p, s in zip(packs, sheets):
        yield WRITE_SHEET, p, b'', 0, len(s)
        yield CHECK_PACK, p, b'', 0, 0
        yield CHECK_SHEET, s, b'', 0, 0
        for call, data in [(CHECK_PACK, p), (CHECK_SHEET, s), (WRITE_SHEET, p)]:
            for _ in range(3):
                yield call, damaged(r, data), b'', 1, 0
        for q in r.sample(queries, 4):
            yield JUDGE, p, q, 0, RECORD
            yield JUDGE_SHEET, s, q, 0, RECORD
        yield JUDGE_SHEET, damaged(r, s), r.choice(queries), 1, 0
    for q in queries:
        yield CHECK_QUERY, q, b'', 0, 0
        yield WRITE_SHAPE, q, b'', 0, SHAPE
        yield CHECK_QUERY, damaged(r, q), b'', 1, 0
        yield WRITE_SHAPE, damaged(r, q), b'', 1, 0
    for p, s in zip(packs[:3], sheets[:3]):
        for q in queries[:3]:
            yield JUDGE, p, q, 0, RECORD
            yield JUDGE_SHEET, s, q, 0, RECORD
    for q in colds:
        yield CHECK_QUERY, q, b'', 0, 0
        yield WRITE_SHAPE, q, b'', 0, SHAPE
        yield CHECK_QUERY, damaged(new, q), b'', 1, 0
        yield WRITE_SHAPE, damaged(new, q), b'', 1, 0
    for p, s in zip(packs, sheets):
        q = new.choice(colds)
        yield JUDGE, p, q, 0, RECORD
        yield JUDGE_SHEET, s, q, 0, RECORD


def all_cases(host, arena):
    """Each call with the rooms that it is to be asked with, where they fit; and how many were left out."""
    r, cases, left = random.Random(1), [], 0
    for call, first, second, number, length in [*recorded(), *made(r, host)]:
        if call in (CHECK_PACK, CHECK_QUERY, CHECK_SHEET):
            rooms = [0]
        elif call > JUDGE_SHEET:
            rooms = [length]
        elif number == 0:
            rooms = [length, length - 1, length + r.randint(1, 40), r.choice([0, length // 2])]
        else:
            rooms = [RECORD if call >= JUDGE else SHAPE]
        for room in rooms:
            skew = len(cases) % 8
            if skew + len(first) + len(second) + room + BEHIND <= arena:
                cases.append(case(call, first, second, room, skew, r.randbytes(room + BEHIND)))
            else:
                left += 1
    return cases, left


if __name__ == '__main__':
    cases, left = all_cases(sys.argv[1], int(sys.argv[3]) if len(sys.argv) > 3 else ARENA)
    cases = cases[::int(sys.argv[4]) if len(sys.argv) > 4 else 1]
    with open(sys.argv[2], 'wb') as out:
        out.write(b''.join(cases))
    counts = {}
    for c in cases:
        counts[c[0]] = counts.get(c[0], 0) + 1
    print(f'{len(cases)} cases: ' + ', '.join(f'{n} {CALLS[call]}' for call, n in sorted(counts.items())) +
          (f'; {left} too large for this RAM left out' if left else ''))
