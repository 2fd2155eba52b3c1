#!/usr/bin/env python3
"""figures.py make HOST FILE [N]: writes the cases whose instructions and cycles docs/CONTROLLER.md gives; with N, the Nth alone.
figures.py table COUNTS: what the plugin (count.c) counted of them, as lines of a table.
figures.py profile IMAGE PROFILE [N]: the N functions that the longest run's cycles went to."""
import bisect
import random
import struct
import subprocess
import sys

from cases import (CHECK_PACK, CHECK_QUERY, CHECK_SHEET, JUDGE, JUDGE_SHEET, RECORD, SHAPE, SHEET_MAX, WRITE_SHAPE, WRITE_SHEET,
                   accent, alike_pack, answers, case, cold, f32, heavy_pack, largest_pack, of_one_mark, tone)

MEGAHERTZ = 48


def query(frames, graded=1, holes=True, variants=()):
    """As bench/main.rs: a falling and rising pitch, with holes every seventh frame but for the first and the last."""
    used = b''.join(bytes([t]) + f32(w) for t, w in variants)
    body = bytes([48, graded, 1, 0, 0]) + struct.pack('<II', 0, frames) + f32(0.0, 24.0) + bytes([0, 0, len(variants)])
    body += used + bytes(20 - len(used)) + struct.pack('<H', frames)
    for i in range(frames):
        t = i / frames
        body += bytes([50, not holes or i % 7 != 3 or i == 0 or i + 1 == frames]) + f32(180 - 160 * t * (1 - t), 0.9)
    return body


# Five tones of one curve of three knots each, and one accent, as bench/main.rs has them.
FIVE = bytes([1]) + f32(1.0, 0.5) + b''.join(tone(t, 0.2, [1 + k * t / 4 for k in range(3)]) for t in range(1, 6))
FIVE += accent(1, 0, 1.0, 1.0, 1.0, 1.0) + bytes([6])


def alike_sheet(one_mark=False):
    """A sheet of no pack that is long to read: 128 lists of one component, alike but for the last bits of the ninth point; or for
    the last two points, and of one mark."""
    head = bytes([17]) + f32(1.0, 0.25) + b''.join(bytes([18, t]) + f32(0.125) + bytes(9) + bytes([24]) + bytes(8) for t in range(1, 9))
    head += b''.join(bytes([19, a]) + f32(0.5, 0.75, 1.0, 0.25) for a in range(1, 9))
    places = [(a, t, prev) for a in range(1, 9) for t in range(1, 9) for prev in range(9)]
    rows = b''.join(bytes([20, *place, *((2 * i + 1, 2 * i + 2) if i < 64 else (1, 2))]) for i, place in enumerate(places))
    ends = [of_one_mark(n) if one_mark else struct.pack('<If', 0x40000000 + n, 2.0) for n in range(1, 129)]
    lists = b''.join(bytes([21, n, 1, 2, 7, 0, 1, 22]) + f32(1.0, *[2.0] * 8) + ends[n - 1] for n in range(1, 129))
    return head + rows + lists + bytes([23])


def figures(host=None):
    """Names and cases; without a host, names alone are right."""
    packs = [FIVE, largest_pack(random.Random(1)), alike_pack(), heavy_pack()]
    sheets = [b''] * 4
    if host:
        sheets = [out[:place] for _, place, out in answers(host, [case(WRITE_SHEET, p, room=SHEET_MAX) for p in packs])]
    _, largest, alike, heavy = packs
    named = []
    for frames in (8, 30, 200, 1024):
        named.append((f'judge, {frames} frames, pack of 5 tones of one curve', case(JUDGE, FIVE, query(frames), RECORD)))
    for frames in (8, 30, 200, 1024):
        named.append((f'judge_sheet, {frames} frames, that pack\'s sheet', case(JUDGE_SHEET, sheets[0], query(frames), RECORD)))
    hard = query(1024, 8, False, [(t, 0.25) for t in (2, 3, 4, 5)])
    creaky = hard[:22] + b'\x02' + hard[23:]
    return named + [
        ('judge, 1024 frames, all voiced, 4 variants, heavy pack', case(JUDGE, heavy, hard, RECORD)),
        ('judge_sheet, the same, heavy pack\'s sheet', case(JUDGE_SHEET, sheets[3], hard, RECORD)),
        ('judge_sheet, the same, largest sheet', case(JUDGE_SHEET, sheets[1], hard, RECORD)),
        ('judge_sheet, the same, alike pack\'s sheet', case(JUDGE_SHEET, sheets[2], hard, RECORD)),
        ('judge_sheet, the same, sheet of 128 lists alike', case(JUDGE_SHEET, alike_sheet(), hard, RECORD)),
        ('judge_sheet, the same, 128 lists of one mark', case(JUDGE_SHEET, alike_sheet(True), hard, RECORD)),
        ('judge, the first of these with CreakyTail', case(JUDGE, heavy, creaky, RECORD)),
        ('judge_sheet, the second with CreakyTail', case(JUDGE_SHEET, sheets[3], creaky, RECORD)),
        ('write_shape, 30 frames', case(WRITE_SHAPE, query(30), room=SHAPE)),
        ('write_shape, 1024 frames', case(WRITE_SHAPE, query(1024), room=SHAPE)),
        ('check_pack, largest', case(CHECK_PACK, largest)),
        ('check_query, 1024 frames', case(CHECK_QUERY, query(1024))),
        ('write_sheet, largest pack and sheet', case(WRITE_SHEET, largest, room=SHEET_MAX)),
        ('write_sheet, alike pack', case(WRITE_SHEET, alike, room=SHEET_MAX)),
        ('write_sheet, alike pack of one mark', case(WRITE_SHEET, alike_pack(True), room=SHEET_MAX)),
        ('check_sheet, largest', case(CHECK_SHEET, sheets[1])),
        ('check_sheet, alike pack\'s sheet', case(CHECK_SHEET, sheets[2])),
        ('check_sheet, 128 lists alike', case(CHECK_SHEET, alike_sheet())),
        ('check_sheet, 128 lists of one mark', case(CHECK_SHEET, alike_sheet(True))),
        ('judge, 30 frames of a new speaker, pack of 5 tones of one curve', case(JUDGE, FIVE, cold(query(30)), RECORD)),
        ('judge, 1024 frames of a new speaker, pack of 5 tones of one curve', case(JUDGE, FIVE, cold(query(1024)), RECORD)),
        ('judge_sheet, the same, that pack\'s sheet', case(JUDGE_SHEET, sheets[0], cold(query(1024)), RECORD)),
        ('judge, 1024 frames of a new speaker, all voiced, 4 variants, heavy pack', case(JUDGE, heavy, cold(hard), RECORD)),
        ('judge_sheet, the same, heavy pack\'s sheet', case(JUDGE_SHEET, sheets[3], cold(hard), RECORD)),
        ('judge, 1024 frames of a new speaker, all voiced, pack of 5 tones of one curve', case(JUDGE, FIVE, cold(query(1024, holes=False)), RECORD)),
        ('judge, 1024 frames, all voiced, pack of 5 tones of one curve', case(JUDGE, FIVE, query(1024, holes=False), RECORD)),
        ('write_shape, 1024 frames of a new speaker', case(WRITE_SHAPE, cold(query(1024)), room=SHAPE)),
        ('check_query, 1024 frames of a new speaker', case(CHECK_QUERY, cold(query(1024)))),
    ]


def table(counts):
    lines = [line.split() for line in open(counts) if ' instructions, ' in line]
    names = [name for name, _ in figures()]
    assert len(lines) == len(names), (len(lines), len(names))
    for name, words in zip(names, lines):
        instructions, cycles = int(words[0]), int(words[2])
        print(f'| {name} | {instructions:,} | {cycles:,} | {cycles / MEGAHERTZ / 1000:,.1f} ms |')


def profile(image, spent, most):
    symbols = []
    for line in subprocess.run(['arm-none-eabi-nm', '-n', image], capture_output=True, text=True, check=True).stdout.splitlines():
        address, kind, name = line.split(maxsplit=2)
        if kind in 'tTwW' and not name.startswith('$'):
            symbols.append((int(address, 16), name))
    starts, by_name = [a for a, _ in symbols], {}
    for line in open(spent):
        address, cycles = map(int, line.split())
        name = symbols[bisect.bisect_right(starts, address) - 1][1]
        by_name[name] = by_name.get(name, 0) + cycles
    total = sum(by_name.values())
    for name, cycles in sorted(by_name.items(), key=lambda x: -x[1])[:most]:
        print(f'{100 * cycles / total:5.1f} %  {cycles:>12,}  {name}')


if __name__ == '__main__':
    if sys.argv[1] == 'make':
        chosen = [c for _, c in figures(sys.argv[2])]
        if any(number for number, _, _ in answers(sys.argv[2], chosen)):
            sys.exit('a figure\'s case is refused')
        if len(sys.argv) > 4 and sys.argv[4]:
            chosen = [chosen[int(sys.argv[4]) - 1]]
        with open(sys.argv[3], 'wb') as out:
            out.write(b''.join(chosen))
    elif sys.argv[1] == 'table':
        table(sys.argv[2])
    else:
        profile(sys.argv[2], sys.argv[3], int(sys.argv[4]) if len(sys.argv) > 4 else 12)
