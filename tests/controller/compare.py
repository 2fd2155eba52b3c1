#!/usr/bin/env python3
"""compare.py FOLDER: the answers of a board (`answers`) against x86-64's (`wanted`) for the cases in `cases`, byte for byte; and the
deepest stack of each call (`stack`), as painted. The last line says how many cases there are and how many differ."""
import os
import struct
import sys

from cases import CALLS


def read(name):
    path = os.path.join(sys.argv[1], name)
    return open(path, 'rb').read() if os.path.exists(path) else b''


cases, answers, wanted, stack = map(read, ('cases', 'answers', 'wanted', 'stack'))
at = place = count = differ = 0
while at < len(cases):
    call, first, second, room, behind, skew = struct.unpack_from('<6I', cases, at)
    length = 12 + first + second + room + behind
    if answers[place:place + length] != wanted[place:place + length]:
        differ += 1
        if differ <= 3:
            got, right = answers[place:place + length], wanted[place:place + length]
            first_at = next((i for i in range(len(got)) if got[i] != right[i]), len(got))
            print(f'case {count}, {CALLS[call]} of {first} and {second} bytes, room {room}: differs from byte {first_at} of the answer on, '
                  f'{got[first_at:first_at + 8].hex() or "nothing"}, not {right[first_at:first_at + 8].hex()}')
    at += 12 + length
    place += length
    count += 1
if not len(answers) == len(wanted) == place:
    print(f'{len(answers)} bytes of answers, not {len(wanted)}')
    differ = differ or 1
if stack:
    deepest = struct.unpack(f'<{len(stack) // 4}I', stack)
    print('deepest stack, painted: ' + ', '.join(f'{name} {deepest[call]}' for call, name in CALLS.items() if deepest[call]))
print(f'{count} cases, {differ} differ')
sys.exit(differ > 0)
