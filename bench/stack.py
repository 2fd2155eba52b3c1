#!/usr/bin/env python3
"""stack.py LIBRARY CALL..: the deepest stack of each call on x86-64, from the library's code: what each function pushes and
reserves, its return address, and the deepest of what it calls. The library has no recursion and no call by address; a
function outside it (memset, memcpy) counts as 0 and is named."""
import os
import re
import subprocess
import sys

library = os.path.abspath(sys.argv[1])
text = subprocess.run(['objdump', '-d', '-r', '--no-show-raw-insn', library], capture_output=True, text=True, check=True).stdout
own, calls, name, pending = {}, {}, None, False
for line in text.split('\n'):
    m = re.match(r'^[0-9a-f]+ <(.*)>:$', line)
    if m:
        name = m.group(1)
        own[name], calls[name] = 8, set()
    elif name:
        if re.search(r'\tpush\s', line):
            own[name] += 8
        m = re.search(r'\tsub\s+\$0x([0-9a-f]+),%rsp', line)
        if m:
            own[name] += int(m.group(1), 16)
        if re.search(r'\tcall\s+\*', line):
            sys.exit(f'{name} calls by address')
        m = re.search(r'R_X86_64_(PLT32|PC32)\s+([\w.:<>·]+)-0x4', line)
        if m and pending:
            calls[name].add(m.group(2).removeprefix('.text.'))
        m = re.search(r'\tcall\s+[0-9a-f]+ <([^+>]+)>', line)
        if m and m.group(1) != name:
            calls[name].add(m.group(1))
        pending = bool(re.search(r'\t(call|jmp)\s', line))
outside = set()

def depth(f, path=()):
    if f in path:
        sys.exit(f'{f} calls itself')
    if f not in own:
        outside.add(f)
        return 0
    return own[f] + max([depth(g, path + (f,)) for g in calls[f]], default=0)

for call in sys.argv[2:]:
    print(f'{call}: {depth(call)} bytes of stack')
if outside:
    print('outside, not counted: ' + ', '.join(sorted(outside)))
