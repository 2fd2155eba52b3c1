#!/usr/bin/env python3
"""stackbound.py IMAGE ROOT..: a bound of the stack that each call takes, over the call graph of a linked image.
A function's frame is what its code pushes and takes from sp; where clang made it, the section .stack_sizes must say the same, and
gives the frames that a register is added for. Recursion and calls through a register are refused; in libgcc's hand-written code a
label may go on into the next, and a jump back within a loop takes no stack. The chain that reaches the bound is printed."""
import re
import struct
import subprocess
import sys
import tempfile


class Function:
    def __init__(self, name, address):
        self.name, self.address = name, address
        self.frame, self.large, self.goes_on = 0, False, True
        self.calls, self.falls = set(), None


def registers(words):
    """How many registers a list such as r4-r7, lr names."""
    total = 0
    for word in words.split(','):
        m = re.fullmatch(r'r(\d+)-r(\d+)', word.strip())
        total += int(m[2]) - int(m[1]) + 1 if m else 1
    return total


def instruction(f, name, words):
    """What one instruction adds to a function's frame and calls."""
    name = name.split('.')[0]
    if name == 'push' or name == 'stmdb' and words.startswith('sp!'):
        f.frame += 4 * registers(re.search(r'\{(.*)\}', words)[1])
    elif name in ('sub', 'subw') and (m := re.match(r'sp, (?:sp, )?#(\d+)', words)):
        f.frame += int(m[1])
    elif name in ('str', 'strd') and (m := re.search(r'\[sp, #-(\d+)\]!', words)):
        f.frame += int(m[1])
    elif name in ('add', 'mov') and re.match(r'sp, (sp, )?r\d', words):
        f.large = f.large or name == 'add'
    elif name == 'blx' and re.match(r'r\d|ip', words):
        sys.exit(f'{f.name} calls through a register: {words}')
    if name[0] == 'b' or name in ('cbz', 'cbnz'):
        if m := re.search(r'([0-9a-f]+) <.+?(?:\+0x([0-9a-f]+))?>$', words):  # A name may have < and + in it.
            target = int(m[1], 16) - int(m[2] or '0', 16)
            if target != f.address:
                f.calls.add((target, name in ('bl', 'blx')))
    if name != 'nop' and not (name == 'movs' and words.replace(' ', '') == 'r0,r0'):
        f.goes_on = not (name in ('b', 'bx', 'udf') or name in ('pop', 'ldmia', 'ldm') and 'pc' in words)


def read_functions(image):
    """The functions of an image by address: two may have one name, in the library and beside it."""
    text = subprocess.run(['arm-none-eabi-objdump', '-d', '--no-show-raw-insn', image], capture_output=True, text=True, check=True).stdout
    functions, f = {}, None
    for line in text.splitlines():
        if m := re.match(r'([0-9a-f]+) <(.+)>:$', line):
            after, f = f, Function(m[2], int(m[1], 16))
            if after:
                after.falls = f.address
            functions[f.address] = f
        elif f and (m := re.match(r'\s+[0-9a-f]+:\t([a-z]\S*)\t?([^@;]*)', line)):
            instruction(f, m[1], m[2].strip())
    return functions


def read_sizes(image):
    """Frames by address, from .stack_sizes: a u32 address, then the size in groups of seven bits."""
    with tempfile.NamedTemporaryFile() as out:
        subprocess.run(['arm-none-eabi-objcopy', '-O', 'binary', '--only-section=.stack_sizes',
                        '--set-section-flags', '.stack_sizes=alloc', image, out.name], check=True)
        data = out.read()
    sizes, at = {}, 0
    while at < len(data):
        address, size, shift = struct.unpack_from('<I', data, at)[0] & ~1, 0, 0
        at += 4
        while True:
            size |= (data[at] & 127) << shift
            shift, at = shift + 7, at + 1
            if data[at - 1] < 128:
                break
        sizes[address] = size
    return sizes


def bounds(functions, sizes):
    known, open_ = {}, []

    def frame(f):
        size = sizes.get(f.address)
        if size is None and f.large:
            sys.exit(f'{f.name} has a frame of unknown size')
        if size is not None and not f.large and size != f.frame:
            sys.exit(f'{f.name} takes {f.frame} bytes by its code, {size} by .stack_sizes')
        return f.frame if size is None else size

    def bound(address):
        """The bound and the chain that reaches it."""
        if address in known:
            return known[address]
        f = functions[address]
        if address in open_:
            sys.exit(f'{f.name} calls itself, by {" > ".join(functions[a].name for a in open_[open_.index(address):])}')
        open_.append(address)
        proved = f.address in sizes
        next_ = {c for c, called in f.calls if called or proved or c not in open_}
        if f.goes_on and f.falls and not proved:
            next_.add(f.falls)
        below = max((bound(c) for c in sorted(next_)), default=(0, []), key=lambda b: b[0])
        open_.pop()
        total = (frame(f) + below[0], [(f.name, frame(f))] + below[1])
        if proved:
            known[address] = total
        return total

    return bound


if __name__ == '__main__':
    functions = read_functions(sys.argv[1])
    bound = bounds(functions, read_sizes(sys.argv[1]))
    for root in sys.argv[2:]:
        total, chain = bound(next(f.address for f in functions.values() if f.name == root))
        print(f'{root}: at most {total} bytes: ' + ' > '.join(f'{name} {size}' for name, size in chain))
