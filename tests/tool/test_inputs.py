"""Every subcommand on good, damaged, empty, huge and missing input: its status, its words, and what it leaves behind."""
import os
import subprocess

from harness import (CSV, MEGABYTES, PACK, QUERY, ROOT, SAID, SHEET, TEXT, TOOL, changed, content, expect, expect_refused,
                     folder, listing, put, tonekit)

HAS_PLOT = os.path.exists(os.path.join(ROOT, 'tools', 'tonekit_tool', 'plot.py'))
RECORD = bytes.fromhex('3103 0581 8ecb c1d4 9021 c131 1e9d 3f58 2510 c19b 78ad bf00 0000 0000 0000 0000'
                       '0000 00fc 40c9 3f01 4c19 2b3f 0202 2000 0003 0000 0000 0000 0000 0000 0000 0000')

# A pack, a sheet and a query that are damaged, and what is told of each.
TONE_OFF = changed(PACK, 123, b'\x00\x00\x00\x40')
LIST_OFF = content('crates', 'sheet_text', 'data', 'damaged.sheet')
FRAME_OFF = changed(QUERY, 57, b'\x07')
PACK_TOLD = ('refused with 5, off scale, at byte 121 (tone 3)', 'prior is 2, not above 0 and at most 1')
SHEET_TOLD = ('refused with 5, off scale, at byte 886', 'component')
QUERY_TOLD = ('refused with 10, bad query, at byte 56 (frame 1)', 'voiced is 7, not 0 or 1')

# Where the input stands in each command: words before it and behind it, a good one, a damaged one with what is told of it, what
# is told of an empty one, and a huge one with what is told of that.
CUT = 'refused with 2, cut short, at byte 0'
OVER = 'refused with 3, overrun, at byte '
COMMANDS = [
    (['check'], [], PACK, TONE_OFF, PACK_TOLD, CUT, PACK * 6000, OVER + '925'),
    (['check'], [], SHEET, LIST_OFF, SHEET_TOLD, CUT, SHEET * 3500, OVER + '1646'),
    (['check'], [], QUERY, FRAME_OFF, QUERY_TOLD, CUT, QUERY * 16000, OVER + '346'),
    (['check', '--as', 'sheet'], [], SHEET, PACK, ('refused with 1, misplaced, at byte 0', 'that of a pack'), CUT, PACK * 6000,
     'refused with 1'),
    (['judge', '-o', 'out', '--pack'], ['query'], PACK, TONE_OFF, PACK_TOLD, CUT, PACK * 6000, OVER + '925'),
    (['judge', '-o', 'out', '--sheet'], ['query'], SHEET, LIST_OFF, SHEET_TOLD, CUT, SHEET * 3500, OVER + '1646'),
    (['judge', '-o', 'out', '--pack', 'pack'], [], QUERY, FRAME_OFF, QUERY_TOLD, CUT, QUERY * 16000, OVER + '346'),
    (['judge', '-o', 'out', '--sheet', 'sheet'], [], QUERY, FRAME_OFF, QUERY_TOLD, CUT, QUERY * 16000, OVER + '346'),
    (['shape', '-o', 'out'], [], QUERY, FRAME_OFF, QUERY_TOLD, CUT, QUERY * 16000, OVER + '346'),
    (['sheet', '-o', 'out'], [], PACK, TONE_OFF, PACK_TOLD, CUT, PACK * 6000, OVER + '925'),
    (['unpack', '-o', 'out'], [], PACK, TONE_OFF, PACK_TOLD, CUT, PACK * 6000, OVER + '925'),
    (['show'], [], PACK, TONE_OFF, PACK_TOLD, 'the file is empty', PACK * 6000, OVER + '925'),
    (['show'], [], SHEET, LIST_OFF, SHEET_TOLD, 'the file is empty', SHEET * 3500, OVER + '1646'),
    (['show', '--json'], [], QUERY, FRAME_OFF, QUERY_TOLD, 'the file is empty', QUERY * 16000, OVER + '346'),
    (['show'], [], RECORD, RECORD[:60], ('at byte 0: kind 49, judgement, is cut short',), 'the file is empty', bytes(MEGABYTES),
     'begins with byte 0'),
    (['pack', '-o', 'out'], [], TEXT.encode(), TEXT.replace('prior', 'prio').encode(), ("line 6: 'prio' is none",),
     'at the end of the text: the pack is refused with 2', TEXT.encode() * 1500, 'line 43: the pack is refused with 3, overrun'),
    (['query', '-o', 'out', *SAID], [], CSV.encode(), CSV.replace('0.015', '0.016').encode(), ('line 3: the step is 11 ms',),
     'the track is empty', b''.join(b'%.2f,110\n' % (i / 100) for i in range(200000)), 'has 200000 frames'),
]


def prepared(at):
    for name, data in (('pack', PACK), ('sheet', SHEET), ('query', QUERY)):
        put(at, name, data)


def test_good_input():
    for before, behind, good, *_ in COMMANDS:
        with folder() as at:
            prepared(at)
            done = tonekit(*before, put(at, 'input', good), *behind, cwd=at)
            expect(f'{before} on good input', done.status == 0 and not done.err, done)
            out = listing(at).get('out') if 'out' in before else done.out
            expect(f'{before} gives something', bool(out), done)
            left = set(listing(at)) - {'pack', 'sheet', 'query', 'input', 'out'}
            expect(f'{before} leaves nothing else', not left, left)


def test_damaged_empty_huge_and_missing_input():
    for before, behind, _, damaged, told, empty, huge, huge_told in COMMANDS:
        for name, data, words in (('damaged', damaged, told), ('empty', b'', (empty,)), ('huge', huge, (huge_told,))):
            with folder() as at:
                prepared(at)
                put(at, name, data)
                expect_refused(f'{before} on {name} input', at, [*before, name, *behind], 1, f'{name}: ', *words)
        with folder() as at:
            prepared(at)
            expect_refused(f'{before} on missing input', at, [*before, 'missing', *behind], 2, 'missing: No such file or dir')


def test_an_output_that_was_there_stays():
    for before, behind, _, damaged, *_ in COMMANDS:
        if 'out' in before:
            with folder() as at:
                prepared(at)
                put(at, 'damaged', damaged)
                put(at, 'out', b'as it was')
                tonekit(*before, 'damaged', *behind, cwd=at)
                expect(f'{before}: the output that was there stays', listing(at)['out'] == b'as it was')


def test_random_bytes():
    noise = bytes((i * i * 7 + i // 3) % 251 for i in range(100000)) * 52
    with folder() as at:
        prepared(at)
        put(at, 'noise', noise)
        for words in (['check'], ['check', '--as', 'query'], ['show'], ['judge', '--pack', 'pack'], ['shape'],
                      ['sheet', '-o', 'out'], ['unpack'], ['pack', '-o', 'out'], ['query', '-o', 'out', *SAID]):
            expect_refused(f'{words} on 5 MB of noise', at, [*words, 'noise'], 1, 'noise: ')


def test_plot():
    with folder() as at:
        prepared(at)
        put(at, 'damaged', LIST_OFF)
        if not HAS_PLOT:
            expect_refused('plot without its module', at, ['plot', 'sheet', '-o', 'out.svg'], 2, 'plotting is not part')
            return
        done = tonekit('plot', 'sheet', '-o', 'out.svg', cwd=at)
        expect('plot of the sample', done.status == 0 and any(n.startswith('out') for n in listing(at)), done)
        expect_refused('plot of a damaged sheet', at, ['plot', 'damaged', '-o', 'other.svg'], 1, 'damaged: ', *SHEET_TOLD)
        expect_refused('plot of a pack', at, ['plot', 'pack', '-o', 'other.svg'], 1, 'that of a pack')
        expect_refused('plot of nothing', at, ['plot', 'missing', '-o', 'other.svg'], 2, 'No such file')


def test_many_inputs_have_the_greatest_status():
    with folder() as at:
        prepared(at)
        put(at, 'off', TONE_OFF)
        for names, status in ((['pack', 'query', 'sheet'], 0), (['pack', 'off', 'query'], 1), (['off', 'missing', 'pack'], 2)):
            done = tonekit('check', *names, cwd=at)
            loads = done.out.decode().count(': loads, a ')
            good = len(set(names) - {'off', 'missing'})
            expect(f'{names} have status {status}', done.status == status and loads == good, done)


def test_wrong_use():
    with folder() as at:
        prepared(at)
        for words in ([], ['grade'], ['check'], ['judge', 'query'], ['judge', '--pack', 'pack', '--sheet', 'sheet', 'query'],
                      ['sheet', 'pack'], ['check', '--as', 'record', 'pack'], ['query', 'query', '-o', 'x'],
                      ['show', 'pack', 'sheet']):
            expect_refused(f'used as {words}', at, words, 2, 'usage: tonekit')
        expect_refused('two records into one file', at, ['judge', '--pack', 'pack', '-o', 'x', 'query', 'query'], 2, 'one record')
        expect_refused('standard input twice', at, ['check', '-', '-'], 2, 'was read already')
    started = subprocess.run([TOOL, '--version'], capture_output=True)
    expect('the script starts by itself', started.stdout == b'tonekit 1.0.0\n', started)
    for words in (['--help'], ['judge', '--help'], ['--version']):
        done = tonekit(*words)
        expect(f'{words}', done.status == 0 and b'tonekit' in done.out and not done.err, done)
