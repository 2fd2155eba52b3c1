"""Packs as text: 2,000 generated packs to text and back, and texts that are none."""
import itertools
import os
import random

import harness
from harness import PACK, PACKS, SHEET, TEXT, changed, content, expect, expect_refused, folder, put, tonekit
from packs import Packs, joined

import sample
from tonekit_tool import cli, programs, text
from tonekit_tool.floats import F32
from tonekit_tool.layouts import KINDS, encode


def different(data):
    """What of a pack does not survive text, bytes, text, bytes; or that it does not load."""
    first = text.write_pack(data)
    again = text.read_pack(first)[0]
    return [what for what, holds in (('loads', programs.check('pack', data) is None), ('the same bytes', again == data),
                                     ('the same text', text.write_pack(again) == first)) if not holds]


def test_generated_packs_survive():
    """Each of them loads, and no byte of it is lost."""
    packs, differ, longest = Packs(random.Random(1)), [], 0
    for i in range(PACKS):
        data = joined(packs.records())
        longest = max(longest, len(data))
        wrong = different(data)
        if wrong:
            differ.append((i, wrong))
    print(f'{PACKS} packs to text and back, {len(differ)} differ; the longest has {longest} bytes')
    expect(f'{PACKS} packs survive', not differ, differ[:3])


def largest():
    """A pack of every limit."""
    packs = Packs(random.Random(5))
    tones = [record for number in range(1, 9) for record in (packs.tone(number), packs.tail())]
    accents = [packs.accent(number, (number + 1) % 9) for number in range(1, 9)]
    rule = encode(KINDS[4], {'label': 65535, 'form': 3})
    parts = [packs.part(3) for _ in range(128)]
    body = b''.join(rule + joined(parts[2 * i:2 * i + 2]) for i in range(64))
    return bytes([1]) + harness.f32(1, 1) + joined(tones) + joined(accents) + body + bytes([6])


def test_largest_pack_survives():
    expect('the largest pack has 7,018 bytes', len(largest()) == 7018, len(largest()))
    expect('the largest pack survives', not different(largest()), different(largest()))


def through_commands(at, data):
    one, words, again = (os.path.join(at, name) for name in ('one.pack', 'words', 'again.pack'))
    put(at, 'one.pack', data)
    status = cli.run(['unpack', one, '-o', words]), cli.run(['pack', words, '-o', again])
    with open(again, 'rb') as file:
        return status == (0, 0) and file.read() == data


def test_commands_keep_packs():
    packs = Packs(random.Random(2))
    with folder() as at:
        wrong = [i for i in range(40) if not through_commands(at, joined(packs.records()))]
        expect('40 packs through unpack and pack', not wrong, wrong)
        expect('no other file is left', sorted(os.listdir(at)) == ['again.pack', 'one.pack', 'words'], os.listdir(at))


def test_sample_is_its_text():
    with folder() as at:
        done = tonekit('pack', put(at, 'text', TEXT), '-o', 'made.pack', cwd=at)
        made = harness.listing(at).get('made.pack')
        expect('the text of the sample gives the sample', done.status == 0 and made == PACK == sample.PACK, done)
        done = tonekit('unpack', put(at, 'sample.pack', PACK), '--names', 'text', cwd=at)
        words = done.out.decode()
        expect('names are kept', 'tone 3  prior 0.2  knots 2 1 4  region 0.375  to 0.75   # low; may be creaky' in words, words)
        expect('names of tails are kept', '  tail  final 1.5  elsewhere 0.75   # a creaky end speaks for it\ntone 4 ' in words, words)
        expect('names of rules are kept', 'rule 51  tone 5  prev 1   # neutral after high' in words, words)
        expect('the text with names gives the sample', text.read_pack(words)[0] == PACK)
        expect('standard input and output', tonekit('pack', '-', '-o', '-', data=words.encode()).out == PACK)


def test_tails_survive():
    """A tail's two values in any form, by their bits: both zeros, both limits, the least, and what the check refuses."""
    head, bits = 'settings temperature 1 threshold 1\ntone 1 prior 1 knots 3\n', bytes.fromhex
    for words, wanted in [('0  elsewhere -0', bits('0000000000000080')), ('50  elsewhere -50', bits('00004842000048c2')),
                          ('1e-45  elsewhere 0x80000001', bits('0100000001000080')), ('-1.5  elsewhere 0.25', bits('0000c0bf0000803e')),
                          ('nan  elsewhere 0x7f800001', bits('0000c07f0100807f'))]:
        data, _ = text.read_pack(f'{head}tail  final {words}')
        expect(f'tail final {words}', data[65:] == bytes([7]) + wanted, data[65:].hex())
        expect(f'tail final {words} and back', text.read_pack(text.write_pack(data))[0] == data, text.write_pack(data))
    expect('the order of its words is free', text.read_pack(f'{head} tail elsewhere 2 final 1')[0][65:] == b'\x07' + harness.f32(1, 2))
    expect('its line', '\n  tail  final -1.5  elsewhere 0.25\n' in text.write_pack(text.read_pack(f'{head}tail elsewhere 0.25 final -1.5')[0]))


def test_accents_in_any_order():
    """The sample's accents, each with its rules, in every order: each parent is found, and the sheet is the sample's."""
    front, *accents = TEXT.partition('\nend\n')[0].split('\naccent ')
    for order in itertools.permutations(accents):
        words = '\naccent '.join([front, *order]) + '\nend\n'
        named = [block[0] for block in order]
        with folder() as at:
            done = tonekit('pack', put(at, 'text', words), '-o', 'pack', cwd=at), tonekit('sheet', 'pack', '-o', 'sheet', cwd=at)
            made = harness.listing(at)
            expect(f'accents {named}', [d.status for d in done] == [0, 0] and made.get('sheet') == SHEET, done[0])
            again = text.read_pack(text.write_pack(made.get('pack', b'')))[0]
            expect(f'accents {named} to text and back', again == made.get('pack') == text.read_pack(words)[0])


def test_bits_survive_by_hand():
    """Bits that no decimal gives stand in a text as such, and are for the program to judge."""
    data, _ = text.read_pack('tone 1  prior 0x7fc00001  knots -0 -inf 0xff800001')
    expect('bits of a NaN', data[2:6] == bytes.fromhex('0100c07f'), data[:20].hex())
    expect('-0, -inf and a signalling NaN', data[7:19] == bytes.fromhex('00000080000080ff010080ff'), data[:20].hex())
    expect('a float keeps its bits', F32(0xFF800001).bits == 0xFF800001)


# A text, and what is told of it: changes of the sample's text that no longer read, then those that the check refuses.
UNREADABLE = [
    ('tone 1 ', 'tune 1 ', "line 6: 'tune' is none of settings, tone, tail, accent, rule, part, end"),
    ('tone 2  prior 0.2 ', 'tone 2  prior 0,2 ', "line 7: '0,2' is no number"),
    ('tone 2  prior 0.2 ', 'tone 2  prio 0.2 ', "line 7: 'prio' is none of the words here: prior, knots, region, to"),
    ('tone 2  prior 0.2 ', 'tone 2  prior 0.2 prior 0.2', "line 7: 'prior' stands there twice"),
    ('tone 2  prior 0.2 ', 'tone 2 ', 'line 7: tone lacks prior'),
    ('tone 2 ', 'tone 256 ', "line 7: number '256' is no whole number from 0 to 255"),
    ('tone 1  prior 0.25  knots 5 ', 'tone', 'line 6: tone has no number'),
    ('0.375 to 0.75', '0.375', 'line 8: tone lacks to'),
    ('final 1.5  elsewhere 0.75', 'final 1.5', 'line 9: tail lacks elsewhere'),
    ('final 1.5  elsewhere 0.75', 'elsewhere 0.75', 'line 9: tail lacks final'),
    ('final 1.5  elsewhere', 'final 1.5 2  elsewhere', "line 9: '2' is none of the words here: final, elsewhere"),
    ('final 1.5  elsewhere', 'final yes  elsewhere', "line 9: 'yes' is no number"),
    ('  tail  final 1.5', '  tail 3  final 1.5', "line 9: '3' is none of the words here: final, elsewhere"),
    ('knots 5 1 ', 'knots ', 'line 10: knots has 0 values, not 1 to 10'),
    ('knots 5 1 ', 'knots 1 2 3 4 5 6 7 8 9 10 11 ', 'line 10: knots has 11 values, not 1 to 10'),
    ('final yes', 'final maybe', "line 16: final 'maybe' is no whole number from 0 to 255 or one of any, no, yes"),
    ('\nend', '\nend now', "line 39: 'now' is none of the words here: nothing"),
]
REFUSED = [
    ('prior 0.2  ', 'prior 2  ', 'line 7: the pack is refused with 5, off scale, at byte 65 (tone 2)', 'prior is 2, not above 0'),
    ('prior 0.2  ', 'prior nan  ', 'refused with 5', 'prior is 0x7fc00000'),
    ('tone 2  prior', 'tone 1  prior', 'line 7: the pack is refused with 6, doubled', 'it stands at byte 9 already'),
    ('parent 1', 'parent 9', 'line 39: the pack is refused with 7, loose, at byte 924 (the end)',
     'the parent of accent 2 (line 28) is 9, and the accents are: 1, 2, 7'),
    ('tone 4  prev 4 ', 'tone 4  prev 9 ', 'line 35: the pack is refused with 7, loose, at byte 825 (rule 44)',
     'prev is 9, and the tones are: 1, 2, 3, 4, 5'),
    ('parent 1', 'parent 7', 'line 39: the pack is refused with 20, endless chain, at byte 924 (the end)',
     'accents 2 and 7 form a ring: 2 (line 28) has parent 7, 7 (line 34) has parent 2'),
    ('accent 1  ', 'accent 1  parent 1  ', 'line 39: the pack is refused with 20', 'accent 1 (line 13) is its own parent'),
    ('weight 0.75', 'weight -0', 'line 17: the pack is refused with 5', 'at byte 377 (part 0 of rule 31)', 'weight is -0'),
    ('final yes  form mixture', 'final yes', 'line 17: the pack is refused with 5', 'weight is 0.75, not 1 in a single rule'),
    ('\nend\n', '\n', 'at the end of the text: the pack is refused with 2, cut short, at byte 924'),
    ('\nend\n', '\nend\nend\n', 'line 40: the pack is refused with 3, overrun, at byte 925'),
    ('settings  temperature 1  threshold 0.5', '', 'line 6: the pack is refused with 1, misplaced, at byte 0'),
    ('final 1.5 ', 'final 50.5 ', 'line 9: the pack is refused with 5, off scale, at byte 177 (the tail of tone 3)',
     'final is 50.5, not of a size of at most 50'),
    ('elsewhere 0.75 ', 'elsewhere -inf ', 'line 9: the pack is refused with 5', 'elsewhere is -inf, not of a size of at most 50'),
    ('elsewhere 0.75 ', 'elsewhere 0.75\n tail final 0 elsewhere 0 ', 'line 10: the pack is refused with 1, misplaced, at byte 186',
     'kind 7, tail, of a pack, stands after the tail of tone 3: a tail stands straight after its tone, which has one at most'),
    ('tone 1  prior 0.25', 'tail  final 0 elsewhere 0\ntone 1  prior 0.25', 'line 6: the pack is refused with 1, misplaced, at byte 9',
     'stands after the settings: a tail stands straight after its tone'),
    ('\nend', '\ntail  final 0 elsewhere 0\nend', 'line 39: the pack is refused with 1', 'stands after part 1 of rule 44: a tail'),
    ('    part  knots 2 1\n', '', 'line 15: the pack is refused with 1', 'kind 4, rule, of a pack, stands after rule 30'),
]


def test_texts_that_are_none():
    for old, new, *told in UNREADABLE + REFUSED:
        with folder() as at:
            put(at, 'text', TEXT.replace(old, new, 1))
            expect(f'{old!r} stands in the sample', TEXT.replace(old, new, 1) != TEXT)
            expect_refused(f'{old!r} as {new!r}', at, ['pack', 'text', '-o', 'new.pack'], 1, 'text: ', *told)


def test_only_packs_that_load_become_text():
    with folder() as at:
        put(at, 'damaged.pack', changed(PACK, 123, b'\x00\x00\x00\x40'))
        expect_refused('a damaged pack to text', at, ['unpack', 'damaged.pack', '-o', 'words'], 1, 'damaged.pack: refused with 5',
                       'at byte 121 (tone 3)')
        put(at, 'sample.pack', PACK)
        expect_refused('names from what is no text', at, ['unpack', 'sample.pack', '--names', 'damaged.pack', '-o', 'words'], 1,
                       'damaged.pack: line 1')


def test_line_ends_and_marks():
    for name, data in (('CRLF', TEXT.replace('\n', '\r\n').encode()), ('a byte order mark', b'\xef\xbb\xbf' + TEXT.encode()),
                       ('UTF-16', TEXT.encode('utf-16')), ('Latin-1', TEXT.replace('high', 'h\u00f6her\x85').encode('latin-1')),
                       ('CR', TEXT.replace('\n', '\r').encode())):
        expect(f'a text with {name}', tonekit('pack', '-', '-o', '-', data=data).out == PACK)
    expect('examples/sample.pack.txt is the text', content('examples', 'sample.pack.txt').decode() == TEXT)
