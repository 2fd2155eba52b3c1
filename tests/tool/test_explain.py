"""The words behind a refusal against the proved check: where it refuses a field, the table must name one at that place, and where
it loads, the table must have nothing to say."""
import itertools
import random
import struct

from harness import COLD, PACK, QUERY, SHEET, changed, expect, f32, header_constants
from packs import Packs, joined

from tonekit_tool import explain, programs
from tonekit_tool.layouts import DELTAS, ISSUES, KINDS, SIZES, places, records
from tonekit_tool.refusals import REFUSALS

COUNT = 400
ODD = [0, 1, 2, 3, 4, 9, 10, 11, 99, 200, 255]
ODD_FLOATS = [f32(v) for v in (0.0, -0.0, 1.0, -1.0, 2.0, 99.5, 101.0, 127.0, 129.0, float('inf'), float('nan'), 1e-40, 0.5)]


def damaged(chance, data):
    """The bytes with one field of one record changed."""
    record = chance.choice(records(data))
    field = chance.choice(record.kind.fields) if record.kind.fields else None
    if field is None:
        return data
    at = record.offset + chance.choice(places(field))
    new = chance.choice(ODD_FLOATS) if field.type == 'f32' else bytes([chance.choice(ODD)]) + bytes(SIZES[field.type] - 1)
    return changed(data, at, new)


def faults_of(data):
    """The records that the table finds off scale, by offset."""
    found = records(data)
    faults = {r.offset: explain.off_scale(found, i) for i, r in enumerate(found) if r.values is not None}
    return {offset: words for offset, words in faults.items() if words}


def wrong(of, data):
    """Where table and check do not agree."""
    refusal = programs.check(of, data)
    if refusal is None:
        return faults_of(data) and f'loads, and the table finds {faults_of(data)}'
    found = records(data)
    at = next((i for i, r in enumerate(found) if r.offset == refusal.place), None)
    if refusal.number in (4, 5, 6, 7, 10, 20) and not explain.FAULTS[refusal.number](found, at):
        return f'{refusal}, and the table finds nothing in {found[at]}'
    return ''


def test_table_and_check_agree():
    chance, packs = random.Random(4), Packs(random.Random(6))
    seen, differ = {}, []
    for i in range(COUNT):
        of, data = chance.choice([('pack', PACK), ('pack', joined(packs.records())), ('sheet', SHEET), ('query', QUERY),
                                  ('query', COLD)])
        data = damaged(chance, data)
        fault = wrong(of, data)
        refusal = programs.check(of, data)
        seen[refusal and refusal.number] = seen.get(refusal and refusal.number, 0) + 1
        differ += [(of, fault)] if fault else []
    expect(f'{COUNT} damaged inputs explained', not differ, differ[:2])
    expect('refusals 4 to 8 and 10, and none, were among them', {None, 4, 5, 6, 7, 8, 10} <= set(seen), seen)


def refused_with(data):
    """The number and the place of what check answers to a pack, and the words for it."""
    refusal = programs.check('pack', data)
    return (refusal.number, refusal.place, explain.told(refusal, data, 'pack')) if refusal else (0, 0, '')


def with_parents(parents, order):
    """A pack of accents of these numbers, in this order, and where each of them stands."""
    packs = Packs(random.Random(9))
    data = PACK[:298] + joined(packs.accent(number, parents[number]) for number in order) + b'\x06'
    return data, {number: 298 + 19 * i for i, number in enumerate(order)}


def test_parents():
    """Of a ring of 1 to 8 accents, among others that lead into it, each accent is told, and no other; without the ring's first one
    each that names it."""
    chance = random.Random(8)
    for count in range(1, 9):
        numbers = chance.sample(range(1, 256), 8)
        ring, order = numbers[:count], chance.sample(numbers, 8)
        parents = {number: ring[(i + 1) % count] if i < count else numbers[i - count] for i, number in enumerate(numbers)}
        data, at = with_parents(parents, order)
        number, place, words = refused_with(data)
        told = [f'{n} (at byte {at[n]}) ' + (f'has parent {parents[n]}' if count > 1 else 'is its own parent') for n in ring]
        expect(f'a ring of {count}', (number, place) == (20, len(data) - 1) and words.count('(at byte') == count
               and all(one in words for one in told), words)
        left = [n for n in order if n != ring[0]]
        data, at = with_parents(parents, left)
        number, place, words = refused_with(data)
        told = [f'the parent of accent {n} (at byte {at[n]}) is {ring[0]}, ' for n in left if parents[n] == ring[0]]
        expect(f'a ring of {count} without its first', (number, place) == (7, len(data) - 1) and words.count('(at byte') == len(told)
               and all(one in words for one in told), words)


def test_tails():
    """A tail that is misplaced, or a sheet's that is missing: what stands there is told, and where a tail belongs."""
    tail, other = PACK[177:186], SHEET[24:33]
    once, due = 'a tail stands straight after its tone, which has one', 'in a sheet each tone is followed by its tail, kind 24'
    for of, name, data, place, told in [
            ('pack', 'a second tail', PACK[:186] + tail + PACK[186:], 186, f'stands after the tail of tone 3: {once} at most'),
            ('pack', 'a tail after the settings', PACK[:9] + tail + PACK[9:], 9, f'stands after the settings: {once} at most'),
            ('pack', 'a tail at the end', PACK[:-1] + tail, 924, f'stands after part 1 of rule 44: {once} at most'),
            ('pack', "a sheet's tail", PACK[:65] + other + PACK[65:], 65, 'kind 24, tail, of a sheet, stands after tone 1'),
            ('sheet', 'a tone without a tail', SHEET[:24] + SHEET[33:], 24, f'tone, of a sheet, stands after tone 1: {due}'),
            ('sheet', 'the last tone without a tail', SHEET[:120] + SHEET[129:], 120, f'accent, of a sheet, stands after tone 5: {due}'),
            ('sheet', 'a second tail', SHEET[:33] + other + SHEET[33:], 33, f'stands after the tail of tone 1: {once}')]:
        refusal = programs.check(of, data)
        words = refusal and explain.told(refusal, data, of)
        expect(f'{of}, {name}', refusal == (1, place) and words.endswith(told), words)
    for value, at in itertools.product((50.5, -50.5, float('inf'), float('nan')), (178, 182)):
        number, place, words = refused_with(changed(PACK, at, f32(value)))
        expect(f'a tail of {value}', (number, place) == (5, 177) and '(the tail of tone 3)' in words
               and 'not of a size of at most 50' in words, words)
    for value, at in itertools.product((50, -50, 0.0, -0.0), (178, 182)):
        expect(f'a tail of {value} loads', programs.check('pack', changed(PACK, at, f32(value))) is None)


def test_cold_registers():
    """Kind 55 where it is not due, or behind the query: what stands there is told, and where it belongs."""
    once, cold = 'a cold register stands once, straight after the record of the query', b'\x37'
    none = COLD[:44] + bytes(2) + cold
    for name, data, number, place, told in [
            ('a second one', COLD[:47] + cold + COLD[47:], 1, 47, f'stands after the cold register: {once}'),
            ('one after a frame', QUERY[:56] + cold + QUERY[56:], 1, 56, f'of a query, stands after frame 0: {once}'),
            ('one behind the last frame', QUERY + cold, 3, 346, f'1 bytes are left; {once}'),
            ('a second one without frames', none + cold, 3, 47, f'1 bytes are left; {once}'),
            ('a frame of another kind behind it', changed(COLD, 47, b'\x33'), 1, 47, 'stands after the cold register'),
            ('no frame behind it', COLD[:47], 2, 47, 'the input ends after the cold register'),
            ('a frame cut behind it', COLD[:60], 2, 57, 'has 10 bytes, of which 3 are left'),
            ('a flag behind it', changed(COLD, 58, b'\x07'), 10, 57, '(frame 1): a field of the query is outside its range; by the '
             'table of layouts, voiced is 7, not 0 or 1')]:
        refusal = programs.check('query', data)
        words = refusal and explain.told(refusal, data, 'query')
        expect(f'a cold query, {name}', refusal == (number, place) and told in words, words)
    for data in (COLD, none):
        expect(f'a cold query of {len(data)} bytes loads', programs.check('query', data) is None)


def spelt(name):
    """StartHigher as START_HIGHER."""
    return ''.join(f'_{c}' if c.isupper() and i else c for i, c in enumerate(name)).upper()


def test_names_are_the_headers():
    header = header_constants()
    for number, (word, _) in REFUSALS.items():
        expect(f'refusal {number}, {word}', header.get(word.upper().replace(' ', '_')) == number)
    for i, name in enumerate(ISSUES):
        expect(f'issue {name}', header.get(f'ISSUE_{spelt(name)}') == 1 << i)
    for number, (name, _, _) in DELTAS.items():
        expect(f'delta {name}', header.get(spelt(name)) == number)
    for number, name in KINDS[49].fields[-2].names.items():
        expect(f'measured {name}', header.get(name.upper().replace(' ', '_')) == number)


def test_crowded_files():
    """A ninth tone, a second part of a single rule, a fifth of a mixture, and counts past their limits."""
    tones = b''.join(changed(PACK[9:65], 1, bytes([i])) for i in range(1, 10))
    rule, part = PACK[317:324], PACK[324:370]
    mixture = struct.pack('<BHBBBB', 4, 1, 0, 0, 0, 3)
    for name, data, told in [
            ('a ninth tone', PACK[:9] + tones + PACK[298:], 'tone number 9 of the file'),
            ('a second part', PACK[:370] + part + PACK[370:], 'part number 2 of rule 30'),
            ('a fifth part', PACK[:317] + mixture + part * 5 + PACK[317:], 'part number 5 of rule 1'),
            ('a 65th rule', PACK[:317] + (rule + part) * 65 + PACK[317:], 'rule number 65 of the file'),
            ('11 knots', changed(PACK, 15, b'\x0b'), 'knot count is 11, at most 10'),
            ('5 variants', changed(QUERY, 23, b'\x05'), 'variants is 5, at most 4'),
            ('1,025 frames', changed(QUERY, 44, b'\x01\x04'), 'frames is 1025, at most 1024')]:
        of = 'pack' if data[0] == 1 else 'query'
        refusal = programs.check(of, data)
        words = refusal and explain.told(refusal, data, of)
        expect(name, refusal and refusal.number == 4 and told in words, words)
