"""The table of layouts against what does not come from it: the header, generated packs, and what sheet_text writes."""
import os
import random
import subprocess

import harness
from harness import COLD, PACK, QUERY, SHEET, content, expect, header_constants
from packs import Packs, joined

import sheet_text_reader
from tonekit_tool.layouts import KINDS, SIZES, decode_sheet, encode, places, records

# Names of the header, where they are not those of the table.
PREFIXES = {48: 'QUERY_', 50: 'FRAME_', 51: 'SHAPE_', 49: ''}
OTHERS = {
    48: {'start': 'START', 'variant_count': 'VARIANTS', 'frame_count': 'FRAMES'},
    50: {'voiced_p': 'PROBABILITY'},
    51: {'turning_flag': 'TURNS', 'duration_ms': 'DURATION', 'voiced_fraction': 'FRACTION', 'f0_confidence': 'CONFIDENCE'},
    49: {'tone_count': 'TONES', 'distance_flag': 'DISTANCED', 'delta_count': 'DELTAS'},
}


def test_fields_fill_their_records():
    for kind in KINDS.values():
        taken = [0]
        for field in kind.fields:
            for place in places(field):
                taken += range(place, place + SIZES[field.type])
        expect(f'kind {kind.number}: each byte belongs to one field', sorted(taken) == list(range(kind.size)), sorted(taken))


def test_offsets_are_the_headers():
    header, offsets = content('include', 'tonekit.h').decode(), header_constants()
    for number, prefix in PREFIXES.items():
        for field in KINDS[number].fields:
            name = prefix + OTHERS[number].get(field.name, field.name.upper())
            if name in offsets:
                expect(f'{name} of the header', offsets[name] == field.offset, f'{offsets[name]}, in the table {field.offset}')
    for number, size in ((48, 'QUERY_RECORD'), (50, 'FRAME'), (51, 'SHAPE'), (49, 'JUDGEMENT'), (55, 'COLD')):
        expect(f'size of kind {number}', f'TONEKIT_{size}_SIZE {KINDS[number].size}\n' in header)


def bits(value):
    return [v.bits for v in value] if isinstance(value, list) else getattr(value, 'bits', value)


def test_generated_values_are_read():
    """What is read of a record is what was put into it, at its offset."""
    packs, wrong, count = Packs(random.Random(7)), [], 0
    for _ in range(200):
        found = list(packs.records())
        read = records(joined(found))
        wrong += ['another number of records'] if len(read) != len(found) else []
        for (kind, values, data), record in zip(found, read):
            count += 1
            got = {name: bits(value) for name, value in record.values.items()}
            if 'knots' in got:
                got['knots'] = got['knots'][:got['knot_count']]
            if (record.number, got) != (kind, values) or encode(record.kind, record.values) != data:
                wrong.append((kind, values, got))
    expect(f'{count} generated records are read as they were put', not wrong, wrong[:1])


def test_records_are_written_as_read():
    odd = COLD[:13] + bytes.fromhex('0100c0ff000080ff') + COLD[21:]
    for name, data in (('pack', PACK), ('sheet', SHEET), ('query', QUERY), ('cold query', COLD), ('cold query, odd', odd)):
        again = b''.join(encode(record.kind, record.values) for record in records(data))
        expect(f'the sample {name} is written as it is read', again == data)


def program(name, data):
    return subprocess.run([os.path.join(harness.PROGRAMS, name)], input=data, capture_output=True, check=True).stdout


def takes_of(told):
    """Which list each context takes, by the text."""
    return {(accent, tone, *context): entry.takes for (accent, tone), entries in told.tables.items()
            for entry in entries for context in entry.contexts}


def by_text(told):
    """A sheet by its text, as `by_table` has it."""
    return (tuple(told.settings), [(t.number, t.prior, t.region, tuple(t.tail)) for t in told.tones],
            [(a.number, tuple(a.tolerances)) for a in told.accents], takes_of(told),
            [(x.number, x.owner, x.form, x.label, [(c.weight, tuple(c.points)) for c in x.components]) for x in told.lists])


def by_table(sheet):
    """A sheet as the table reads it, floats as the tool writes them."""
    rows = {(r['accent'], r['tone'], r['prev'], final): r[name]
            for r in sheet['rows'] for final, name in ((0, 'list'), (1, 'list_final'))}
    return (tuple(str(sheet['settings'][name]) for name in ('temperature', 'threshold')),
            [(t['number'], str(t['prior']), (str(t['from']), str(t['to'])) if t['flag'] else None,
              tuple(str(t['tail'][name]) for name in ('final', 'elsewhere'))) for t in sheet['tones']],
            [(a['number'], tuple(str(a[n]) for n in ('contour', 'onset', 'offset', 'turning'))) for a in sheet['accents']], rows,
            [(x['number'], x['owner'], x['form'], x['label'],
              [(str(c['weight']), tuple(map(str, c['points']))) for c in x['components']]) for x in sheet['lists']])


def test_sheets_are_what_sheet_text_says():
    """Fields and decimals are those of the proved program, on the sample and on generated sheets."""
    packs, wrong = Packs(random.Random(11)), []
    sheets = [SHEET] + [program('sheet', joined(packs.records())) for _ in range(60)]
    for sheet in sheets:
        told, read = by_text(sheet_text_reader.read(program('sheet_text', sheet).decode())), by_table(decode_sheet(sheet))
        wrong += [(one, other) for one, other in zip(told, read) if one != other]
    expect(f'{len(sheets)} sheets are read as sheet_text says', not wrong, wrong[:1])
