"""The answers: those of the proved programs, in words, as bytes, CSV and JSON."""
import csv
import io
import json
import os
import shutil
import struct
import subprocess
import sys
import zipfile

import harness
from harness import (COLD, CSV, ENVIRONMENT, PACK, PROGRAMS, QUERY, SAID, SHEET, TEXT, changed, expect, f32, folder, listing,
                     put, tonekit)
from test_inputs import RECORD, prepared
from test_machine import program

from tonekit_tool.refusals import REFUSALS

import sample

SHAPE = subprocess.run([os.path.join(PROGRAMS, 'shape')], input=QUERY, capture_output=True, check=True).stdout
# A query for each refusal from 11 to 15, and the words for it.
REFUSED = [
    (sample.query(3, 2, 4, 1, [None] * 8), 11, 'unvoiced', 'has 0 with a pitch'),
    (changed(QUERY, 1, b'\x09'), 12, 'unknown accent', 'accent 9; held are 1, 2, 7'),
    (changed(QUERY, 3, b'\x09'), 13, 'unknown tone', 'prev 9'),
    (changed(QUERY, 23, b'\x01\x01', f32(1.5)), 15, 'bad variant', 'tone 1 of weight 1.5'),
    (QUERY[:100], 2, 'cut short', 'at byte 96'), (QUERY + b'x', 3, 'overrun', 'at byte 346'),
    (changed(QUERY, 22, b'\x04'), 10, 'bad query', 'issues is 0x0400, not without the bits 10 to 15'),
]


def test_text_and_track_give_the_record():
    """From a pack's text and a CSV, with no line of code, by the pack and by its sheet."""
    with folder() as at:
        put(at, 'pack.txt', TEXT)
        put(at, 'track.csv', CSV)
        steps = [['pack', 'pack.txt', '-o', 'pack'], ['query', 'track.csv', '-o', 'query', *SAID],
                 ['sheet', 'pack', '-o', 'sheet'], ['judge', '--pack', 'pack', 'query', '-o', 'by-pack'],
                 ['judge', '--sheet', 'sheet', 'query', '-o', 'by-sheet'], ['shape', 'query', '-o', 'shape']]
        done = [tonekit(*words, cwd=at).status for words in steps]
        made = listing(at)
        expect('each step is done', done == [0] * 6, done)
        expect("the record is the README's", made['by-pack'] == made['by-sheet'] == RECORD, made.keys())
        expect('the sheet and the shape are those of the programs', (made['sheet'], made['shape']) == (SHEET, SHAPE))


def test_words_of_a_judgement():
    with folder() as at:
        prepared(at)
        words = tonekit('judge', '--pack', 'pack', 'query', cwd=at).out.decode()
        for told in ('query: expected tone 3, heard tone 3', 'tone 3: 1.2274839', 'log-likelihood ratio 1.5722957',
                     'distance 0.66835475', 'curve of accent 2', 'form single', 'label 32', 'measured full'):
            expect(f'the words have {told!r}', told in ' '.join(words.split()), words)
        low = sample.query(1, 1, 0, 0, [82.0] * 30)
        words = tonekit('judge', '--pack', 'pack', put(at, 'low', low), cwd=at).out.decode()
        expect('advice is told', 'StartHigher' in words and 'start higher' in words and 'Chao' in words, words)


def test_cold_query():
    """Of a new speaker: pack and sheet give one record, with ColdStartRegister, whatever floor and ceiling; 11 tells its frames."""
    with folder() as at:
        prepared(at)
        put(at, 'cold', COLD)
        put(at, 'odd', changed(COLD, 13, b'\xff' * 8))
        quiet = sample.query(3, 2, 4, 1, [None] * 8)
        put(at, 'quiet', quiet[:46] + b'\x37' + quiet[46:])
        for by in ('pack', 'sheet'):
            for of in ('cold', 'odd'):
                tonekit('judge', f'--{by}', by, of, '-o', f'{of}-by-{by}', cwd=at)
        made = {name: data for name, data in listing(at).items() if '-by-' in name}
        expect('one record', len(made) == 4 and len(set(made.values())) == 1 and made['cold-by-pack'] != RECORD, made)
        words = ' '.join(tonekit('judge', '--pack', 'pack', 'cold', cwd=at).out.decode().split())
        expect('its words', 'measured partial' in words and 'issues ColdStartRegister' in words, words)
        words = ' '.join(tonekit('shape', 'cold', cwd=at).out.decode().split())
        expect("its shape's words", 'issues ColdStartRegister' in words, words)
        done = tonekit('judge', '--pack', 'pack', 'quiet', cwd=at)
        expect('11 of a cold query', done.status == 1 and 'has 8 frames; its span, from 0 to 8, has 0 with a' in done.err, done)
        words = tonekit('show', 'cold', cwd=at).out.decode()
        for told in ('cold: a query: 1 cold register, 30 frames, 347 bytes',
                     "    46  cold register: floor and ceiling are those of all voiced frames; the record's are not read",
                     '    47  frame 0: voiced yes', '   337  frame 29: '):
            expect(f'shown: {told!r}', told in words, words)
        read = json.loads(tonekit('show', '--json', 'cold', cwd=at).out)
        expect('as JSON', read['records'][1] == {'offset': 46, 'kind': 55, 'name': 'cold register', 'fields': {}}
               and read['refused'] is None, read['records'][:2])
        done = tonekit('check', 'cold', 'query', cwd=at)
        expect('checked', done.status == 0 and b'loads, a query: 1 cold register, 30 frames' in done.out
               and b'loads, a query: 30 frames' in done.out, done)


def rows(done):
    return list(csv.DictReader(io.StringIO(done.out.decode())))


def test_csv_of_many():
    """A row for each query: records, refusals and a missing file."""
    with folder() as at:
        prepared(at)
        names = [os.path.basename(put(at, f'refused-{i}', data)) for i, (data, *_) in enumerate(REFUSED)]
        done = tonekit('judge', '--csv', '--pack', 'pack', 'query', *names, 'missing', 'query', cwd=at)
        found = rows(done)
        expect('a row for each query', [row['query'] for row in found] == ['query', *names, 'missing', 'query'], found)
        expect('the status is the greatest', done.status == 2, done)
        first = found[0]
        expect('a record in numbers and words', (first['status'], first['expected'], first['heard'], first['llr'], first['form'],
               first['form_word'], first['loglik_tone_3'], first['measured_word']) == ('0', '3', '3', '1.5722957', '2', 'single',
               '1.2274839', 'full'), first)
        for row, (_, number, word, told) in zip(found[1:], REFUSED):
            expect(f'a row of refusal {number}', (row['status'], row['refusal'], row['refusal_word']) == ('1', str(number), word)
                   and told in row['words'] and not row['llr'], row)
            expect(f'the words of refusal {number}', f'refused with {number}, {word}' in done.err and told in done.err, done.err)
        missing = found[-2]
        expect('a row of a missing file', (missing['status'], missing['words']) == ('2', 'No such file or directory'), missing)
        shown = rows(tonekit('shape', '--csv', 'query', names[0], cwd=at))
        expect('shapes as CSV', len(shown) == 2 and f32(float(shown[0]['contour_9'])) == SHAPE[45:49], shown)
        done = tonekit('judge', '--csv', '--pack', 'pack', 'query', names[0], '-o', 'out', cwd=at)
        expect('CSV into a file', done.status == 1 and listing(at)['out'].count(b'\n') == 3 and not done.out, done)


def test_no_realisation():
    """A tone without a curve in the context asked for: 14, from the pack and from its sheet."""
    bare = TEXT.replace('  rule 50  tone 5  ', '  rule 50  tone 1  ')
    with folder() as at:
        put(at, 'text', bare)
        put(at, 'query', changed(QUERY, 1, b'\x02\x03\x00\x00'))
        made = [tonekit('pack', 'text', '-o', 'pack', cwd=at).status, tonekit('sheet', 'pack', '-o', 'sheet', cwd=at).status]
        for by in ('pack', 'sheet'):
            done = tonekit('judge', f'--{by}', by, 'query', cwd=at)
            expect(f'14 by a {by}', made == [0, 0] and done.status == 1 and 'refused with 14, no realisation' in done.err
                   and 'accent 2, prev none, not at the end of a phrase' in done.err, done)


def test_show_of_records():
    """Every kind of record in words, several in one file, and every refusal."""
    with folder() as at:
        refusals = b''.join(bytes([52, number]) + struct.pack('<I', 7) for number in REFUSALS)
        put(at, 'records', RECORD + SHAPE + refusals)
        done = tonekit('show', 'records', cwd=at)
        words = done.out.decode()
        expect('records of all kinds are shown', done.status == 0, done)
        for told in ('     0  judgement', '    64  shape', '    73    contour', '   188  refused with 1, misplaced, at byte 7',
                     'refused with 9, short buffer, 7 bytes needed', 'refused with 15, bad variant: ',
                     'refused with 20, endless chain, at byte 7: '):
            expect(f'the words have {told!r}', told in words, words)
        for number, (word, meaning) in REFUSALS.items():
            expect(f'refusal {number} in words', f'refused with {number}, {word}' in words and meaning in words)
        read = json.loads(tonekit('show', '--json', 'records', cwd=at).out)
        expect('records as JSON', [r['name'] for r in read['records']] == ['judgement', 'shape'] + ['refusal'] * len(REFUSALS), read)
        put(at, 'many', RECORD * 20000)
        done = tonekit('show', 'many', cwd=at)
        expect('20,000 records are shown', done.status == 0 and done.out.count(b'  judgement\n') == 20000, str(done)[:200])


def test_show_as_json():
    with folder() as at:
        prepared(at)
        read = {name: json.loads(tonekit('show', '--json', name, cwd=at).out) for name in ('pack', 'sheet', 'query')}
        tone = read['pack']['records'][3]
        expect('a tone as JSON', tone == {'offset': 121, 'kind': 2, 'name': 'tone', 'fields': {
            'number': 3, 'prior': 0.2, 'knot_count': 3, 'knots': [2.0, 1.0, 4.0], 'flag': 1, 'from': 0.375, 'to': 0.75}}, tone)
        tails = [next(r for r in read[of]['records'] if r['offset'] == at) for of, at in (('pack', 177), ('sheet', 72))]
        expect('tails as JSON', tails == [{'offset': at, 'kind': kind, 'name': 'tail', 'fields': {'final': 1.5, 'elsewhere': 0.75}}
                                          for at, kind in ((177, 7), (72, 24))], tails)
        expect('a sheet as JSON', len(read['sheet']['records']) == 139 and read['sheet']['refused'] is None)
        put(at, 'odd', changed(QUERY, 13, bytes.fromhex('0100c07f'), bytes.fromhex('000080ff')))
        fields = json.loads(tonekit('show', '--json', 'odd', cwd=at).out)['records'][0]['fields']
        expect('floats that JSON lacks', (fields['floor'], fields['ceil']) == ('0x7fc00001', '-inf'), fields)
        put(at, 'off', changed(PACK, 123, b'\x00\x00\x00\x40'))
        done = tonekit('show', '--json', 'off', cwd=at)
        refused = json.loads(done.out)['refused']
        told = refused['number'], refused['word'], refused['place']
        expect('a refusal as JSON', done.status == 1 and told == (5, 'off scale', 121), done)


def test_show_by_offset():
    with folder() as at:
        prepared(at)
        words = tonekit('show', 'pack', cwd=at).out.decode()
        for told in ('     0  settings: temperature 1, threshold 0.5',
                     '   121  tone 3: prior 0.2, knots 2 1 4, region 0.375, to 0.75',
                     '   177  tail: final 1.5, elsewhere 0.75', '   377  part 0: weight 0.75, knots 2 1 4', '   924  end'):
            expect(f'the words have {told!r}', f'{told}\n' in words, words)


def test_progress_is_told():
    """On standard error, once it takes more than a second."""
    with folder() as at, folder() as programs:
        prepared(at)
        for name in os.listdir(PROGRAMS):
            shutil.copy(os.path.join(PROGRAMS, name), programs)
        program(programs, 'station', f'#!/bin/sh\nsleep 0.4\nexec {os.path.join(PROGRAMS, "station")}\n')
        slow = {**ENVIRONMENT, 'TONEKIT_PROGRAMS': programs}
        done = tonekit('judge', '--csv', '--pack', 'pack', *['query'] * 5, cwd=at, env=slow)
        expect('progress is told', done.status == 0 and ' of 5 queries\n' in done.err and len(rows(done)) == 5, done)
        done = tonekit('judge', '--csv', '--pack', 'pack', 'query', cwd=at)
        expect('nothing is told of short work', done.err == '', done)


def test_installed_package():
    """The package that pip installs, taken apart: the tool runs from it, with the programs that it brings."""
    sys.path.insert(0, os.path.join(harness.ROOT, 'tools'))
    import tonekit_build
    with folder() as at, folder() as apart:
        tonekit_build.PROGRAMS = [PROGRAMS]
        with zipfile.ZipFile(os.path.join(at, tonekit_build.build_wheel(at))) as archive:
            archive.extractall(apart)
            modes = {entry.filename: entry.external_attr >> 16 & 0o777 for entry in archive.infolist()}
        expect('programs can be run', modes['tonekit_tool/programs/check'] == 0o755, modes)
        for name in os.listdir(os.path.join(apart, 'tonekit_tool', 'programs')):
            os.chmod(os.path.join(apart, 'tonekit_tool', 'programs', name), 0o755)
        plain = {name: value for name, value in ENVIRONMENT.items() if name != 'TONEKIT_PROGRAMS'}
        done = subprocess.run([sys.executable, '-B', '-m', 'tonekit_tool', 'check', put(at, 'pack', PACK)], cwd=apart, env=plain,
                              capture_output=True)
        expect('the package runs', done.returncode == 0 and b'loads, a pack' in done.stdout, done)
