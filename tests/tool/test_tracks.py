"""Queries from pitch tracks: CSV, and Praat's PitchTier and Pitch in both text formats, give the same bytes; other steps are
refused."""
import struct

from harness import COLD, CSV, QUERY, SAID, expect, expect_refused, f32, folder, put, tonekit

import sample

HERTZ = [None if 13 <= i < 17 else 105.0 - 1.25 * min(i, 15) + 0.25 * max(i - 20, 0) for i in range(30)]
LOUD = [0.9 if hz else 0.0 for hz in HERTZ]
TIMES = [0.025 + i / 100 for i in range(30)]


def csv_of(voicing=None, times=TIMES, mark=',', heading=True):
    """The track as CSV; without voicing it has two columns."""
    lines = [mark.join(['time', 'hz', 'voicing'][:2 if voicing is None else 3])] if heading else []
    for i, hz in enumerate(HERTZ):
        cells = [f'{times[i]:.17g}', '' if hz is None else f'{hz:g}'] + ([] if voicing is None else [f'{voicing[i]:g}'])
        lines.append(mark.join(cells))
    return '\n'.join(lines) + '\n'


def praat(of, body):
    return f'File type = "ooTextFile"\nObject class = "{of}"\n\n{body}'


def pitch_tier(long, times=TIMES, key='number'):
    """The voiced frames as points."""
    points = [(time, hz) for time, hz in zip(times, HERTZ) if hz]
    if not long:
        return praat('PitchTier', '\n'.join(f'{v:.17g}' for v in (0, 0.35, len(points), *(v for p in points for v in p))))
    lines = ['xmin = 0 ', 'xmax = 0.35 ', f'points: size = {len(points)} ']
    for i, (time, hz) in enumerate(points, 1):
        lines += [f'points [{i}]:', f'    {key} = {time:.17g} ', f'    value = {hz:.17g} ']
    return praat('PitchTier', '\n'.join(lines))


def pitch(long, step=0.01, words=('frames', 'candidates')):
    """Every frame with a second candidate that is not chosen; a pitch at the ceiling counts as none."""
    head = {'xmin': 0, 'xmax': 0.35, 'nx': 30, 'dx': step, 'x1': 0.025, 'ceiling': 600, 'maxnCandidates': 15}
    lines = [f'{name} = {value} ' if long else f'{value}' for name, value in head.items()]
    lines += [f'{words[0]} []: '] if long else []
    for i, (hz, strength) in enumerate(zip(HERTZ, LOUD), 1):
        chosen = (hz, strength) if hz else ((0, 0.4) if i % 2 else (600, 0.7))
        if long:
            lines += [f'    {words[0]} [{i}]:', '        intensity = 0.01 ', '        nCandidates = 2 ',
                      f'        {words[1]} []: ']
            for j, (a, b) in enumerate((chosen, (210.5, 0.3)), 1):
                lines += [f'            {words[1]} [{j}]:', f'                frequency = {a} ',
                          f'                strength = {b} ']
        else:
            lines += ['0.01', '2', *map(str, chosen), '210.5', '0.3']
    return praat('Pitch 1', '\n'.join(lines))


def query_of(track, *more):
    done = tonekit('query', '-', '-o', '-', *SAID, *more, data=track if isinstance(track, bytes) else track.encode())
    return done.out, done


def expect_same(name, tracks, wanted):
    for of, track in tracks.items():
        out, done = query_of(track)
        expect(f'{name}: {of}', out == wanted, done)


def with_voicing(frames):
    """The sample's query with these voicings."""
    return QUERY[:46] + b''.join(bytes([50, hz is not None]) + f32(hz or 0.0, p) for hz, p in frames)


def test_tracks_without_voicing_are_one_query():
    wanted = with_voicing([(hz, 1.0 if hz else 0.0) for hz in HERTZ])
    expect_same('no voicing', {
        'CSV': csv_of(), 'CSV without a heading': csv_of(heading=False), 'long PitchTier': pitch_tier(True),
        'short PitchTier': pitch_tier(False), 'older PitchTier': pitch_tier(True, key='time'),
        'UTF-16 PitchTier': pitch_tier(True).encode('utf-16'), 'CRLF PitchTier': pitch_tier(True).replace('\n', '\r\n'),
    }, wanted)


def test_tracks_with_voicing_are_one_query():
    wanted = with_voicing(list(zip(HERTZ, LOUD)))
    expect_same('voicing', {
        'CSV': csv_of(LOUD), 'CSV with tabs': csv_of(LOUD, mark='\t'), 'CSV with semicolons': csv_of(LOUD, mark=';'),
        'CSV with 0 for none': csv_of(LOUD).replace(',,', ',0,'),
        'CSV with undefined': csv_of(LOUD).replace(',,', ',--undefined--,'),
        'CSV without voicing there': csv_of(LOUD).replace(',,0', ',,'),
        'CSV of other columns': csv_of(LOUD).replace('time,hz,voicing', 't,f0,confidence'),
        'long Pitch': pitch(True), 'short Pitch': pitch(False), 'older Pitch': pitch(True, words=('frame', 'candidate')),
    }, wanted)


def test_sample_track_is_the_sample_query():
    expect_same('examples/sample.csv', {'CSV': CSV}, QUERY)
    expect('the query of sample.py', QUERY == sample.QUERY)


def test_options():
    """Each option writes its field and nothing else."""
    plain = query_of(CSV)[0]
    for more, place, new in [
            (['--prev', '0'], 3, b'\x00'), (['--accent', '255'], 1, b'\xff'),
            (['--span', '3', '4000000000'], 5, struct.pack('<II', 3, 4000000000)), (['--floor', '110Hz'], 13, f32(12)),
            (['--ceil', '27.5 hz'], 17, f32(-12)), (['--floor', 'nan'], 13, bytes.fromhex('0000c07f')),
            (['--floor', '-1.5'], 13, f32(-1.5)),
            (['--issue', 'LowSnr', '--issue', 'creakytail', '--issue', 'LowSnr'], 21, b'\x02\x02'),
            (['--variant', '1', '0.25', '--variant', '2', '-0'], 23, b'\x02\x01' + f32(0.25) + b'\x02' + f32(-0.0))]:
        out, done = query_of(CSV, *more)
        expect(f'{more}', out == plain[:place] + new + plain[place + len(new):] and out != plain, done)
    part, done = query_of(CSV, '--part', '0.02', '0.1')
    count = struct.pack('<H', 8)
    expect('--part', part[44:46] == count and part[9:13] == count + b'\0\0' and part[46:] == QUERY[46 + 20:46 + 100], done)
    quiet, done = query_of(csv_of([0.2 if i < 5 else 0.9 for i in range(30)]), '--voiced-from', '0.5')
    expect('--voiced-from', [quiet[47 + 10 * i] for i in range(7)] == [0] * 5 + [1, 1], done)


def test_cold():
    """In place of a register: kind 55 behind the record, floor and ceiling zero bytes."""
    new = SAID[:SAID.index('--floor')] + ['--cold']
    wanted = COLD[:13] + bytes(8) + COLD[21:]
    for more, place, other in [([], 0, b''), (['--issue', 'ColdStartRegister'], 21, b'\x10'),
                               (['--span', '3', '9'], 5, struct.pack('<II', 3, 9))]:
        done = tonekit('query', '-', '-o', '-', *new, *more, data=CSV.encode())
        expect(f'--cold {more}', done.out == wanted[:place] + other + wanted[place + len(other):], done)
    most = ''.join(f'{i / 100},110\n' for i in range(1024))
    done = tonekit('query', '-', '-o', '-', *new, data=most.encode())
    expect('1,024 frames of a new speaker', len(done.out) == 47 + 10240 and done.out[46:48] == b'\x37\x32', done)
    for words, told in [(SAID + ['--cold'], '--cold: not allowed with argument --floor'),
                        (new + ['--ceil', '19'], '--cold: not allowed with argument --ceil'), (new[:-1], 'required: --floor, --ceil (or'),
                        (SAID[:-2], 'required: --ceil (or --cold')]:
        done = tonekit('query', '-', '-o', '-', *words, data=CSV.encode())
        expect(f'{words}', done.status == 2 and told in done.err and 'usage: tonekit' in done.err and not done.out, done)


STEPS = [
    ('CSV of 5 ms', csv_of(times=[i / 200 for i in range(30)]), 'line 3: ', 'the step is 5 ms, not 10 ms'),
    ('CSV of 12.5 ms', csv_of(times=[i / 80 for i in range(30)]), 'the step is 12.5 ms'),
    ('CSV of 10.2 ms', csv_of(times=[i * 0.0102 for i in range(30)]), 'the step is 10.2 ms'),
    ('CSV that goes back', csv_of(times=[0.5 - i / 100 for i in range(30)]), 'the step is -10 ms'),
    ('CSV that lacks a row', csv_of(times=[(i + (i > 9)) / 100 for i in range(30)]), 'line 12: ', 'the step is 20 ms'),
    ('Pitch of 7.5 ms', pitch(True, step=0.0075), 'the step is 7.5 ms'),
    ('short Pitch of 20 ms', pitch(False, step=0.02), 'the step is 20 ms'),
    ('PitchTier of 100 ms', pitch_tier(True, times=[i / 10 for i in range(30)]), 'the step is 100 ms'),
    ('PitchTier of 1 ms', pitch_tier(False, times=[i / 1000 for i in range(30)]), 'the step is 1 ms'),
    ('PitchTier off its grid', pitch_tier(True, times=[(i + (i > 15) / 2) / 100 for i in range(30)]), 'point 14: ', '55 ms'),
]
DAMAGED = [
    ('empty', '', 'the track is empty'), ('a heading alone', 'time,hz,voicing\n', 'the track has no frames'),
    ('no pitch column', 'time,voicing\n0,1\n', 'a time and an hz column are wanted'),
    ('a word for a pitch', 'time,hz\n0,high\n', "line 2: hz: 'high' is no number"),
    ('a decimal comma', 'time;hz\n0,01;110\n', "line 2: time: '0,01' is no number"),
    ('too few columns', 'time,hz,voicing\n0,110\n', 'line 2: 2 columns, not 3'),
    ('a voicing in dB', 'time,hz,voicing\n0,110,62\n', 'line 2: voicing is 62, not from 0 to 1'),
    ('an endless pitch', 'time,hz\n0,inf\n', 'line 2: hz is inf'),
    ('times that are none', 'time,hz\nnan,110\nnan,110\n', 'line 3: the step is nan ms'),
    ('another object', praat('TextGrid', '0\n1\n'), 'a Praat object TextGrid'),
    ('a Pitch cut short', pitch(False)[:300], 'the file ends before frame'),
    ('a PitchTier cut short', pitch_tier(True)[:400], 'the file ends before'),
    ('a Pitch without frames', praat('Pitch 1', '0\n1\n0\n0.01\n0\n600\n15\n'), 'the track has no frames'),
    ('a binary file', 'ooBinaryFile\x05Pitch 1', 'save it as a text file'),
    ('bytes', bytes(range(256)), 'track: '), ('one long line', 'x' * 200000, 'line 1: '), ('a quote left open', '"0,110\n', 'track: '),
    ('NUL', b'time,hz\n0,1\x0010\n', 'line 2: '),
    ('1,025 frames', ''.join(f'{i / 100},110\n' for i in range(1025)), 'has 1025 frames, and a query at most 1,024', '--part'),
]


def test_other_tracks_are_refused():
    for name, track, *told in STEPS + DAMAGED:
        with folder() as at:
            put(at, 'track', track)
            expect_refused(name, at, ['query', 'track', '-o', 'new.query', *SAID], 1, 'track: ', *told)
    with folder() as at:
        put(at, 'track', CSV)
        words = ['query', 'track', '-o', 'q', *SAID, '--part', '7', '8']
        expect_refused('an empty part', at, words, 1, 'run from 0.005 to 0.295 s')


def test_steps_that_are_near_enough():
    for name, times in (('rounded to 0.1 ms', [round(i / 100 + 0.00004 * (i % 2), 4) for i in range(30)]),
                        ('9.977 ms', [i * 220 / 22050 for i in range(30)])):
        expect(name, query_of(csv_of(times=times))[0] == query_of(csv_of())[0])
    most = ''.join(f'{i / 100},110\n' for i in range(1024))
    expect('1,024 frames', len(query_of(most)[0]) == 46 + 10240)


def test_wrong_use():
    for more, told in [(['--issue', 'Loud'], "'Loud' is none of Unvoiced, LowSnr"), (['--prev', '256'], 'from 0 to 255'),
                       (['--floor', 'low'], "'low' is no number"), (['--floor=-3Hz'], 'is no frequency'),
                       (['--variant', '1', 'x'], "'x' is no number"), (['--voiced-from', 'nan'], "'nan' is no number"),
                        (['--variant', '1', '0'] * 5, 'at most 4 variants')]:
        done = tonekit('query', '-', '-o', '-', *SAID, *more, data=CSV.encode())
        expect(f'{more}', done.status == 2 and told in done.err and not done.out, done)
