"""Pitch tracks: CSV of time, hz and voicing, and Praat's PitchTier and Pitch as text files, long or short. A frame is 10 ms, so
the step is checked."""
import csv
import re
from typing import NamedTuple, Optional

from .files import lines_of
from .floats import F32, NotANumber, parsed

# Seconds. The library takes a frame as 10 ms; a step within 1 % of it keeps durations and slopes within 1 %.
STEP, SLACK = 0.01, 0.0001
# Frames of ten hours: more is a track whose times are wrong.
LONGEST = 3_600_000
ZERO, ONE = F32(0), F32(0x3F800000)
COLUMNS = {'time': 'time', 't': 'time', 'seconds': 'time', 'hz': 'hz', 'f0': 'hz', 'frequency': 'hz', 'pitch': 'hz',
           'voicing': 'voicing', 'voiced_p': 'voicing', 'voiced_prob': 'voicing', 'confidence': 'voicing'}
NO_PITCH = {'', '0', 'nan', 'na', '--undefined--', '?'}
FREE = re.compile(r'"((?:[^"]|"")*)"|(?<!\S)([+-]?(?:[0-9]+\.?[0-9]*|\.[0-9]+)(?:[eE][+-]?[0-9]+)?|--undefined--)(?!\S)')


class TrackFault(Exception):
    """The track cannot be made into frames; says why."""


class Frame(NamedTuple):
    """A frame: its time in seconds, its pitch (nothing where unvoiced), and how sure its voicing is."""
    time: float
    hz: Optional[F32]
    voicing: F32


def ms(seconds):
    return f'{1000 * seconds:.4g} ms'


def wrong_step(found, where):
    return TrackFault(f'{where}the step is {ms(found)}, not 10 ms: the library takes a frame as 10 ms, and durations, slopes and '
                      'TooShort would be wrong. Measure the pitch again with a step of 10 ms')


def number(text, name, where):
    try:
        return parsed(text)
    except NotANumber as error:
        raise TrackFault(f'{where}{name}: {error}') from None


def seconds(text, where):
    number(text, 'time', where)
    try:
        return float(text)
    except ValueError:
        raise TrackFault(f'{where}time: {text!r} is no number of seconds') from None


def pitched(text, where):
    """The pitch that a text gives, or nothing where it says that there is none."""
    if text.lower() in NO_PITCH:
        return None
    hz = number(text, 'hz', where)
    if hz == float('inf'):
        raise TrackFault(f'{where}hz is {text}')
    return hz if hz > 0 else None


def voicing_of(text, where):
    p = number(text, 'voicing', where)
    if not 0 <= p <= 1:
        raise TrackFault(f'{where}voicing is {text}, not from 0 to 1')
    return p


def separator(line):
    return next((mark for mark in '\t;' if mark in line), ',')


def cells_of(line, mark, where):
    try:
        return next(csv.reader([line], delimiter=mark))
    except csv.Error as error:
        raise TrackFault(f'{where}no line of a CSV: {error}') from None


def columns(row):
    """The column of each name, by the heading or, without one, by order; and whether there is a heading."""
    names = [COLUMNS.get(cell.strip().lower()) for cell in row]
    if not any(names):
        return dict(zip(('time', 'hz', 'voicing'), range(len(row)))), False
    return {name: names.index(name) for name in names if name}, True


def csv_frame(row, at, where):
    if len(row) <= max(at.values()):
        raise TrackFault(f'{where}{len(row)} columns, not {max(at.values()) + 1}')
    cells = {name: row[i].strip() for name, i in at.items()}
    time, hz = seconds(cells['time'], where), pitched(cells['hz'], where)
    if cells.get('voicing') or (hz is not None and 'voicing' in at):
        voicing = voicing_of(cells['voicing'], where)
        return Frame(time, hz if voicing > 0 else None, voicing)
    return Frame(time, hz, ONE if hz is not None else ZERO)


def read_csv(text):
    """The frames of a CSV, one to a row, each 10 ms after the one before."""
    lines = [(i, line) for i, line in enumerate(lines_of(text), 1) if line.strip() and not line.startswith('#')]
    if not lines:
        raise TrackFault('the track is empty')
    mark = separator(lines[0][1])
    rows = [cells_of(line, mark, f'line {i}: ') for i, line in lines]
    at, heading = columns(rows[0])
    if 'time' not in at or 'hz' not in at:
        raise TrackFault(f'line {lines[0][0]}: a time and an hz column are wanted: time,hz,voicing')
    frames = []
    for (i, _), row in list(zip(lines, rows))[heading:]:
        frame = csv_frame(row, at, f'line {i}: ')
        step = frame.time - frames[-1].time if frames else STEP
        if not abs(step - STEP) <= SLACK:
            raise wrong_step(step, f'line {i}: ')
        frames.append(frame)
    return frames


def tokens(text):
    """What counts in a Praat text file: texts in quotes and numbers that stand free; the rest is for people."""
    return [(found[1], found[2]) for found in FREE.finditer(text)]


class Numbers:
    """The numbers of a Praat file, one after the other."""

    def __init__(self, found):
        self.rest = iter([number for _, number in found if number])

    def take(self, what):
        text = next(self.rest, None)
        if text is None:
            raise TrackFault(f'the file ends before {what}')
        return text

    def count(self, what):
        text = self.take(what)
        if not text.isdigit() or len(text) > 9:
            raise TrackFault(f'{what} is {text}, not a count')
        return int(text)

    def seconds(self, what):
        return seconds(self.take(what), f'{what}: ')


def read_praat(text):
    """The frames of a PitchTier or a Pitch."""
    found = tokens(text)
    names = [name for name, number in found[:4] if not number]
    of = names[1] if len(names) > 1 else 'without a class'
    if of not in READERS:
        raise TrackFault(f'the file holds a Praat object {of}, not a PitchTier or a Pitch 1')
    return READERS[of](Numbers(found[found.index((of, None)) + 1:]))


def read_pitch(numbers):
    """The frames of a Pitch: of each the first candidate, with its strength as the voicing."""
    numbers.seconds('xmin'), numbers.seconds('xmax')
    count, step, first = numbers.count('nx'), numbers.seconds('dx'), numbers.seconds('x1')
    ceiling = numbers.seconds('the ceiling')
    numbers.count('the most candidates')
    if not abs(step - STEP) <= SLACK:
        raise wrong_step(step, '')
    return [pitch_frame(numbers, i, first + step * i, ceiling) for i in range(count)]


def pitch_frame(numbers, i, time, ceiling):
    where = f'frame {i + 1}: '
    numbers.take(f'{where}intensity')
    chosen = None
    for _ in range(numbers.count(f'{where}candidates')):
        candidate = numbers.take(f'{where}frequency'), numbers.take(f'{where}strength')
        chosen = chosen or candidate
    hz = pitched(chosen[0], where) if chosen else None
    if hz is None or not hz < ceiling:
        return Frame(time, None, ZERO)
    return Frame(time, hz, number(chosen[1], 'strength', where))


def read_pitch_tier(numbers):
    """The frames of a PitchTier made of a Pitch: its points are the voiced frames, and frames between them are unvoiced."""
    numbers.seconds('xmin'), numbers.seconds('xmax')
    points = [(numbers.seconds(f'point {i + 1}'), numbers.take(f'the pitch of point {i + 1}'))
              for i in range(numbers.count('the number of points'))]
    steps = [after[0] - before[0] for before, after in zip(points, points[1:])]
    if steps and not abs(min(steps) - STEP) <= SLACK:
        raise wrong_step(min(steps), 'points are too far apart, or too near: ')
    frames = []
    for i, (time, hz) in enumerate(points):
        where = f'point {i + 1}: '
        frames += unvoiced_between(frames, time, where)
        pitch = pitched(hz, where)
        frames.append(Frame(time, pitch, ONE if pitch is not None else ZERO))
    return frames


def unvoiced_between(frames, time, where):
    """The unvoiced frames between the last one and a time, which must be a whole number of steps away."""
    if not frames:
        return []
    gap = time - frames[-1].time
    count = round(gap / STEP)
    if abs(gap - count * STEP) > count * SLACK or len(frames) + count > LONGEST:
        raise wrong_step(gap, f'{where}no whole number of frames after the point before: ')
    return [Frame(frames[-1].time + STEP * i, None, ZERO) for i in range(1, count)]


READERS = {'PitchTier': read_pitch_tier, 'Pitch 1': read_pitch}


def read_track(text):
    """The frames of a track, by what the file is."""
    if text.startswith('ooBinaryFile'):
        raise TrackFault('the file is a binary Praat file: save it as a text file')
    if '"ooTextFile' in text[:200]:
        return read_praat(text)
    return read_csv(text)
