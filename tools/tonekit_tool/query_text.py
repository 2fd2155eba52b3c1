"""A query from a pitch track and what a person says of it."""
import math

from .floats import F32, NotANumber, parsed
from .layouts import ISSUES, KINDS, encode
from .tracks import TrackFault

RECORD, FRAME, COLD = KINDS[48], KINDS[50], KINDS[55]
MOST_FRAMES = next(field.limit for field in RECORD.fields if field.name == 'frame_count')
MOST_VARIANTS = next(field.limit for field in RECORD.fields if field.name == 'variant_count')
REFERENCE_HZ = 55.0


def semitones(text):
    """A level of the register: semitones above 55 Hz, or a frequency with Hz behind it."""
    if text.lower().endswith('hz'):
        hz = float(parsed(text[:-2].strip()))
        if not 0 < hz < math.inf:
            raise NotANumber(f'{text} is no frequency')
        return parsed(repr(12 * math.log2(hz / REFERENCE_HZ)))
    return parsed(text)


def issue_bits(names):
    known = [name.lower() for name in ISSUES]
    return sum({1 << known.index(name.lower()) for name in names})


def part_of(frames, start, end):
    """The frames whose times lie from start on and before end, in seconds; a microsecond is no difference."""
    return [frame for frame in frames if start <= frame.time + 1e-6 < end]


def voiced_from(frames, least):
    """The frames with those unvoiced whose voicing is below that."""
    return [frame if frame.voicing >= least else frame._replace(hz=None) for frame in frames]


def frame_bytes(frame):
    voiced = frame.hz is not None
    return encode(FRAME, {'voiced': int(voiced), 'hz': frame.hz if voiced else F32(0), 'voiced_p': frame.voicing})


def make_query(frames, said):
    """The query of these frames; `said` has the fields that a person chooses. Of a new speaker floor and ceiling are zero bytes."""
    if len(frames) > MOST_FRAMES:
        raise TrackFault(f'the track has {len(frames)} frames, and a query at most {MOST_FRAMES:,}: take a part with --part')
    start, end = said['span'] or (0, len(frames))
    values = {name: said[name] for name in ('accent', 'tone', 'prev', 'final')}
    values.update({} if said['cold'] else {name: said[name] for name in ('floor', 'ceil')})
    variants = said['variants']
    values.update(start=start, end=end, issues=issue_bits(said['issues']), variant_count=len(variants),
                  variant_tones=[tone for tone, _ in variants], variant_weights=[weight for _, weight in variants],
                  frame_count=len(frames))
    return encode(RECORD, values) + (encode(COLD, {}) if said['cold'] else b'') + b''.join(map(frame_bytes, frames))
