"""The layouts of every record, once: kind, size, fields with offset, type, name, word and range. Reading, writing and showing
follow this table, so that a new kind of record is an entry here."""
import struct
from typing import Callable, NamedTuple, Tuple

from .floats import F32

SIZES = {'u8': 1, 'u16': 2, 'u32': 4, 'f32': 4}
CODES = {'u8': '<B', 'u16': '<H', 'u32': '<I', 'f32': '<I'}


class Range(NamedTuple):
    """What a value may be, in words, and whether a value is so."""
    words: str
    holds: Callable


ANY = Range('any', lambda v: True)
NUMBER = Range('1 to 255', lambda v: v != 0)
POSITIVE = Range('finite and above 0', lambda v: 0 < v < float('inf'))
SHARE = Range('above 0 and at most 1', lambda v: 0 < v <= 1)
WEIGHT = Range('finite and not below 0, without the sign of -0', lambda v: v.bits < 0x7F800000)
FINITE = Range('finite', lambda v: abs(v) < float('inf'))
KNOT = Range('of a size of at most 100', lambda v: abs(v) <= 100)
POINT = Range('of a size of at most 128', lambda v: abs(v) <= 128)
TAIL = Range('of a size of at most 50', lambda v: abs(v) <= 50)
FLAG = Range('0 or 1', lambda v: v <= 1)
SOME = Range('at least 1', lambda v: v >= 1)
ISSUE_BITS = Range('without the bits 10 to 15', lambda v: v < 1 << 10)


def one_of(*values):
    return Range(' or '.join(map(str, values)), lambda v: v in values)


class Field(NamedTuple):
    """A field: `name` in decoded records and JSON, `word` where people read and write it. A field with times above 1 is a list.
    `counted` names the field that says how many are used, `when` the flag that says whether it is; what is unused is zero
    bytes. `default` is what a pack's text may leave out. `refers` is what its number names."""
    offset: int
    type: str
    name: str
    word: str
    range: Range = ANY
    times: int = 1
    stride: int = 0
    counted: str = ''
    when: str = ''
    limit: int = 0
    names: Tuple = ()
    default: object = None
    refers: str = ''
    meaning: str = ''


class Kind(NamedTuple):
    """A kind of record. `most` is how many of it a file may have, `within` the kind of record that counts them anew and how many
    it may have; `rules` are (refusal, field, words, whether the values and those of the record above keep it); `meaning` is what
    a record without fields says."""
    number: int
    name: str
    format: str
    size: int
    fields: Tuple
    most: int = 0
    within: Tuple = ()
    rules: Tuple = ()
    meaning: str = ''


FINALS = ('any', 'no', 'yes')
RULE_FORMS = {2: 'single', 3: 'mixture'}
FORMS = {1: 'citation', 2: 'single', 3: 'mixture'}
NO_TONE, ANY_TONE, NO_PARENT = {0: 'none'}, {0: 'any'}, {0: 'none'}
FINAL_FLAG = {0: 'no', 1: 'yes'}
MEASURED = {0: 'full', 1: 'partial', 2: 'not measured'}

# The bits of a query's, a shape's and a judgement's issues, from bit 0, by the Rust's names.
ISSUES = ('Unvoiced', 'LowSnr', 'Clipped', 'TooShort', 'ColdStartRegister', 'InvalidRegister', 'InvalidEvidence', 'NoNucleus',
          'Unpitched', 'CreakyTail')

# Deltas are advice to the speaker: name, what to do, in which unit.
DELTAS = {
    1: ('StartHigher', 'start higher', 'Chao'),
    2: ('StartLower', 'start lower', 'Chao'),
    3: ('EndHigher', 'end higher', 'Chao'),
    4: ('EndLower', 'end lower', 'Chao'),
    5: ('TurnEarlier', 'turn earlier', 'ms'),
    6: ('TurnLater', 'turn later', 'ms'),
    7: ('WiderRange', 'use a wider range', 'Chao'),
    8: ('NarrowerRange', 'use a narrower range', 'Chao'),
}


def settings(number, of):
    return Kind(number, 'settings', of, 9, (
        Field(1, 'f32', 'temperature', 'temperature', POSITIVE),
        Field(5, 'f32', 'threshold', 'threshold', SHARE)))


def tail(number, of):
    return Kind(number, 'tail', of, 9, (
        Field(1, 'f32', 'final', 'final', TAIL),
        Field(5, 'f32', 'elsewhere', 'elsewhere', TAIL)))


def tolerances(first):
    return tuple(Field(first + 4 * i, 'f32', name, name, POSITIVE)
                 for i, name in enumerate(('contour', 'onset', 'offset', 'turning')))


def region(at):
    """Flag, from and to."""
    return (Field(at, 'u8', 'flag', 'region flag', FLAG),
            Field(at + 1, 'f32', 'from', 'region', FINITE, when='flag'),
            Field(at + 5, 'f32', 'to', 'to', FINITE, when='flag'))


def knots(at, count):
    """Knot count, of this range, and ten slots."""
    return (Field(at, 'u8', 'knot_count', 'knot count', count, limit=10),
            Field(at + 1, 'f32', 'knots', 'knots', KNOT, times=10, stride=4, counted='knot_count'))


REGION_ORDER = (5, 'to', 'not below its from', lambda v, above: v['flag'] != 1 or v['from'] <= v['to'])
PART_ALONE = (5, 'weight', '1 in a single rule', lambda v, above: above is None or above['form'] != 2 or v['weight'] == 1)
COMPONENT_ALONE = (5, 'weight', '1 unless the form is mixture',
                   lambda v, above: above is None or above['form'] == 3 or v['weight'] == 1)
CITATION_LABEL = (5, 'label', '0 in a citation', lambda v, above: v['form'] != 1 or v['label'] == 0)
LIST_ALONE = (4, 'count', 'at most 1 unless the form is mixture', lambda v, above: v['form'] == 3 or v['count'] <= 1)

PACK = (
    settings(1, 'pack'),
    Kind(2, 'tone', 'pack', 56, (
        Field(1, 'u8', 'number', 'number', NUMBER),
        Field(2, 'f32', 'prior', 'prior', SHARE),
        *knots(6, ANY), *region(47)), most=8, rules=(REGION_ORDER,)),
    tail(7, 'pack'),
    Kind(3, 'accent', 'pack', 19, (
        Field(1, 'u8', 'number', 'number', NUMBER),
        Field(2, 'u8', 'parent', 'parent', names=NO_PARENT, default=0, refers='accent'),
        *tolerances(3)), most=8),
    Kind(4, 'rule', 'pack', 7, (
        Field(1, 'u16', 'label', 'label'),
        Field(3, 'u8', 'tone', 'tone', names=ANY_TONE, default=0, refers='tone'),
        Field(4, 'u8', 'prev', 'prev', names=ANY_TONE, default=0, refers='tone'),
        Field(5, 'u8', 'final', 'final', one_of(0, 1, 2), names=dict(enumerate(FINALS)), default=0),
        Field(6, 'u8', 'form', 'form', one_of(2, 3), names=RULE_FORMS, default=2)), most=64),
    Kind(5, 'part', 'pack', 46, (
        Field(1, 'f32', 'weight', 'weight', WEIGHT, default=F32(0x3F800000)),
        *knots(5, SOME)), most=128, within=('rule', 4), rules=(PART_ALONE,)),
    Kind(6, 'end', 'pack', 1, ()),
)

SHEET = (
    settings(17, 'sheet'),
    Kind(18, 'tone', 'sheet', 15, (
        Field(1, 'u8', 'number', 'number', NUMBER),
        Field(2, 'f32', 'prior', 'prior', SHARE),
        *region(6)), most=8, rules=(REGION_ORDER,)),
    tail(24, 'sheet'),
    Kind(19, 'accent', 'sheet', 18, (
        Field(1, 'u8', 'number', 'number', NUMBER),
        *tolerances(2)), most=8),
    Kind(20, 'row', 'sheet', 6, (
        Field(1, 'u8', 'accent', 'accent', NUMBER, refers='accent'),
        Field(2, 'u8', 'tone', 'tone', NUMBER, refers='tone'),
        Field(3, 'u8', 'prev', 'prev', names=NO_TONE, refers='tone'),
        Field(4, 'u8', 'list', 'list', names={0: 'nothing'}, refers='list'),
        Field(5, 'u8', 'list_final', 'final list', names={0: 'nothing'}, refers='list'))),
    Kind(21, 'list', 'sheet', 7, (
        Field(1, 'u8', 'number', 'number', NUMBER),
        Field(2, 'u8', 'owner', 'owner', NUMBER, refers='accent'),
        Field(3, 'u8', 'form', 'form', one_of(1, 2, 3), names=FORMS),
        Field(4, 'u16', 'label', 'label'),
        Field(6, 'u8', 'count', 'components', SOME, limit=4)), most=128, rules=(LIST_ALONE, CITATION_LABEL)),
    Kind(22, 'component', 'sheet', 45, (
        Field(1, 'f32', 'weight', 'weight', WEIGHT),
        Field(5, 'f32', 'points', 'points', POINT, times=10, stride=4)), most=192, within=('list', 4), rules=(COMPONENT_ALONE,)),
    Kind(23, 'end', 'sheet', 1, ()),
)

QUERY = (
    Kind(48, 'query', 'query', 46, (
        Field(1, 'u8', 'accent', 'accent', meaning='the accent to grade by'),
        Field(2, 'u8', 'tone', 'tone', meaning='the tone expected'),
        Field(3, 'u8', 'prev', 'prev', names=NO_TONE, meaning='the tone before'),
        Field(4, 'u8', 'final', 'final', FLAG, names=FINAL_FLAG, meaning='at the end of a phrase'),
        Field(5, 'u32', 'start', 'span from', meaning='the first frame of the span'),
        Field(9, 'u32', 'end', 'span to', meaning='the frame after its last'),
        Field(13, 'f32', 'floor', 'register floor', meaning='in semitones above 55 Hz'),
        Field(17, 'f32', 'ceil', 'register ceiling', meaning='in semitones above 55 Hz'),
        Field(21, 'u16', 'issues', 'issues', ISSUE_BITS),
        Field(23, 'u8', 'variant_count', 'variants', limit=4),
        Field(24, 'u8', 'variant_tones', 'variant tones', times=4, stride=5, counted='variant_count'),
        Field(25, 'f32', 'variant_weights', 'variant weights', times=4, stride=5, counted='variant_count'),
        Field(44, 'u16', 'frame_count', 'frames', limit=1024))),
    Kind(55, 'cold register', 'query', 1, (),
         meaning="floor and ceiling are those of all voiced frames; the record's are not read"),
    Kind(50, 'frame', 'query', 10, (
        Field(1, 'u8', 'voiced', 'voiced', FLAG, names=FINAL_FLAG),
        Field(2, 'f32', 'hz', 'hz'),
        Field(6, 'f32', 'voiced_p', 'voicing'))),
)

RECORDS = (
    Kind(49, 'judgement', 'judgement', 64, (
        Field(1, 'u8', 'expected', 'expected tone'),
        Field(2, 'u8', 'tone_count', 'tones held'),
        Field(3, 'f32', 'logliks', 'log-likelihoods', times=8, stride=4, counted='tone_count',
              meaning='of each tone, in the order of the pack'),
        Field(35, 'f32', 'llr', 'log-likelihood ratio', meaning='of the expected tone against all tones; above 0 speaks for it'),
        Field(39, 'u8', 'distance_flag', 'distance flag', FLAG),
        Field(40, 'f32', 'distance', 'distance', when='distance_flag',
              meaning='to the best-matching curve of the expected tone, in units of the tolerances'),
        Field(44, 'u8', 'owner', 'curve of accent', names={0: 'none'}, meaning='whose curve matches best'),
        Field(45, 'u8', 'form', 'form', names={0: 'none', **FORMS}),
        Field(46, 'u16', 'label', 'label', meaning="the rule's; 0 in a citation"),
        Field(48, 'u8', 'part', 'part', meaning='counted from 0'),
        Field(49, 'u8', 'heard', 'heard tone', names={0: 'none'}),
        Field(50, 'u8', 'delta_count', 'deltas', limit=2),
        Field(51, 'u8', 'delta_kinds', 'advice', times=2, stride=5, counted='delta_count',
              names={n: name for n, (name, _, _) in DELTAS.items()}),
        Field(52, 'f32', 'delta_amounts', 'delta amounts', times=2, stride=5, counted='delta_count'),
        Field(61, 'u8', 'measured', 'measured', one_of(0, 1, 2), names=MEASURED),
        Field(62, 'u16', 'issues', 'issues', ISSUE_BITS))),
    Kind(51, 'shape', 'shape', 124, (
        Field(1, 'u32', 'start', 'span from', meaning='the first frame'),
        Field(5, 'u32', 'end', 'span to', meaning='the frame after the last'),
        Field(9, 'f32', 'contour', 'contour', times=10, stride=4, meaning='Chao units'),
        Field(49, 'f32', 'weights', 'weights', times=10, stride=4, meaning='the voiced share of the frames behind each point'),
        Field(89, 'f32', 'mean', 'mean', meaning='Chao units'),
        Field(93, 'f32', 'slope', 'slope', meaning='Chao units in a second'),
        Field(97, 'f32', 'curvature', 'curvature', meaning='Chao units over the voiced part squared'),
        Field(101, 'u8', 'turning_flag', 'turning flag', FLAG),
        Field(102, 'f32', 'turning', 'turning point', when='turning_flag', meaning='from 0, the start of the voiced part, to 1'),
        Field(106, 'f32', 'range', 'range', meaning='Chao units'),
        Field(110, 'f32', 'duration_ms', 'duration', meaning='ms'),
        Field(114, 'f32', 'voiced_fraction', 'voiced fraction', meaning="of the span's frames"),
        Field(118, 'f32', 'f0_confidence', 'F0 confidence', meaning='the mean voicing of the voiced frames'),
        Field(122, 'u16', 'issues', 'issues', ISSUE_BITS))),
    Kind(52, 'refusal', 'refusal', 6, (
        Field(1, 'u8', 'number', 'number'),
        Field(2, 'u32', 'place', 'place'))),
)

KINDS = {kind.number: kind for kind in PACK + SHEET + QUERY + RECORDS}
FIRST = {1: 'pack', 17: 'sheet', 48: 'query', 49: 'judgement', 51: 'shape', 52: 'refusal'}


class Record(NamedTuple):
    """A record of a file: its offset, its kind (nothing where no record has it), its values (nothing where it is cut short)."""
    offset: int
    number: int
    kind: object
    values: object


def kind_named(of, name):
    """The kind of a format by its name."""
    return next(kind for kind in KINDS.values() if kind.format == of and kind.name == name)


def places(field):
    """The offsets of a field's values in its record."""
    return [field.offset + i * field.stride for i in range(field.times)]


def decode(kind, data, at=0):
    """The values of the record at an offset, by name."""
    values = {}
    for field in kind.fields:
        found = [struct.unpack_from(CODES[field.type], data, at + p)[0] for p in places(field)]
        if field.type == 'f32':
            found = [F32(bits) for bits in found]
        values[field.name] = found if field.times > 1 else found[0]
    return values


def encode(kind, values):
    """The record of these values; what is not named is zero bytes."""
    out = bytearray(kind.size)
    out[0] = kind.number
    for field in kind.fields:
        given = values.get(field.name, ())
        for place, value in zip(places(field), given if field.times > 1 else [given]):
            if value != ():
                struct.pack_into(CODES[field.type], out, place, value.bits if field.type == 'f32' else value)
    return bytes(out)


def derived(kind):
    """The names of the fields that follow from others: counts and flags."""
    return {name for field in kind.fields for name in (field.counted, field.when) if name}


def used(field, values):
    """Which of a field's values count: all, as many as another field says, or none where its flag is clear."""
    if field.when:
        return range(1 if values[field.when] else 0)
    return range(min(field.times, values[field.counted]) if field.counted else field.times)


def walk(data):
    """The records of a file one after the other, up to one that no kind has, one cut short, or the end."""
    at = 0
    while at < len(data):
        kind = KINDS.get(data[at])
        whole = kind and at + kind.size <= len(data)
        yield Record(at, data[at], kind, decode(kind, data, at) if whole else None)
        if not whole:
            return
        at += kind.size


def records(data):
    return list(walk(data))


def plain(values, leave=()):
    return {name: value for name, value in values.items() if name not in leave}


def decode_sheet(data):
    """A sheet that loads as a dictionary: settings, tones with their tails, accents, rows, and lists with their components."""
    sheet = {'settings': {}, 'tones': [], 'accents': [], 'rows': [], 'lists': []}
    for record in records(data):
        name, values = record.kind.name, record.values
        if name == 'settings':
            sheet['settings'] = plain(values)
        elif name == 'tail':
            sheet['tones'][-1]['tail'] = plain(values)
        elif name == 'component':
            sheet['lists'][-1]['components'].append(plain(values))
        elif name == 'list':
            sheet['lists'].append({**plain(values, leave=('count',)), 'components': []})
        elif name != 'end':
            sheet[f'{name}s'].append(plain(values))
    return sheet
