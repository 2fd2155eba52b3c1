"""Records in words, by offset, and as JSON; both follow the table of layouts."""
from .floats import F32, INFINITY, SIGN
from .layouts import DELTAS, FIRST, ISSUES, derived, used
from .refusals import Refusal


def value_words(field, value):
    if field.name == 'issues':
        return f'0x{value:04x}'
    return field.names.get(value, str(value)) if field.names else str(value)


def has_words(field):
    """Whether the numbers of a field stand for words, more than for none or any."""
    return len(field.names) > 1


def issue_names(bits):
    return [name for i, name in enumerate(ISSUES) if bits >> i & 1] + ([f'0x{bits >> 10 << 10:04x}'] if bits >> 10 else [])


def deltas_of(values):
    """The deltas of a judgement: number, name, advice, unit, amount."""
    out = []
    for i in range(min(values['delta_count'], 2)):
        number = values['delta_kinds'][i]
        out.append((number, *DELTAS.get(number, (f'kind {number}', 'which is no kind of delta', '')), values['delta_amounts'][i]))
    return out


def field_words(field, values):
    """The used values of a field in words."""
    if field.name == 'issues':
        return ', '.join(issue_names(values['issues'])) or 'none'
    if field.name == 'delta_kinds':
        return '; '.join(f'{advice} by {amount} {unit} ({name})' for _, name, advice, unit, amount in deltas_of(values)) or 'none'
    whole = values[field.name] if field.times > 1 else [values[field.name]]
    return ' '.join(value_words(field, whole[i]) for i in used(field, values)) or 'none'


def shown(kind):
    """The fields that words are for: a flag or a count is told by what it is for, an amount by its delta."""
    hidden = derived(kind) | {'delta_amounts'}
    return [field for field in kind.fields if field.name not in hidden]


def own_number(kind):
    """The name of the field by which people know a record, or nothing."""
    first = kind.fields[0].name if kind.fields else ''
    return first if first in ('number', 'label') and kind.name != 'refusal' else ''


def title(found, at):
    """What people call the record at an index: tone 3, the tail of tone 3, part 0 of rule 31, frame 12."""
    record = found[at]
    if record.kind is None or record.values is None:
        return f'the record of kind {record.number} at byte {record.offset}'
    kind, values = record.kind, record.values
    if own_number(kind):
        return f'{kind.name} {values[own_number(kind)]}'
    if kind.name == 'tail' and at and found[at - 1].kind.name == 'tone':
        return f'the {kind.name} of {title(found, at - 1)}'
    if kind.within:
        owner = next((i for i in reversed(range(at)) if found[i].kind.name == kind.within[0]), None)
        return f'{kind.name} {at - owner - 1} of {title(found, owner)}' if owner is not None else kind.name
    if kind.name == 'row':
        return f'the row of accent {values["accent"]}, tone {values["tone"]}, prev {values["prev"] or "none"}'
    if kind.name == 'frame':
        return f'frame {at - sum(before.number != kind.number for before in found[:2])}'
    return f'the {kind.name}'


def head(found, at):
    """The title without what it belongs to, for a list of records."""
    name = title(found, at)
    return (name[4:] if name.startswith('the ') else name).partition(' of ')[0]


def line(found, at):
    """A record in one line."""
    kind, values = found[at].kind, found[at].values
    fields = [field for field in shown(kind) if field.name != own_number(kind) and (used(field, values) or not field.when)]
    words = ', '.join(f'{field.word} {field_words(field, values)}' for field in fields) or kind.meaning
    return f'{found[at].offset:6}  {head(found, at)}' + (f': {words}' if words else '')


def field_lines(record, tones=()):
    """The fields of a record, each with its offset; tones are the numbers for the log-likelihoods, where they are known."""
    for field in shown(record.kind):
        words, meaning = field_words(field, record.values), field.meaning
        if field.name == 'logliks' and tones:
            words, meaning = ', '.join(f'tone {n}: {v}' for n, v in zip(tones, record.values['logliks'])), ''
        told = f'   ({meaning})' if meaning and words != 'none' else ''
        yield record.offset + field.offset, f'  {field.word:<22}{words}{told}'


def record_lines(found, at):
    """A record in a line, or in a line for each field where they have meanings to tell."""
    record = found[at]
    if record.values is None:
        name = f'{record.kind.name}, cut short' if record.kind else 'which no record has'
        return [f'{record.offset:6}  kind {record.number}, {name}']
    if record.kind.name == 'refusal':
        return [f'{record.offset:6}  {Refusal(**record.values).words()}']
    if any(field.meaning for field in record.kind.fields):
        return [f'{record.offset:6}  {head(found, at)}'] + [f'{offset:6}  {words}' for offset, words in field_lines(record)]
    return [line(found, at)]


def in_short(record):
    """What a record comes to, in a line."""
    if record.kind.name != 'judgement':
        return record.kind.name
    heard = f'heard tone {record.values["heard"]}' if record.values['heard'] else 'no tone heard'
    return f'expected tone {record.values["expected"]}, {heard}'


COUNTED = {'pack': ('tone', 'tail', 'accent', 'rule', 'part'), 'sheet': ('tone', 'accent', 'row', 'list', 'component'),
           'query': ('cold register', 'frame')}
# Of these a file may have none.
OPTIONAL = ('tail', 'cold register')


def summary(of, found, length):
    """What a file of a format has, in a line; what is optional only where there is some."""
    counts = [(name, sum(r.kind is not None and r.kind.name == name for r in found)) for name in COUNTED[of]]
    said = [f'{n} {name}{"" if n == 1 else "s"}' for name, n in counts if n or name not in OPTIONAL]
    return f'a {of}: ' + ', '.join(said) + f', {length} bytes'


def format_of(data):
    """The format that the first byte says, or nothing."""
    return FIRST.get(data[0]) if data else None


def json_number(value):
    """A float by its shortest decimal; the bits of a NaN, and an infinity, as text, which JSON has no number for."""
    if isinstance(value, F32):
        return float(str(value)) if value.bits & ~SIGN < INFINITY else str(value)
    return value


def json_field(field, values):
    if field.when and not values[field.when]:
        return None
    if field.times > 1:
        return [json_number(values[field.name][i]) for i in used(field, values)]
    return json_number(values[field.name])


def json_record(found, at):
    """A record for scripts: offset, kind, name, its fields by name, and words where a number stands for one."""
    record = found[at]
    out = {'offset': record.offset, 'kind': record.number, 'name': record.kind.name if record.kind else None}
    if record.values is None:
        return {**out, 'cut_short': record.kind is not None}
    fields = {field.name: json_field(field, record.values) for field in record.kind.fields}
    words = {field.name: value_words(field, record.values[field.name]) for field in record.kind.fields
             if has_words(field) and field.times == 1}
    if 'issues' in fields:
        words['issues'] = issue_names(fields['issues'])
    if 'delta_count' in fields:
        words['deltas'] = [f'{advice} by {amount} {unit}' for _, _, advice, unit, amount in deltas_of(record.values)]
    if record.kind.name == 'refusal':
        words['number'] = Refusal(**record.values).word
    return {**out, 'fields': fields, **({'words': words} if words else {})}
