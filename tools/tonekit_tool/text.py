"""A pack as text, for people to write: one record to a line, by the words of the table of layouts, # for comments. And back, bit
for bit."""
from .files import lines_of
from .floats import NotANumber, is_number, parsed
from .layouts import PACK, SIZES, derived, encode, records, used
from .show import own_number, value_words

INDENT = {'tail': '  ', 'rule': '  ', 'part': '    '}
BY_NAME = {kind.name: kind for kind in PACK}


class TextFault(Exception):
    """The text is no pack's; says in which line, counted from 1."""

    def __init__(self, number, words):
        super().__init__(f'line {number}: {words}')


def written(kind):
    """The fields that stand in a line, by their words; the record's own number stands first, without one."""
    hidden = derived(kind) | {own_number(kind)}
    return {field.word: field for field in kind.fields if field.name not in hidden}


def whole(field, token):
    """A whole number that the field has room for, or one of its names."""
    for number, name in dict(field.names).items():
        if token == name:
            return number
    most = 256 ** SIZES[field.type] - 1
    if not token.isascii() or not token.isdigit() or len(token) > 10 or int(token) > most:
        names = ', '.join(dict(field.names).values())
        raise ValueError(f'{field.word} {token!r} is no whole number from 0 to {most}{" or one of " + names if names else ""}')
    return int(token)


def value(field, token):
    return parsed(token) if field.type == 'f32' else whole(field, token)


def taken(field, tokens):
    """How many of the tokens belong to a field."""
    if field.times == 1:
        return 1
    return next((i for i, token in enumerate(tokens) if not is_number(token)), len(tokens))


def read_fields(kind, tokens):
    """The values that the words of a line give."""
    fields, values, rest = written(kind), {}, list(tokens)
    if own_number(kind):
        if not rest:
            raise ValueError(f'{kind.name} has no {own_number(kind)}')
        values[own_number(kind)] = whole(kind.fields[0], rest.pop(0))
    while rest:
        word = rest.pop(0)
        if word not in fields or fields[word].name in values:
            known = ', '.join(fields) or 'nothing'
            raise ValueError(f'{word!r} {"stands there twice" if word in fields else f"is none of the words here: {known}"}')
        field = fields[word]
        count = taken(field, rest)
        if not rest or not 1 <= count <= field.times:
            raise ValueError(f'{word} has {count if rest else 0} values, not {f"1 to {field.times}" if field.times > 1 else 1}')
        found = [value(field, token) for token in rest[:count]]
        del rest[:count]
        values[field.name] = found if field.times > 1 else found[0]
        if field.counted:
            values[field.counted] = count
    return values


def complete(kind, values):
    """The values with what may be left out; what may not is missed."""
    for field in written(kind).values():
        if field.when:
            values[field.when] = values.get(field.when) or int(field.name in values)
        elif field.name not in values and field.default is not None:
            values[field.name] = field.default
    flags = [field.when for field in kind.fields if field.when and values.get(field.when)]
    missing = [field.word for field in written(kind).values()
               if field.name not in values and not field.counted and (not field.when or field.when in flags)]
    if missing:
        raise ValueError(f'{kind.name} lacks {", ".join(missing)}')
    return values


def read_line(tokens):
    """The record that the words of a line give."""
    kind = BY_NAME.get(tokens[0])
    if kind is None:
        raise ValueError(f'{tokens[0]!r} is none of {", ".join(BY_NAME)}')
    return encode(kind, complete(kind, read_fields(kind, tokens[1:])))


def read_pack(text):
    """The bytes that a text says, and the line of each record by its offset. No more is asked of it: a check decides."""
    out, at_line = bytearray(), {}
    for number, line in enumerate(lines_of(text), 1):
        tokens = line.partition('#')[0].split()
        if not tokens:
            continue
        at_line[len(out)] = number
        try:
            out += read_line(tokens)
        except (ValueError, NotANumber) as error:
            raise TextFault(number, str(error)) from None
    return bytes(out), at_line


def field_text(field, values):
    whole_field = values[field.name] if field.times > 1 else [values[field.name]]
    return ' '.join([field.word, *(value_words(field, whole_field[i]) for i in used(field, values))])


def line_text(kind, values):
    """A record as its line; what is as it would be if left out is left out."""
    words = [f'{kind.name} {values[own_number(kind)]}' if own_number(kind) else kind.name]
    for field in written(kind).values():
        said = field.default is None or values[field.name] != field.default
        if said and used(field, values):
            words.append(field_text(field, values))
    return INDENT.get(kind.name, '') + '  '.join(words)


def keys(found):
    """By what a name is found again: the tone, also of its tail, the accent, or the rule with its accent and conditions."""
    tone = accent = None
    for record in found:
        values, name = record.values, record.kind.name
        tone = values['number'] if name == 'tone' else tone
        accent = values['number'] if name == 'accent' else accent
        if name in ('tone', 'accent'):
            yield name, values['number']
        elif name == 'tail':
            yield name, tone
        elif name == 'rule':
            yield name, accent, values['label'], values['tone'], values['prev'], values['final']
        else:
            yield None


def names_in(text):
    """The comments behind the tones, tails, accents and rules of a text."""
    data, at_line = read_pack(text)
    found, lines = records(data), lines_of(text)
    out = {}
    for record, key in zip(found, keys(found)):
        comment = lines[at_line[record.offset] - 1].partition('#')[2].strip()
        if key and comment:
            out.setdefault(key, comment)
    return out


def own_words(record):
    """What a record is for, as a comment where its text has no name for it."""
    values = record.values
    if record.kind.name == 'tone' and not values['knot_count']:
        return 'no citation form: its curves are those of rules'
    if record.kind.name != 'rule':
        return ''
    tone = f'tone {values["tone"]}' if values['tone'] else 'any tone'
    prev = f' after tone {values["prev"]}' if values['prev'] else ''
    return tone + prev + {0: '', 1: ', not at the end of a phrase', 2: ', at the end of a phrase'}[values['final']]


def write_pack(data, names=None):
    """The text of a pack that loads; names are comments, by what `names_in` finds."""
    out, found, before = ['# A tonekit pack: `tonekit pack` makes the bytes. Knots are Chao values.'], records(data), ''
    for record, key in zip(found, keys(found)):
        name = record.kind.name
        if name == 'accent' or (name != before and name not in INDENT):
            out.append('')
        comment = (names or {}).get(key) or own_words(record)
        text = line_text(record.kind, record.values)
        out.append(f'{text}   # {comment}' if comment else text)
        before = before if name in INDENT else name
    return '\n'.join(out) + '\n'
