"""The tables of docs/FORMATS.md and docs/RECORDS.md, and the constants of include/tonekit.h, as tests/formats/run reads them."""
import math
import re
import struct
from collections import namedtuple

Table = namedtuple('Table', 'heading columns rows')
SIZES = {'u8': 1, 'u16': 2, 'u32': 4, 'f32': 4}


class Wrong(Exception):
    """The document does not say what it should, or not in a form that can be read."""


def cells(line):
    return [cell.strip() for cell in line.strip().strip('|').split('|')]


def tables(text):
    """Every table of a page, under the last heading before it; a row is a dictionary by column."""
    found, heading = [], ''
    lines = text.split('\n')
    for i, line in enumerate(lines):
        if line.startswith('#'):
            heading = line.lstrip('#').strip()
        if re.fullmatch(r'(\|-+)+\|', line):
            columns, rows = cells(lines[i - 1]), []
            for row in lines[i + 1:]:
                if not row.startswith('|'):
                    break
                if len(cells(row)) != len(columns):
                    raise Wrong(f'{heading}: a row of {len(cells(row))} cells for {len(columns)} columns: {row}')
                rows.append(dict(zip(columns, cells(row))))
            found.append(Table(heading, columns, rows))
    return found


def number(text):
    return int(text.replace(',', ''), 0)


def f32(bits):
    return struct.unpack('<f', struct.pack('<I', bits))[0]


def bits(value):
    return struct.unpack('<I', struct.pack('<f', value))[0]


class Field:
    """A row of a layout: where it stands, what it is made of, what it may hold, and the refusal of what it may not."""

    def __init__(self, row):
        self.offset, self.name = number(row['offset']), row['field']
        many = re.fullmatch(r'(?:(\d+) (?:× )?)?\(?([uf0-9, ]+)\)?', row['type'])
        if not many or any(part not in SIZES for part in many[2].split(', ')):
            raise Wrong(f'{self.name}: no type {row["type"]}')
        self.types = many[2].split(', ') * int(many[1] or 1)
        self.each = len(many[2].split(', '))
        self.rules = [rule.strip() for rule in re.split(r'[;,] ', row.get('range', row.get('value')))]
        self.otherwise = row.get('else', '')

    def size(self):
        return sum(SIZES[part] for part in self.types)

    def values(self, record):
        """The field's numbers; a float is its bits."""
        found, at = [], self.offset
        for part in self.types:
            found.append(int.from_bytes(record[at:at + SIZES[part]], 'little'))
            at += SIZES[part]
        return found

    def store(self, values):
        return b''.join(value.to_bytes(SIZES[part], 'little') for part, value in zip(self.types, values))

    def fine(self, record, layout, form):
        """Whether the field holds what it may; the form is that of the rule or list that the record belongs to."""
        values, used = self.values(record), len(self.types)
        if 'unused zero bytes' in self.rules:
            used = self.each * layout.before(self).values(record)[0]
        if 'zero bytes where the flag is 0' in self.rules and not layout.flag_of(self).values(record)[0]:
            used = 0
        if any(values[used:]):
            return False
        end = f32(layout.field('to').values(record)[0]) if 'at most to' in self.rules else None
        return all(self.holds(rule, value, part, k, form, end) for rule in self.rules
                   for k, (value, part) in enumerate(zip(values[:used], self.types)))

    def holds(self, rule, raw, part, k, form, end):
        if rule.startswith(('kind ', 'amount ')):  # of a pair: the first, or the second
            if (k % self.each == 0) != rule.startswith('kind '):
                return True
            rule = rule.split(' ', 1)[1]
        elif self.each == 2 and k % 2 == 0 and rule in ('finite', 'sign clear'):
            return True
        value = f32(raw) if part == 'f32' else raw
        if rule == 'at most to':
            return value <= end
        return allowed(rule, raw, value, form)


def allowed(rule, raw, value, form):
    """Whether a number keeps to one rule of a range."""
    whole = re.fullmatch(r'([\d,]+)(?: to ([\d,]+))?(?: or ([\d,]+))?', rule)
    if whole:
        low, high, other = (number(text or whole[1]) for text in whole.groups())
        return low <= value <= high or value == other
    size = re.fullmatch(r'size at most ([\d,]+)', rule)
    if size:
        return abs(value) <= number(size[1])
    bound = re.fullmatch(r'(above|at least|at most|below) ([\d.]+)', rule)
    if bound:
        limit = float(bound[2])
        return {'above': value > limit, 'at least': value >= limit, 'at most': value <= limit, 'below': value < limit}[bound[1]]
    simple = {
        'any': True,
        'finite': math.isfinite(value),
        'sign clear': raw < 0x80000000,
        'unused zero bytes': True,
        'zero bytes where the flag is 0': True,
        '1 in form 2': form != 2 or value == 1,
        '1 unless the form is 3': form == 3 or value == 1,
        '0 in form 1': form != 1 or raw == 0,
        '0 or a tone': True,
        '0 or an accent': True,
        '0 or a list': True,
    }
    if rule not in simple:
        raise Wrong(f'no rule "{rule}"')
    return simple[rule]


class Layout:
    """A record by its table."""

    def __init__(self, name, kind, size, rows):
        self.name, self.kind, self.size = name, kind, size
        self.fields = [Field(row) for row in rows]
        at = 0
        for field in self.fields:
            if field.offset != at:
                raise Wrong(f'{name}: {field.name} stands at {field.offset}, not at {at}')
            at += field.size()
        if at != size:
            raise Wrong(f'{name}: its fields take {at} bytes, not {size}')
        if self.fields[0].rules != [str(kind)]:
            raise Wrong(f'{name}: the kind is {self.fields[0].rules}, not {kind}')

    def field(self, name):
        for field in self.fields:
            if field.name == name:
                return field
        raise Wrong(f'{self.name} has no field "{name}"')

    def before(self, field):
        """The field before it, which for slots is the count of those used."""
        return self.fields[self.fields.index(field) - 1]

    def flag_of(self, field):
        """The last field before it that is a flag."""
        flags = [f for f in self.fields if f.offset < field.offset and f.name.endswith('flag')]
        if not flags:
            raise Wrong(f'{self.name}: no flag before {field.name}')
        return flags[-1]

    def get(self, record, name):
        values = self.field(name).values(record)
        return values[0] if len(values) == 1 else values

    def write(self, **fields):
        """A record from the values of its fields, by name with _ for spaces; the kind is known."""
        given = {name.replace('_', ' '): value for name, value in fields.items()}
        out = b''
        for field in self.fields:
            value = self.kind if field.name == 'kind' else given.pop(field.name)
            out += field.store(value if isinstance(value, list) else [value])
        if given:
            raise Wrong(f'{self.name} has no fields {sorted(given)}')
        return out


def layouts(found):
    """Every layout of the page by its kind. The overview has the same kinds, names and sizes."""
    made = {}
    for table in found:
        head = re.fullmatch(r'(.*), kind (\d+), (\d+) bytes?', table.heading)
        if head and 'offset' in table.columns:
            made[int(head[2])] = Layout(head[1], int(head[2]), int(head[3]), table.rows)
    overview = {number(row['kind']): (row['record'], number(row['bytes'])) for table in found
                if table.columns[:3] == ['kind', 'record', 'bytes'] for row in table.rows}
    if overview != {kind: (layout.name, layout.size) for kind, layout in made.items()}:
        raise Wrong(f'the overview of kinds is {overview}')
    return made


def following(found, heading):
    """What may follow what, by kind: 0 is the beginning, None the end of the input."""
    table, = [t for t in found if t.heading == heading and t.columns[0] == 'after']
    words = {'the beginning': 0, 'the end of the input': None}
    read = lambda text: words[text] if text in words else int(text)  # noqa: E731
    return {read(row['after']): [read(part) for part in row[table.columns[1]].split(', ')] for row in table.rows}


def limits(found):
    table, = [t for t in found if t.columns[0] == 'limit']
    return {row['in tonekit.h'].strip('`'): number(row['limit']) for row in table.rows}


def constants(header):
    """The named numbers of the header."""
    plain = re.sub(r'/\*.*?\*/', '', header, flags=re.S)
    named = re.findall(r'^\s*#define (TONEKIT_\w+) (\w+)$', plain, flags=re.M)
    named += re.findall(r'\b(TONEKIT_\w+)\s*=\s*(\w+)', plain)
    return {name: int(value, 0) for name, value in named}


def promised(found):
    """What the tables say of the header's names: (name, value)."""
    for table in found:
        for row in table.rows:
            for column, of in [('in tonekit.h', table.columns[0]), ('size in tonekit.h', 'bytes')]:
                for name in re.findall(r'`(TONEKIT_\w+)`', row.get(column, '')):
                    yield name, number(row[of])
