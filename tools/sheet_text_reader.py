"""Reads what the program sheet_text writes: the values as they stand in the text, the bits that they read back to, and the
sheet's bytes built from them alone."""
import functools
import re
import struct

from tonekit_tool.floats import nearest

FORMS = ['citation', 'single', 'mixture']
ANYWHERE, NOT_LAST, LAST = 'after', 'not at the end of a phrase after', 'at the end of a phrase after'
EVERY = 'in every context'
CONTEXTS = 'contexts, by preceding tone (none: no tone precedes), at the end of a phrase or not:'
LISTS = 'lists, each component with its weight and ten points, evenly spaced from start to end:'
WHOLE, FLOAT = r'(0|[1-9][0-9]*)', r'(-?(?:0|[1-9][0-9]*)(?:\.[0-9]*[1-9])?)'


class Damaged(Exception):
    """The text is not one that sheet_text writes; says in which line, counted from 1."""

    def __init__(self, line, what):
        super().__init__(f'line {line}: {what}')
        self.line = line


class Tone:
    def __init__(self, number, prior, region, tail):
        self.number, self.prior, self.region, self.tail = number, prior, region, tail


class Accent:
    def __init__(self, number, tolerances):
        self.number, self.tolerances = number, tolerances


class Entry:
    """The contexts of one accent and tone that take one list (0: nothing), as its line says it and as pairs: preceding tone, 0
    for none; 1 at the end of a phrase, else 0."""

    def __init__(self, takes, words, contexts, line):
        self.takes, self.words, self.contexts, self.line = takes, words, contexts, line


class Component:
    def __init__(self, weight, points):
        self.weight, self.points = weight, points


class List:
    def __init__(self, number, owner, form, label):
        self.number, self.owner, self.form, self.label, self.components = number, owner, form, label, []


class Sheet:
    """Settings, tones, accents, the tables by (accent, tone), the lists. Floats stay as they were written."""

    def __init__(self):
        self.settings, self.tones, self.accents, self.tables, self.lists = None, [], [], {}, []

    def floats(self):
        """Every float of the sheet, in its order."""
        out = list(self.settings)
        for tone in self.tones:
            out += [tone.prior, *(tone.region or ()), *tone.tail]
        for accent in self.accents:
            out += accent.tolerances
        for component in (c for each in self.lists for c in each.components):
            out += [component.weight, *component.points]
        return out


@functools.lru_cache(maxsize=None)
def bits(text):
    """The bits of the f32 that a plain decimal reads back to: the nearest, of two the even one. Whole numbers only."""
    sign, digits = (0x80000000, text[1:]) if text.startswith('-') else (0, text)
    whole, _, part = digits.partition('.')
    magnitude = nearest(int(whole + part), 10 ** len(part))
    if magnitude >= 0x7F800000:
        raise OverflowError(f'{text} is past the greatest f32')
    return sign | magnitude


def value(text):
    """The f32 as Python's float, for drawing."""
    return struct.unpack('<f', struct.pack('<I', bits(text)))[0]


class Lines:
    """The lines of a text, one after the other; what does not match is named by its line."""

    def __init__(self, text):
        self.lines, self.at = text.split('\n'), 0

    def match(self, pattern):
        return self.at < len(self.lines) and re.fullmatch(pattern, self.lines[self.at])

    def damaged(self, what):
        found = 'the text ends' if self.at >= len(self.lines) - 1 else f'found {self.lines[self.at]!r}'
        return Damaged(min(self.at + 1, len(self.lines)), f'{what}; {found}')

    def take(self, pattern, what):
        """The groups of the next line. A number past the greatest f32 is refused."""
        found = self.match(pattern)
        if not found:
            raise self.damaged(f'expected {what}')
        for text in (g for g in found.groups() if g and re.fullmatch(FLOAT, g)):
            try:
                bits(text)
            except OverflowError as error:
                raise self.damaged(str(error)) from None
        self.at += 1
        return found.groups()

    def exactly(self, line):
        return self.take(re.escape(line), repr(line) if line else 'an empty line')

    def number(self, text, others, most=255):
        """A number of the line just taken: from 1 to the greatest, and none of the others."""
        if not 1 <= int(text) <= most or int(text) in others:
            self.at -= 1
            raise self.damaged(f'number {text} is out of range or stands there twice')
        return int(text)


def read_tones(lines, sheet):
    pattern = (rf'tone {WHOLE}: prior {FLOAT}, (?:no region|region {FLOAT} to {FLOAT}), '
               rf'tail at phrase end {FLOAT}, elsewhere {FLOAT}')
    while not sheet.tones or lines.match('tone .*'):
        number, prior, start, end, *tail = lines.take(pattern, 'a tone')
        number = lines.number(number, [t.number for t in sheet.tones])
        sheet.tones.append(Tone(number, prior, start and (start, end), tail))


def read_accents(lines, sheet):
    pattern = rf'accent {WHOLE}: tolerances contour {FLOAT}, onset {FLOAT}, offset {FLOAT}, turning {FLOAT}'
    while not sheet.accents or lines.match('accent .*'):
        number, *tolerances = lines.take(pattern, 'an accent')
        sheet.accents.append(Accent(lines.number(number, [a.number for a in sheet.accents]), tolerances))


def contexts_of(words, preceding):
    """The contexts that an entry's words name, of those there are."""
    if words == EVERY:
        return [(p, final) for p in preceding for final in (0, 1)]
    out = []
    for group in words.split('; '):
        place, _, tones = group.rpartition('after ')
        finals = {ANYWHERE: (0, 1), NOT_LAST: (0,), LAST: (1,)}[f'{place}after']
        out += [(0 if t == 'none' else int(t), final) for t in tones.split(', ') for final in finals]
    return out


def read_table(lines, sheet, accent, tone):
    """One table; every context of it has to be named once."""
    lines.exactly('')
    lines.exactly(f'accent {accent}, tone {tone}')
    preceding = [0] + [t.number for t in sheet.tones]
    tones = r'(?:none|[1-9][0-9]*)(?:, [1-9][0-9]*)*'
    group = f'(?:{ANYWHERE}|{NOT_LAST}|{LAST}) {tones}'
    left = {(p, final) for p in preceding for final in (0, 1)}
    entries = []
    while left:
        number, words = lines.take(rf'  (?:list {WHOLE}|nothing): ({EVERY}|{group}(?:; {group})*)',
                                   'the contexts that take a list, or nothing')
        contexts = contexts_of(words, preceding)
        if len(set(contexts)) < len(contexts) or not left.issuperset(contexts):
            lines.at -= 1
            raise lines.damaged('a context that is not there, or is named twice')
        left.difference_update(contexts)
        entries.append(Entry(lines.number(number, [e.takes for e in entries]) if number else 0, words, contexts, lines.at))
    sheet.tables[accent, tone] = entries


def read_lists(lines, sheet):
    points = ', '.join([FLOAT] * 10)
    while lines.match('') and not (lines.at + 1 < len(lines.lines) and lines.lines[lines.at + 1] == 'end'):
        lines.exactly('')
        number = len(sheet.lists) + 1
        owner, form, label = lines.take(
            rf'list {number}: owner accent {WHOLE}, form ({"|".join(FORMS)}), label {WHOLE}', f'list {number}')
        new = List(number, lines.number(owner, []), FORMS.index(form) + 1, int(label) and lines.number(label, [], 65535))
        while not new.components or lines.match('  component .*'):
            at = len(new.components)
            weight, = lines.take(rf'  component {at}: weight {FLOAT}', f'component {at}')
            new.components.append(Component(weight, lines.take(rf'    points {points}', 'ten points')))
        sheet.lists.append(new)


def read(text):
    """The sheet that a text shows; Damaged where it is none."""
    lines, sheet = Lines(text), Sheet()
    lines.exactly('tonekit sheet')
    lines.exactly('')
    sheet.settings = lines.take(rf'settings: temperature {FLOAT}, heard threshold {FLOAT}', 'the settings')
    lines.exactly('')
    read_tones(lines, sheet)
    lines.exactly('')
    read_accents(lines, sheet)
    lines.exactly('')
    lines.exactly(CONTEXTS)
    for accent in sheet.accents:
        for tone in sheet.tones:
            read_table(lines, sheet, accent.number, tone.number)
    lines.exactly('')
    lines.exactly(LISTS)
    read_lists(lines, sheet)
    lines.exactly('')
    lines.exactly('end')
    if lines.lines[lines.at:] != ['']:
        raise lines.damaged('expected nothing after the end')
    for entry in (e for entries in sheet.tables.values() for e in entries):
        if entry.takes > len(sheet.lists):
            raise Damaged(entry.line, f'list {entry.takes} is not there')
    return sheet


def f32(*texts):
    return b''.join(struct.pack('<I', bits(t)) for t in texts)


def sheet_bytes(sheet):
    """The sheet's bytes, from what its text says."""
    out = bytes([17]) + f32(*sheet.settings)
    for tone in sheet.tones:
        region = b'\x01' + f32(*tone.region) if tone.region else bytes(9)
        out += bytes([18, tone.number]) + f32(tone.prior) + region + b'\x18' + f32(*tone.tail)
    for accent in sheet.accents:
        out += bytes([19, accent.number]) + f32(*accent.tolerances)
    preceding = [0] + [t.number for t in sheet.tones]
    for (accent, tone), entries in sheet.tables.items():
        takes = {context: entry.takes for entry in entries for context in entry.contexts}
        for p in preceding:
            out += bytes([20, accent, tone, p, takes[p, 0], takes[p, 1]])
    for each in sheet.lists:
        out += bytes([21, each.number, each.owner, each.form]) + struct.pack('<HB', each.label, len(each.components))
        for component in each.components:
            out += bytes([22]) + f32(component.weight, *component.points)
    return out + bytes([23])
