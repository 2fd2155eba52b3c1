"""Reads packs, queries and sheets by the layouts of docs/FORMATS.md, with the refusals and places of its section Turned back."""
import re
from collections import defaultdict

import tables
from tables import f32

TONE, ACCENT, RULE, PART, END, TAIL = 2, 3, 4, 5, 6, 7
SHEET_TONE, SHEET_ACCENT, ROW, LIST, COMPONENT, SHEET_END, SHEET_TAIL = 18, 19, 20, 21, 22, 23, 24
QUERY, FRAME, COLD = 48, 50, 55


class Refused(Exception):
    def __init__(self, number, place):
        super().__init__(number, place)
        self.number, self.place = number, place


class Formats:
    """What the page fixes: layouts by kind, what may follow what, limits."""

    def __init__(self, text):
        found = tables.tables(text)
        self.layouts = tables.layouts(found)
        self.limits = tables.limits(found)
        self.after = {name: tables.following(found, name) for name in ('Pack', 'Query', 'Sheet')}

    def get(self, record, name):
        return self.layouts[record[0]].get(record, name)

    def limit(self, name):
        return self.limits[f'TONEKIT_{name}_MAX']


class Reader:
    """One input, record by record. The records that are fine stand in `records` as (offset, bytes)."""

    def __init__(self, formats, name, data):
        self.formats, self.name, self.data, self.at = formats, name, data, 0
        self.records, self.by_kind, self.since = [], defaultdict(list), 0

    def of(self, kind):
        return self.by_kind[kind]

    def numbers(self, kind):
        return [self.formats.get(record, 'number') for record in self.of(kind)]

    def last(self, kind):
        return self.of(kind)[-1]

    def tones(self):
        return self.numbers(SHEET_TONE if self.name == 'Sheet' else TONE)

    def accents(self):
        return self.numbers(SHEET_ACCENT if self.name == 'Sheet' else ACCENT)

    def add(self, record):
        """Keeps a record that is fine; `since` counts the parts of the last rule, or the components of the last list."""
        self.records.append((self.at, record))
        self.by_kind[record[0]].append(record)
        self.since = self.since + 1 if record[0] in (PART, COMPONENT) else 0
        self.at += len(record)

    def rows_due(self):
        return len(self.accents()) * len(self.tones()) * (len(self.tones()) + 1)

    def may_follow(self):
        """The kinds due here, None for the end: what the table has after the last kind, but the counted kind while some are missing
        and only then; kind 55 in either case."""
        last = self.records[-1][1][0] if self.records else 0
        due = self.formats.after[self.name][last]
        if last not in (QUERY, COLD, FRAME, SHEET_ACCENT, ROW, COMPONENT):
            return due
        if last in (QUERY, COLD, FRAME):
            counted, missing = FRAME, self.formats.get(self.records[0][1], 'frame count') - len(self.of(FRAME))
        elif last == COMPONENT:
            counted, missing = COMPONENT, self.formats.get(self.last(LIST), 'component count') - self.since
        else:
            counted, missing = ROW, self.rows_due() - len(self.of(ROW))
        return [kind for kind in due if (kind == counted) == (missing > 0) or last == SHEET_ACCENT or kind == COLD]

    def over(self, due):
        """Whether the last record was read: the input may end here, and nothing else that is due stands here."""
        return None in due and self.data[self.at:self.at + 1] not in [bytes([kind]) for kind in due if kind]

    def read(self):
        """Every record of the input; a Refused where one is refused."""
        while not self.over(due := self.may_follow()):
            if self.at >= len(self.data):
                raise Refused(2, self.at)
            kind = self.data[self.at]
            if kind not in due:
                raise Refused(1, self.at)
            layout = self.formats.layouts[kind]
            if self.at + layout.size > len(self.data):
                raise Refused(2, self.at)
            record = self.data[self.at:self.at + layout.size]
            self.judge(layout, record)
            self.add(record)
        if self.name == 'Pack':
            self.judge_parents()
        if self.name == 'Sheet':
            self.judge_order()
        if self.at < len(self.data):
            raise Refused(3, self.at)
        return self

    def judge(self, layout, record):
        """The refusals 4, 5 (10), 6 and 7 of one record, in this order."""
        form = self.form(layout, record)
        broken = [field for field in layout.fields if not field.fine(record, layout, form)]
        numbers = [else_number(field, record) for field in broken]
        if self.one_too_many(record[0]) or 4 in numbers:
            raise Refused(4, self.at)
        if broken:
            raise Refused(numbers[0], self.at)
        for field in layout.fields:
            if 'repeated' in field.otherwise and field.values(record)[0] in self.numbers(record[0]):
                raise Refused(last_number(field), self.at)
        for field in layout.fields:
            if self.loose(field, field.values(record)[0]):
                raise Refused(last_number(field), self.at)

    def form(self, layout, record):
        if record[0] == PART:
            return self.formats.get(self.last(RULE), 'form')
        if record[0] == COMPONENT:
            return self.formats.get(self.last(LIST), 'form')
        return layout.get(record, 'form') if record[0] in (RULE, LIST) else None

    def one_too_many(self, kind):
        names = {TONE: 'TONES', SHEET_TONE: 'TONES', ACCENT: 'ACCENTS', SHEET_ACCENT: 'ACCENTS', RULE: 'RULES', PART: 'PARTS',
                 LIST: 'LISTS', COMPONENT: 'COMPONENTS'}
        if kind in names and len(self.of(kind)) >= self.formats.limit(names[kind]):
            return True
        if kind != PART:
            return False
        return self.since >= (1 if self.formats.get(self.last(RULE), 'form') == 2 else self.formats.limit('RULE_PARTS'))

    def loose(self, field, value):
        """Whether the field names a tone or an accent that is not there; parents and a sheet's lists are judged at the end."""
        if '0 or a tone' in field.rules:
            return value not in [0, *self.tones()]
        if 'not held' in field.otherwise:
            return value not in (self.tones() if field.name == 'tone' else self.accents())
        return False

    def judge_parents(self):
        """What a pack's end decides: 7 for a parent that is not there, then 20 for a chain of parents that does not end."""
        end, naming = self.records[-1][0], self.formats.layouts[ACCENT].field('parent')
        parents = {self.formats.get(record, 'number'): naming.values(record)[0] for record in self.of(ACCENT)}
        if '0 or an accent' in naming.rules and any(parent not in [0, *parents] for parent in parents.values()):
            raise Refused(last_number(naming), end)
        for accent in parents:
            for _ in parents:
                accent = parents.get(accent, 0)
            if accent:
                raise Refused(20, end)

    def row(self, record):
        """Accent, tone and prev of a row, and its two lists."""
        get = self.formats.get
        return (*(get(record, name) for name in ('accent', 'tone', 'prev')), get(record, 'list where not final'),
                get(record, 'list where final'))

    def judge_order(self):
        """What a sheet's end decides: 7 for rows, then 8."""
        held = [0, *self.numbers(LIST)]
        naming = [field for field in self.formats.layouts[ROW].fields if '0 or a list' in field.rules]
        for at, record in self.records:
            for field in naming if record[0] == ROW else []:
                if field.values(record)[0] not in held:
                    raise Refused(last_number(field), at)
        wrong = [*self.accents_down(), *self.rows_wrong(), *self.lists_wrong()]
        if wrong:
            raise Refused(8, min(wrong))

    def accents_down(self):
        found = [(at, self.formats.get(record, 'number')) for at, record in self.records if record[0] == SHEET_ACCENT]
        return [at for (at, number), (_, before) in zip(found[1:], found) if number <= before]

    def contexts(self):
        """Accent, tone and prev of each row that is due, in order."""
        return [(a, t, p) for a in self.accents() for t in self.tones() for p in [0, *self.tones()]]

    def rows_wrong(self):
        greatest = 0
        rows = [(at, record) for at, record in self.records if record[0] == ROW]
        for (at, record), context in zip(rows, self.contexts()):
            *named, plain, final = self.row(record)
            if tuple(named) != context or plain > greatest + 1 or final > max(greatest, plain) + 1:
                yield at
            greatest = max(greatest, plain, final)

    def lists_wrong(self):
        named = {name for record in self.of(ROW) for name in self.row(record)[3:]}
        seen = []
        for at, whole in self.whole_lists():
            if self.formats.get(whole, 'number') != len(seen) + 1 or len(seen) + 1 not in named or whole[2:] in seen:
                yield at
            seen.append(whole[2:])

    def whole_lists(self):
        """Offset and bytes of each list with its components."""
        starts = [i for i, (_, record) in enumerate(self.records) if record[0] == LIST]
        for i in starts:
            count = self.formats.get(self.records[i][1], 'component count')
            yield self.records[i][0], b''.join(record for _, record in self.records[i:i + 1 + count])


def else_number(field, record):
    """The refusal of a field that is not fine, by its cell `else`."""
    if field.otherwise == '5 for 0, 4 above':
        return 4 if field.values(record)[0] else 5
    return int(field.otherwise.split(',')[0])


def last_number(field):
    """The refusal that a cell `else` names last: of a number that is repeated, or that is not held."""
    return int(re.findall(r'\d+', field.otherwise)[-1])


def voiced_in_span(formats, query):
    """How many voiced frames a query has in its span, as section Shape counts them."""
    record, frames = query.records[0][1], query.of(FRAME)
    start, end = formats.get(record, 'span start'), formats.get(record, 'span end')
    pitch = [f32(formats.get(frame, 'hz')) for frame in frames]
    return sum(1 for i, frame in enumerate(frames) if start <= i < end and formats.get(frame, 'voiced flag')
               and 0 < pitch[i] < float('inf'))
