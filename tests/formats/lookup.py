"""The section Lookup of docs/FORMATS.md, on a pack or sheet read by its tables, and the sheet of a pack by the section Sheet."""
import math
from collections import namedtuple

from reading import ACCENT, COMPONENT, LIST, PART, ROW, RULE, SHEET_TAIL, SHEET_TONE, TAIL, TONE
from tables import bits, f32

Rule = namedtuple('Rule', 'accent label tone prev final form parts')
# What a lookup gives: a form 1 list is a citation; weights and points are bits.
Listing = namedtuple('Listing', 'owner form label components')


def matches(rule, tone, prev, final):
    return rule.tone in (0, tone) and rule.prev in (0, prev) and rule.final in (0, 1 + final)


def specificity(rule):
    return sum(condition != 0 for condition in (rule.tone, rule.prev, rule.final))


def find_rule(rules, parents, accent, tone, prev, final):
    """The rule of the nearest accent with a match: its most specific one, the first among equals; or None."""
    while accent:
        best = None
        for rule in rules:
            if rule.accent == accent and matches(rule, tone, prev, final):
                if best is None or specificity(rule) > specificity(best):
                    best = rule
        if best:
            return best
        accent = parents[accent]
    return None


def expand_knots(knots):
    """Ten points, as bits, of knots that are bits."""
    last = len(knots) - 1
    if last == 0:
        return knots * 10
    if last == 9:
        return knots
    points = []
    for i in range(9):
        x = i / 9 * last
        j = min(math.floor(x), last - 1)
        step = f32(bits(f32(knots[j + 1]) - f32(knots[j])))
        points.append(bits(f32(knots[j]) + (x - j) * step))
    return points + [knots[last]]


class PackSource:
    """What a station with a pack holds."""

    def __init__(self, formats, pack):
        self.get, self.pack, self.rules, self.parents = formats.get, pack, [], {}
        self.knots = {self.get(tone, 'number'): self.curve(tone) for tone in pack.of(TONE)}
        self.tails, accent, tone = dict.fromkeys(self.knots, (0, 0)), 0, 0
        for _, record in pack.records:
            if record[0] == TONE:
                tone = self.get(record, 'number')
            if record[0] == TAIL:
                self.tails[tone] = self.get(record, 'at phrase end'), self.get(record, 'elsewhere')
            if record[0] == ACCENT:
                accent = self.get(record, 'number')
                self.parents[accent] = self.get(record, 'parent')
            if record[0] == RULE:
                fields = [self.get(record, name) for name in ('label', 'tone', 'prev', 'final', 'form')]
                self.rules.append(Rule(accent, *fields, []))
            if record[0] == PART:
                self.rules[-1].parts.append((self.get(record, 'weight'), self.curve(record)))

    def curve(self, record):
        return self.get(record, 'knots')[:self.get(record, 'knot count')]

    def look(self, accent, tone, prev, final):
        rule = find_rule(self.rules, self.parents, accent, tone, prev, final)
        if rule:
            parts = tuple((weight, tuple(expand_knots(knots))) for weight, knots in rule.parts)
            return Listing(rule.accent, rule.form, rule.label, parts)
        if self.knots[tone]:
            return Listing(accent, 1, 0, ((bits(1.0), tuple(expand_knots(self.knots[tone]))),))
        return None


class SheetSource:
    """What a station with a sheet holds."""

    def __init__(self, formats, sheet):
        get, self.lists, self.rows = formats.get, {}, {}
        for _, record in sheet.records:
            if record[0] == LIST:
                number = get(record, 'number')
                self.lists[number] = Listing(get(record, 'owner'), get(record, 'form'), get(record, 'label'), ())
            if record[0] == COMPONENT:
                one = (get(record, 'weight'), tuple(get(record, 'points')))
                self.lists[number] = self.lists[number]._replace(components=self.lists[number].components + (one,))
            if record[0] == ROW:
                accent, tone, prev, plain, final = sheet.row(record)
                self.rows[accent, tone, prev] = (plain, final)

    def look(self, accent, tone, prev, final):
        return self.lists.get(self.rows[accent, tone, prev][final])


def sheet_of(formats, pack):
    """The bytes of a pack's sheet, written by the layouts."""
    source, layouts, get = PackSource(formats, pack), formats.layouts, formats.get
    fields = lambda record, names: {name.replace(' ', '_'): get(record, name) for name in names}  # noqa: E731
    out = layouts[17].write(**fields(pack.records[0][1], ['temperature', 'heard threshold']))
    for tone in pack.of(TONE):
        out += layouts[SHEET_TONE].write(**fields(tone, ['number', 'prior', 'region flag', 'from', 'to']))
        out += layouts[SHEET_TAIL].write(**dict(zip(('at_phrase_end', 'elsewhere'), source.tails[get(tone, 'number')])))
    accents = sorted(pack.of(ACCENT), key=lambda record: get(record, 'number'))
    for accent in accents:
        names = ['number', 'contour tolerance', 'onset tolerance', 'offset tolerance', 'turning tolerance']
        out += layouts[19].write(**fields(accent, names))
    lists = []
    for accent in [get(record, 'number') for record in accents]:
        for tone in pack.tones():
            for prev in [0, *pack.tones()]:
                named = [number_of(source.look(accent, tone, prev, final), lists) for final in (0, 1)]
                out += layouts[ROW].write(accent=accent, tone=tone, prev=prev, list_where_not_final=named[0],
                                          list_where_final=named[1])
    return out + b''.join(list_bytes(layouts, i + 1, found) for i, found in enumerate(lists)) + layouts[23].write()


def number_of(found, lists):
    """The number of what a lookup gave, from 1 by first use; 0 for nothing."""
    if found is None:
        return 0
    if found not in lists:
        lists.append(found)
    return lists.index(found) + 1


def list_bytes(layouts, number, found):
    out = layouts[LIST].write(number=number, owner=found.owner, form=found.form, label=found.label,
                              component_count=len(found.components))
    return out + b''.join(layouts[COMPONENT].write(weight=weight, points=list(points)) for weight, points in found.components)
