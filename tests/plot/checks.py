"""What a page of a plot must hold, read from its SVG alone and compared with the sheet."""
import itertools
import math
import re
import xml.etree.ElementTree as tree

SVG = '{http://www.w3.org/2000/svg}'
TOLERANCES = ('contour', 'onset', 'offset')
# A letter's width over its size: common sans-serif fonts have 0.45 to 0.53 for such texts, in bold up to 0.6.
LETTER, BOLD = 0.55, 0.64

# Faults that the checks must find: what it is, a pattern in the first page, what stands in its place.
SPOILT = [
    ('a curve left out', r'<polyline id=[^>]*/>', ''),
    ('a curve of another list', r'(<polyline id="a\d+-t\d+-l)\d+', r'\g<1>99'),
    ('a point moved', r'(<polyline id=[^>]* points="[0-9.]+,)([0-9.]+)', lambda m: f'{m[1]}{float(m[2]) + 1:.2f}'),
    ('letters of 5.9 pt', r'font-size="6"', 'font-size="5.9"'),
    ('small letters in one text', r'<text ', '<text font-size="5" '),
    ('a text outside', r'<text x="[0-9.]+"', '<text x="480"'),
    ('a text over another', r'(<text x="[0-9.]+" y=")[0-9.]+(">not after)', r'\g<1>17\g<2>'),
    ('a band left out', r'<polygon[^>]*/>', ''),
    ('a band too wide', r'(<polygon[^>]* points="[0-9.]+,)([0-9.]+)', lambda m: f'{m[1]}{float(m[2]) - 1:.2f}'),
    ('an onset left out', r'<rect class="onset"[^>]*/>', ''),
    ('an offset of another height', r'(<rect class="offset"[^>]* height=")', r'\g<1>1'),
    ('two styles alike', r'stroke-dasharray="3 1.5"', ''),
    ('a tick of another number', r'>5</text>', '>4</text>'),
    ('contexts of another tone', r'>after 3', '>after 4'),
    ('contexts left out', r'<text[^>]*>not after 3[^<]*</text>', ''),
    ('another rule', r'\[101\]', '[102]'),
    ('a part without its number', r'<text[^>]*class="part"[^>]*>1</text>', ''),
    ('another digest', r'SHA-256 of the sheet: .', 'SHA-256 of the sheet: x'),
    ('other settings', r'Temperature 1.5', 'Temperature 1'),
    ('another page', r'Page 1', 'Page 2'),
    ('a region left out', r'<rect class="region"[^>]*/>', ''),
    ('another tail', r'tail\u00a01.5', 'tail\u00a02.5'),
    ('a tail left out', r', tail\u00a01.5[^<]*', ''),
    ('another width', r'width="174.000mm"', 'width="170.000mm"'),
    ('no well-formed XML', r'</g>', ''),
]


def number(element, name):
    return float(element.get(name))


def places(element):
    return [tuple(map(float, pair.split(','))) for pair in element.get('points').split()]


class Text:
    """A text with its box, by an estimate of its width."""

    def __init__(self, element, inherited):
        self.said, self.kind = element.text, element.get('class')
        self.size, self.anchor = float(element.get('font-size', inherited)), element.get('text-anchor', 'start')
        self.at = x, y = number(element, 'x'), number(element, 'y')
        wide = len(self.said) * self.size * (BOLD if element.get('font-weight') else LETTER)
        left = {'start': 0.0, 'middle': wide / 2, 'end': wide}[self.anchor]
        self.box = x - left, y - 0.72 * self.size, x - left + wide, y + 0.2 * self.size
        turned = re.fullmatch(r'rotate\(-90 ([0-9.]+) ([0-9.]+)\)', element.get('transform', ''))
        if turned:
            self.box = x - 0.72 * self.size, y - wide + left, x + 0.2 * self.size, y + left

    def over(self, other):
        one, two = self.box, other.box
        return one[0] < two[2] - 0.1 and two[0] < one[2] - 0.1 and one[1] < two[3] - 0.1 and two[1] < one[3] - 0.1


class Page:
    def __init__(self, svg):
        self.root = tree.fromstring(svg)
        self.width, self.height = (float(re.fullmatch(r'([0-9.]+)mm', self.root.get(name))[1]) for name in ('width', 'height'))
        self.box = list(map(float, self.root.get('viewBox').split()))
        self.texts = [Text(each, self.root.get('font-size')) for each in self.root.iter(f'{SVG}text')]
        self.panels = [each for each in self.root.iter(f'{SVG}g') if re.fullmatch(r'a\d+-t\d+', each.get('id', ''))]
        self.said = ' '.join(text.said for text in self.texts)

    def faults(self, args):
        """Size and letters."""
        if abs(self.width - args.width) > 0.001 or self.height > args.page_height:
            yield f'{self.width} by {self.height} mm'
        points = self.width / 25.4 * 72 / self.box[2]
        if abs(self.height / self.width - self.box[3] / self.box[2]) > 1e-4 or abs(points - 1) > 1e-4:
            yield f'{points} pt for a unit'
        for text in self.texts:
            if round(text.size * points, 4) < 6:
                yield f'{text.size * points:.2f} pt: {text.said}'
            if not (0 <= text.box[0] and 0 <= text.box[1] and text.box[2] <= self.box[2] and text.box[3] <= self.box[3]):
                yield f'outside the page: {text.said} {text.box}'
        kept = sorted((text for text in self.texts if text.kind != 'part'), key=lambda text: text.box[1])
        for i, text in enumerate(kept):
            below = itertools.takewhile(lambda other, end=text.box[3]: other.box[1] < end, kept[i + 1:])
            yield from (f'{text.said!r} over {other.said!r}' for other in below if text.over(other))

    def colours(self):
        """Colours that are not grey."""
        used = {each.get(name) for each in self.root.iter() for name in ('fill', 'stroke')} - {None, 'none'}
        return [colour for colour in used if not re.fullmatch(r'#([0-9a-f]{2})\1\1', colour)]


class Panel:
    """What stands in one panel: frame, scale, curves, bands, key."""

    def __init__(self, group, page):
        self.accent, self.tone = map(int, re.findall(r'\d+', group.get('id')))
        frame = next(each for each in group.iter(f'{SVG}rect') if each.get('fill') == 'none')
        self.top, self.height = number(frame, 'y'), number(frame, 'height')
        self.across = number(frame, 'x'), number(frame, 'x') + number(frame, 'width')
        ticks = [(float(t.said), t.at[1] - 2.1) for t in page.texts if t.anchor == 'end' and
                 self.top <= t.at[1] - 2.1 <= self.top + self.height]
        (self.value, self.at), (value, at) = ticks[0], ticks[-1]
        self.unit = (self.at - at) / (value - self.value)
        self.uneven = [t for t in ticks if abs(self.y(t[0]) - t[1]) > 0.03]
        self.start, self.end = (next(number(each, 'x') for each in group.iter(f'{SVG}text') if each.text == u and
                                     each.get('class') != 'part') for u in '01')
        self.bands = [each for each in group.iter() if each.get('class') in TOLERANCES]
        self.regions = [each for each in group.iter() if each.get('class') == 'region']
        self.parts = [each.text for each in group.iter(f'{SVG}text') if each.get('class') == 'part']
        self.curves, self.key = {}, []
        self.read(list(group.iter()))

    def y(self, value):
        return self.at - self.unit * (value - self.value)

    def x(self, u):
        return self.start + (self.end - self.start) * u

    def read(self, elements):
        """Curves by their lists and part, the key's entries as [style, text]; a style is dashes and markers."""
        for i, element in enumerate(elements):
            if element.tag == f'{SVG}polyline':
                style = element.get('stroke-dasharray', ''), shape(elements[i + 1]) if i + 1 < len(elements) else ''
                if element.get('class') == 'sample':
                    self.key.append([style, ''])
                else:
                    lists, part = re.fullmatch(r'a\d+-t\d+-l([0-9.]+)-p(\d)', element.get('id')).groups()
                    key = tuple(map(int, lists.split('.'))), int(part)
                    self.curves[key] = style, float(element.get('stroke-width')), places(element)
            elif element.tag == f'{SVG}text' and not element.get('text-anchor'):
                if element.text.startswith('no curve:'):
                    self.key.append([None, ''])
                self.key[-1][1] = f'{self.key[-1][1]} {element.text}'.replace('\u00a0', ' ').strip()


def shape(element):
    """The marker that stands behind a stroke, if one does."""
    if element.get('class') or element.tag not in (f'{SVG}circle', f'{SVG}rect', f'{SVG}path') or element.get('r') == '2.6':
        return ''
    return '' if element.get('fill') == 'none' else f'{element.tag} {"hollow" if element.get("stroke") else "filled"}'


def faults(sheet, digest, args, pages):
    """All that is wrong with the pages of a sheet, in words."""
    out, found = [], []
    try:
        read = [Page(svg) for _, svg in pages]
        for i, page in enumerate(read):
            panels = [Panel(group, page) for group in page.panels]
            found += panels
            out += [*page.faults(args), *foot(page, sheet, digest), *tails(page, {panel.tone for panel in panels}, sheet)]
            out += [fault for panel in panels for fault in of_panel(panel, sheet)]
            if args.grey:
                out += page.colours()
            if len(pages) > 1 and f'Page {i + 1} of {len(pages)}.' not in page.said:
                out.append(f'page {i + 1} does not say so')
    except (tree.ParseError, TypeError, ValueError, AttributeError, LookupError, StopIteration) as error:
        return [*out, f'cannot be read: {error!r}']
    if [suffix for suffix, _ in pages] != ([f'-{i + 1}' for i in range(len(pages))] if len(pages) > 1 else ['']):
        out.append('suffixes')
    wanted = sorted((a['number'], t['number']) for a in sheet['accents'] for t in sheet['tones'] if
                    args.accent in (None, a['number']) and args.tone in (None, t['number']))
    if sorted((panel.accent, panel.tone) for panel in found) != wanted:
        out.append('not a panel for each accent and tone')
    return out


def foot(page, sheet, digest):
    settings = sheet['settings']
    for words in (f'Temperature {settings["temperature"]:.4g}, heard threshold {settings["threshold"]:.4g}.',
                  f'{digest[:16]} (the first 16 of 64 digits)', 'pitch (Chao)', 'time'):
        if words not in page.said:
            yield f'{words!r} is not said'


def tails(page, shown, sheet):
    """The tails of the tones that a page shows; not a word where all are zero."""
    said = page.said.replace('\u00a0', ' ')
    for tail in [tone['tail'] for tone in sheet['tones'] if tone['number'] in shown and any(tone['tail'].values())]:
        words = f'tail {tail["final"]:.4g} final, {tail["elsewhere"]:.4g} elsewhere'
        if words not in said or 'Tail: what a creaky ending adds' not in said:
            yield f'{words!r} is not said'
    if not any(value for tone in sheet['tones'] for value in tone['tail'].values()) and 'tail' in said.lower():
        yield 'a tail, and there is none'


def of_panel(panel, sheet):
    lists = {each['number']: each for each in sheet['lists']}
    rows = {(row['prev'], final): row['list_final' if final else 'list'] for row in sheet['rows'] for final in (0, 1)
            if (row['accent'], row['tone']) == (panel.accent, panel.tone)}
    accent = next(each for each in sheet['accents'] if each['number'] == panel.accent)
    tone = next(each for each in sheet['tones'] if each['number'] == panel.tone)
    name = f'accent {panel.accent}, tone {panel.tone}'
    checked = [*of_curves(panel, lists, set(rows.values()) - {0}), *of_bands(panel, accent, lists), *of_region(panel, tone),
               *of_styles(panel), *of_key(panel, lists, rows, accent)]
    return [f'{name}: {fault}' for fault in checked]


def of_curves(panel, lists, taken):
    """Each list that a row takes, each part of it, at its place in the frame."""
    if panel.uneven:
        yield f'ticks {panel.uneven}'
    drawn = sorted((each, part) for numbers, part in panel.curves for each in numbers)
    if drawn != sorted((each, part) for each in taken for part in range(len(lists[each]['components']))):
        yield f'other curves: {drawn}'
    for (numbers, part), (_, _, at) in panel.curves.items():
        for each in numbers:
            points = lists[each]['components'][part]['points']
            wrong = [k for k, v in enumerate(points) if math.dist(at[k], (panel.x(k / 9), panel.y(v))) > 0.03]
            if wrong or len(at) != 10:
                yield f'list {each}, part {part}: points {wrong} of {len(at)}'
        if any(not (panel.across[0] <= x <= panel.across[1] and panel.top <= y <= panel.top + panel.height) for x, y in at):
            yield f'list {numbers} leaves the frame'


def of_bands(panel, accent, lists):
    """Three marks for each curve, as high as the accent's tolerances; past twice the frame they may be less."""
    wanted = []
    most = 2 * panel.height / panel.unit
    for (numbers, part) in panel.curves:
        points = lists[numbers[0]]['components'][part]['points']
        reach = [min(accent[name], most) for name in TOLERANCES]
        wanted.append(('contour', panel.y(points[0] + reach[0]), panel.y(points[9] - reach[0])))
        wanted.append(('onset', panel.y(points[0] + reach[1]), panel.y(points[0] - reach[1])))
        wanted.append(('offset', panel.y(points[9] + reach[2]), panel.y(points[9] - reach[2])))
    found = []
    for each in panel.bands:
        if each.get('class') == 'contour':
            found.append(('contour', places(each)[0][1], places(each)[10][1]))
        else:
            found.append((each.get('class'), number(each, 'y'), number(each, 'y') + number(each, 'height')))
    for one, two in zip(wanted, found):
        if one[0] != two[0] or math.dist(one[1:], two[1:]) > 0.1:
            yield f'a band {two} instead of {one}'
    if len(wanted) != len(found):
        yield f'{len(found)} bands instead of {len(wanted)}'


def of_region(panel, tone):
    start, end = max(tone['from'], 0.0), min(tone['to'], 1.0)
    there = tone['flag'] and start <= end
    if len(panel.regions) != int(bool(there)):
        yield f'{len(panel.regions)} regions'
    for each in panel.regions:
        if abs(number(each, 'x') - panel.x(start)) > 0.02 or number(each, 'width') + 0.02 < panel.x(end) - panel.x(start):
            yield 'a region at another place'


def of_styles(panel):
    """Curves of different lists differ in dashes or markers."""
    styles = {}
    for (numbers, _), (style, _, _) in panel.curves.items():
        styles.setdefault(style, set()).add(numbers)
    for style, users in styles.items():
        if len(users) > 1:
            yield f'{sorted(users)} look alike: {style}'


def contexts(words, rows):
    """The contexts that a phrase of the key names; nothing for elsewhere."""
    if words == 'elsewhere':
        return None
    out, preceding = set(), {p for p, _ in rows}
    for group in words.split('; '):
        place, after = re.fullmatch(r'(final|not final)?(?:, )?(.*)', group).groups()
        kind, tones = re.fullmatch(r'(every context|after any tone|after|not after|)(?: (.*))?', after).groups()
        named = {0 if t == 'none' else int(t) for t in tones.split(', ')} if tones else set()
        held = {'after': named, 'not after': preceding - named, 'after any tone': preceding - {0}}.get(kind, preceding)
        out |= {(p, final) for p in held for final in {'final': (1,), 'not final': (0,), None: (0, 1)}[place]}
    return out


def of_key(panel, lists, rows, accent):
    """The key, read back: each context once, with the list that its row takes, in the style of its curves."""
    left, later = set(rows), []
    for style, text in panel.key:
        for i, piece in enumerate(re.split(r'(?<=\]); ', re.sub(r'(?<=\]), parts .*', '', text))):
            words, name = ((text[len('no curve: '):], '') if style is None else
                           re.fullmatch(r'(.*) \[(.*)\]', piece).groups())
            said = contexts(words, rows)
            if said is None:
                later.append((style, name, i))
                continue
            yield from entry_faults(panel, lists, rows, accent, (style, name, i), said)
            if not said <= left:
                yield f'said twice: {words}'
            left -= said
    for entry in later:
        yield from entry_faults(panel, lists, rows, accent, entry, left)
        left = set()
    if left or len(later) > 1:
        yield f'not said: {sorted(left)}'
    parts = sorted(str(part) for numbers, part in panel.curves if any(lists[each]['form'] == 3 for each in numbers))
    if sorted(panel.parts) != parts:
        yield f'parts {panel.parts} instead of {parts}'
    yield from weight_faults(panel, lists)


def entry_faults(panel, lists, rows, accent, entry, said):
    style, name, place = entry
    numbers = [each for each, _ in panel.curves if panel.curves[each, 0][0] == style]
    wanted = {numbers[0][place] if numbers and style else 0}
    if {rows[context] for context in said} != wanted:
        yield f'the key says {wanted} where the rows take {sorted({rows[context] for context in said})}'
    for each in wanted - {0}:
        held = lists[each]
        owner = '' if held['owner'] == accent['number'] else f'{held["owner"]}/'
        if name != owner + ('citation' if held['form'] == 1 else str(held['label'])):
            yield f'list {each} is called {name}'


def weight_faults(panel, lists):
    """A mixture's weights in the key, and wider lines for more weight."""
    for style, text in panel.key:
        said = re.search(r', parts (.*)', text)
        numbers = next((each for each, _ in panel.curves if panel.curves[each, 0][0] == style), None)
        if numbers is None:
            continue
        weights = [c['weight'] for c in lists[numbers[0]]['components']]
        mixture = any(lists[each]['form'] == 3 for each in numbers)
        if mixture != bool(said) or said and said[1] != ', '.join(f'{i}: {w:.4g}' for i, w in enumerate(weights)):
            yield f'weights {weights} in {text!r}'
        widths = [panel.curves[numbers, part][1] for part in range(len(weights))]
        order = sorted(range(len(weights)), key=lambda part: weights[part])
        if any(widths[a] > widths[b] for a, b in zip(order, order[1:])) or min(widths) < 0.25:
            yield f'weights {weights} have widths {widths}'
