"""One panel of a plot: which curves an accent and a tone take, in which contexts, and the marks that show them. Lengths are
in points, 1/72 inch."""
import collections
import functools
from xml.sax.saxutils import escape

SMALL, LARGE, LINE = 6.0, 7.0, 7.2
# A letter's width over its size, taken wider than common sans-serif fonts have it, so that texts keep clear of one another.
LETTER, BOLD = 0.56, 0.66
SAMPLE, INDENT = 11.0, 13.0
TIE = '\u00a0'
THINNEST, WIDEST = 0.45, 1.35
# What a frame has beside the times 0 and 1, for the tolerances of onset and offset.
BESIDE = 5.5
BAND, ENDS, GUIDE, FRAME = '#e2e2e2', '#a9a9a9', '#c9c9c9', '#4d4d4d'

# Curves differ in dashes and markers; colour (Okabe and Ito's, told apart by colour-blind readers) only adds to it.
Style = collections.namedtuple('Style', 'dash marker ink')
DASHES = ['', '3 1.5', '0.9 1.5', '5 1.4 0.9 1.4']
INKS = ['#000000', '#0072b2', '#d55e00', '#009e73']
MARKERS = ['', 'disc', 'ring', 'triangle', 'square']
MARKED = (0, 3, 6, 9)
# Phrases up to this long are said in full, also where "elsewhere" would do.
SAID_IN_FULL = 24


def styles(grey):
    """As many styles as one panel can have lists, and two more."""
    return [Style(dash, marker, '#000000' if grey else ink) for marker in MARKERS for dash, ink in zip(DASHES, INKS)]


def wide(text, size=SMALL, letter=LETTER):
    """A text's width, or somewhat more."""
    return letter * size * len(text)


@functools.lru_cache(maxsize=None)
def wrap(text, width):
    """Lines of words that are each no wider than that, unless one word is. Words with a TIE between them stay together if
    they can."""
    pieces = [piece for word in text.split(' ') for piece in ([word] if wide(word) <= width else word.split(TIE))]
    lines = ['']
    for word in pieces:
        longer = f'{lines[-1]} {word}' if lines[-1] else word
        if lines[-1] and wide(longer) > width:
            lines.append(word)
        else:
            lines[-1] = longer
    return tuple(lines)


def words(x, y, text, extra=''):
    return f'<text x="{x:.2f}" y="{y:.2f}"{extra}>{escape(text)}</text>'


def short(number):
    """A number to four digits: the sheet's text has every digit."""
    return f'{number:.4g}'


def preceded(tones, preceding):
    """Some of the preceding tones (0: none) in few words, by those that are missing where these are fewer."""
    missing = [p for p in preceding if p not in tones]
    if missing == [0]:
        return 'after any tone'
    named, out = (missing, 'not after ') if 0 not in missing and len(missing) < len(tones) else (tones, 'after ')
    return out + ', '.join(str(p) if p else 'none' for p in named)


def phrase(contexts, preceding):
    """Contexts in few words; each is a preceding tone, and 1 at the end of a phrase, else 0."""
    groups = []
    for place, wanted in (('', (True, True)), ('not final', (True, False)), ('final', (False, True))):
        tones = [p for p in preceding if ((p, 0) in contexts, (p, 1) in contexts) == wanted]
        if len(tones) == len(preceding):
            return place or 'every context'
        if tones:
            groups.append(', '.join(filter(None, [place, preceded(tones, preceding)])))
    return '; '.join(groups)


def phrases(taken, preceding):
    """What is said of each list's contexts. If the words are long, the list with most contexts is taken elsewhere."""
    said = {number: phrase(contexts, preceding) for number, contexts in taken.items()}
    most = max(taken, key=lambda number: len(taken[number]))
    if len(taken[most]) > len(preceding) and len(said[most]) > SAID_IN_FULL:
        said[most] = 'elsewhere'
    return said


class Entry:
    """The lists of a panel that have one and the same curve or curves, and what the key says of them."""

    def __init__(self, parts, mixture):
        self.parts, self.mixture, self.lists, self.said, self.count, self.style = parts, mixture, [], [], 0, None

    def add(self, each, contexts, count, accent):
        name = 'citation' if each['form'] == 1 else str(each['label'])
        owner = '' if each['owner'] == accent['number'] else f'{each["owner"]}/'
        self.lists.append(each['number'])
        self.count += count
        self.said.append((contexts, f'[{owner}{name}]'))

    def contexts(self):
        return '; '.join(contexts for contexts, _ in self.said)

    def text(self):
        out = '; '.join(f'{contexts} {name}' for contexts, name in self.said)
        if self.mixture:
            out += ', parts ' + ', '.join(f'{i}:{TIE}{short(weight)}' for i, (weight, _) in enumerate(self.parts))
        return out

    def widths(self):
        """A line's width for each part, by its share of the weight."""
        total = sum(weight for weight, _ in self.parts)
        return [THINNEST + (WIDEST - THINNEST) * (weight / total if total else 0.0) for weight, _ in self.parts]


class Scale:
    """Where times and pitches stand in a frame, and how wide a band may be before all of it lies outside."""

    def __init__(self, left, top, width, height, pitches):
        self.left, self.top, self.width, self.height = left, top, width, height
        self.low, self.high = pitches

    def x(self, u):
        return self.left + BESIDE + (self.width - 2 * BESIDE) * u

    def y(self, v):
        return self.top + self.height * (self.high - v) / (self.high - self.low)

    def held(self, tolerance):
        """Beyond twice the frame's range a wider band looks the same."""
        return min(tolerance, 2 * (self.high - self.low))

    def ticks(self):
        """Round pitches, as many as there is room for."""
        step = next(s for s in (1, 2, 5, 10, 20, 50) if (self.high - self.low) / s <= max(7.0, self.height / 8))
        return [k * step for k in range(-int(-self.low // step), int(self.high // step) + 1)]


class Panel:
    """One accent and tone: its entries in the order of first use along the rows, and the contexts with no curve."""

    def __init__(self, sheet, accent, tone):
        self.accent, self.tone, self.entries, self.nothing = accent, tone, [], ''
        self.name = f'a{accent["number"]}-t{tone["number"]}'
        taken = {}
        for row in sheet['rows']:
            if (row['accent'], row['tone']) == (accent['number'], tone['number']):
                taken.setdefault(row['list'], set()).add((row['prev'], 0))
                taken.setdefault(row['list_final'], set()).add((row['prev'], 1))
        said = phrases(taken, [0] + [t['number'] for t in sheet['tones']])
        self.nothing = said.pop(0, '')
        self.gather({each['number']: each for each in sheet['lists']}, said, taken)

    def gather(self, lists, said, taken):
        found = {}
        for number, contexts in said.items():
            parts = tuple((c['weight'], tuple(c['points'])) for c in lists[number]['components'])
            entry = found.setdefault(parts, Entry(parts, lists[number]['form'] == 3))
            entry.mixture |= lists[number]['form'] == 3
            entry.add(lists[number], contexts, len(taken[number]), self.accent)
        self.entries = list(found.values())

    def points(self):
        return [v for entry in self.entries for _, points in entry.parts for v in points]

    def key(self, width):
        """(entry, lines) of the key, the contexts with no curve last."""
        out = [(entry, wrap(entry.text(), width - INDENT)) for entry in self.entries]
        if self.nothing:
            out.append((None, wrap(f'no curve: {self.nothing}', width)))
        return out

    def key_lines(self, width):
        return sum(len(lines) for _, lines in self.key(width))

    def svg(self, scale):
        clip = f'clip-{self.name}'
        box = f'x="{scale.left:.2f}" y="{scale.top:.2f}" width="{scale.width:.2f}" height="{scale.height:.2f}"'
        out = [f'<g id="{self.name}">', f'<clipPath id="{clip}"><rect {box}/></clipPath>', f'<g clip-path="url(#{clip})">']
        out += [mark for entry in self.entries for _, points in entry.parts for mark in bands(scale, self.accent, points)]
        for v in scale.ticks():
            out.append(f'<line x1="{scale.left:.2f}" y1="{scale.y(v):.2f}" x2="{scale.left + scale.width:.2f}" '
                       f'y2="{scale.y(v):.2f}" stroke="{GUIDE}" stroke-width="0.3"/>')
        out += region(scale, self.tone)
        for entry in self.entries:
            lists = '.'.join(map(str, entry.lists))
            for part, ((_, points), width) in enumerate(zip(entry.parts, entry.widths())):
                at = [(scale.x(k / 9), scale.y(v)) for k, v in enumerate(points)]
                out += curve(at, entry.style, width, f'{self.name}-l{lists}-p{part}')
        out += ['</g>', f'<rect {box} fill="none" stroke="{FRAME}" stroke-width="0.5"/>']
        out += self.part_numbers(scale) + self.axis(scale) + self.key_svg(scale) + ['</g>']
        return out

    def part_numbers(self, scale):
        """The parts of each mixture, numbered on their curves where those lie furthest from all others."""
        curves = [finer(scale, points) for entry in self.entries for _, points in entry.parts]
        out, placed = [], []
        for entry in (entry for entry in self.entries if entry.mixture):
            for part, (_, points) in enumerate(entry.parts):
                its = finer(scale, points)
                others = [each for each in curves if each != its]
                x, y = its[max(range(2, 18), key=lambda j, its=its, others=others: clear(its[j], placed + [
                    each[i] for each in others for i in (j - 1, j, j + 1)]))]
                placed.append((x, y))
                out.append(f'<circle cx="{x:.2f}" cy="{y:.2f}" r="2.6" fill="#ffffff"/>')
                out.append(words(x, y + 2.1, str(part), f' class="part" text-anchor="middle" fill="{entry.style.ink}"'))
        return out

    def axis(self, scale):
        y = scale.top + scale.height + LINE - 0.6
        title = 'normalised time' if wide('normalised time') + 24 < scale.width else 'time'
        out = [words(scale.x(u), y, str(u), ' text-anchor="middle"') for u in (0, 1)]
        out.append(words(scale.x(0.5), y, title, ' text-anchor="middle"'))
        if not self.entries:
            middle = scale.top + scale.height / 2
            out.append(words(scale.x(0.5), middle, 'no curve', ' text-anchor="middle"'))
        return out

    def key_svg(self, scale):
        out, y = [], scale.top + scale.height + 2 * LINE
        for entry, lines in self.key(scale.width):
            if entry:
                at = [(scale.left + SAMPLE * k / 9, y - 2.1) for k in range(10)]
                out += curve(at, entry.style, max(entry.widths()), '', (4,))
            for line in lines:
                out.append(words(scale.left + (INDENT if entry else 0), y, line))
                y += LINE
        return out


def finer(scale, points):
    """Where a curve's points and the middles between them stand in a frame."""
    both = [v for k in range(9) for v in (points[k], (points[k] + points[k + 1]) / 2)] + [points[9]]
    return [(scale.x(j / 18), scale.y(v)) for j, v in enumerate(both)]


def clear(at, others):
    """How far a place is from the nearest of the others."""
    return min([(at[0] - x) ** 2 + (at[1] - y) ** 2 for x, y in others], default=0.0)


def bands(scale, accent, points):
    """A curve's tolerances: the contour's along it, the onset's before its first point, the offset's behind its last."""
    reach = scale.held(accent['contour'])
    edge = [(k / 9, v + reach) for k, v in enumerate(points)] + [(k / 9, v - reach) for k, v in enumerate(points)][::-1]
    path = ' '.join(f'{scale.x(u):.2f},{scale.y(v):.2f}' for u, v in edge)
    out = [f'<polygon class="contour" points="{path}" fill="{BAND}"/>']
    for name, x, v in (('onset', scale.x(0) - 4, points[0]), ('offset', scale.x(1) + 1, points[9])):
        reach = scale.held(accent[name])
        out.append(f'<rect class="{name}" x="{x:.2f}" y="{scale.y(v + reach):.2f}" width="3" '
                   f'height="{scale.y(v - reach) - scale.y(v + reach):.2f}" fill="{ENDS}"/>')
    return out


def region(scale, tone):
    """A bar on the time axis, over what of the tone's region lies between 0 and 1."""
    start, end = max(tone['from'], 0.0), min(tone['to'], 1.0)
    if not tone['flag'] or start > end:
        return []
    return [f'<rect class="region" x="{scale.x(start):.2f}" y="{scale.top + scale.height - 2:.2f}" '
            f'width="{max(scale.x(end) - scale.x(start), 0.6):.2f}" height="2" fill="#000000"/>']


def curve(at, style, width, name, marked=MARKED):
    """A stroke through ten places, with its markers."""
    path = ' '.join(f'{x:.2f},{y:.2f}' for x, y in at)
    dash = f' stroke-dasharray="{style.dash}"' if style.dash else ''
    named = f' id="{name}" class="curve"' if name else ' class="sample"'
    return [f'<polyline{named} points="{path}" fill="none" stroke="{style.ink}" stroke-width="{width:.2f}" '
            f'stroke-linejoin="round"{dash}/>'] + [marker(style, *at[k]) for k in marked if style.marker]


def marker(style, x, y):
    """A marker some 2.4 points wide."""
    filled, hollow = f'fill="{style.ink}"', f'fill="#ffffff" stroke="{style.ink}" stroke-width="0.5"'
    if style.marker in ('disc', 'ring'):
        return f'<circle cx="{x:.2f}" cy="{y:.2f}" r="1.2" {filled if style.marker == "disc" else hollow}/>'
    if style.marker == 'square':
        return f'<rect x="{x - 1.1:.2f}" y="{y - 1.1:.2f}" width="2.2" height="2.2" {hollow}/>'
    return f'<path d="M{x - 1.5:.2f},{y + 1.1:.2f} h3 l-1.5,-2.6 z" {filled}/>'
