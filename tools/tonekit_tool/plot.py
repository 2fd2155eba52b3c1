"""Draws a sheet at a journal's size, as pages of SVG: columns of accents, rows of tones, and in each panel the curve of every
context with its tolerances. Where one accent or one tone is shown, its panels fill the lines one after the other.

draw() takes the sheet as plain dicts and lists. CannotDraw says in words what does not fit. Lengths are in points, 1/72
inch."""
import argparse
import math
import os

from .plot_panel import BOLD, LARGE, LINE, SMALL, TIE, Panel, Scale, short, styles, wide, words, wrap

WIDTH, PAGE_HEIGHT = 174.0, 234.0
LEAST, MOST = 60.0, 1000.0
POINT = 25.4 / 72
MARGIN, LEFT, GAP, BELOW = 2.0, 26.0, 6.0, 3.0
# A panel's least width where accents stand in columns, and where panels follow one another; its height.
LEAST_WIDE, LEAST_FLOWING, LEAST_HIGH, MOST_HIGH = 52.0, 64.0, 46.0, 150.0
# A panel's height over its width if there is room; below this share of it, it is flat.
SLENDER, FLAT = 0.62, 0.65
DIGITS = 16


class CannotDraw(ValueError):
    """What was asked for cannot be drawn; says why."""


def millimetres(text):
    try:
        value = float(text)
    except ValueError:
        value = math.nan
    if not LEAST <= value <= MOST:
        raise argparse.ArgumentTypeError(f'{text!r} is no length from {LEAST:g} to {MOST:g} millimetres')
    return value


def add_arguments(parser):
    """The options of a plot."""
    parser.add_argument('--width', type=millimetres, default=WIDTH, metavar='MM',
                        help='width in millimetres (default %(default)g: two columns of a journal; 84: one)')
    parser.add_argument('--page-height', type=millimetres, default=PAGE_HEIGHT, metavar='MM',
                        help='greatest height of a page in millimetres (default %(default)g)')
    parser.add_argument('--accent', type=int, metavar='N', help='this accent only')
    parser.add_argument('--tone', type=int, metavar='N', help='this tone only')
    parser.add_argument('--grey', action='store_true', help='black and grey only')


def page_path(path, suffix):
    """Where a page goes: the suffix stands before the ending of the path."""
    stem, ending = os.path.splitext(path)
    return f'{stem}{suffix}{ending}'


def chosen(held, number, what):
    """The tones or accents to show: all, or the one asked for."""
    if number is None:
        return held
    found = [each for each in held if each['number'] == number]
    if not found:
        raise CannotDraw(f'{what} {number} is not in the sheet, which has {", ".join(str(each["number"]) for each in held)}')
    return found


class Heading:
    """A line or more over the whole width, or over each column: a name in bold, and what is said of it."""

    def __init__(self, texts, width):
        self.columns = [self.lines(name, more, width) for name, more in texts]
        self.step = width + GAP

    @staticmethod
    def lines(name, more, width):
        if wide(name, LARGE, BOLD) + 4 + wide(more) <= width:
            return [(name, more)]
        return [(name, '')] + [('', line) for line in wrap(more, width)]

    def height(self, _=None):
        return LINE * max((len(lines) for lines in self.columns), default=0) + (3 if self.columns else 0)

    def svg(self, top, _=None):
        out = []
        for column, lines in enumerate(self.columns):
            x = LEFT + column * self.step
            for i, (name, more) in enumerate(lines):
                y = top + LINE * (i + 1) - 1
                if name:
                    out.append(words(x, y, name, f' font-size="{LARGE:g}" font-weight="bold"'))
                if more:
                    out.append(words(x + (wide(name, LARGE, BOLD) + 4 if name else 0), y, more))
        return out


class Row:
    """Panels side by side on one scale of pitch, under a heading."""

    def __init__(self, heading, panels, width, pitches):
        self.heading, self.panels, self.width, self.pitches = heading, panels, width, pitches

    def key_height(self):
        return LINE * max(panel.key_lines(self.width) for panel in self.panels)

    def height(self, tall):
        return self.heading.height() + tall + LINE + self.key_height() + 8

    def svg(self, top, tall):
        out = self.heading.svg(top)
        top += self.heading.height()
        scale = Scale(LEFT, top, self.width, tall, self.pitches)
        for v in scale.ticks():
            out.append(words(LEFT - 2, scale.y(v) + 2.1, f'{v:g}', ' text-anchor="end"'))
        x, y = MARGIN + SMALL, top + tall / 2
        out.append(words(x, y, 'pitch (Chao)', f' text-anchor="middle" transform="rotate(-90 {x:.2f} {y:.2f})"'))
        for i, panel in enumerate(self.panels):
            out += panel.svg(Scale(LEFT + i * (self.width + GAP), top, self.width, tall, self.pitches))
        return out


def about_tone(tone):
    region = f', region{TIE}{short(tone["from"])}{TIE}to{TIE}{short(tone["to"])}' if tone['flag'] else ''
    return f'Tone {tone["number"]}', f'prior {short(tone["prior"])}{region}{about_tail(tone)}'


def has_tail(tone):
    return any(tone['tail'].values())


def about_tail(tone):
    """Both its values, where one is not zero."""
    final, elsewhere = (f'{short(tone["tail"][name])}{TIE}{name}' for name in ('final', 'elsewhere'))
    return f', tail{TIE}{final},{TIE}{elsewhere}' if has_tail(tone) else ''


def about_accent(accent):
    tolerances = ', '.join(f'{name}{TIE}{short(accent[name])}' for name in ('contour', 'onset', 'offset', 'turning'))
    return f'Accent {accent["number"]}', f'tolerance {tolerances}'


class Figure:
    """The panels that are shown, by accent and tone, with their styles and scales."""

    def __init__(self, sheet, args):
        self.accents = chosen(sheet['accents'], args.accent, 'accent')
        self.tones = chosen(sheet['tones'], args.tone, 'tone')
        self.flows = len(self.accents) == 1 or len(self.tones) == 1
        self.panels = {(a['number'], t['number']): Panel(sheet, a, t) for t in self.tones for a in self.accents}
        for tone in self.tones:
            self.paint([self.panels[a['number'], tone['number']] for a in self.accents], styles(args.grey))

    @staticmethod
    def paint(panels, palette):
        """Styles for the panels of a tone, no two alike in a panel: the first for what most contexts take, then one that an
        earlier panel has for the same contexts, then the next."""
        known = {}
        for panel in panels:
            free, rest = list(range(len(palette))), sorted(panel.entries, key=lambda each: -each.count)
            wanted = {id(entry): known.get(entry.contexts()) for entry in rest}
            wanted.update({id(entry): 0 for entry in rest[:1]})
            for entry in sorted(rest, key=lambda each: wanted[id(each)] is None):
                index = wanted[id(entry)] if wanted[id(entry)] in free else free[0]
                free.remove(index)
                known.setdefault(entry.contexts(), index)
                entry.style = palette[index]

    def pitches(self, tones):
        """The range of pitch for some tones: 1 to 5 and every point, with room for a tolerance up to 1."""
        values = [v for a in self.accents for t in tones for v in self.panels[a['number'], t['number']].points()]
        room = min(1.0, max(a[name] for a in self.accents for name in ('contour', 'onset', 'offset')))
        low, high = min([1.0, *values]), max([5.0, *values])
        return low - room - 0.02 * (high - low), high + room + 0.02 * (high - low)

    def blocks(self, columns, width):
        """(heading, rows) of each group of columns."""
        if self.flows:
            return [self.flow(columns, width)]
        groups = split(self.accents, columns)
        return [self.grid(accents, width, column_width(width, len(groups[0]))) for accents in groups]

    def grid(self, accents, width, each):
        rows = [Row(Heading([about_tone(tone)], width - LEFT), [self.panels[a['number'], tone['number']] for a in accents],
                    each, self.pitches([tone])) for tone in self.tones]
        return Heading([about_accent(a) for a in accents], each), rows

    def flow(self, columns, width):
        """One accent's tones, or one tone's accents, in as many rows as they need."""
        lines, rows = split(list(self.panels.values()), columns), []
        one_accent, each = len(self.accents) == 1, column_width(width, len(lines[0]))
        for panels in lines:
            about = [about_tone(p.tone) if one_accent else about_accent(p.accent) for p in panels]
            rows.append(Row(Heading(about, each), panels, each, self.pitches([p.tone for p in panels])))
        about = about_accent(self.accents[0]) if one_accent else about_tone(self.tones[0])
        return Heading([about], width - LEFT), rows


def column_width(width, columns):
    return (width - LEFT - MARGIN + GAP) / columns - GAP


def split(items, most):
    """Groups of at most so many, as even as may be."""
    groups = math.ceil(len(items) / most)
    size = math.ceil(len(items) / groups)
    return [items[i:i + size] for i in range(0, len(items), size)]


def pages_of(blocks, tall, room):
    """The headings and rows on pages no higher than that; nothing if one row is."""
    pages, used, last = [], math.inf, None
    for heading, rows in blocks:
        for row in rows:
            items = [row] if last is heading else [heading, row]
            if used + sum(item.height(tall) for item in items) > room:
                pages.append([])
                items, used = [heading, row], 0.0
            used, last = used + sum(item.height(tall) for item in items), heading
            if used > room:
                return []
            pages[-1] += items
    return pages


def highest(blocks):
    """How high the panels would be if pages had room."""
    return max(LEAST_HIGH, min(MOST_HIGH, SLENDER * blocks[0][1][0].width))


def crowded(blocks):
    """Whether some key is more than twice as high as its panel: wider panels have shorter keys."""
    return any(row.key_height() > 2 * highest(blocks) for _, rows in blocks for row in rows)


def fitted(blocks, room):
    """(pages, height of a panel): as few pages as may be with panels that are not flat, then panels as high as may be. Flat
    ones where a page has no room for others; nothing if it has none for these."""
    most = highest(blocks)
    for low, high in ((max(LEAST_HIGH, FLAT * most), most), (LEAST_HIGH, most)):
        heights = [low + k / 20 * (high - low) for k in range(21)]
        tries = [(pages, tall) for tall in heights for pages in [pages_of(blocks, tall, room)] if pages]
        if tries:
            return min(tries, key=lambda each: (len(each[0]), -each[1]))
    return None


def laid_out(figure, width, height, foot):
    """The pages and the height of a panel, with as many columns as can be read."""
    count, least = (len(figure.panels), LEAST_FLOWING) if figure.flows else (len(figure.accents), LEAST_WIDE)
    most = max(1, int((width - LEFT - MARGIN + GAP) / (least + GAP)))
    needed = math.inf
    for columns in range(min(most, count), 0, -1):
        blocks = figure.blocks(columns, width)
        if columns > 1 and crowded(blocks):
            continue
        fit = fitted(blocks, height - foot)
        if fit:
            return fit
        needed = min(needed, max(heading.height() + row.height(LEAST_HIGH) for heading, rows in blocks for row in rows))
    enough = math.ceil((needed + foot) * POINT)
    raise CannotDraw(f'a page of {height * POINT:g} mm is too low: at this width it takes {enough} mm')


def explained(figure):
    """What the marks mean, of those that are there."""
    entries = [entry for panel in figure.panels.values() for entry in panel.entries]
    out = ['Time: from the first (0) to the last (1) voiced frame, ten points, evenly spaced. Pitch: Chao units, 1 the floor '
           'and 5 the ceiling of the speaker\'s register. Light band: curve ± contour tolerance, which applies to the root '
           'mean square over the ten points. Dark blocks at its ends: first point ± onset tolerance, last point ± offset '
           'tolerance. Not drawn: turning, the tolerance for the time of a turn. Key: after which tone (none: no tone '
           'precedes), final (at the end of a phrase) or not; [label of the rule], with its accent if that is another: [2/21] '
           'is rule 21 of accent 2.']
    if any(entry.mixture for entry in entries):
        out.append('Numbers on curves: parts of a mixture, with their weights in the key; the more weight, the wider the line.')
    if any(tone['flag'] for tone in figure.tones):
        out.append('Black bar on the time axis: the region in which points that are less than half voiced do not count.')
    if any(has_tail(tone) for tone in figure.tones):
        out.append('Tail: what a creaky ending adds to the tone\'s log-likelihood.')
    return ' '.join(out)


def identity(sheet, digest):
    """What tells this sheet from others: its settings, and the beginning of its digest."""
    settings = sheet['settings']
    return (f'Temperature {short(settings["temperature"])}, heard threshold {short(settings["threshold"])}. '
            f'SHA-256 of the sheet: {digest[:DIGITS]} (the first {DIGITS} of {len(digest)} digits). '
            'Equal sheets give equal lookups. Numbers are rounded to four digits.')


def page_svg(items, tall, foot, width):
    """One page, as high as what stands on it."""
    out, top = [], MARGIN
    for item in items:
        out += item.svg(top, tall)
        top += item.height(tall)
    for line in foot:
        top += LINE
        out.append(words(MARGIN, top, line))
    height = top + BELOW
    head = (f'<svg xmlns="http://www.w3.org/2000/svg" width="{width * POINT:.3f}mm" height="{height * POINT:.3f}mm" '
            f'viewBox="0 0 {width:.3f} {height:.3f}" font-family="Helvetica, Arial, sans-serif" font-size="{SMALL:g}">')
    return '\n'.join([head, '<title>Expected pitch curves of a sheet</title>',
                      '<rect width="100%" height="100%" fill="#ffffff"/>', *out, '</svg>', ''])


def draw(sheet, digest, args):
    """(suffix, SVG) of each page; one page has no suffix. The digest is that of the sheet's bytes, in hexadecimal."""
    figure = Figure(sheet, args)
    width = args.width / POINT
    foot = [line for text in (explained(figure), identity(sheet, digest)) for line in wrap(text, width - 2 * MARGIN)]
    pages, tall = laid_out(figure, width, args.page_height / POINT, MARGIN + LINE * (len(foot) + 1) + BELOW)
    if len(pages) == 1:
        return [('', page_svg(pages[0], tall, foot, width))]
    return [(f'-{number}', page_svg(items, tall, [*foot, f'Page {number} of {len(pages)}.'], width))
            for number, items in enumerate(pages, 1)]
