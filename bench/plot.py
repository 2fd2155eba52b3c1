#!/usr/bin/env python3
"""bench/run | bench/plot.py > docs/benchmarks.svg: the table's instructions, a panel for each way they grow."""
import sys

WIDE, HIGH, LEFT, TOP = 420, 272, 62, 66     # a panel, and where its axes begin
PLOT_W, PLOT_H = 335, 150
# Lines are told apart in grey: by dashes and markers.
PORT, RUST, REFERENCE, BESIDE = [
    ('#000', '', 'disc'), ('#b0480f', '7 4', 'square'), ('#1f5f99', '2 3', 'triangle'), ('#666', '9 3 2 3', 'diamond')]
STYLES = {'Rust': RUST, 'Rust-lookups': RUST, 'reference': REFERENCE}

# Title, axis, and for each line its name, the table's call, what grows, and against whom (None: the port).
PANELS = [
    ('Shape', 'frames', [('port', 'shape', 'frames', None), ('Rust', 'shape', 'frames', 'Rust')]),
    ('Judging with a pack of 5 tones', 'frames',
     [('port', 'judge-5', 'frames', None), ('Rust', 'judge-5', 'frames', 'Rust'),
      ('port, from the sheet', 'judge-5-sheet', 'frames', None)]),
    ('Judging with 8 tones, 8 accents, 64 rules', 'frames',
     [('port', 'judge-64', 'frames', None), ('Rust', 'judge-64', 'frames', 'Rust'),
      ('Rust, inputs built', 'judge-64', 'frames', 'Rust-built')]),
    ('Judging 8 frames with 8 tones, 8 accents', 'rules',
     [('port', 'judge', 'rules', None), ('Rust', 'judge', 'rules', 'Rust'),
      ('Rust, inputs built', 'judge', 'rules', 'Rust-built')]),
    ('Reading a pack', 'rules',
     [('port', 'read-pack', 'rules', None), ('Rust', 'read-pack', 'rules', 'Rust'),
      ('reference', 'read-pack', 'rules', 'reference')]),
    ('Reading a sheet', 'rules of its pack',
     [('port', 'read-sheet', 'rules', None), ('reference', 'read-sheet', 'rules', 'reference')]),
    ('Writing a sheet', 'rules',
     [('port', 'write-sheet', 'rules', None), ('Rust\'s lookups', 'write-sheet', 'rules', 'Rust-lookups'),
      ('reference', 'write-sheet', 'rules', 'reference'), ('port, labels alike', 'write-sheet', 'alike', None)]),
    ('Writing a sheet, 32 rules', 'contexts',
     [('port, by accents', 'write-sheet', 'accents', None), ('Rust\'s lookups', 'write-sheet', 'accents', 'Rust-lookups'),
      ('reference', 'write-sheet', 'accents', 'reference'), ('port, by tones', 'write-sheet', 'tones', None)]),
]


def table(lines):
    """(call, by, against or None) to its points; contexts are the size where accents or tones grow."""
    points = {}
    for line in lines:
        f = line.split()
        if len(f) != 10 or not f[2].isdigit():
            continue
        call, by, against, port, other = f[0], f[1], f[3], int(f[4]), int(f[5])
        size = round(port / float(f[8])) if by in ('accents', 'tones') else int(f[2])
        points.setdefault((call, by, None), {})[size] = port
        points.setdefault((call, by, against), {})[size] = other
    return points


def ticks(most):
    """Round numbers from 0 to most, at most six."""
    unit = 1
    while True:
        for step in (unit, 2 * unit, 5 * unit):
            if most < 6 * step:
                return range(0, most + 1, step)
        unit *= 10


def short(n):
    return f'{n / 1e6:g}M' if n >= 1_000_000 else f'{n / 1000:g}k' if n >= 10_000 else f'{n:g}'


def text(x, y, words, anchor='start', size=11, more=''):
    return f'<text x="{x:.1f}" y="{y:.1f}" text-anchor="{anchor}" font-size="{size}"{more}>{words}</text>'


def marker(kind, x, y, colour):
    if kind == 'disc':
        return f'<circle cx="{x:.1f}" cy="{y:.1f}" r="3" fill="{colour}"/>'
    corners = {'square': [(-3, -3), (3, -3), (3, 3), (-3, 3)], 'triangle': [(0, -4), (3.6, 3), (-3.6, 3)],
               'diamond': [(0, -4), (4, 0), (0, 4), (-4, 0)]}[kind]
    at = ' '.join(f'{x + dx:.1f},{y + dy:.1f}' for dx, dy in corners)
    return f'<polygon points="{at}" fill="#fff" stroke="{colour}" stroke-width="1.2"/>'


def line(style, at):
    colour, dash, kind = style
    path = ' '.join(f'{x:.1f},{y:.1f}' for x, y in at)
    drawn = f'<polyline points="{path}" fill="none" stroke="{colour}" stroke-width="1.4" stroke-dasharray="{dash}"/>'
    return [drawn] + [marker(kind, x, y, colour) for x, y in at]


def panel(x0, y0, title, axis, curves):
    """curves: name, style and points of each."""
    far, high = max(max(p) for *_, p in curves), max(max(p.values()) for *_, p in curves)
    left, bottom = x0 + LEFT, y0 + TOP + PLOT_H
    x = lambda v: left + PLOT_W * v / far / 1.04
    y = lambda v: bottom - PLOT_H * v / high / 1.04
    out = [text(left, y0 + 20, title, size=13, more=' font-weight="bold"')]
    for v in ticks(high):
        out.append(f'<path d="M{left} {y(v):.1f}h{PLOT_W}" stroke="#ddd"/>')
        out.append(text(left - 6, y(v) + 4, short(v), 'end'))
    for v in ticks(far):
        out.append(f'<path d="M{x(v):.1f} {bottom}v4" stroke="#000"/>')
        out.append(text(x(v), bottom + 17, f'{v:,}', 'middle'))
    out.append(f'<path d="M{left} {bottom}h{PLOT_W}" stroke="#000"/>')
    out.append(text(left + PLOT_W / 2, bottom + 33, axis, 'middle'))
    for i, (name, style, points) in enumerate(curves):
        out += line(style, [(x(v), y(points[v])) for v in sorted(points)])
        key, level = left + 165 * (i % 2), y0 + 36 + 15 * (i // 2)
        out += line(style, [(key, level), (key + 26, level)])[:1] + [marker(style[2], key + 13, level, style[0])]
        out.append(text(key + 31, level + 4, name))
    return out


def main():
    points = table(sys.stdin)
    rows = -(-len(PANELS) // 2)
    out = [f'<svg xmlns="http://www.w3.org/2000/svg" width="{2 * WIDE}" height="{rows * HIGH + 30}" '
           'font-family="sans-serif">', '<rect width="100%" height="100%" fill="#fff"/>',
           text(LEFT, 20, 'Instructions of one call on x86-64', size=13)]
    for i, (title, axis, lines) in enumerate(PANELS):
        curves = [(name, STYLES.get(against, BESIDE if k else PORT), points[call, by, against])
                  for k, (name, call, by, against) in enumerate(lines)]
        out += panel(i % 2 * WIDE, 24 + i // 2 * HIGH, title, axis, curves)
    print('\n'.join(out + ['</svg>']))


main()
