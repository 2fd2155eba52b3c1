"""The sheets that tests/plot draws, as the plot takes them: plain, dense, largest, with extreme numbers, and generated ones."""
import random
import struct

GREATEST, LEAST = struct.unpack('<f', bytes.fromhex('ffff7f7f'))[0], struct.unpack('<f', bytes.fromhex('01000000'))[0]


class Builder:
    """A sheet whose rows are filled by a rule; equal lists are one, numbered by first use."""

    def __init__(self, tones, accents, takes):
        self.sheet = {'settings': {'temperature': 1.5, 'threshold': 0.4}, 'tones': tones, 'accents': accents, 'rows': [],
                      'lists': []}
        self.known = {}
        for accent in accents:
            for tone in tones:
                for prev in [0] + [t['number'] for t in tones]:
                    named = [self.number(takes(accent['number'], tone['number'], prev, final)) for final in (0, 1)]
                    self.sheet['rows'].append({'accent': accent['number'], 'tone': tone['number'], 'prev': prev,
                                               'list': named[0], 'list_final': named[1]})

    def number(self, taken):
        """The number of (owner, form, label, parts); 0 for nothing."""
        if taken is None:
            return 0
        key = repr(taken)
        if key not in self.known:
            owner, form, label, parts = taken
            self.known[key] = len(self.known) + 1
            self.sheet['lists'].append({
                'number': self.known[key], 'owner': owner, 'form': form, 'label': label,
                'components': [{'weight': weight, 'points': list(points)} for weight, points in parts]})
        return self.known[key]


def tones(numbers, prior=0.125, tails=(), **regions):
    """`tails` are the two values of tones by their numbers, `regions` from and to by t and the number."""
    out = []
    for n in numbers:
        flag, start, end = (1, *regions[f't{n}']) if f't{n}' in regions else (0, 0.0, 0.0)
        tail = dict(zip(('final', 'elsewhere'), dict(tails).get(n, (0.0, 0.0))))
        out.append({'number': n, 'prior': prior, 'flag': flag, 'from': start, 'to': end, 'tail': tail})
    return out


def accents(numbers, *tolerances):
    return [{'number': n, **dict(zip(('contour', 'onset', 'offset', 'turning'), tolerances))} for n in numbers]


def line(start, end):
    return [start + (end - start) * k / 9 for k in range(10)]


def citation(accent, start=3.0, end=4.0):
    return accent, 1, 0, [(1.0, line(start, end))]


def smallest():
    return Builder(tones([1], 1.0), accents([1], 0.5, 0.5, 0.5, 0.1), lambda a, t, p, f: citation(a)).sheet


def largest():
    """Eight tones and accents, 128 lists, 192 parts."""
    def takes(a, t, p, f):
        if p == 1 + (a + t) % 8:
            count = (1, 2, 3, 2)[t % 4]
            form = 2 if count == 1 else 3
            parts = [(1.0 if form == 2 else (i + 1) / 8, line(1 + (a + i + t) % 5, 1 + (t + 2 * i) % 5)) for i in range(count)]
            return a, form, 100 * a + t, parts
        return citation(a, 1 + t / 2, 1 + a % 5)
    return Builder(tones(range(1, 9), tails={2: (1.5, -0.5), 3: (0.0, 0.25)}, t3=(0.3, 0.7)), accents(range(1, 9), 0.5, 0.25, 0.75, 0.1), takes).sheet


def dense():
    """One accent and tone with a mixture of four parts in each of its 18 contexts, the longest numbers, and 63 others."""
    def takes(a, t, p, f):
        if (a, t) == (248, 248):
            start = 1 + (2 * (p and p - 247) + f) / 4.5
            parts = [(1.2345e-05 * (i + 1), line(start, 5 - i)) for i in range(4)]
            return 255, 3, 65000 + 2 * (p % 200) + f, parts
        return citation(a, 1 + t % 5, 1 + a % 5)
    numbers = range(248, 256)
    return Builder(tones(numbers, 1.2345e-40, {n: (-1.2345e-05, -12.34) for n in numbers}), accents(numbers, 0.33333334, 1.2345e-05, 0.75, 0.1), takes).sheet


def extreme():
    """Points at both limits, -0, weights 0 and the greatest, tolerances from the least to the greatest, odd regions."""
    def takes(a, t, p, f):
        if t == 1:
            return a, 3, 7, [(0.0, [128.0, -128.0] * 5), (0.0, [-0.0] * 10)]
        if t == 2:
            return a, 3, 8, [(GREATEST, [-128.0] * 10), (GREATEST, line(-128.0, 128.0)), (0.0, [128.0] * 10)]
        return (a, 2, 9, [(1.0, [-0.0] * 10)]) if f else (a, 2, 10, [(1.0, [0.0] * 9 + [6.5])])
    held = accents([1], LEAST, LEAST, LEAST, LEAST) + accents([2], GREATEST, GREATEST, GREATEST, GREATEST)
    held += accents([9], 0.5, GREATEST, LEAST, 3.0)
    regions = {'t1': (-GREATEST, GREATEST), 't2': (0.5, 0.5), 't3': (5.0, 6.0), 't4': (-1.0, 0.25)}
    sheet = Builder(tones([1, 2, 3, 4], LEAST, {1: (-0.0, 0.0), 2: (50.0, -50.0), 3: (0.0, LEAST)}, **regions), held, takes).sheet
    sheet['settings'] = {'temperature': GREATEST, 'threshold': LEAST}
    return sheet


def gaps():
    """A tone with no curve at all, one with a curve in few contexts, one with none in few, and equal curves of two lists."""
    def takes(a, t, p, f):
        if t == 1 or (t == 2 and not f) or (t == 3 and p == 3):
            return None
        if t == 4:
            return a, 2, 40 + p % 2, [(1.0, line(2, 4))]
        return (1, 1, 0, [(1.0, line(4, 2))]) if t == 2 else citation(a)
    return Builder(tones([1, 2, 3, 4]), accents([1, 5], 0.5, 0.5, 0.5, 0.1), takes).sheet


def generated(seed):
    """Any number of tones and accents, rows that take any of some lists."""
    r = random.Random(seed)
    numbers = [sorted(r.sample(range(1, 256), r.randint(1, 8))) for _ in range(2)]
    r.shuffle(numbers[0])
    lists = [None] * r.randint(0, 1)
    for label in range(1, r.randint(2, 40)):
        form = r.choice([1, 2, 2, 3])
        parts = [(r.choice([0.0, 0.25, 0.5, r.random()]), [r.choice([1, 1, 1, 9]) * r.uniform(1, 5) for _ in range(10)])
                 for _ in range(r.randint(1, 4))]
        if form < 3:
            parts = [(1.0, parts[0][1])]
        lists.append((r.choice(numbers[1]), form, label if form > 1 else 0, parts))
    few = {(a, t): r.sample(lists, min(len(lists), r.randint(1, 6))) for a in numbers[1] for t in numbers[0]}
    held = [{**each, 'contour': r.uniform(0.01, 3)} for each in accents(numbers[1], 0.5, r.random() + 0.1, 1.25, 0.1)]
    tails = {n: (r.uniform(-50, 50), r.uniform(-1, 1)) for n in numbers[0] if r.random() < 0.5}
    return Builder(tones(numbers[0], tails=tails), held, lambda a, t, p, f: r.choice(few[a, t])).sheet
