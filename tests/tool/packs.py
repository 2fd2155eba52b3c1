"""Generated packs, with the values that were put into them. Written from document 01's ranges by hand, without the tool's table,
so that a wrong table shows."""
import struct

NUMBERS = range(1, 256)
LEAST, GREATEST = 0x00000001, 0x7F7FFFFF
ONE, FIFTY, HUNDRED = 0x3F800000, 0x42480000, 0x42C80000
SIGN = 0x80000000


def whole(bits):
    return struct.pack('<I', bits)


class Packs:
    """Packs from a source of chance: each a list of (kind, values, bytes), the floats as bits."""

    def __init__(self, chance):
        self.chance = chance

    def bits(self, most, least=LEAST):
        """The bits of a size from least to most: an end, a short decimal, or any."""
        pick = self.chance.random()
        if pick < 0.1:
            return self.chance.choice([least, most])
        if pick < 0.8:
            value, = struct.unpack('<I', struct.pack('<f', self.chance.randrange(1, 2000) / 400))
            if least <= value <= most:
                return value
        return self.chance.randint(least, most)

    def signed(self, most):
        return self.bits(most, 0) | (SIGN if self.chance.random() < 0.2 else 0)

    def knots(self, least):
        count = self.chance.randint(least, 10) if self.chance.random() < 0.3 else self.chance.randint(max(least, 1), 3)
        curve = [self.signed(HUNDRED) for _ in range(count)]
        return curve, bytes([count]) + b''.join(map(whole, curve)) + bytes(4 * (10 - count))

    def region(self):
        if self.chance.random() < 0.7:
            return (0, 0, 0), bytes(9)
        def order(bits):
            return -(bits & ~SIGN) if bits & SIGN else bits
        start, end = sorted([self.signed(GREATEST), self.signed(GREATEST)], key=order)
        return (1, start, end), b'\x01' + whole(start) + whole(end)

    def tone(self, number):
        prior, (curve, slots), (region, tail) = self.bits(ONE), self.knots(0), self.region()
        values = {'number': number, 'prior': prior, 'knot_count': len(curve), 'knots': curve,
                  'flag': region[0], 'from': region[1], 'to': region[2]}
        return 2, values, bytes([2, number]) + whole(prior) + slots + tail

    def tail(self):
        final, elsewhere = self.signed(FIFTY), self.signed(FIFTY)
        return 7, {'final': final, 'elsewhere': elsewhere}, bytes([7]) + whole(final) + whole(elsewhere)

    def tones(self, numbers):
        """Tones, some of them with a tail."""
        for number in numbers:
            yield self.tone(number)
            if self.chance.random() < 0.4:
                yield self.tail()

    def accent(self, number, parent):
        four = [self.bits(GREATEST) for _ in range(4)]
        values = {'number': number, 'parent': parent, **dict(zip(('contour', 'onset', 'offset', 'turning'), four))}
        return 3, values, bytes([3, number, parent]) + b''.join(map(whole, four))

    def rule(self, tones):
        label, tone, prev = self.chance.randrange(65536), self.chance.choice([0, *tones]), self.chance.choice([0, 0, *tones])
        final, form = self.chance.randrange(3), self.chance.choice([2, 2, 3])
        values = {'label': label, 'tone': tone, 'prev': prev, 'final': final, 'form': form}
        return 4, values, bytes([4]) + struct.pack('<H', label) + bytes([tone, prev, final, form])

    def part(self, form):
        weight = ONE if form == 2 else self.bits(GREATEST, 0)
        curve, slots = self.knots(1)
        return 5, {'weight': weight, 'knot_count': len(curve), 'knots': curve}, bytes([5]) + whole(weight) + slots

    def rules(self, tones, left):
        """Rules with their parts, within the limits that are left: rules, parts."""
        for _ in range(min(left[0], self.chance.randrange(4 if self.chance.random() < 0.9 else 20))):
            rule = self.rule(tones)
            parts = 1 if rule[1]['form'] == 2 else self.chance.randint(1, 4)
            if parts > left[1]:
                return
            left[0], left[1] = left[0] - 1, left[1] - parts
            yield rule
            yield from (self.part(rule[1]['form']) for _ in range(parts))

    def parents(self, accents):
        """A parent for each accent, or 0: any of those that come before it in some order, which need not be that of the file."""
        order = self.chance.sample(accents, len(accents))
        return {number: self.chance.choice([0, *order[:i]]) for i, number in enumerate(order)}

    def records(self):
        """The records of one pack."""
        settings = self.bits(GREATEST), self.bits(ONE)
        yield 1, dict(zip(('temperature', 'threshold'), settings)), bytes([1]) + b''.join(map(whole, settings))
        tones = self.chance.sample(NUMBERS, self.chance.randint(1, 8))
        yield from self.tones(tones)
        accents, left = self.chance.sample(NUMBERS, self.chance.randint(1, 8)), [64, 128]
        parents = self.parents(accents)
        for number in accents:
            yield self.accent(number, parents[number])
            yield from self.rules(tones, left)
        yield 6, {}, bytes([6])


def joined(found):
    return b''.join(data for _, _, data in found)
