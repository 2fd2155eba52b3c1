"""Floats as the formats hold them and as people write them: the bits of an f32, and the shortest decimal for them."""
import functools
import math
import re
import struct

DECIMAL = re.compile(r'([+-]?)([0-9]*)\.?([0-9]*)(?:[eE]([+-]?[0-9]{1,4}))?')
BITS = re.compile(r'0[xX][0-9a-fA-F]{8}')
LONGEST = 400
INFINITY, NAN, SIGN, GREATEST = 0x7F800000, 0x7FC00000, 0x80000000, 0x7F7FFFFF
NAMED = {'inf': INFINITY, '+inf': INFINITY, '-inf': SIGN | INFINITY, 'nan': NAN}


class NotANumber(ValueError):
    """The text is no number that an f32 can hold; says why."""


class F32(float):
    """An f32: a float that keeps its bits, also those of a NaN."""

    def __new__(cls, bits):
        new = super().__new__(cls, struct.unpack('<f', struct.pack('<I', bits))[0])
        new.bits = bits
        return new

    def __repr__(self):
        return text_of(self.bits)

    __str__ = __repr__


def parsed(text):
    """The f32 that a text names: a decimal, inf, -inf, nan, or its bits as 0x and eight digits."""
    return F32(bits_of(text))


@functools.lru_cache(maxsize=65536)
def bits_of(text):
    """The bits of the f32 nearest to a decimal, of two the even one; or the bits that the text names."""
    if len(text) > LONGEST:
        raise NotANumber(f'{text[:20]}.. has {len(text)} characters')
    if text.lower() in NAMED:
        return NAMED[text.lower()]
    if BITS.fullmatch(text):
        return int(text, 16)
    found = DECIMAL.fullmatch(text)
    if not found or not (found[2] or found[3]):
        raise NotANumber(f'{text!r} is no number')
    digits, power = int(found[2] + found[3]), int(found[4] or 0) - len(found[3])
    size = nearest(digits * 10 ** max(power, 0), 10 ** max(-power, 0))
    if size > GREATEST:
        raise NotANumber(f'{text} is past the greatest f32, 3.4028235e38')
    return size | (SIGN if found[1] == '-' else 0)


def nearest(top, bottom):
    """The bits of the f32 nearest to top / bottom, ties to even, in whole numbers; from 0x7F800000 on where there is none."""
    if top == 0:
        return 0
    # top / bottom lies in [2^e, 2^(e + 1)), and its last bit is worth 2^unit.
    e = top.bit_length() - bottom.bit_length()
    if top << max(-e, 0) < bottom << max(e, 0):
        e -= 1
    if not -200 < e < 200:
        return INFINITY if e > 0 else 0
    unit = max(e, -126) - 23
    bottom <<= max(unit, 0)
    quotient, rest = divmod(top << max(-unit, 0), bottom)
    mantissa = quotient + (2 * rest > bottom or (2 * rest == bottom and quotient % 2))
    # A mantissa of 2^24 carries into the exponent by itself.
    return mantissa + (unit + 149) * 2 ** 23


@functools.lru_cache(maxsize=65536)
def text_of(bits):
    """The shortest plain decimal that reads back to the bits, the nearest of those; the bits themselves where none does."""
    sign, size = '-' if bits & SIGN else '', bits & ~SIGN
    if size > INFINITY:
        return f'0x{bits:08x}'
    if size in (0, INFINITY):
        return sign + ('inf' if size else '0')
    return sign + plain(*shortest(size))


def sized(size):
    """A size in units of 2^-150, in which the middle between two is whole."""
    exponent, fraction = size >> 23, size & 0x7FFFFF
    return 2 * fraction if exponent == 0 else 2 * (fraction + 0x800000) << exponent - 1


def shortest(size):
    """A whole number and a power of ten, the greatest of which a multiple reads back to the size."""
    value = sized(size)
    low, high = (value + sized(size - 1)) // 2, (value + sized(size + 1)) // 2
    power = math.floor(math.log10(F32(size))) + 2
    while True:
        scale, step = 10 ** max(-power, 0), 10 ** max(power, 0) << 150
        down = value * scale // step
        fits = [d for d in (down, down + 1) if low * scale < d * step < high * scale
                or (size % 2 == 0 and d * step in (low * scale, high * scale))]
        if fits:
            return min(fits, key=lambda d: abs(d * step - value * scale)), power
        power -= 1


def plain(whole, power):
    """The decimal whole * 10^power without an exponent."""
    if power >= 0:
        return f'{whole}{"0" * power}'
    digits = f'{whole:0{1 - power}}'
    return f'{digits[:power]}.{digits[power:]}'


def is_number(text):
    try:
        bits_of(text)
    except NotANumber:
        return False
    return True
