"""Floats from text and to text, where machine arithmetic would go wrong."""
import random
from fractions import Fraction

from harness import expect

from tonekit_tool.floats import F32, NotANumber, bits_of, is_number, text_of

SAME = [('0', 0), ('-0', 0x80000000), ('1', 0x3F800000), ('+.5', 0x3F000000), ('1e-45', 1), ('1e-46', 0), ('0.1', 0x3DCCCCCD),
        ('3.4028235e38', 0x7F7FFFFF), ('inf', 0x7F800000), ('-inf', 0xFF800000), ('nan', 0x7FC00000), ('0x7fc00001', 0x7FC00001),
        ('0xff812345', 0xFF812345), ('1e-9999', 0),
        # Halfway between two f32, and a little above it: by way of an f64 both would be the even one.
        ('1.000000059604644775390625', 0x3F800000), ('1.0000000596046447753906250000001', 0x3F800001)]
WRONG = ['', '.', '-', '1,5', '0x12', '1e', 'abc', '1_0', ' 1', '3.5e38', '1e9999', '\u0663', '9' * 5000]


def test_numbers_have_their_bits():
    for text, bits in SAME:
        expect(f'the bits of {text}', bits_of(text) == bits, hex(bits_of(text)))
    for text in WRONG:
        expect(f'{text[:20]!r} is no number', not is_number(text))
    try:
        bits_of('4e38')
    except NotANumber as error:
        expect('what is too great is told', 'past the greatest' in str(error), error)


def distance(text, bits):
    return abs(Fraction(text) - Fraction(float(F32(bits))))


def test_any_bits_survive():
    """Text that reads back, and is nearest to its own f32 by whole numbers."""
    chance, wrong = random.Random(3), []
    for bits in [chance.getrandbits(32) for _ in range(3000)] + [e << 23 for e in range(255)]:
        text, size = text_of(bits), bits & 0x7FFFFFFF
        if bits_of(text) != bits:
            wrong.append(hex(bits))
        elif 0 < size < 0x7F7FFFFF and distance(text, bits) > min(distance(text, bits - 1), distance(text, bits + 1)):
            wrong.append(f'{bits:#x} is nearer to another')
    expect('3,255 patterns of bits, NaN among them, read back', not wrong, wrong[:3])
