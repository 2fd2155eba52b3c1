"""Refusals: their numbers and words, once, and what the place of one means."""
from typing import NamedTuple

from .layouts import KINDS, decode

REFUSALS = {
    1: ('misplaced', 'a kind of record that is unknown or not due'),
    2: ('cut short', 'the input ends before a record does, or before one that is due'),
    3: ('overrun', 'bytes after the last record'),
    4: ('crowded', 'a count passes its limit'),
    5: ('off scale', 'a field is outside its range'),
    6: ('doubled', 'the number of a tone or an accent is repeated'),
    7: ('loose', 'a tone, an accent or a list is named that is not there'),
    8: ('unordered', 'the sheet is not in its order, or has a list that is equal to another or unused'),
    9: ('short buffer', 'the output is longer than the room for it'),
    10: ('bad query', 'a field of the query is outside its range'),
    11: ('unvoiced', 'fewer than 3 voiced frames in the span'),
    12: ('unknown accent', 'the accent is not held'),
    13: ('unknown tone', 'the tone before, or a tone asked for, is not held'),
    14: ('no realisation', 'some tone has no curve in this context'),
    15: ('bad variant', 'a weight is below 0 or not finite, or the weights sum to more than 1'),
    20: ('endless chain', 'a chain of parents never ends'),
}
# These are of what the inputs say together, and have no place.
PLACELESS = range(11, 16)


class Refused(Exception):
    """An input is refused: status 1. `refusal` is what a program answered, nothing where the tool could not read a text."""

    def __init__(self, name, words, refusal=None):
        super().__init__(f'{name}: {words}')
        self.words, self.refusal = words, refusal


class Refusal(NamedTuple):
    """What a program answers instead of a record."""
    number: int
    place: int

    @property
    def word(self):
        return REFUSALS.get(self.number, ('no known word', ''))[0]

    @property
    def meaning(self):
        return REFUSALS.get(self.number, ('', 'a number that has no meaning'))[1]

    def words(self, record=''):
        """Number, word, place, the record there, and meaning."""
        if self.number == 9:
            where = f', {self.place} bytes needed'
        else:
            where = '' if self.number in PLACELESS else f', at byte {self.place}'
        return f'refused with {self.number}, {self.word}{where}{f" ({record})" if record else ""}: {self.meaning}'


def refusal_in(data):
    """The refusal that the bytes are, or nothing."""
    kind = KINDS[52]
    if len(data) == kind.size and data[0] == kind.number:
        return Refusal(**decode(kind, data))
    return None
