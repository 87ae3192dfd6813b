"""Letters and brackets: the bases and the pairs that text says, and the place of what is wrong in it."""
from __future__ import annotations

from array import array
from collections.abc import Iterable, Sequence
from dataclasses import dataclass
from string import ascii_lowercase, ascii_uppercase

from .source import LINE_MOST, Wrong, byte_of

LETTERS = 'ACGTU'
"""The letters of bases."""
CAPITALS = str.maketrans('acgtu', LETTERS)
"""For str.translate: small letters of bases become capitals."""
STRAND_MOST = 65536
"""The most bases of a strand: as many as 16-bit mates can name."""
Pair = tuple[int, int]
"""The positions of a pair, counted from 0, the lower first."""


class Spread:
    """Text that may span lines, and where each character of it stands. Lines behind the first 1,048,576 characters are
    counted, not kept."""

    __slots__ = ('_parts', 'length')

    def __init__(self) -> None:
        self._parts: list[tuple[int, int, str]] = []
        self.length: int = 0

    def add(self, line: int, column: int, text: str) -> None:
        """Appends the text that begins in this column of this line."""
        if self.length <= LINE_MOST:
            self._parts.append((line, column, text))
        self.length += len(text)

    @property
    def text(self) -> str:
        """The characters without what parts them."""
        parts = self._parts
        return parts[0][2] if len(parts) == 1 else ''.join([text for _, _, text in parts])

    @property
    def begin(self) -> int:
        """The line of the first character. The text is not empty."""
        return self._parts[0][0]

    def wrong(self, index: int, reason: str) -> Wrong:
        """What is wrong at an index of the text, which may be its end. The text is not empty."""
        for line, column, text in self._parts:
            if index < len(text):
                return Wrong(line, column + index, reason)
            index -= len(text)
        line, column, text = self._parts[-1]
        return Wrong(line, column + len(text), reason)


def not_a_letter(char: str) -> str:
    """Why a character is no base."""
    if char in 'acgtu':
        return f'lower case letter `{char}`, which is read only where lower case is asked for'
    return f'{byte_of(char)} is no letter of {LETTERS}'


def bases_of(sequence: Spread, lower: bool, gaps: str = '') -> bytes:
    """The bases of a sequence without its gaps; with `lower` small letters are taken as capitals. Raises Wrong."""
    text = sequence.text.translate(CAPITALS) if lower else sequence.text
    known = LETTERS + gaps
    if text.strip(known):
        index = len(text) - len(text.lstrip(known))
        raise sequence.wrong(index, not_a_letter(text[index]))
    bases = text.encode('ascii').translate(None, gaps.encode('ascii'))
    if len(bases) > STRAND_MOST or sequence.length > len(text):
        raise sequence.wrong(0, f'{len(bases):,} bases or more, and a strand has at most {STRAND_MOST:,}')
    return bases


@dataclass(frozen=True, slots=True)
class Notation:
    """Which marks pair. The brackets whose pairs are kept are one nest, all kinds together; of pseudoknots each kind
    is a nest by itself."""

    opens: dict[str, str]
    """For each opening mark the nest that it belongs to: the empty text, or the mark itself for a pseudoknot."""
    closes: dict[str, str]
    """For each closing mark its opening one."""
    unpaired: str
    """The marks of bases without a pair."""

    @classmethod
    def of(cls, nest: str, knots: str, unpaired: str) -> Notation:
        """The notation with these brackets, each opening one before its closing one."""
        opens = {**dict.fromkeys(nest[::2], ''), **{mark: mark for mark in knots[::2]}}
        both = nest + knots
        return cls(opens, dict(zip(both[1::2], both[::2])), unpaired)


_LETTER_KNOTS = ''.join(upper + lower for upper, lower in zip(ascii_uppercase, ascii_lowercase))
DOT_BRACKET = Notation.of('()', '[]{}<>' + _LETTER_KNOTS, '.')
"""Dot-bracket: `(` and `)` are the nest, other brackets and letters pseudoknots."""
WUSS = Notation.of('<>()[]{}', _LETTER_KNOTS, '.,_-:~')
"""The WUSS notation of Stockholm files: all brackets are one nest, letters are pseudoknots."""


def pairs_of(structure: Spread, notation: Notation) -> tuple[list[Pair], list[Pair]]:
    """The pairs of a structure and those of its pseudoknots. Raises Wrong for a bracket without a partner and for a
    character that is no mark."""
    text, unpaired, opens, closes = structure.text, notation.unpaired, notation.opens, notation.closes
    begun: dict[str, list[int]] = {'': []}
    kept: list[Pair] = []
    left_out: list[Pair] = []
    for i, mark in enumerate(text):
        if mark in unpaired:
            continue
        nest = opens.get(mark)
        if nest is not None:
            begun.setdefault(nest, []).append(i)
            continue
        partner = closes.get(mark)
        if partner is None:
            raise structure.wrong(i, f'{byte_of(mark)} is no mark of structure')
        nest = opens[partner]
        if not begun.get(nest):
            raise structure.wrong(i, f'`{mark}` closes no pair')
        j = begun[nest].pop()
        if text[j] != partner:
            raise structure.wrong(i, f'`{mark}` stands where a `{text[j]}` is to be closed')
        (left_out if nest else kept).append((j, i))
    unclosed = max((marks[-1] for marks in begun.values() if marks), default=None)
    if unclosed is not None:
        raise structure.wrong(unclosed, f'this `{text[unclosed]}` is not closed')
    return kept, left_out


def mates_of(length: int, pairs: Iterable[Pair]) -> array[int]:
    """The mates of a strand with these pairs."""
    mates = array('H', range(length))
    for i, j in pairs:
        mates[i] = j
        mates[j] = i
    return mates


def nested(mates: Sequence[int]) -> tuple[array[int], int]:
    """Mates without those pairs that cross others, and how many pairs are left out.

    Pairs are taken in the order of their left ends. A pair that crosses one taken before it is left out. So no two
    that are kept cross, and each that is left out crosses a kept one.
    """
    kept = array('H', range(len(mates)))
    ends: list[int] = []  # the right ends of the kept pairs around position i, the innermost last
    left_out = 0
    for i, j in enumerate(mates):
        if ends and ends[-1] == i:
            ends.pop()
        elif j > i and ends and j > ends[-1]:
            left_out += 1
        elif j > i:
            kept[i], kept[j] = j, i
            ends.append(j)
    return kept, left_out


def counted(number: int, one: str, many: str) -> tuple[str, ...]:
    """A note with its number, or none where the number is 0."""
    return (f'{number} {one if number == 1 else many}',) if number else ()


def knots_left_out(number: int) -> tuple[str, ...]:
    """The note about pseudoknots."""
    return counted(number, 'pseudoknot pair left out', 'pseudoknot pairs left out')
