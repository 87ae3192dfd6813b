"""Formats that have a row for each base, with its index, its letter and the index of its mate, or 0: CT and BPSEQ."""
from __future__ import annotations

import re
from dataclasses import dataclass

from ..strand import Strand
from .pairs import CAPITALS, LETTERS, STRAND_MOST, knots_left_out, nested, not_a_letter
from .source import Wrong

Row = tuple[int, str]
"""A line and its number."""

_ROW_MOST = 1000  # characters of a row, so that the rows of a molecule do not fill the memory


@dataclass(frozen=True, slots=True)
class Shape:
    """How the words of a row stand: the index first, the letter second."""

    words: int
    """How many words a row has as programs write it."""
    least: int
    """How many words it has at least."""
    mate: int
    """Which word is the mate, counted from 0."""
    said: str
    """The words in words, for messages."""


class Rows:
    """The rows of one molecule. Those behind the longest strand are counted, not kept."""

    __slots__ = ('_rows', '_shape', '_usual', '_words', 'count')

    def __init__(self, shape: Shape) -> None:
        self._shape, self._usual, self._rows = shape, shape.words, list[Row]()
        self._words = list[str]()  # of those rows that have as many as is usual, and are not too long
        self.count: int = 0

    def add(self, row: Row, words: list[str]) -> None:
        """Appends a row that has these words."""
        self.count += 1
        if self.count > STRAND_MOST:
            return
        if len(row[1]) > _ROW_MOST:
            row = row[0], row[1][:_ROW_MOST + 1]
        elif len(words) == self._usual:
            self._words += words
        self._rows.append(row)

    def strand(self, lower: bool) -> tuple[Strand, tuple[str, ...]]:
        """The strand that the rows say, and the notes about it. Of pairs that cross, those are left out that `nested`
        leaves out. Raises Wrong."""
        if self.count > STRAND_MOST:
            raise Wrong(self._rows[0][0], 1, f'{self.count:,} bases, and a strand has at most {STRAND_MOST:,}')
        letters, mates = self._quickly() or self._row_by_row()
        letters = letters.translate(CAPITALS) if lower else letters
        if letters.strip(LETTERS):
            i = len(letters) - len(letters.lstrip(LETTERS))
            raise _wrong(self._rows[i], 1, not_a_letter(letters[i]))
        kept, left_out = nested(self._positions(mates))
        return Strand(letters.encode('ascii'), kept), knots_left_out(left_out)

    def _quickly(self) -> tuple[str, list[int]] | None:
        """Letters and mates where all rows are as usual, else none."""
        step, words = self._usual, self._words
        letters, indices, mates = ''.join(words[1::step]), words[::step], words[self._shape.mate::step]
        if len(letters) != self.count or indices != list(map(str, range(1, self.count + 1))):
            return None
        return (letters, list(map(int, mates))) if ''.join(mates).isdigit() and max(map(len, mates)) <= 9 else None

    def _row_by_row(self) -> tuple[str, list[int]]:
        """Letters and mates. Raises Wrong for the first row that is none."""
        letters: list[str] = []
        mates: list[int] = []
        for i, row in enumerate(self._rows, 1):
            words = row[1].split()
            if len(row[1]) > _ROW_MOST:
                raise Wrong(row[0], _ROW_MOST + 1, f'the row has more than {_ROW_MOST:,} characters')
            if len(words) < self._shape.least:
                raise _wrong(row, len(words), f'a row has {self._shape.said}')
            if number_in(words[0]) != i:
                raise _wrong(row, 0, f'the index is to be {i}')
            if len(words[1]) != 1:
                raise _wrong(row, 1, f'a word of {len(words[1])} characters in the place of the letter')
            mate = number_in(words[self._shape.mate])
            if mate is None:
                raise _wrong(row, self._shape.mate, 'the mate is no number, or too large')
            letters.append(words[1])
            mates.append(mate)
        return ''.join(letters), mates

    def _positions(self, mates: list[int]) -> list[int]:
        """Mates as positions counted from 0, a base's own where it has none. Raises Wrong where they are out of range
        or not mutual."""
        size = len(mates)
        found = list(range(size))
        for i, mate in enumerate(mates, 1):
            if not mate:
                continue
            if mate > size or mate == i:
                raise _wrong(self._rows[i - 1], self._shape.mate, f'base {i} of {size} has the mate {mate}')
            if mates[mate - 1] != i:
                said = f'base {i} has the mate {mate}, which has {mates[mate - 1]}'
                raise _wrong(self._rows[i - 1], self._shape.mate, said)
            found[i - 1] = mate - 1
        return found


def _wrong(row: Row, word: int, reason: str) -> Wrong:
    """What is wrong with a word of a row, or with its end where the word is missing."""
    number, line = row
    begins = [found.start() for found in re.finditer(r'\S+', line)]
    return Wrong(number, (begins[word] if word < len(begins) else len(line)) + 1, reason)


def number_in(word: str) -> int | None:
    """The number that digits say, if it is one that an index can be."""
    return int(word) if word.isdigit() and len(word) <= 9 else None
