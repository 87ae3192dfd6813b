"""Molecules and motifs, and their structure in dot-bracket text."""
from __future__ import annotations

from array import array
from dataclasses import dataclass

_POSITIONS_MOST = 65536  # as many as 16-bit mates can name


class StructureError(ValueError):
    """What is wrong with the text of a strand, and in which column of its line, counted from 1."""

    def __init__(self, column: int, reason: str) -> None:
        super().__init__(column, reason)
        self.column: int = column
        """The column, counted from 1."""
        self.reason: str = reason
        """What is wrong there."""

    def __str__(self) -> str:
        return f'column {self.column}: {self.reason}'


def _text_bytes(text: str | bytes) -> bytes:
    """The bytes of a text; a character that is not ASCII has none."""
    if isinstance(text, bytes):
        return text
    try:
        return text.encode('ascii')
    except UnicodeEncodeError as error:
        raise StructureError(error.start + 1, f'`{text[error.start]}` is not an ASCII character') from None


def _mates(structure: bytes) -> array[int]:
    """The mates that a dot-bracket structure says."""
    mates = array('H', range(len(structure)))
    begun: list[int] = []
    for i, mark in enumerate(structure):
        if mark == ord('('):
            begun.append(i)
        elif mark == ord(')'):
            if not begun:
                raise StructureError(i + 1, '`)` closes no bond')
            mates[i] = begun.pop()
            mates[mates[i]] = i
        elif mark != ord('.'):
            raise StructureError(i + 1, f'`{chr(mark)}` is none of `.`, `(` and `)`')
    if begun:
        raise StructureError(begun[-1] + 1, 'this `(` is not closed')
    return mates


@dataclass(frozen=True, slots=True)
class Strand:
    """A molecule or a motif. It may break any rule of the library, for the calls judge it; only the types are held.

    Positions count from 0. Whoever holds a strand leaves its mates as they are.
    """

    bases: bytes
    """The letters A, C, G, T and U, as delivered."""
    mates: array[int]
    """For each base the position of its mate, its own where it has no bond: an array('H')."""

    def __post_init__(self) -> None:
        if not isinstance(self.bases, bytes):
            raise TypeError(f'bases are bytes, and this is {self.bases!r:.60}')
        if not isinstance(self.mates, array) or self.mates.typecode != 'H':
            raise TypeError(f"mates are an array('H'), and this is {self.mates!r:.60}")

    @classmethod
    def of(cls, bases: str | bytes, structure: str | bytes) -> Strand:
        """The strand of these letters and this structure: `.` a base without a bond, `(` and `)` the ends of one.

        Letters are kept as delivered, and none is judged. Raises StructureError, which is a ValueError, with the
        column of a mark that is wrong, or of the first character that one of the two texts lacks.
        """
        letters, marks = _text_bytes(bases), _text_bytes(structure)
        if len(letters) != len(marks):
            column = min(len(letters), len(marks)) + 1
            raise StructureError(column, f'{len(letters)} bases and {len(marks)} marks of structure')
        if len(letters) > _POSITIONS_MOST:
            raise StructureError(_POSITIONS_MOST + 1, f'{len(letters)} bases, and 16-bit mates name {_POSITIONS_MOST}')
        return cls(letters, _mates(marks))

    @property
    def structure(self) -> str:
        """The structure in dot-bracket text. It is that of the arcs where `check` accepts the strand."""
        return ''.join('.' if mate == i else '(' if mate > i else ')' for i, mate in enumerate(self.mates))

    def __len__(self) -> int:
        return len(self.bases)
