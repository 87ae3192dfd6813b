"""What reading a file gives: records, rejects, and the error that ends a reading."""
from __future__ import annotations

from dataclasses import dataclass

from ..strand import Strand


def _place(source: str, line: int, column: int | None, reason: str, format: str) -> str:
    """FILE:LINE:COLUMN: reason (read as FORMAT); what is not known is left out."""
    where = f'{source}:{line}' if column is None else f'{source}:{line}:{column}'
    return f'{where}: {reason} (read as {format})' if format else f'{where}: {reason}'


@dataclass(frozen=True, slots=True)
class Record:
    """A molecule or a motif that was read. Its pairs are mutual and nested, its letters are A, C, G, T and U."""

    name: str
    """The name, in printable ASCII; where the file has none, the file's stem and a number."""
    strand: Strand
    """Bases and mates."""
    source: str
    """The file."""
    line: int
    """The line where the record begins, counted from 1."""
    notes: tuple[str, ...]
    """What a user should know, as `2 pseudoknot pairs left out` and `3 pairs not canonical`."""


@dataclass(frozen=True, slots=True)
class Reject:
    """A record that could not be read, or an alignment, and why."""

    name: str
    """The name, as far as it is known; what of it is not printable ASCII stands as `?`."""
    source: str
    """The file."""
    line: int
    """The line of what is wrong, counted from 1."""
    column: int | None
    """The column of what is wrong, counted from 1, a character each."""
    reason: str
    """What is wrong there."""
    format: str = ''
    """The format that the file was read as."""

    def __str__(self) -> str:
        return _place(self.source, self.line, self.column, self.reason, self.format)


Item = Record | Reject


class FormatError(Exception):
    """What is wrong with a file as a whole, and where: nothing more is read from it."""

    def __init__(self, source: str, line: int, column: int | None, reason: str, format: str = '') -> None:
        super().__init__(source, line, column, reason, format)
        self.source: str = source
        """The file."""
        self.line: int = line
        """The line, counted from 1."""
        self.column: int | None = column
        """The column, counted from 1."""
        self.reason: str = reason
        """What is wrong there."""
        self.format: str = format
        """The format that the file was read as, empty where none was found."""

    def __str__(self) -> str:
        return _place(self.source, self.line, self.column, self.reason, self.format)
