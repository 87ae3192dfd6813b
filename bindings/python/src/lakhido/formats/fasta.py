"""FASTA with structure lines.

A record is a line `>name`, the lines of the sequence, and the lines of one structure, which together are as long as
the sequence; an energy may stand behind the last. Blank lines and lines that begin with `#` or `;` are passed over.
The marks are those of dot-bracket text.
"""
from __future__ import annotations

from collections.abc import Iterable, Iterator
from typing import TextIO

from .dotbracket import is_structure, missing, name_in, parted, strand_of, wrong_behind
from .pairs import Spread, bases_of
from .record import Item, Record
from .source import Lines, Source, Wrong, name_of

__all__ = ['name_in', 'read', 'write']

_WIDTH = 60


class _Entry:
    """A record as far as it was read."""

    def __init__(self, source: Source, number: int, line: str, count: int) -> None:
        self.source, self.line, self.name = source, number, line[1:].strip()
        self.sequence, self.structure = Spread(), Spread()
        self.wrong: Wrong | None = None
        try:
            self.name = name_of(line[1:], number, 2) or source.unnamed(count)
        except Wrong as wrong:
            self.wrong = wrong

    def take(self, number: int, line: str) -> None:
        """Takes a line of sequence or structure; the first thing that is wrong is kept."""
        column, word, behind = parted(line)
        structure = is_structure(word, self.sequence.length > 0)
        wrong = wrong_behind(number, line, behind, structure)
        if structure and not self.sequence.length:
            wrong = Wrong(number, column, 'a structure without a sequence before it')
        elif self.structure.length and not structure:
            wrong = Wrong(number, column, 'a line of sequence behind the structure')
        self.wrong = self.wrong or wrong
        (self.structure if structure else self.sequence).add(number, column, word)

    def item(self) -> Item:
        """The record, or what is wrong with it."""
        try:
            if self.wrong:
                raise self.wrong
            if not self.structure.length:
                raise missing(self.sequence, self.line)
            bases = bases_of(self.sequence, self.source.lower)
            return self.source.record(self.name, self.line, *strand_of(bases, self.structure))
        except Wrong as wrong:
            return self.source.reject(self.name, wrong)


def read(lines: Lines, source: Source) -> Iterator[Item]:
    """The records of the lines, and what is wrong with others."""
    entry: _Entry | None = None
    count = 0
    for number, line in lines:
        text = line.strip()
        if not text or text[0] in '#;':
            continue
        if line[0] == '>':
            if entry:
                yield entry.item()
            count += 1
            entry = _Entry(source, number, line, count)
        elif entry is None:
            raise source.error(number, 1, 'a FASTA file begins with a line `>name`')
        else:
            entry.take(number, line)
    if entry:
        yield entry.item()


def write(records: Iterable[Record], out: TextIO) -> None:
    """Writes each record with lines of at most 60 characters for sequence and structure."""
    for record in records:
        out.write(f'>{record.name}\n')
        for text in record.strand.bases.decode('ascii'), record.strand.structure:
            for begin in range(0, len(text), _WIDTH):
                out.write(text[begin:begin + _WIDTH] + '\n')
