"""BPSEQ files, as the Comparative RNA Web site has them.

A molecule is header lines, which may be missing, and a row for each base: index, letter, and mate or 0. A line that
begins with a number is a row, every other one is a header. A header behind rows, and a row with index 1, begin the
next molecule. The name is what follows `Filename:`, `File` or `Name:` in a header, with or without `#` before it,
else the first header that is not empty.

The format does not say how many bases there are: a file that is cut behind a row is a shorter molecule, which is
rejected only where a mate is missing.

Pairs may cross in a BPSEQ file. They are taken in the order of their left ends, and one that crosses a pair taken
before it is left out; a note counts them.
"""
from __future__ import annotations

import re
from collections.abc import Iterable, Iterator
from typing import TextIO

from .record import Item, Record
from .rows import Rows, Shape
from .source import Lines, Source, Wrong, name_of

SHAPE = Shape(3, 3, 2, 'index, letter and mate')
"""The words of a row."""

_HEADER = re.compile(r'\s*#*\s*((?:Filename\s*:|File\b\s*:?|Name\s*:)\s*)?(.*)', re.DOTALL)


class _Molecule:
    """Headers and rows, as far as they were read."""

    def __init__(self, source: Source, number: int, count: int) -> None:
        self.source, self.line, self.rows = source, number, Rows(SHAPE)
        self.number = count
        self.name, self.place, self.told = '', (number, 1), False

    def head(self, number: int, line: str) -> None:
        """Takes a header."""
        told, name = _HEADER.match(line).groups()
        if name and not self.told and (told or not self.name):
            self.name, self.place, self.told = name, (number, len(line) - len(name) + 1), told is not None

    def items(self) -> Iterator[Item]:
        """The record, or what is wrong with it; nothing for headers without a name behind the last rows."""
        try:
            if self.rows.count:
                name = name_of(self.name, *self.place) or self.source.unnamed(self.number)
                yield self.source.record(name, self.line, *self.rows.strand(self.source.lower))
            elif self.told:
                raise Wrong(*self.place, 'no rows follow the name')
        except Wrong as wrong:
            yield self.source.reject(self.name.strip() or self.source.unnamed(self.number), wrong)


def read(lines: Lines, source: Source) -> Iterator[Item]:
    """The molecules of the lines, and what is wrong with others."""
    molecule: _Molecule | None = None
    count = 0
    for row in lines:
        words = row[1].split()
        if not words:
            continue
        header = not words[0].isdigit()
        if molecule is None or molecule.rows.count and (header or words[0] == '1'):
            if molecule:
                yield from molecule.items()
            count += 1
            molecule = _Molecule(source, row[0], count)
        if header:
            molecule.head(*row)
        else:
            molecule.rows.add(row, words)
    if molecule:
        yield from molecule.items()


def name_in(name: str) -> str:
    """The name that reading gives for one that was written."""
    return name_of(name, 1, 1)


def write(records: Iterable[Record], out: TextIO) -> None:
    """Writes a header with the name, and the rows, for each record."""
    for record in records:
        out.write(f'# Name: {record.name}\n')
        for i, (base, mate) in enumerate(zip(record.strand.bases.decode('ascii'), record.strand.mates), 1):
            out.write(f'{i} {base} {0 if mate + 1 == i else mate + 1}\n')
