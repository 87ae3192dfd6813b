"""CT files (connect), as mfold and RNAstructure write them.

A molecule is a header, its number of bases and a title, and a row for each base: index, letter, previous, next,
mate or 0, and a further index. Previous, next and what follows the mate are not read. An energy before the title
(`dG = -12.3`, `ENERGY = -12.3`) is no part of the name. Molecules one after the other with the same title are
structures of one, and called `title/1`, `title/2` and so on. Blank lines and lines that begin with `#` are passed
over.

Pairs may cross in a CT file. They are taken in the order of their left ends, and one that crosses a pair taken
before it is left out; a note counts them.
"""
from __future__ import annotations

import re
from collections.abc import Iterable, Iterator
from dataclasses import replace
from itertools import chain, groupby
from operator import attrgetter
from typing import TextIO

from .record import Item, Record
from .rows import Rows, Shape, number_in
from .source import Lines, Source, Wrong, name_of

SHAPE = Shape(6, 5, 4, 'index, letter, previous, next, mate and index')
"""The words of a row."""

_ENERGY = re.compile(r'(?:dG|energy)\s*=\s*[-+]?\d+(?:\.\d*)?(?:\s*\[initially[^]]*\])?\s*', re.IGNORECASE)


def is_row(words: list[str]) -> bool:
    """Whether a line of these words is a row and no header."""
    return len(words) >= SHAPE.least and len(words[1]) == 1 and ''.join((words[0], *words[2:5])).isdigit()


class _Molecule:
    """A header and its rows, as far as they were read."""

    def __init__(self, source: Source, number: int, line: str, count: int) -> None:
        self.source, self.line, self.rows = source, number, Rows(SHAPE)
        words = line.split(None, 1)
        self.size, self.begin = number_in(words[0]) or 0, line.index(words[0]) + 1
        self.name, self.wrong = words[1].strip() if len(words) > 1 else '', None
        try:
            self.name = _title(self.name, number, line.rindex(self.name) + 1) or source.unnamed(count)
        except Wrong as wrong:
            self.wrong = wrong

    def takes(self, words: list[str]) -> bool:
        """Whether a line of these words is a row of the molecule. With the index that is due it may be wrong."""
        before = self.rows.count
        if before < self.size and words[0] == str(before + 1):
            if len(words) == SHAPE.words or len(words) > 1 and len(words[1]) == 1 and all(map(str.isdigit, words[2:])):
                return True
        return is_row(words)

    def item(self) -> Item:
        """The record, or what is wrong with it."""
        try:
            if self.wrong:
                raise self.wrong
            if not self.size:
                raise Wrong(self.line, self.begin, 'the number of bases is 0, too large or no number')
            if self.rows.count != self.size:
                said = f'the header says {self.size:,} bases, and {self.rows.count:,} rows follow'
                raise Wrong(self.line, self.begin, said)
            return self.source.record(self.name, self.line, *self.rows.strand(self.source.lower))
        except Wrong as wrong:
            return self.source.reject(self.name, wrong)


def _molecules(lines: Lines, source: Source) -> Iterator[Item]:
    """Each molecule by its title."""
    molecule: _Molecule | None = None
    count = 0
    for row in lines:
        words = row[1].split()
        if not words or words[0][0] == '#':
            continue
        if molecule and molecule.takes(words):
            molecule.rows.add(row, words)
            continue
        if molecule:
            yield molecule.item()
        count += 1
        molecule = _Molecule(source, *row, count)
    if molecule:
        yield molecule.item()


def read(lines: Lines, source: Source) -> Iterator[Item]:
    """The molecules of the lines, and what is wrong with others. Each waits until the title of the next is known."""
    for name, group in groupby(_molecules(lines, source), attrgetter('name')):
        first, second = next(group), next(group, None)
        if second is None:
            yield first
        else:
            for number, item in enumerate(chain((first, second), group), 1):
                yield replace(item, name=f'{name}/{number}')


def _title(text: str, line: int, column: int) -> str:
    """The name in a header, of which it is what follows the energy; the text begins in this column."""
    energy = _ENERGY.match(text)
    begin = energy.end() if energy else 0
    return name_of(text[begin:], line, column + begin)


def name_in(name: str) -> str:
    """The name that reading gives for one that was written: none where the header is read as a row."""
    return '' if is_row(['1', *name.split()]) else _title(name, 1, 1)


def write(records: Iterable[Record], out: TextIO) -> None:
    """Writes a header and the rows for each record."""
    for record in records:
        bases, mates = record.strand.bases.decode('ascii'), record.strand.mates
        out.write(f'{len(bases)} {record.name}\n')
        for i, (base, mate) in enumerate(zip(bases, mates)):
            following = i + 2 if i + 1 < len(bases) else 0
            out.write(f'{i + 1} {base} {i} {following} {0 if mate == i else mate + 1} {i + 1}\n')
