"""Dot-bracket text as the programs of the Vienna RNA package write it.

A molecule is a line `>name`, which may be missing, its sequence, and one or more structures of the same length;
sequence and structures may span lines. A structure ends where it is as long as the sequence, or with an energy
behind it, as in `(((...))) (-1.20)` or `..... 0.00`. Behind a sequence numbers may stand, as RNAsubopt writes them.
One structure makes one record; of several, the records are called `name/1`, `name/2` and so on. Blank lines, lines
that begin with `#`, and two lines that `RNAfold -p` writes, are passed over: that of pair probabilities, whose
energy stands in `[` and `]`, and that of the frequency in the ensemble.

`(` and `)` are pairs. Those of other brackets and of letters are pseudoknots: they are left out, and a note counts
them. A line that begins with `>` is always a name, and one that has letters only is always one of sequence.
"""
from __future__ import annotations

import re
from collections.abc import Iterable, Iterator
from dataclasses import replace
from typing import TextIO

from ..strand import Strand
from .pairs import DOT_BRACKET, Spread, bases_of, knots_left_out, mates_of, pairs_of
from .record import Item, Record
from .source import Lines, Source, Wrong, byte_of, name_of

_NUMBER = r'[-+]?\d+(?:\.\d*)?'
_NUMBERS = re.compile(rf'{_NUMBER}(?:\s+{_NUMBER})*')
_ENERGY = re.compile(rf'[(\[{{]\s*{_NUMBER}[^)\]}}]*[)\]}}]|{_NUMBERS.pattern}')
_FREQUENCY = 'frequency of mfe structure'
_BEHIND_MOST = 100  # an energy has fewer characters; the patterns are not tried on long lines
_BRACKETS = frozenset('.()[]{}<>')


def is_structure(word: str, sequence: bool) -> bool:
    """Whether a line with this first word is one of structure: it begins with a dot or bracket, or has one where a
    sequence stands before it."""
    return word[0] in _BRACKETS or sequence and not _BRACKETS.isdisjoint(word)


def parted(line: str) -> tuple[int, str, str]:
    """The column of the first word of a line, the word, and what follows behind blanks."""
    word, *rest = line.split(None, 1)
    column = 1 if line.startswith(word) else line.index(word) + 1
    return column, word, rest[0].rstrip() if rest else ''


def wrong_behind(number: int, line: str, behind: str, structure: bool) -> Wrong | None:
    """What is wrong with the text behind the word of a line: nothing where there is none, where it is the energy of a
    structure, or numbers behind a sequence."""
    if not behind or len(behind) <= _BEHIND_MOST and (_ENERGY if structure else _NUMBERS).fullmatch(behind):
        return None
    what = 'structure begins no energy' if structure else 'sequence'
    return Wrong(number, line.rindex(behind) + 1, f'{byte_of(behind[0])} behind the {what}')


def strand_of(bases: bytes, structure: Spread) -> tuple[Strand, tuple[str, ...]]:
    """The strand of these bases and this structure, and the notes about it. Raises Wrong."""
    if structure.length != len(bases):
        at = min(structure.length, len(bases))
        raise structure.wrong(at, f'{len(bases)} bases and {structure.length} marks of structure')
    kept, left_out = pairs_of(structure, DOT_BRACKET)
    return Strand(bases, mates_of(len(bases), kept)), knots_left_out(len(left_out))


def missing(sequence: Spread, line: int) -> Wrong:
    """What is missing where no structure follows. The record begins at this line."""
    if sequence.length:
        return sequence.wrong(sequence.length, 'no structure follows the sequence')
    return Wrong(line, 1, 'no sequence follows the name')


class _Molecule:
    """A molecule as far as it was read."""

    def __init__(self, source: Source, name: str, line: int) -> None:
        self.source, self.name, self.line = source, name, line
        self.sequence, self.structure = Spread(), Spread()
        self.begun = False  # whether a line of structure was there
        self.bases = b''  # known when the first structure begins
        self.wrong: Wrong | None = None  # with name or sequence: one reject stands for all structures
        self.count = 0  # of structures
        self.first: Item | None = None  # kept back until it shows whether it is the only one

    def take(self, number: int, line: str) -> Iterator[Item]:
        """Takes a line of sequence or structure; gives what is known to be whole."""
        column, word, behind = parted(line)
        if not is_structure(word, self.sequence.length > 0 or self.wrong is not None):
            self._take_sequence(number, line, column, word, behind)
        elif behind[:1] != '[' or wrong_behind(number, line, behind, True):
            yield from self._take_structure(number, line, column, word, behind)

    def _take_sequence(self, number: int, line: str, column: int, word: str, behind: str) -> None:
        self.sequence.add(number, column, word)
        self.wrong = self.wrong or wrong_behind(number, line, behind, False)

    def _take_structure(self, number: int, line: str, column: int, word: str, behind: str) -> Iterator[Item]:
        if not self.begun:
            self._begin(number, column)
        if self.wrong:
            return
        self.structure.add(number, column, word)
        if behind or self.structure.length >= len(self.bases):
            yield from self._finish(wrong_behind(number, line, behind, True))

    def _begin(self, number: int, column: int) -> None:
        """Before the first line of structure: the sequence is at its end."""
        self.begun = True
        try:
            if not self.sequence.length:
                raise Wrong(number, column, 'a structure without a sequence before it')
            self.bases = bases_of(self.sequence, self.source.lower)
        except Wrong as wrong:
            self.wrong = self.wrong or wrong

    def _finish(self, wrong: Wrong | None) -> Iterator[Item]:
        """The structure is at its end. The first is kept back; the second shows that they are numbered."""
        self.count += 1
        if self.count == 1:
            self.first = self._item(self.name, self.line, wrong)
        else:
            if self.first:
                yield replace(self.first, name=f'{self.name}/1')
                self.first = None
            yield self._item(f'{self.name}/{self.count}', self.structure.begin, wrong)
        self.structure = Spread()

    def _item(self, name: str, line: int, wrong: Wrong | None) -> Item:
        try:
            if wrong:
                raise wrong
            return self.source.record(name, line, *strand_of(self.bases, self.structure))
        except Wrong as error:
            return self.source.reject(name, error)

    def end(self) -> Iterator[Item]:
        """No further line belongs to the molecule: gives what is left of it."""
        if self.structure.length:
            yield from self._finish(None)
        if self.first:
            yield self.first
        if not self.begun:
            self.wrong = self.wrong or missing(self.sequence, self.line)
        if self.wrong:
            yield self.source.reject(self.name, self.wrong)


def _begun(source: Source, number: int, line: str, count: int) -> _Molecule:
    """The molecule that a line begins, the one of this count; only a line `>name` has a name for it."""
    molecule = _Molecule(source, line[1:].strip() if line[0] == '>' else '', number)
    try:
        molecule.name = name_of(molecule.name, number, line.rindex(molecule.name) + 1) or source.unnamed(count)
    except Wrong as wrong:
        molecule.wrong = wrong
    return molecule


def read(lines: Lines, source: Source) -> Iterator[Item]:
    """The molecules of the lines, and what is wrong with others."""
    molecule: _Molecule | None = None
    count = 0
    for number, line in lines:
        text = line.strip()
        if not text or text[0] == '#' or text.startswith(_FREQUENCY):
            continue
        named = line[0] == '>'
        if named or molecule is None or molecule.begun and not is_structure(text.split(None, 1)[0], True):
            if molecule:
                yield from molecule.end()
            count += 1
            molecule = _begun(source, number, line, count)
        if not named:
            yield from molecule.take(number, line)
    if molecule:
        yield from molecule.end()


def name_in(name: str) -> str:
    """The name that reading gives for one that was written."""
    return name_of(name, 1, 2)


def write(records: Iterable[Record], out: TextIO) -> None:
    """Writes three lines for each record."""
    for record in records:
        out.write(f'>{record.name}\n{record.strand.bases.decode("ascii")}\n{record.strand.structure}\n')
