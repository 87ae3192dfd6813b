"""Stockholm 1.0 alignments with a consensus structure in WUSS, as Rfam and Infernal have them.

The format is lines, and they are read here without any other package; a test compares with Biopython where it is
installed.

An alignment begins with `# STOCKHOLM 1.0` and ends with `//`; a file may have several. The lines `#=GC SS_cons` are
the consensus: `<>`, `()`, `[]` and `{}` are pairs, all in one nest, `.,_-:~` are columns without a pair, and
letters (`A` with `a`) are pseudoknots. A sequence that spans several blocks has its name in each.

The consensus is projected on each sequence. Columns where it has a gap (`.`, `-`, `_` or `~`) are dropped, and a
pair with one end in such a column is none. Pseudoknots are left out; a note counts those with both ends in the
sequence. Pairs of bases that are not A-U, G-C or G-U, with T as U, are kept, and a note counts them. Names stay as
they are, with `/start-end`.
"""
from __future__ import annotations

from array import array
from collections.abc import Iterator
from itertools import accumulate

from ..strand import Strand
from .pairs import WUSS, Pair, Spread, bases_of, counted, knots_left_out, pairs_of
from .record import Item
from .source import LINE_MOST, Lines, Source, Wrong, name_of

HEADER = '# STOCKHOLM 1.'
"""How an alignment begins."""

_GAPS = '.-_~'
_PRESENT = bytes(chr(code) not in _GAPS for code in range(256))
_CANONICAL = frozenset(tuple(pair) for pair in (b'AU', b'UA', b'AT', b'TA', b'GC', b'CG', b'GU', b'UG', b'GT', b'TG'))


def project(sequence: str, bases: bytes, pairs: list[Pair], knots: list[Pair]) -> tuple[Strand, tuple[str, ...]]:
    """The strand that pairs of columns give to a sequence with gaps, which has these bases, and the notes about it."""
    present = sequence.encode('ascii').translate(_PRESENT)
    behind = list(accumulate(present))  # how many bases stand in a column or before it
    mates = array('H', range(len(bases)))
    odd = 0
    for i, j in pairs:
        if present[i] and present[j]:
            left, right = behind[i] - 1, behind[j] - 1
            mates[left], mates[right] = right, left
            odd += (bases[left], bases[right]) not in _CANONICAL
    lost = sum(present[i] and present[j] for i, j in knots)
    notes = knots_left_out(lost) + counted(odd, 'pair not canonical', 'pairs not canonical')
    return Strand(bases, mates), notes


class _Alignment:
    """An alignment as far as it was read."""

    def __init__(self, source: Source, line: int) -> None:
        self.source, self.line = source, line
        self.title = ''
        self.structure = Spread()
        self.sequences: dict[str, Spread] = {}
        self.wrong: dict[str, Wrong] = {}  # by the name of the sequence

    def take(self, number: int, line: str) -> None:
        """Takes a line of the alignment."""
        words = line.split(None, 2)
        if not words:
            return
        if words[0] == '#=GC':
            if len(words) == 3 and words[1] == 'SS_cons':
                text = words[2].rstrip()
                self.structure.add(number, line.rindex(text) + 1, text)
        elif words[0] == '#=GF':
            if len(words) == 3 and words[1] in ('ID', 'AC'):
                self.title = self.title or words[2].strip()
        elif words[0][0] != '#':
            self._take_sequence(number, line, words)

    def _take_sequence(self, number: int, line: str, words: list[str]) -> None:
        name = words[0]
        sequence = self.sequences.setdefault(name, Spread())
        if len(words) == 2:
            sequence.add(number, line.rindex(words[1]) + 1, words[1])
            return
        column = len(line) if len(words) == 1 else line.rindex(words[2])
        reason = 'no sequence behind the name' if len(words) == 1 else 'a blank parts the sequence'
        self.wrong.setdefault(name, Wrong(number, column + 1, reason))

    def items(self, last: int | None) -> Iterator[Item]:
        """The records, and what is wrong with others. `last` is a line where the alignment ends before its `//`."""
        try:
            pairs, knots = self._pairs(last)
        except Wrong as wrong:
            count = counted(len(self.sequences), 'sequence is left out', 'sequences are left out')
            yield self.source.reject(self.title, Wrong(wrong.line, wrong.column, '; '.join((wrong.reason, *count))))
            return
        for name, sequence in self.sequences.items():
            try:
                yield self._record(name, sequence, pairs, knots)
            except Wrong as wrong:
                yield self.source.reject(name, wrong)

    def _pairs(self, last: int | None) -> tuple[list[Pair], list[Pair]]:
        """The pairs of columns of the consensus, and those of pseudoknots."""
        if last is not None:
            raise Wrong(last, 1, 'the alignment ends without `//`')
        if not self.sequences:
            raise Wrong(self.line, 1, 'no sequence')
        if not self.structure.length:
            raise Wrong(self.line, 1, 'no line `#=GC SS_cons`')
        if self.structure.length > LINE_MOST:
            raise self.structure.wrong(0, f'more than {LINE_MOST:,} columns')
        return pairs_of(self.structure, WUSS)

    def _record(self, name: str, sequence: Spread, pairs: list[Pair], knots: list[Pair]) -> Item:
        if name in self.wrong:
            raise self.wrong[name]
        line = sequence.begin
        name_of(name, line, 1)
        bases = bases_of(sequence, self.source.lower, _GAPS)
        if sequence.length != self.structure.length:
            at = min(sequence.length, self.structure.length)
            raise sequence.wrong(at, f'{sequence.length} columns, and SS_cons has {self.structure.length}')
        if not bases:
            raise sequence.wrong(0, 'the sequence is gaps and nothing else')
        return self.source.record(name, line, *project(sequence.text, bases, pairs, knots))


def read(lines: Lines, source: Source) -> Iterator[Item]:
    """The sequences of all alignments, and what is wrong with others. Lines outside an alignment are one reject."""
    alignment: _Alignment | None = None
    outside, number = False, 1
    for number, line in lines:
        if line.startswith(HEADER):
            if alignment:
                yield from alignment.items(number)
            alignment, outside = _Alignment(source, number), False
        elif alignment and line.startswith('//'):
            yield from alignment.items(None)
            alignment = None
        elif alignment:
            alignment.take(number, line)
        elif line.strip() and not outside:
            yield source.reject('', Wrong(number, 1, f'an alignment begins with `{HEADER}0`'))
            outside = True
    if alignment:
        yield from alignment.items(number)
