"""Refusals: the rows of the library's table as an exception that says in words what is wrong, and where."""
from __future__ import annotations

import enum
from typing import Any

from .library import BLOCK, BLOCKS_MOST, MOLECULE_MOST, MOST, MOTIF_MOST, MOTIFS_MOST, SLOTS_MOST


class Reason(enum.IntEnum):
    """Why a call was refused: the numbers of enum lakhido_refusal."""

    UNEQUAL_LENGTHS = 1
    """Bases and mates differ in length."""
    NO_BASES = 2
    """No bases, of the molecule: a motif may have none."""
    TOO_LONG = 3
    """More bases than the call takes. In a batch the place is the index of the lowest such motif."""
    BAD_LETTER = 4
    """A base that is not A, C, G, T or U. The place is the lowest."""
    BAD_MATE = 5
    """A mate that is no position. The place is the lowest base that has one."""
    MATES_NOT_MUTUAL = 6
    """The place is the lowest i whose mate's mate is not i."""
    ARCS_CROSS = 7
    """Arcs (a, b) and (i, j) with a < i < b < j. The place is the lowest such i."""
    WORK_TOO_SHORT = 8
    """Fewer entries of `work` than the call needs. The functions of `calls` always lend enough."""
    WRONG_SLICE = 9
    """`verify` has not as many places as the motif has bases. For show, query and batch the functions of `calls`
    always lend enough places or hits.
    """
    NOT_WHOLE_BLOCKS = 10
    """Catalog or cache is not whole blocks, or none, or too many."""
    UNSOUND_BLOCK = 11
    """An unsound block in the catalog. The place is the lowest."""
    NUMBER_TOO_LARGE = 12
    """A molecule number that is no block of the catalog."""
    ALREADY_HELD = 13
    """`add` under a number that has a molecule."""
    NOT_HELD = 14
    """`remove` of a number that has none."""
    BAD_MOTIFS = 15
    """The motif buffer of a batch is not 1 to MOTIFS_MOST whole blocks, and then the place is 0, or a block of it is
    unsound or empty, and then the place is the lowest.
    """


class Side(enum.IntEnum):
    """What a refusal is about: the numbers of enum lakhido_side."""

    MOTIF = 0
    MOLECULE = 1
    NEITHER = 2


_WORDS = {
    Reason.UNEQUAL_LENGTHS: '{strand} has not as many mates as bases',
    Reason.NO_BASES: '{strand} has no bases',
    Reason.TOO_LONG: '{strand} has more than {most} bases',
    Reason.BAD_LETTER: 'base {place} of {strand} is not A, C, G, T or U',
    Reason.BAD_MATE: 'base {place} of {strand} has a mate that is no position of it',
    Reason.MATES_NOT_MUTUAL: 'base {place} of {strand} has a mate that has another mate (mates are not mutual)',
    Reason.ARCS_CROSS: 'the arc that begins at base {place} of {strand} crosses one that begins before it',
    Reason.WORK_TOO_SHORT: 'the work slice has too few entries',
    Reason.WRONG_SLICE: '{slice}',
    Reason.NOT_WHOLE_BLOCKS: f'the catalog is not 1 to {BLOCKS_MOST} whole blocks of {BLOCK} bytes, '
                             f'or the cache is not 1 to {SLOTS_MOST}',
    Reason.UNSOUND_BLOCK: 'block {place} of the catalog is unsound',
    Reason.NUMBER_TOO_LARGE: 'the number is no block of the catalog',
    Reason.ALREADY_HELD: 'the number has a molecule',
    Reason.NOT_HELD: 'the number has no molecule',
    Reason.BAD_MOTIFS: 'block {place} of the motif buffer is unsound or empty{or_size}',
}
_STRANDS = {Side.MOTIF: 'the motif', Side.MOLECULE: 'the molecule', Side.NEITHER: 'neither strand'}
_LONGEST = {'add': MOLECULE_MOST, 'query': MOTIF_MOST, 'batch': MOTIF_MOST}  # of the other calls it is MOST
_SLICES = {
    'show': 'there are fewer places than the motif has bases',
    'verify': 'there are not as many places as the motif has bases',
    'query': 'there are fewer hits than the catalog has blocks',
    'batch': 'there are fewer hits than motifs times blocks of the catalog',
}


class Refusal(Exception):
    """A refused call. It has changed no byte of any buffer. Bases, blocks and motifs count from 0."""

    def __init__(self, number: int, side: int, place: int, call: str) -> None:
        """Raises ValueError for a number or side that the header does not have."""
        super().__init__(number, side, place, call)
        self.number: int = number
        """The first row of the table of refusals that applies, in the order that the call gives: 1 to 15."""
        self.side: Side = Side(side)
        """The strand that it is about, if any."""
        self.place: int = place
        """The lowest position, block or motif that the reason names, 0 where it names none."""
        self.call: str = call
        """The call: check, length, show, window, verify, add, remove, query or batch."""
        self.reason: Reason = Reason(number)
        """The number by its name."""

    @property
    def words(self) -> str:
        """What is wrong, and where."""
        in_batch = self.call == 'batch' and self.reason is Reason.TOO_LONG
        return _WORDS[self.reason].format(
            strand=f'motif {self.place} of the batch' if in_batch else _STRANDS[self.side],
            place=self.place,
            most=_LONGEST.get(self.call, MOST),
            slice=_SLICES.get(self.call, 'a slice has the wrong length'),
            or_size=f', or the buffer is not 1 to {MOTIFS_MOST} whole blocks' if self.place == 0 else '',
        )

    def __str__(self) -> str:
        return f'{self.call} refused with {self.number}: {self.words}'


def accepted(call: str, answer: Any) -> Any:
    """The struct that a call answered, where it is accepted; else raises its refusal."""
    if answer.refusal:
        raise Refusal(answer.refusal, answer.side, answer.place, call)
    return answer
