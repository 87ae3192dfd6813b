"""The nine calls. Each takes the library first, and raises Refusal where the library refuses it.

Catalog and cache are buffers that the caller owns, zeros at first: a bytearray, a writable memoryview or a mapped
file. They are lent in place, and a refused call changes no byte of them. Only a read-only catalog or motif buffer that
is no object of bytes is copied. The slices of work, places and hits are made here, as long as the call needs them.
What each call answers is proved of the library; this module is not proved.
"""
from __future__ import annotations

from array import array
from collections.abc import Iterable
from dataclasses import dataclass
from typing import Any

from .library import (BLOCK, BLOCKS_MOST, MOST, MOTIF_MOST, MOTIFS_MOST, Library, Readable, Writable, query_work_size,
                      work_size)
from .refusals import accepted
from .strand import Strand


@dataclass(frozen=True, slots=True)
class Fold:
    """The fold of a molecule."""

    arcs: int
    """How many arcs it has."""
    depth: int
    """How deep they lie: the largest number of arcs of which each lies inside the one before, 0 without arcs."""


@dataclass(frozen=True, slots=True)
class Prefix:
    """How much of a motif embeds in a molecule."""

    length: int
    """The length of the longest closed prefix that embeds: the motif's own exactly when the motif embeds."""
    fold: Fold
    """The fold of the molecule."""


@dataclass(frozen=True, slots=True)
class Shown:
    """How much of a motif embeds in a molecule, and where."""

    length: int
    """The length of the longest closed prefix that embeds: the motif's own exactly when the motif embeds."""
    places: tuple[int, ...]
    """The position in the molecule of each base of that prefix, in an embedding; which embedding is free."""
    fold: Fold
    """The fold of the molecule."""


@dataclass(frozen=True, slots=True)
class Window:
    """A stretch of a molecule, taken as a molecule of its own: it has the arcs with both ends in it."""

    start: int
    """The position in the molecule where it begins."""
    length: int
    """How many bases it has."""


@dataclass(frozen=True, slots=True)
class Query:
    """What a query found, or a batch for one of its motifs."""

    hits: tuple[int, ...]
    """The numbers of the molecules that the motif embeds in, rising."""
    searched: int
    """How many molecules were searched; the cache knew the others."""


@dataclass(frozen=True, slots=True)
class Batch:
    """What a batch found."""

    read: int
    """How many molecules were read: those that the query of at least one motif searches, each counted once."""
    queries: tuple[Query, ...]
    """What each motif's query found, in the order of the motifs."""


def _entries(count: int) -> array[int]:
    """A slice of so many 16-bit numbers."""
    return array('H', [0]) * count


def _pair(motif: Strand, molecule: Strand) -> dict[str, Any]:
    """The parameters of motif and molecule."""
    return {'motif_bases': motif.bases, 'motif_mates': motif.mates, 'bases': molecule.bases, 'mates': molecule.mates}


def _pair_work(motif: Strand, molecule: Strand) -> array[int]:
    """The work slice of a motif and a molecule; of a strand that is too long, and refused, that of the longest."""
    return _entries(work_size(min(len(motif), MOST), min(len(molecule), MOST)))


def _fold(answer: Any) -> Fold:
    return Fold(answer.arcs, answer.depth)


def check(library: Library, molecule: Strand) -> Fold:
    """Accepts a nested molecule of 1 to MOST bases, and gives its fold.

    Refused by 1 to 7 of the molecule.
    """
    return _fold(accepted('check', library.call('check', bases=molecule.bases, mates=molecule.mates)))


def length(library: Library, motif: Strand, molecule: Strand) -> Prefix:
    """How much of the motif embeds in the molecule. A prefix is closed when no arc has one end in it and one outside.

    Refused by 1 and 3 to 7 of the motif, 1 to 7 of the molecule.
    """
    answer = library.call('length', **_pair(motif, molecule), work=_pair_work(motif, molecule))
    accepted('length', answer)
    return Prefix(answer.value, _fold(answer))


def show(library: Library, motif: Strand, molecule: Strand) -> Shown:
    """As length, and the places of an embedding of that prefix.

    Refused by 1 and 3 to 7 of the motif, 1 to 7 of the molecule.
    """
    places = _entries(len(motif))
    answer = library.call('show', **_pair(motif, molecule), places=places, work=_pair_work(motif, molecule))
    accepted('show', answer)
    return Shown(answer.value, tuple(places[:answer.value]), _fold(answer))


def window(library: Library, motif: Strand, molecule: Strand) -> Window | None:
    """The tightest window of the molecule that carries the motif, which means that the motif embeds in it: of these
    the shortest, and of the shortest the one with the least start. None exactly when the motif does not embed.

    Refused by 1 and 3 to 7 of the motif, 1 to 7 of the molecule.
    """
    answer = library.call('window', **_pair(motif, molecule), work=_pair_work(motif, molecule))
    accepted('window', answer)
    return Window(answer.start, answer.length) if answer.found else None


def verify(library: Library, motif: Strand, molecule: Strand, places: Iterable[int]) -> bool:
    """Whether the places are an embedding of the whole motif in the molecule. A place past the molecule's end is no
    place of one; a number that 16 bits have no room for raises OverflowError.

    Refused by 1 and 3 to 7 of the motif, 1 to 7 of the molecule, 9 for places not as many as the motif has bases.
    """
    answer = library.call('verify', **_pair(motif, molecule), places=array('H', list(places)))
    accepted('verify', answer)
    return answer.value != 0


def add(library: Library, catalog: Writable, cache: Writable, number: int, molecule: Strand) -> Fold:
    """Writes a molecule of 1 to MOLECULE_MOST bases to block `number` of the catalog, zeroes every unsound block of
    the cache, and gives the molecule's fold.

    Refused by 10, 11, 12, 13, then 1 to 7 of the molecule.
    """
    answer = library.call('add', catalog=catalog, cache=cache, number=number, bases=molecule.bases,
                          mates=molecule.mates)
    return _fold(accepted('add', answer))


def remove(library: Library, catalog: Writable, cache: Writable, number: int) -> None:
    """Zeroes block `number` of the catalog and every unsound block of the cache, and takes the number out of every
    cache entry.

    Refused by 10, 11, 12, 14.
    """
    accepted('remove', library.call('remove', catalog=catalog, cache=cache, number=number))


def _blocks(buffer: Readable, most: int) -> int:
    """How many blocks a buffer has; at most `most`, for with more the call is refused."""
    return min(memoryview(buffer).nbytes // BLOCK, most)


def query(library: Library, catalog: Readable, cache: Writable, motif: Strand) -> Query:
    """The molecules of the catalog that the motif, of 0 to MOTIF_MOST bases, embeds in. What the cache knows of this
    motif is not searched again; the block of the motif's slot is written anew, and every unsound block of the cache is
    zeroed.

    A sound cache entry of this motif is believed: so this holds of a cache that was zeros at first and that these
    calls alone wrote, but for one altered byte in each block between one accepted call and the next.

    Refused by 10, 11, then 1 and 3 to 7 of the motif.
    """
    hits = _entries(_blocks(catalog, BLOCKS_MOST))
    answer = library.call('query', catalog=catalog, cache=cache, motif_bases=motif.bases, motif_mates=motif.mates,
                          work=_entries(query_work_size(MOTIF_MOST)), hits=hits)
    accepted('query', answer)
    return Query(tuple(hits[:answer.value]), answer.searched)


def batch(library: Library, catalog: Readable, cache: Writable, motifs: Readable) -> Batch:
    """Queries for 1 to MOTIFS_MOST motifs in one call, which reads each molecule once for all of them. Hits, searched
    numbers and the cache afterwards are those of query for each motif in the order of the buffer.

    `motifs` has a block of BLOCK bytes for each motif, as `blocks.encode_motif` gives it.

    Refused by 10, 11, 15, then 3 of the motifs (the place is the motif's index).
    """
    blocks, count = _blocks(catalog, BLOCKS_MOST), _blocks(motifs, MOTIFS_MOST)
    hits = _entries(count * blocks)
    answer = library.call('batch', catalog=catalog, cache=cache, motifs=motifs,
                          work=_entries(query_work_size(MOTIF_MOST)), hits=hits)
    accepted('batch', answer)
    queries = (Query(tuple(hits[t * blocks:t * blocks + answer.counts[t]]), answer.searched[t]) for t in range(count))
    return Batch(answer.read, tuple(queries))
