"""Hits: where a motif lies in a molecule. Each place that a hit has is one that the proved `verify` says yes to."""
from __future__ import annotations

from array import array
from dataclasses import dataclass

from . import calls
from .library import Library
from .strand import Strand


class Disagreement(Exception):
    """Two proved calls contradict each other. No input leads here: library, memory or this package is at fault."""


@dataclass(frozen=True, slots=True)
class Hit:
    """A molecule in which a motif embeds, with the tightest window that carries the motif."""

    name: str
    """The molecule's name."""
    motif: int
    """The index of the motif among those searched for."""
    strand: Strand
    """The molecule."""
    start: int
    """The first position of the window, counted from 0."""
    length: int
    """The number of bases of the window."""
    places: tuple[int, ...]
    """The position in the molecule of each base of the motif, all of them in the window; `verify` said yes to them."""

    @property
    def slack(self) -> int:
        """The length of the window less that of the motif: 0 where the motif stands in the molecule without a gap."""
        return self.length - len(self.places)

    @property
    def piece(self) -> Strand:
        """The window as a molecule of its own."""
        return cut(self.strand, self.start, self.length)


def cut(strand: Strand, start: int, length: int) -> Strand:
    """The window of `length` bases from `start`, as a molecule of its own.

    It has the arcs with both ends in it, and a base whose mate lies outside is unbonded in it.
    """
    mates = array('H', range(length))
    for i, mate in enumerate(strand.mates[start:start + length]):
        if start <= mate < start + length:
            mates[i] = mate - start
    return Strand(strand.bases[start:start + length], mates)


def locate(library: Library, name: str, motif: Strand, strand: Strand, index: int = 0) -> Hit | None:
    """The hit of a motif in a molecule, or None where the motif does not embed.

    An embedding into the window is one into the molecule: two places of the window are bonded in it exactly when they
    are in the molecule.
    """
    window = calls.window(library, motif, strand)
    if window is None:
        return None
    shown = calls.show(library, motif, cut(strand, window.start, window.length)) if window.length else None
    places = [window.start + place for place in shown.places] if shown else []
    if len(places) != len(motif) or not calls.verify(library, motif, strand, places):
        raise Disagreement(f'the window and the places of a motif in {name} do not agree')
    return Hit(name, index, strand, window.start, window.length, tuple(places))
