"""Blocks: the limits of catalogs and caches, and strands as the 512 bytes of docs/FORMAT.md."""
from __future__ import annotations

from array import array

from .calls import add, query
from .library import BLOCK, BLOCKS_MOST, MOLECULE_MOST, MOST, MOTIF_MOST, MOTIFS_MOST, SLOTS_MOST, Library, Readable
from .strand import Strand

__all__ = ['BLOCK', 'BLOCKS_MOST', 'MOLECULE_MOST', 'MOST', 'MOTIF_MOST', 'MOTIFS_MOST', 'SLOTS_MOST', 'EMPTY',
           'EMPTY_MOTIF', 'decode', 'encode', 'encode_motif']

EMPTY = bytes(BLOCK)
"""The empty block."""

_KIND = 1  # byte 0 of a block with a molecule or a motif; byte 1 is the length
_BASES = 28
_MATES = _BASES + MOLECULE_MOST
_CHECKSUM = BLOCK - 4

EMPTY_MOTIF = bytes([_KIND]) + bytes(_CHECKSUM - 1) + (1).to_bytes(4, 'little')
"""The block of the motif with no bases. `add` writes none such, for a molecule has at least one base."""


def encode(library: Library, molecule: Strand) -> bytes:
    """The block of a molecule: what `add` writes to a catalog of one empty block, and refuses by 1 to 7."""
    catalog, cache = bytearray(BLOCK), bytearray(BLOCK)
    add(library, catalog, cache, 0, molecule)
    return bytes(catalog)


def encode_motif(library: Library, motif: Strand) -> bytes:
    """The block that hands a motif of 0 to MOTIF_MOST bases to `batch`.

    A query on an empty catalog judges the motif, and refuses it by 1 and 3 to 7. The block of a motif that has bases
    is that of the molecule with the same ones.
    """
    query(library, EMPTY, bytearray(BLOCK), motif)
    return encode(library, motif) if len(motif) else EMPTY_MOTIF


def decode(block: Readable) -> Strand | None:
    """The molecule or motif of a block, None where the block is empty.

    The block is taken to be sound, as the library tells it: ValueError is raised only where no strand can be read.
    """
    data = bytes(block)
    if len(data) != BLOCK:
        raise ValueError(f'a block has {BLOCK} bytes, and this has {len(data)}')
    if data == EMPTY:
        return None
    if data[0] != _KIND or data[1] > MOLECULE_MOST:
        raise ValueError(f'byte 0 of a block is {_KIND} and byte 1 at most {MOLECULE_MOST}, not {data[0]}, {data[1]}')
    length = data[1]
    mates = array('H')
    mates.frombytes(data[_MATES:_MATES + 2 * length])  # both are little-endian: blocks, and x86-64
    return Strand(data[_BASES:_BASES + length], mates)
