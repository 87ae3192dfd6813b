"""Calls of Lakhido: motif search and an answer cache for folded RNA.

The library is written and proved in Rattle; this package hands it buffers and is not proved itself. A molecule or a
motif is a Strand: bases (A, C, G, T, U) and, for each base, the position of its mate, its own where it has no bond. A
motif embeds in a molecule when its bases occur there in order, each on a base that matches it, and two of them are
bonded exactly when the bases they fall on are. T and U match each other, and each is kept as delivered. A motif may
have no bases: it embeds in every molecule.

    library = load()
    molecule = Strand.of('GGGAAACCC', '(((...)))')
    show(library, Strand.of('GAC', '(.)'), molecule).places

Positions, numbers and places count from 0.
"""
from .blocks import EMPTY, EMPTY_MOTIF, decode, encode, encode_motif
from .calls import (Batch, Fold, Prefix, Query, Shown, Window, add, batch, check, length, query, remove, show, verify,
                    window)
from .library import (BLOCK, BLOCKS_MOST, MOLECULE_MOST, MOST, MOTIF_MOST, MOTIFS_MOST, SLOTS_MOST, STACK, Library,
                      load)
from .refusals import Reason, Refusal, Side
from .store import Store, open_store
from .strand import Strand, StructureError

__version__ = '0.6.1'

__all__ = [
    'BLOCK', 'BLOCKS_MOST', 'EMPTY', 'EMPTY_MOTIF', 'MOLECULE_MOST', 'MOST', 'MOTIFS_MOST', 'MOTIF_MOST',
    'SLOTS_MOST', 'STACK', 'Batch', 'Fold', 'Library', 'Prefix', 'Query', 'Reason', 'Refusal', 'Shown', 'Side',
    'Store', 'Strand', 'StructureError', 'Window', 'add', 'batch', 'check', 'decode', 'encode', 'encode_motif',
    'length', 'load', 'open_store', 'query', 'remove', 'show', 'verify', 'window',
]
