#!/usr/bin/env python3
"""What a batch answers on an empty cache, by plain search (`lakhido_model`), without the library.

    batch_reference.py MOTIFS CATALOG [SLOTS]   the answer for two files of blocks, as `dotbracket.py encode` makes them (MOTIFS with `--motif`), on a
                                                cache of so many blocks, else of 64
    batch_reference.py --self-test

The first line has the number of molecules read, or the refusal with number, side and place. Then for each motif a line: its number, the count of its hits,
how many molecules its query searches, and the hits.
"""
import sys

from lakhido_model import BLOCK, LONGEST_MOTIF, MOLECULE, MOST_SLOTS, MOTIF, NO_BASES, batch, encode, work_size


def output(motifs, catalog, slots=MOST_SLOTS):
    """The lines of the answer, with as much work and as many hits as any batch needs."""
    b, count = len(catalog) // BLOCK, len(motifs) // BLOCK
    hits = [0] * (b * count)
    told = batch(bytearray(catalog), bytearray(BLOCK * slots), motifs, work_size(LONGEST_MOTIF), hits)
    if told.refusal:
        return 'refused %d %d %d\n' % told.refusal
    lines = ['read %d' % told.read]
    for t in range(count):
        found = ''.join(' %d' % d for d in hits[t * b:t * b + told.counts[t]])
        lines.append('motif %d hits %d searched %d:%s' % (t, told.counts[t], told.searched[t], found))
    return '\n'.join(lines) + '\n'


def self_test():
    catalog = b''.join(bytes(encode(MOLECULE, bases, [2, 1, 0])) for bases in ('GAC', 'GGC')) + bytes(BLOCK)
    paired, alone, none = (bytes(encode(MOTIF, *strand)) for strand in (('GC', [1, 0]), ('GC', [0, 1]), NO_BASES))
    assert output(paired + alone + paired + none, catalog) == (
        'read 2\nmotif 0 hits 2 searched 2: 0 1\nmotif 1 hits 1 searched 2: 1\nmotif 2 hits 2 searched 2: 0 1\nmotif 3 hits 2 searched 2: 0 1\n')
    assert output(paired + none + paired, catalog, 2).endswith('motif 2 hits 2 searched 0: 0 1\n')
    assert output(paired + none + paired, catalog, 1).endswith('motif 2 hits 2 searched 2: 0 1\n')
    t, u = (bytes(encode(MOTIF, bases, [1, 0])) for bases in ('GT', 'GU'))
    spelled = b''.join(bytes(encode(MOLECULE, bases, [2, 1, 0])) for bases in ('GAT', 'GAU'))
    assert output(t + u, spelled) == 'read 2\nmotif 0 hits 2 searched 2: 0 1\nmotif 1 hits 2 searched 2: 0 1\n'
    assert output(t + u + t, spelled, 2).endswith('searched 0: 0 1\n') and output(t + u + t, spelled, 1).endswith('searched 2: 0 1\n')
    assert output(none, bytes(BLOCK)) == 'read 0\nmotif 0 hits 0 searched 0:\n'
    assert output(b'', catalog) == output(none * 17, catalog) == output(none[1:], catalog) == 'refused 15 0 0\n'
    assert output(none + bytes(BLOCK), catalog) == 'refused 15 0 1\n' and output(none, catalog + none) == 'refused 11 2 3\n'
    assert output(none, b'') == output(none, catalog, 65) == 'refused 10 2 0\n'
    assert output(paired + bytes(encode(MOTIF, 'A' * 121, list(range(121)))), catalog) == 'refused 3 0 1\n'


def run(words):
    if words == ['--self-test']:
        self_test()
        return 'self-test: ok\n'
    if not 2 <= len(words) <= 3 or not all(word.isdecimal() for word in words[2:]):
        sys.exit(__doc__)
    with open(words[0], 'rb') as motifs, open(words[1], 'rb') as catalog:
        return output(motifs.read(), catalog.read(), *map(int, words[2:]))


if __name__ == '__main__':
    try:
        sys.stdout.write(run(sys.argv[1:]))
    except OSError as error:
        sys.exit('batch_reference.py: %s' % error)
