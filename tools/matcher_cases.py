"""For tests alone: the lines that matcher_test reads, and what it must write. `tools/verify-cases` writes the files.

What a line has is said in crates/matcher_test/src/main.rt. Lengths, refusals and folds are those of `lakhido_model`.
"""
import functools
import itertools

import lakhido_model
from lakhido_model import FOLDED, LONGEST, SETTLED, SPELLED, molecule_refusal, motif_refusal, work_size
from testing_crate import MIXED, OTHER, SHAPES, WORK_ROOM, Cases, by_rule, written, written_as

CASES = Cases('matcher_test', ('calls', 'refused', 'whole motif', 'no prefix', 'arcs', 'depths'))
COUNTS, put, group = CASES.counts, CASES.put, CASES.group


# What is wanted.

@functools.cache
def strand_row(side, s):
    return (motif_refusal, molecule_refusal)[side](s.bases, s.mates)


def refused(call, p, q, places, work):
    """Number, side and place of the refusal of a call (`l` length, `s` show), or None. Order: motif, molecule, 9, 8."""
    for side, s in ((0, p), (1, q)):
        row = strand_row(side, s)
        if row:
            return row[0], side, row[1]
    if call == 's' and places < len(p.bases):
        return 9, 2, 0
    if work < room(p, q):
        return 8, 2, 0
    return None


def room(p, q):
    return work_size(len(p.bases), len(q.bases))


@functools.cache
def longest(p, q):
    return lakhido_model.longest(p.bases, p.mates, q.bases, q.mates)


@functools.cache
def fold_of(s):
    return lakhido_model.fold(s.mates)


# The lines.

EMPTY_MOTIF = written('', '')
# By the row that refuses each as a molecule. Row 2 is no row of motifs: as a motif the second is accepted.
BAD = {
    1: written('AC', '0'),
    2: EMPTY_MOTIF,
    3: by_rule(0, LONGEST + 1, 1, 5),
    4: written('AXC', '012'),
    5: written('A', '1'),
    6: written('AC', '11'),
    7: written('ACGU', '2301'),
}
# Two rows apply to each. Rows 2 and 3 exclude each other, and rows 2 and 4.
BOTH = {
    '1 and 2': written('', '0'),
    '1 and 3': by_rule(0, LONGEST + 1, 1, 5, LONGEST),
    '1 and 4': written('AXC', '01'),
    '3 and 4': by_rule(0, LONGEST + 1, 1, 6),
    '4 and 5': written('AXC', '912'),
    '5 and 6': written('ACG', '113'),
    '6 and 7': written('ACGUAC', '230155'),
}


# Motifs of which either slice alone is empty.
LENGTHS_DIFFER = (written('', '0'), 'no bases, one mate'), (written('A', ''), 'one base, no mates')
# Strands with a base that is no letter.
NO_LETTER = tuple((written(bases, '012'), bases) for bases in ('tAC', 'TUt', 'uTU', 'UTa', 'TNU', 'TUV'))


def line(calls, p, q, places, work, row, side, n, name):
    arcs, depth = fold_of(q) if calls != 'r' and row == 0 else (0, 0)
    put('%s %-24s %-24s %6d %6d%2d %d %6d %4d %4d %s' % (calls, p.field, q.field, places, work, row, side, n, arcs, depth, name))


def count(calls, p, q, row, n):
    """Calls that are refused by a row, or for row 0 answer the length n and the fold of q."""
    COUNTS['calls'] += calls
    COUNTS['refused'] += calls * (row > 0)
    COUNTS['whole motif'] += calls * (row == 0 and n == len(p.bases))
    COUNTS['no prefix'] += calls * (row == 0 and n == 0)
    if row == 0:
        arcs, depth = fold_of(q)
        COUNTS['arcs'] += calls * arcs
        COUNTS['depths'] += calls * depth


def case(p, q, places, work, name):
    """A line for both calls, or one for each if they answer differently."""
    wants = {call: refused(call, p, q, places, work) or (0, 0, longest(p, q)) for call in 'ls'}
    for row, _, n in wants.values():
        count(1, p, q, row, n)
    if wants['l'] == wants['s']:
        wants = {'b': wants['l']}
    for calls, want in wants.items():
        line(calls, p, q, places, work, *want, name)


def rounds(times, motif, molecule, name):
    """A line for so many random pairs, of rising seeds; the test program asks brute force for their answers. A rule is shape, length, seed, letters."""
    def pair(i):
        return (by_rule(shape, n, seed + i, letters) for shape, n, seed, letters in (motif, molecule))
    p, q = pair(0)
    line('r', p, q, len(p.bases), room(p, q), 0, 0, times, name)
    for i in range(times):
        p, q = pair(i)
        count(2, p, q, 0, lakhido_model.longest(p.bases, p.mates, q.bases, q.mates))


def exact(p, q, name):
    case(p, q, len(p.bases), room(p, q), name)


def settled():
    for row, (p, pm, q, qm, length) in enumerate(SETTLED, 1):
        motif, molecule = written_as(p, pm), written_as(q, qm)
        assert longest(motif, molecule) == length
        exact(motif, molecule, 'row %d' % row)
    group('settled examples')


def folds():
    """Motif and molecule with other numbers of arcs or other depths; molecules of each shape and of the greatest length."""
    strands = [(written_as(bases, mates), told) for bases, mates, *told in FOLDED]
    for (p, told), (q, other) in itertools.permutations(strands, 2):
        assert fold_of(q) == tuple(other)
        exact(p, q, 'P %d %d, Q %d %d' % (*told, *other))
    for shape in range(6):
        exact(written('GC', '10'), by_rule(shape, LONGEST, 18, 5), 'an arc in ' + SHAPES[shape])
    group('arcs and depths')


def refusals():
    good = written('GC', '10')
    # No room at all, so that rows 9 and 8 apply too, and more than enough, so that there are entries to compare.
    for places, work, name in ((0, 0, 'no room'), (LONGEST + 4, WORK_ROOM, 'ample room')):
        for i in BAD:
            case(BAD[i], good, places, work, 'motif %d' % i)
            case(good, BAD[i], places, work, 'molecule %d' % i)
        group('one strand refused, ' + name)
        for i, j in itertools.product(BAD, BAD):
            case(BAD[i], BAD[j], places, work, 'motif %d, molecule %d' % (i, j))
        group('both strands refused, ' + name)
        for rows, s in BOTH.items():
            case(s, good, places, work, 'motif %s' % rows)
            case(good, s, places, work, 'molecule %s' % rows)
        group('two rows of one strand, ' + name)
        for s, bases in NO_LETTER:
            case(s, good, places, work, 'motif ' + bases)
            case(good, s, places, work, 'molecule ' + bases)
        group('no letters, ' + name)


def rooms():
    one = written('A', '0')
    case(one, one, 1, 135, 'row 8')
    case(one, one, 1, 136, 'row 8, one entry more')
    case(EMPTY_MOTIF, one, 0, 71, 'row 8, no bases')
    case(EMPTY_MOTIF, one, 0, 72, 'one entry more')
    case(written('GC', '01'), one, 1, 64 * 3 + 8, 'row 9')
    group('small examples of rows 8 and 9')
    for m, n in ((1, 1), (1, 7), (7, 1), (9, 9), (120, 160), (1, LONGEST), (0, 1), (0, 7), (0, 160), (0, LONGEST)):
        p, q = by_rule(4, m, 5, 1), by_rule(4, n, 6, 1)
        size = room(p, q)
        for work in (0, size - 1, size, size + 4):
            case(p, q, m, work, 'all places, work %+d' % (work - size))
        for work in (size - 1, size):
            for places in sorted({0, m - 1, m + 3} - {m, -1}):
                case(p, q, places, work, 'places %+d, work %+d' % (places - m, work - size))
    group('places and work short, exact and longer')


def no_bases():
    """It embeds in every molecule, with length 0: show has nothing to write, whatever places it gets."""
    for n, shapes in ((1, (0,)), (2, (0, 1)), (9, range(6)), (160, range(6)), (1000, (4,)), (LONGEST, range(6))):
        for shape in shapes:
            q = by_rule(shape, n, 19, 5)
            for places in (0, 1, LONGEST + 4):
                case(EMPTY_MOTIF, q, places, room(EMPTY_MOTIF, q), '%d places, %s' % (places, SHAPES[shape]))
            case(EMPTY_MOTIF, q, 2, room(EMPTY_MOTIF, q) - 1, 'row 8, ' + SHAPES[shape])
    for bases, mates, *_ in FOLDED:
        q = written_as(bases, mates)
        exact(EMPTY_MOTIF, q, 'no bases')
        for p, name in LENGTHS_DIFFER:
            exact(p, q, name)
    group('motifs with no bases')


def random_pairs():
    for letters in (1, 2, 5, MIXED):
        for a, b in itertools.product(range(6), range(6)):
            rounds(60, (a, 6, 100, letters), (b, 9, 5000, letters), '%s in %s' % (SHAPES[a], SHAPES[b]))
        group('random pairs of 6 and 9, letters %d' % letters)
    for m, n in ((0, 1), (0, 12), (1, 1), (1, 12), (3, 7), (5, 12), (9, 9), (10, 6), (8, 12)):
        for letters in (1, 2, MIXED):
            rounds(100, (4, m, 300, letters), (5, n, 7000, letters), '%d in %d, letters %d' % (m, n, letters))
    group('random pairs of other lengths')


def long_pairs():
    for m, n in ((120, 160), (400, 1000)):
        for a, b in itertools.product(range(6), range(6)):
            for letters in ((1, 2, MIXED) if m == 120 else (1, MIXED)):
                exact(by_rule(a, m, 11, letters), by_rule(b, n, 12, letters), '%s in %s' % (SHAPES[a], SHAPES[b]))
        group('pairs of %d and %d' % (m, n))
    for a in range(6):
        s = by_rule(a, 1000, 13, 5)
        exact(s, s, SHAPES[a] + ' in itself')
    group('strands of 1000 in themselves')
    for a in range(6):
        s = by_rule(a, LONGEST, 14, 5)
        exact(s, s, SHAPES[a] + ' in itself')
    group('strands of 4096 in themselves')
    for a in range(6):
        exact(by_rule(a, 1000, 15, 1), by_rule(4, LONGEST, 16, 1), SHAPES[a] + ' in fold')
        exact(written('C', '0'), by_rule(a, LONGEST, 17, 2), 'C in ' + SHAPES[a])
    group('1000 and 1 in 4096')


def both_spellings(letters):
    """The letters of motif and molecule for each of four spellings of a pair."""
    return itertools.product((letters, OTHER[letters]), repeat=2)


def spellings():
    """02, (vi): T and U match each other. A pair has one length in all of its spellings, and an embedding for each."""
    for p, pm, q, qm, length in SPELLED:
        motif, molecule = written_as(p, pm), written_as(q, qm)
        assert longest(motif, molecule) == length
        exact(motif, molecule, '%s in %s' % (p, q))
    group('T and U')
    for a, b in itertools.product(range(6), range(6)):
        for of_motif, of_molecule in both_spellings(5):
            rounds(15, (a, 6, 100, of_motif), (b, 9, 5000, of_molecule), '%s in %s' % (SHAPES[a], SHAPES[b]))
    group('random pairs of 6 and 9, four spellings')
    for m, n, letters in ((12, 160, 5), (120, 160, 4)):
        for a, b in itertools.product(range(6), range(6)):
            pairs = [(by_rule(a, m, 11, of_motif), by_rule(b, n, 12, of_molecule)) for of_motif, of_molecule in both_spellings(letters)]
            assert len({longest(*pair) for pair in pairs}) == 1
            for pair in pairs:
                exact(*pair, '%s in %s' % (SHAPES[a], SHAPES[b]))
        group('pairs of %d and %d, four spellings' % (m, n))
    for a in range(6):
        s, t = by_rule(a, LONGEST, 14, 5), by_rule(a, LONGEST, 14, OTHER[5])
        for p, q in ((s, t), (t, s)):
            assert longest(p, q) == LONGEST
            exact(p, q, SHAPES[a] + ' in itself')
    group('strands of 4096 in their other spelling')


def files():
    for part in (settled, folds, refusals, rooms, no_bases, random_pairs, long_pairs, spellings):
        part()
    return CASES.files()
