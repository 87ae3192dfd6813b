"""For tests alone: the lines that window_test reads, and what it must write. `tools/verify-cases` writes the files.

What a line has is said in crates/window_test/src/main.rt. Windows and folds are those of `lakhido_model`, refusals those of length in
`matcher_cases`.
"""
import functools
import itertools

import lakhido_model
from lakhido_model import LONGEST, SETTLED, SPELLED, WINDOWS
from matcher_cases import BAD, BOTH, EMPTY_MOTIF, LENGTHS_DIFFER, NO_LETTER, both_spellings, fold_of, refused, room
from testing_crate import HAIRPINS, IN_TURN, MIXED, OTHER, SHAPES, WORK_ROOM, Cases, by_rule, written, written_as

CASES = Cases('window_test', ('calls', 'refused', 'found', 'nowhere', 'starts', 'lengths', 'arcs', 'depths'))
COUNTS, put, group = CASES.counts, CASES.put, CASES.group
SEEDS = 30  # how many are tried for a pair with a property


# What is wanted.

@functools.cache
def window(p, q):
    return lakhido_model.window(p.bases, p.mates, q.bases, q.mates)


def cuts_an_arc(p, q):
    """Whether the tightest window has a base whose mate lies outside."""
    found = window(p, q)
    return found is not None and any(not found[0] <= mate < sum(found) for mate in q.mates[found[0]:sum(found)])


def is_tied(p, q):
    """Whether a later window as long as the tightest carries the motif."""
    found = window(p, q)
    if found is None:
        return False
    rows = lakhido_model.Rows(p.bases, p.mates, q.bases, q.mates)
    return any(rows.longest(start, start + found[1]) == len(p.bases) for start in range(found[0] + 1, len(q.bases) - found[1] + 1))


def is_found(p, q):
    return window(p, q) is not None


# The lines.

def line(kind, p, q, work, refusal, found, fold, name):
    start, length = found or (0, 0)
    put('%s %-24s %-24s %6d %2d %d %4d %d %4d %4d %4d %4d %s'
        % (kind, p.field, q.field, work, *refusal, found is not None, start, length, *fold, name))


def count(p, q, refusal):
    """A call with this refusal or, for None, with the window and the fold of the pair."""
    COUNTS['calls'] += 1
    if refusal:
        COUNTS['refused'] += 1
        return
    found = window(p, q)
    COUNTS['nowhere' if found is None else 'found'] += 1
    COUNTS.update(dict(zip(('starts', 'lengths', 'arcs', 'depths'), (found or (0, 0)) + fold_of(q))))


def case(p, q, work, name):
    refusal = refused('l', p, q, 0, work)
    count(p, q, refusal)
    if refusal:
        line('w', p, q, work, refusal, None, (0, 0), name)
    else:
        line('w', p, q, work, (0, 0, 0), window(p, q), fold_of(q), name)


def exact(p, q, name):
    case(p, q, room(p, q), name)


def rounds(times, motif, molecule, name):
    """A line for so many random pairs, of rising seeds; the test program tries every window of them. A rule is shape, length, seed, letters."""
    pairs = [[by_rule(shape, n, seed + i, letters) for shape, n, seed, letters in (motif, molecule)] for i in range(times)]
    p, q = pairs[0]
    line('r', p, q, room(p, q), (0, 0, times), None, (0, 0), name)
    for p, q in pairs:
        count(p, q, None)


def settled():
    for row, (p, pm, q, qm, length) in enumerate(SETTLED, 1):
        motif, molecule = written_as(p, pm), written_as(q, qm)
        assert is_found(motif, molecule) == (length == len(p))
        exact(motif, molecule, 'row %d' % row)
    for row, (p, pm, q, qm, told) in enumerate(WINDOWS, 1):
        motif, molecule = written_as(p, pm), written_as(q, qm)
        assert window(motif, molecule) == told
        exact(motif, molecule, 'window %d' % row)
    group('settled examples and small windows')


def refusals():
    good = written('GC', '10')
    # No work at all, so that row 8 applies too, and more than enough, so that there are entries to compare.
    for work, name in ((0, 'no work'), (WORK_ROOM, 'ample work')):
        case(good, good, work, 'both accepted')
        for i in BAD:
            case(BAD[i], good, work, 'motif %d' % i)
            case(good, BAD[i], work, 'molecule %d' % i)
        group('one strand refused, ' + name)
        for i, j in itertools.product(BAD, BAD):
            case(BAD[i], BAD[j], work, 'motif %d, molecule %d' % (i, j))
        group('both strands refused, ' + name)
        for rows, s in BOTH.items():
            case(s, good, work, 'motif %s' % rows)
            case(good, s, work, 'molecule %s' % rows)
        group('two rows of one strand, ' + name)
        for s, bases in NO_LETTER:
            case(s, good, work, 'motif ' + bases)
            case(good, s, work, 'molecule ' + bases)
        group('no letters, ' + name)


def work_sizes():
    for m, n in ((0, 1), (0, 7), (0, 160), (0, LONGEST), (1, 1), (1, 7), (7, 1), (9, 9), (120, 160), (1, LONGEST), (400, 1500)):
        p, q = by_rule(4, m, 5, 1), by_rule(4, n, 6, 1)
        size = room(p, q)
        for work in (0, size - 1, size, size + 4):
            case(p, q, work, 'work %+d' % (work - size))
    group('work short, exact and longer')


def random_pairs():
    for letters in (1, 2, 5, MIXED):
        for a, b in itertools.product(range(6), range(6)):
            rounds(30, (a, 4, 100, letters), (b, 12, 5000, letters), '%s in %s' % (SHAPES[a], SHAPES[b]))
        group('random pairs of 4 and 12, letters %d' % letters)
    for m, n in ((0, 1), (0, 12), (1, 1), (1, 12), (2, 9), (3, 7), (5, 10), (5, 12), (5, 5), (5, 3)):
        for letters in (1, 2, 5, MIXED):
            rounds(40, (4, m, 300, letters), (5, n, 7000, letters), '%d in %d, letters %d' % (m, n, letters))
            rounds(40, (0, m, 400, letters), (4, n, 8000, letters), '%d in %d, letters %d' % (m, n, letters))
    group('random pairs of other lengths')


def with_property(holds, name, least):
    """Pairs that have it, of each two shapes and some lengths: of the seeds that are tried the first. There are so many of them at least."""
    before = COUNTS['calls']
    for m, n, letters in ((3, 9, 2), (3, 9, MIXED), (6, 40, 1), (8, 200, 5), (20, 400, MIXED)):
        for a, b in itertools.product(range(6), range(6)):
            pairs = ((by_rule(a, m, 20 + i, letters), by_rule(b, n, 900 + i, letters)) for i in range(SEEDS))
            pair = next((pair for pair in pairs if holds(*pair)), None)
            if pair:
                exact(*pair, '%s in %s' % (SHAPES[a], SHAPES[b]))
    assert COUNTS['calls'] - before >= least, (name, COUNTS)
    group(name)


def found_or_not(a, b, m, n, letters, seeds):
    """A pair of two shapes: of the seeds that are tried the first whose motif embeds, or the first."""
    pairs = [(by_rule(a, m, 31 + i, letters), by_rule(b, n, 1200 + i, letters)) for i in range(seeds)]
    exact(*next((pair for pair in pairs if is_found(*pair)), pairs[0]), '%s in %s' % (SHAPES[a], SHAPES[b]))


def long_pairs():
    for m, n, letters, seeds in ((5, 1500, 5, 6), (20, 1500, MIXED, 6), (60, 1500, 1, 3), (300, 1500, 1, 1)):
        for a, b in itertools.product(range(6), range(6)):
            found_or_not(a, b, m, n, letters, seeds)
        group('pairs of %d and %d, letters %d' % (m, n, letters))
    for a in range(6):
        found_or_not(a, 0, 60, 1500, 5, 1)
        found_or_not(0, a, 60, 1500, 5, 1)
        found_or_not(a, a, 12, LONGEST, MIXED, 3)
        found_or_not(a, 4, 200, LONGEST, 1, 1)
        found_or_not(0, a, 200, LONGEST, 5, 1)
    group('long pairs, most without arcs')


def ends():
    """The motif is the molecule itself; or both are of one letter, and the motif has one base more; or the motif has one base, or none."""
    for n, shapes in ((1, (0,)), (2, (0, 1)), (9, range(6)), (1000, range(6)), (LONGEST, (0, 5))):
        for a in shapes:
            s = by_rule(a, n, 14, 5)
            exact(s, s, SHAPES[a] + ' in itself')
    group('strands in themselves')
    for n, shapes in ((2, (0, 1)), (9, range(6)), (1000, range(6)), (LONGEST, (4,))):
        for a in shapes:
            exact(by_rule(a, n, 15, 1), by_rule(a, n - 1, 15, 1), SHAPES[a] + ' in shorter')
    group('motifs longer than the molecule by one')
    for n in (1, 9, 1500, LONGEST):
        for a in range(6):
            for base in 'AC':
                exact(written(base, '0'), by_rule(a, n, 17, 2), '%s in %s' % (base, SHAPES[a]))
            for base, letters in (('U', 3), ('T', 3), ('T', 4), ('U', 7)):
                exact(written(base, '0'), by_rule(a, n, 17, letters), '%s in %s' % (base, SHAPES[a]))
    group('motifs of one base')
    for n in (1, 2, 9, 160, 1500, LONGEST):
        for a in range(6):
            exact(EMPTY_MOTIF, by_rule(a, n, 17, 5), 'none in ' + SHAPES[a])
    for p, name in LENGTHS_DIFFER:
        exact(p, written('GAC', '210'), name)
    group('motifs with no bases')


def periodic():
    """A motif of one letter and without arcs in molecules that repeat a stretch: where it embeds, many windows that carry it are about as long."""
    for j, n in ((20, 400), (200, 398), (90, 1500), (200, 1500)):
        for shape, letters in ((0, 2), (2, 1), (2, 2), (HAIRPINS, 1), (HAIRPINS, 2)):
            exact(by_rule(0, j, IN_TURN, 1), by_rule(shape, n, IN_TURN, letters), '%s, letters %d' % (SHAPES[shape], letters))
    group('one letter in molecules that repeat')


def spellings():
    """02, (vi): T and U match each other. A pair has one tightest window in all of its spellings."""
    for p, pm, q, qm, length in SPELLED:
        motif, molecule = written_as(p, pm), written_as(q, qm)
        assert is_found(motif, molecule) == (length == len(p))
        exact(motif, molecule, '%s in %s' % (p, q))
    group('T and U')
    for a, b in itertools.product(range(6), range(6)):
        for of_motif, of_molecule in both_spellings(5):
            rounds(10, (a, 4, 100, of_motif), (b, 12, 5000, of_molecule), '%s in %s' % (SHAPES[a], SHAPES[b]))
    group('random pairs of 4 and 12, four spellings')
    for m, n, letters in ((5, 160, 5), (20, 400, 4)):
        for a, b in itertools.product(range(6), range(6)):
            pairs = [(by_rule(a, m, 33, of_motif), by_rule(b, n, 34, of_molecule)) for of_motif, of_molecule in both_spellings(letters)]
            assert len({window(*pair) for pair in pairs}) == 1
            for pair in pairs:
                exact(*pair, '%s in %s' % (SHAPES[a], SHAPES[b]))
        group('pairs of %d and %d, four spellings' % (m, n))
    for a in range(6):
        s, t = by_rule(a, 1000, 14, 5), by_rule(a, 1000, 14, OTHER[5])
        for p, q in ((s, t), (t, s)):
            assert window(p, q) == (0, 1000)
            exact(p, q, SHAPES[a] + ' in itself')
    group('strands of 1000 in their other spelling')


def files():
    for part in (settled, refusals, work_sizes, random_pairs):
        part()
    with_property(cuts_an_arc, 'windows that cut an arc', 50)
    with_property(is_tied, 'later windows as short', 50)
    for part in (ends, long_pairs, periodic, spellings):
        part()
    return CASES.files()
