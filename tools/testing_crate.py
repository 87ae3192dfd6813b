"""What crates/testing has, for the scripts that make the cases: random numbers, bonds, sums, answers as the numbers of a line, strands that a field says. And
the lines and counts of matcher_test and window_test.
"""
import collections

IN_ORDER = 'ACGUTX'  # the letters by their numbers, and what is none
ROW, TWO = 100000, 100000000
WORK_ROOM = 294980  # more entries of work than any pair asks for
SHAPES = ('no arcs', 'stem', 'comb', 'balanced', 'fold', 'stems', 'hairpins')
HAIRPINS = 6  # the shape of hairpins one behind the other
IN_TURN = 0  # the seed whose bases are the letters in turn


def after(x):
    """The next random number."""
    return x % 2147483647 * 48271 % 2147483647


def bond(mates, i, j):
    mates[i], mates[j] = j, i


def total(numbers, before=0):
    """The sum of a list of numbers, behind those that another sum is of. Every number counts: one other changes the sum."""
    sum = before
    for x in numbers:
        sum = (sum * 31 + x + 1) % 2 ** 32
    return sum


def refused(row, side, place=0):
    return row * ROW + side * 10000 + place


def is_refused(answer):
    return ROW <= answer < 100 * ROW


def two(a, b):
    """Two numbers."""
    return TWO + a * 10000 + b


def found(count, searched):
    """An accepted query."""
    return two(count, searched)


def folded(arcs, depth):
    """An accepted add."""
    return two(arcs, depth)


# Strands that a field says.

def number(seed, i):
    x = (seed % 65536 * 65536 + i % 65536 + 1) * 2654435761 % 4294967296
    y = (x ^ x // 65536) * 2246822519 % 4294967296
    return y ^ y // 8192


def hairpin(start, size):
    """Of eight bases, the outer three of them on each side bonded."""
    far = 7 - 2 * (start % 8)
    return far if 1 < far < size else 0


def reach(shape, seed, start, size):
    if shape == 0 or size < 2:
        return 0
    if shape == 1:
        return size - 1
    if shape == 2:
        return size - 1 if start == 0 else 0 if size < 3 else 2
    if shape == 3:
        return size // 2
    if shape == HAIRPINS:
        return hairpin(start, size)
    x = number(seed, start + number(size, shape) % 65536)
    if x % 3 == 0:
        return 0
    if shape == 5 and x // 3 % 4 != 0:
        return size - 1
    return x // 12 % size


def fold_by_rule(shape, seed, n):
    mates, todo = [0] * n, [(0, n)]
    while todo:
        start, end = todo.pop()
        if start < end:
            e = start + reach(shape, seed, start, end - start)
            mates[start], mates[e] = e, start
            todo += [(start + 1, e), (e + 1, end)]
    return mates


class Strand:
    """Bases, mates, and the field of a line that gives them."""

    def __init__(self, bases, mates, field):
        self.bases, self.mates, self.field = bases, mates, field


def written(bases, mates):
    """A strand of at most ten bases; a mate is a digit, and a letter means 65535."""
    values = [int(c) if c.isdigit() else 65535 for c in mates]
    return Strand(bases, values, '%-10s %-10s' % (bases, mates))


def written_as(bases, mates):
    return written(bases, ''.join(map(str, mates)))


# The letters that a rule draws from: the first of all; the same with T for U and U for T; three of which two match each other.
ALPHABETS = {**{k: IN_ORDER[:k] for k in range(1, 7)}, 7: 'ACGT', 8: 'ACGTU', 9: 'GUT'}
OTHER = {4: 7, 5: 8}  # the same letters in the other spelling
MIXED = 9  # G, U and T


def by_rule(shape, n, seed, letters, mates=None):
    count, alphabet = n if mates is None else mates, ALPHABETS[letters]
    bases = ''.join(alphabet[(i if seed == IN_TURN else number(seed, i)) % len(alphabet)] for i in range(n))
    return Strand(bases, fold_by_rule(shape, seed, count), '%d %6d %6d %6d %d' % (shape, n, count, seed, letters))


# Lines and counts.

WIDTH = 112  # of a line, with its end
NAME = 46  # of the name of a group


class Cases:
    """The lines that a test program reads and those that it must write: a line for each group, with its counts of the given kinds."""

    def __init__(self, crate, kinds):
        self.crate, self.kinds = crate, kinds
        self.lines, self.told, self.counts = [], [], collections.Counter()

    def put(self, text):
        assert len(text) < WIDTH, text
        self.lines.append('%-*s\n' % (WIDTH - 1, text))

    def group(self, name):
        assert len(name) <= NAME, name
        self.put('= ' + name)
        counts = ''.join('%s %d, ' % (kind, self.counts[kind]) for kind in self.kinds)
        self.told.append('%-*s: %swrong 0\n' % (NAME, name, counts))
        self.counts.clear()

    def files(self):
        return {'crates/%s/stdin' % self.crate: ''.join(self.lines), 'crates/%s/stdout' % self.crate: ''.join(self.told)}
