"""For tests alone: what strand_test and embedding_test must write, by `lakhido_model`. `tools/verify-cases` writes the files.

Their inputs are written by hand; what a line has is said in src/cases.rt of each. Random strands are made as in the two programs.
"""
import collections
import itertools
import os

from lakhido_model import LEAST_MOTIF, LONGEST, LONGEST_MOTIF, NO_BASES, fold, is_embedding, molecule_refusal, pair_refusal, strand_refusal
from testing_crate import IN_ORDER, after, bond

CRATES = os.path.join(os.path.dirname(os.path.abspath(__file__)), '..', 'crates')
WIDTH = 48


def lines_of(crate):
    with open(os.path.join(CRATES, crate, 'stdin')) as file:
        return file.read().split('\n')[:-1]


def numbers(text):
    """A digit each, up to the first blank; a letter means 65535."""
    return [int(c) if c.isdigit() else 65535 for c in text.split(' ')[0]]


def told(row, side, place):
    return ' refused %d %d %d' % (row, side, place)


def with_fold(mates):
    """What an accepted call says of its molecule."""
    return ' with arcs %d and depth %d' % fold(mates)


# ---- strand_test

def checked_motif(strand, longest=LONGEST_MOTIF, least=LEAST_MOTIF):
    refusal = strand_refusal(*strand, longest, least)
    return told(refusal[0], 0, refusal[1]) if refusal else ' accepted'


def checked_molecule(strand):
    refusal = molecule_refusal(*strand)
    return told(refusal[0], 1, refusal[1]) if refusal else ' accepted' + with_fold(strand[1])


def checked_pair(p, q):
    refusal = pair_refusal(p, q)
    return told(*refusal) if refusal else ' accepted'


def checked_both(strand):
    return ' molecule%s, motif%s' % (checked_molecule(strand), checked_motif(strand))


ONE = 'A', [0]


def small(line):
    strand = line[2:12].split(' ')[0], numbers(line[13:23])
    return {'s': lambda: checked_both(strand), 'l': lambda: checked_motif(strand, int(line[25]), int(line[24])), 'p': lambda: checked_pair(strand, ONE),
            'q': lambda: checked_pair(ONE, strand), 'e': lambda: checked_pair(NO_BASES, strand),
            'w': lambda: checked_pair(strand, strand)}[line[0]]()


def form(which, n, i):
    """The mate of i among n bases: unbonded (0), nested (1), each arc crossing each (2), arcs side by side (3)."""
    return (i, n - 1 - i, i + n // 2 if i < n // 2 else i - n // 2, i + 1 - i % 2 * 2)[which]


def long(line, bases, mates):
    a, b = int(line[2:7]), int(line[8:13])
    all_of = ''.join(bases), mates
    if line[0] == 'f':
        mates[:b] = [form(a, b, i) for i in range(b)]
    elif line[0] == 'b':
        bases[a] = chr(b)
    elif line[0] == 'm':
        mates[a] = b
    return {'c': lambda: checked_both((all_of[0][:a], mates[:b])), 'x': lambda: checked_pair(all_of, ONE),
            'y': lambda: checked_pair(ONE, all_of), 'z': lambda: checked_pair(NO_BASES, all_of)}.get(line[0], str)()


def up_to(n, x):
    return x % 65536 % (n + 1)


def random_strand(kind, x, n):
    """Kinds 0 and 1: any mates from 0 to n, in kind 1 the digits of x in base 6. Else nested. In even kinds a base may be any byte."""
    bases, mates, begun = [], list(range(n)), []
    for i in range(n):
        bases.append(chr(x // 2048 % 256) if kind % 2 == 0 and x // 64 % 32 == 0 else IN_ORDER[x // 16 % 5])
        if kind < 2:
            mates[i] = up_to(n, x)
        elif x // 1024 % 3 == 1 and begun:
            bond(mates, begun.pop(), i)
        elif x // 1024 % 3 == 2:
            begun.append(i)
        x = x // 6 if kind == 1 else after(x)
    return ''.join(bases), mates


def alter(kind, x, mates):
    """Kind 3: one mate altered. Kind 5: two arcs exchanged."""
    n = len(mates)
    if n and kind == 3:
        mates[up_to(n - 1, x)] = up_to(n, x // 128)
    if n and kind == 5:
        i, j = up_to(n - 1, x), up_to(n - 1, x // 128)
        a, b = mates[i], mates[j]
        bond(mates, i, j)
        bond(mates, a, b)


def family(name, kind, times):
    rows, folds = collections.Counter(), []
    for i in range(times):
        x = after(i + 99)
        n = 5 if kind == 1 else up_to(40 if kind else 4, x)
        bases, mates = random_strand(kind, i if kind == 1 else after(x // 2 % 65536 + 1), n)
        alter(kind, x // 3, mates)
        if kind != 1 and x // 5 % 16 == 0:
            mates = mates[:up_to(n, x // 5 // 16)]
        for refusal in (molecule_refusal(bases, mates), strand_refusal(bases, mates, 30, up_to(3, x // 7))):
            rows[refusal[0] if refusal else 0] += 1
        if not molecule_refusal(bases, mates):
            folds.append(fold(mates))
    return '%s: compared %d, disagreements 0, accepted and by row %s; arcs %d, depths %d\n' % (
        name, 2 * times, ' '.join(str(rows[row]) for row in range(8)), *map(sum, zip(*folds)))


def strand_test():
    bases, mates, out = ['A'] * (LONGEST + 1), [0] * (LONGEST + 1), []
    for line in lines_of('strand_test'):
        assert len(line) == WIDTH - 1, line
        out.append('%s%s\n' % (line, small(line) if line[0] in 'slpqew' else long(line, bases, mates)))
    for name, kind, times in (('any mates', 0, 1000), ('all five mates from 0 to 5', 1, 7776), ('nested, some bases no letters', 2, 1000),
                              ('nested, one mate altered', 3, 1000), ('nested, two arcs exchanged', 5, 1000), ('nested', 7, 1000)):
        out.append(family(name, kind, times))
    return ''.join(out)


# ---- embedding_test

def verified(p, q, places):
    refusal = pair_refusal(p, q) or ((9, 2, 0) if len(places) != len(p[0]) else None)
    return told(*refusal) if refusal else (' yes' if is_embedding(*p, *q, places) else ' no') + with_fold(q[1])


def nested(x, letters, n):
    """A nested strand of n bases of these letters, and the next random number."""
    bases, mates, begun = '', list(range(n)), []
    for i in range(n):
        x = after(x)
        bases += letters[x // 7 % len(letters)]
        x = after(x)
        if x // 5 % 4 == 0:
            begun.append(i)
        elif x // 5 % 4 == 1 and begun:
            bond(mates, begun.pop(), i)
    return (bases, mates), x


def all_lists(name, letters, pairs=50, m=4, n=7):
    """One motif of twenty has no bases, and the one list of no places."""
    x, yes, arcs, depths = 12345, 0, 0, 0
    for i in range(pairs):
        p, x = nested(x, letters, m) if i % 20 else (NO_BASES, x)
        q, x = nested(x, letters, n)
        places, (more_arcs, more_depths) = len(p[0]), fold(q[1])
        lists = (n + 1) ** places
        yes += sum(is_embedding(*p, *q, f) for f in itertools.combinations(range(n), places))
        arcs, depths = arcs + lists * more_arcs, depths + lists * more_depths
    return 'all lists, %s: wrong 0 yes %d arcs %d depths %d\n' % (name, yes, arcs, depths)


# Of the random pairs: the name, and the letters.
FAMILIES = ('1 letter', IN_ORDER[:1]), ('2 letters', IN_ORDER[:2]), ('5 letters', IN_ORDER[:5]), ('G, U and T', IN_ORDER[2:5])


def embedding_test():
    out = []
    for line in lines_of('embedding_test'):
        assert len(line) == WIDTH - 1, line
        p, pm, q, qm, places = (line[i:i + 4].split(' ')[0] for i in range(0, 25, 5))
        out.append('%s%s\n' % (line, verified((p, numbers(pm)), (q, numbers(qm)), numbers(places))))
    long = 'A' * (LONGEST + 1), [0] * (LONGEST + 1)
    out.append('4,097 bases:%s%s%s\n' % (verified(long, ('X', [0]), []), verified(ONE, long, []), verified(NO_BASES, long, [])))
    return ''.join(out + [all_lists(name, letters) for name, letters in FAMILIES])


def files():
    return {'crates/strand_test/stdout': strand_test(), 'crates/embedding_test/stdout': embedding_test()}
