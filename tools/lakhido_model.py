#!/usr/bin/env python3
"""Document 01, and requests (i) to (iii), (v) and (vi) of 02, in plain Python, for the scripts beside it: strands, their refusals and folds, embeddings,
windows, blocks, the calls on catalog and cache. It shares nothing with the library.

A strand is its bases, a text with a character for each byte, and its mates, a list of numbers. `--self-test` holds the search to the
definition of an embedding, the depth and the tightest window to those of 02, blocks to the rules, batches to single queries, and strands to their other
spellings.
"""
import collections
import functools
import itertools
import random
import sys

LETTERS = 'ACGTU'
LEAST_MOTIF, LEAST_MOLECULE = 0, 1  # 02, (iii): refusal 2 remains for molecules only
LONGEST = 4096  # of the direct calls
LONGEST_MOLECULE, LONGEST_MOTIF = 160, 120
MOST_BLOCKS, MOST_SLOTS, MOST_SCREENED = 512, 64, 64
MOST_MOTIFS = 16  # of a batch: 02, (v)

# ---- strands

NO_BASES = '', []


def nested(mates):
    """Whether mates lie in the strand, are mutual, and no two arcs cross."""
    closing = []
    for i, mate in enumerate(mates):
        if mate >= len(mates) or mates[mate] != i:
            return False
        if mate > i:
            closing.append(mate)
        elif mate < i and closing.pop() != i:
            return False
    return True


def strand_refusal(bases, mates, longest, least):
    """Row and place of the first of rows 1 to 7 that applies to a strand of `least` to `longest` bases, or None."""
    n = len(bases)
    if n != len(mates):
        return 1, 0
    if n < least:
        return 2, 0
    if n > longest:
        return 3, 0
    rows = ((4, lambda i: bases[i] not in LETTERS),
            (5, lambda i: mates[i] >= n),
            (6, lambda i: mates[mates[i]] != i),
            (7, lambda i: any(a < i < mates[a] < mates[i] for a in range(i))))
    if nested(mates):  # the last three need not be tried
        rows = rows[:1]
    return next(((row, i) for row, applies in rows for i in range(n) if applies(i)), None)


def motif_refusal(bases, mates, longest=LONGEST):
    """The same for a motif."""
    return strand_refusal(bases, mates, longest, LEAST_MOTIF)


def molecule_refusal(bases, mates, longest=LONGEST):
    """The same for a molecule."""
    return strand_refusal(bases, mates, longest, LEAST_MOLECULE)


def pair_refusal(p, q):
    """Row, side and place of the refusal of a motif and a molecule of the direct calls, or None."""
    sides = motif_refusal(*p), molecule_refusal(*q)
    return next(((refusal[0], side, refusal[1]) for side, refusal in enumerate(sides) if refusal), None)


# Small examples of these rows for a molecule, 01's and one of a small letter: bases, mates, row, place.
REFUSED = (
    ('AC', [0], 1, 0),
    ('', [], 2, 0),
    ('AXC', [0, 1, 2], 4, 1),
    ('TAt', [0, 1, 2], 4, 2),
    ('A', [1], 5, 0),
    ('AC', [1, 1], 6, 0),
    ('ACGU', [2, 3, 0, 1], 7, 1),
)


def arcs(mates):
    """The arcs, each with its left and its right end."""
    return [(i, j) for i, j in enumerate(mates) if i < j]


def inside(arc, other):
    """Whether an arc lies inside another."""
    return other[0] < arc[0] and arc[1] < other[1]


def depth(mates):
    """02, (i): the largest number of arcs of which each lies inside the one before, and 0 without arcs. A longest such list that begins with an arc goes
    on with a longest that begins with an arc inside it; arcs inside are shorter, and so come first."""
    lists = {}
    for arc in sorted(arcs(mates), key=lambda arc: arc[1] - arc[0]):
        lists[arc] = 1 + max((n for other, n in lists.items() if inside(other, arc)), default=0)
    return max(lists.values(), default=0)


def fold(mates):
    """02, (i): the number of arcs, and the depth."""
    return len(arcs(mates)), depth(mates)


def depth_by_definition(mates):
    """The same as `depth`, over all lists of arcs: for the self-test. In a list of which each lies inside the one before the left ends rise."""
    all_arcs = arcs(mates)
    return max(k for k in range(len(all_arcs) + 1)
               if any(all(inside(b, a) for a, b in zip(v, v[1:])) for v in itertools.combinations(all_arcs, k)))


# Strands with their number of arcs and their depth: an arc, an arc inside another, two side by side, none.
FOLDED = (
    ('GAC', [2, 1, 0], 1, 1),
    ('GGCC', [3, 2, 1, 0], 2, 2),
    ('GCGC', [1, 0, 3, 2], 2, 1),
    ('GAC', [0, 1, 2], 0, 0),
)


def key(bases, mates):
    return sum(bases.encode('latin-1')) + sum(mates)


def work_size(m, n=LONGEST_MOLECULE):
    """How many entries of work a motif of m bases and a molecule of n ask for."""
    return 64 * (m + 1) + 8 * n


def random_motif(rng, most):
    """A nested strand of 1 to `most` bases, one of twenty with none."""
    return strand_of_length(rng, rng.randint(1, most) if rng.randrange(20) else 0)


def random_strand(rng, most):
    """A nested strand of 1 to `most` bases."""
    return strand_of_length(rng, rng.randint(1, most))


def strand_of_length(rng, n):
    """A nested strand of n bases."""
    mates, begun = list(range(n)), []
    for i in range(n):
        move = rng.random()
        if begun and move < 0.35:
            mates[i] = begun.pop()
            mates[mates[i]] = i
        elif move < 0.7:
            begun.append(i)
    return ''.join(rng.choice(LETTERS) for _ in range(n)), mates


def other_spelling(bases):
    """T for each U, and U for each T."""
    return bases.translate(str.maketrans('TU', 'UT'))


def spelled_with(letter, bases):
    """T or U, the given one, in the place of both."""
    return bases.replace('T', letter).replace('U', letter)


# ---- embeddings

def is_t_or_u(base):
    return base == 'T' or base == 'U'


def matches(letter, base):
    """Whether a letter of a motif may go to a base of a molecule. 02, (vi): "the same byte or both are among T and U"."""
    return letter == base or is_t_or_u(letter) and is_t_or_u(base)


class Rows:
    """The rows of a motif p for the arcs and the unbonded bases of a molecule q. In the row of a stretch of q, entry j is the end of the longest closed
    stretch of p that begins at j and embeds there; stretches of q side by side are joined by looking one up in the other."""

    def __init__(self, p, pm, q, qm):
        self.motif, self.bases, self.mates = len(p), q, qm
        self.fits = {c: [matches(letter, c) for letter in p] for c in LETTERS}
        self.free = {c: [j for j in range(len(p)) if pm[j] == j and self.fits[c][j]] for c in LETTERS}
        self.arcs = arcs(pm)
        self.of_base = {c: self.base(c) for c in LETTERS}
        self.of_arc = {}  # by the left end
        begun = []  # of the arcs that are open: the row of what lies in them so far
        for i, base in enumerate(q):
            if qm[i] > i:
                begun.append(self.nothing())
                continue
            row = self.of_base[base]
            if qm[i] < i:
                row = self.of_arc[qm[i]] = self.around(begun.pop(), q[qm[i]], base)
            if begun:
                begun[-1] = [row[k] for k in begun[-1]]

    def nothing(self):
        """The row of no bases."""
        return list(range(self.motif + 1))

    def base(self, base):
        """The row of an unbonded base."""
        row = self.nothing()
        for j in self.free[base]:
            row[j] = j + 1
        return row

    def around(self, inside, left, right):
        """The row of an arc, from that of what lies inside it."""
        row = [self.of_base[right][k] for k in inside]
        for j in self.free[left]:
            row[j] = max(row[j], inside[j + 1])
        for j, e in self.arcs:
            if self.fits[left][j] and self.fits[right][e] and inside[j + 1] >= e:
                row[j] = max(row[j], e + 1)
        return row

    def longest(self, start, end):
        """The longest closed prefix of p that embeds in the bases of q from start to end. They have the arcs with both ends among them."""
        k, i = 0, start
        while i < end:
            whole = i < self.mates[i] < end
            row = self.of_arc[i] if whole else self.of_base[self.bases[i]]
            k, i = row[k], self.mates[i] + 1 if whole else i + 1
        return k


def longest(p, pm, q, qm):
    """The longest closed prefix of the motif p that embeds in the molecule q."""
    return Rows(p, pm, q, qm).longest(0, len(q))


def embeds(p, pm, q, qm):
    return longest(p, pm, q, qm) == len(p)


def is_embedding(p, pm, q, qm, places):
    """Whether the places are an embedding of so many bases of p, in 01's own words."""
    pairs = list(itertools.combinations(range(len(places)), 2))
    return (all(x < len(q) for x in places)
            and all(places[i] < places[j] for i, j in pairs)
            and all(matches(p[i], q[x]) for i, x in enumerate(places))
            and all((pm[i] == j) == (qm[places[i]] == places[j]) for i, j in pairs))


def longest_by_definition(p, pm, q, qm):
    """The same as `longest`, over all lists of rising places: for the self-test."""
    closed = [k for k in range(len(p) + 1) if all(mate < k for mate in pm[:k])]
    return max(k for k in closed if any(is_embedding(p, pm, q, qm, f) for f in itertools.combinations(range(len(q)), k)))


# 01's table of settled examples: motif, molecule, L.
SETTLED = (
    ('A', [0], 'A', [0], 1),
    ('GC', [1, 0], 'GAC', [2, 1, 0], 2),
    ('GC', [0, 1], 'GAC', [2, 1, 0], 1),
    ('GC', [1, 0], 'GC', [0, 1], 0),
    ('GC', [0, 1], 'GCC', [2, 1, 0], 2),
    ('GC', [0, 1], 'GGC', [2, 1, 0], 2),
    ('AGC', [0, 2, 1], 'AG', [0, 1], 1),
    ('AGC', [0, 2, 1], 'AGAC', [0, 3, 2, 1], 3),
    ('GGCC', [3, 2, 1, 0], 'GGCC', [0, 2, 1, 3], 0),
)

# The same for 02, (vi): T and U match each other and themselves, and no other letter.
SPELLED = (
    ('GT', [1, 0], 'GAU', [2, 1, 0], 2),
    ('GU', [1, 0], 'GAT', [2, 1, 0], 2),
    ('T', [0], 'U', [0], 1),
    ('U', [0], 'T', [0], 1),
    ('T', [0], 'T', [0], 1),
    ('T', [0], 'A', [0], 0),
    ('T', [0], 'C', [0], 0),
    ('T', [0], 'G', [0], 0),
    ('A', [0], 'T', [0], 0),
    ('C', [0], 'T', [0], 0),
    ('G', [0], 'T', [0], 0),
    ('UT', [0, 1], 'TU', [0, 1], 2),
    ('UT', [1, 0], 'TU', [1, 0], 2),
    ('TU', [1, 0], 'TAU', [2, 1, 0], 2),
    ('TT', [0, 1], 'TAU', [2, 1, 0], 1),
    ('AT', [0, 1], 'UAAU', [3, 1, 2, 0], 2),
    ('ATA', [2, 1, 0], 'AUTA', [3, 1, 2, 0], 3),
    ('TAGU', [3, 1, 2, 0], 'UAGT', [3, 1, 2, 0], 4),
)

# ---- windows

def cut(q, qm, start, length):
    """A window of q as a molecule of its own. It has the arcs with both ends in it."""
    end = start + length
    return q[start:end], [qm[i] - start if start <= qm[i] < end else i - start for i in range(start, end)]


def window_by_definition(p, pm, q, qm):
    """02, (ii): start and length of a window of q that carries an embedding of p, such that no shorter one does and none of that length that starts
    earlier; None where p does not embed in q."""
    windows = ((start, length) for length in range(len(q) + 1) for start in range(len(q) + 1 - length))
    return next(((start, length) for start, length in windows if embeds(p, pm, *cut(q, qm, start, length))), None)


def window(p, pm, q, qm):
    """The same, for molecules of any length: for each start the least end of a window that carries p. The ends do not fall as the starts rise, since a
    window carries what any window in it carries; and where all of q does not carry p, no window does."""
    rows, end, best = Rows(p, pm, q, qm), 0, None
    if rows.longest(0, len(q)) < len(p):
        return None
    for start in range(len(q) + 1):
        end = max(end, start)
        while rows.longest(start, end) < len(p):
            if end == len(q):
                return best
            end += 1
        if best is None or end - start < best[1]:
            best = start, end - start
    return best


# Motif, molecule, and start and length of the tightest window or None: the first of two as long; the two bases are an arc; the window cuts an arc; a
# shorter one comes later; all of the molecule. 02, (iii): that of a motif with no bases has start 0 and length 0. 02, (vi): a U as good as a T.
WINDOWS = (
    ('GC', [0, 1], 'GCAGC', [0, 1, 2, 3, 4], (0, 2)),
    ('GC', [0, 1], 'GAC', [2, 1, 0], None),
    ('GA', [0, 1], 'GAC', [2, 1, 0], (0, 2)),
    ('GC', [1, 0], 'GAACGC', [3, 1, 2, 0, 5, 4], (4, 2)),
    ('GC', [1, 0], 'GAC', [2, 1, 0], (0, 3)),
    (*NO_BASES, 'GAC', [2, 1, 0], (0, 0)),
    (*NO_BASES, 'A', [0], (0, 0)),
    ('GT', [0, 1], 'GAUGT', [0, 1, 2, 3, 4], (3, 2)),
    ('GU', [0, 1], 'GTAGU', [0, 1, 2, 3, 4], (0, 2)),
    ('TU', [1, 0], 'TAATUT', [3, 1, 2, 0, 5, 4], (4, 2)),
    ('TA', [0, 1], 'UAC', [2, 1, 0], (0, 2)),
)

# ---- blocks

BLOCK = 512
CHECKSUM_AT = 508
SEARCHED_AT, HITS_AT, MAP = 380, 444, 64

# Byte 0, the least and the greatest length, where bases and mates begin, and where the unused places of mates end: of a molecule block of the catalog, of
# a molecule block that is handed in as a motif, and of an entry. 02, (iii): a motif is kept with length 0, and a motif block may have length 0.
Form = collections.namedtuple('Form', 'kind least longest bases_at mates_at mates_end')
MOLECULE = Form(1, LEAST_MOLECULE, LONGEST_MOLECULE, 28, 188, CHECKSUM_AT)
MOTIF = MOLECULE._replace(least=LEAST_MOTIF)
ENTRY = Form(2, LEAST_MOTIF, LONGEST_MOTIF, 20, 140, SEARCHED_AT)
FORMS = MOLECULE, MOTIF, ENTRY


def checksum(block):
    return sum((i + 1) * block[i] for i in range(CHECKSUM_AT))


def seal(block):
    """Writes the checksum of a block."""
    block[CHECKSUM_AT:BLOCK] = checksum(block).to_bytes(4, 'little')


def encode(form, bases, mates, searched=bytes(MAP), hits=bytes(MAP)):
    """The block of a strand, for an entry with its two maps."""
    block = bytearray(BLOCK)
    block[0], block[1] = form.kind, len(bases)
    block[form.bases_at:form.bases_at + len(bases)] = bases.encode('latin-1')
    block[form.mates_at:form.mates_at + 2 * len(mates)] = b''.join(mate.to_bytes(2, 'little') for mate in mates)
    if form is ENTRY:
        block[SEARCHED_AT:CHECKSUM_AT] = bytes(searched) + bytes(hits)
    seal(block)
    return block


def decode(form, block):
    """Bases and mates of a block; the empty block has none."""
    n, at = block[1], form.mates_at
    return block[form.bases_at:form.bases_at + n].decode('latin-1'), [block[i] + 256 * block[i + 1] for i in range(at, at + 2 * n, 2)]


def fault(form, block):
    """None for a sound block, else a byte and what is wrong there."""
    if len(block) != BLOCK:
        return len(block), 'a block has %d bytes' % BLOCK
    if not any(block):
        return None
    if block[0] != form.kind:
        return 0, 'the kind of this block is %d, not %d' % (form.kind, block[0])
    n = block[1]
    if not form.least <= n <= form.longest:
        return 1, 'the length is %d, and %d to %d are taken' % (n, form.least, form.longest)
    for a, b in ((2, form.bases_at), (form.bases_at + n, form.mates_at), (form.mates_at + 2 * n, form.mates_end)):
        for i in range(a, b):
            if block[i] != 0:
                return i, 'an unused byte is %d, not 0' % block[i]
    return fault_of_strand(form, *decode(form, block)) or fault_of_end(form, block)


def fault_of_strand(form, bases, mates):
    refusal = strand_refusal(bases, mates, form.longest, form.least)
    if refusal is None:
        return None
    row, i = refusal
    if row == 4:
        return form.bases_at + i, 'base %d is no letter of %s' % (i, LETTERS)
    return form.mates_at + 2 * i, {
        5: 'the mate of base %d is %d, and there are %d bases' % (i, mates[i], len(bases)),
        6: 'the mate of base %d is %d, whose mate is another' % (i, mates[i]),
        7: 'the bond of bases %d and %d crosses another' % (i, mates[i])}[row]


def fault_of_end(form, block):
    if form is ENTRY:
        for i in range(MAP):
            if block[HITS_AT + i] & ~block[SEARCHED_AT + i]:
                return HITS_AT + i, 'a hit was not searched'
    if int.from_bytes(block[CHECKSUM_AT:], 'little') != checksum(block):
        return CHECKSUM_AT, 'the checksum is not %d' % checksum(block)
    return None


def sound(form, block):
    return fault(form, block) is None


def holds(form, block):
    """Whether a block is sound and not empty. The block of a motif with no bases is not empty: its byte 0 is not 0."""
    return sound(form, block) and any(block)


def keeps(block, bases, mates):
    """Whether an entry keeps this motif; an empty block keeps none."""
    return any(block) and decode(ENTRY, block) == (bases, mates)


def bit(d):
    """The byte of number d in a map, and its bit there."""
    return d // 8, 1 << d % 8


def has_bit(block, at, d):
    i, one = bit(d)
    return at + i < len(block) and bool(block[at + i] & one)


def set_bit(block, at, d):
    i, one = bit(d)
    block[at + i] |= one


def forget(block, d):
    """Takes number d out of both maps of an entry; the empty block stays."""
    if block[0]:
        i, one = bit(d)
        for at in (SEARCHED_AT, HITS_AT):
            if at + i < len(block):
                block[at + i] &= ~one & 255
        seal(block)


# ---- the calls on catalog and cache, which are bytearrays; a refusal is its row, side and place, and None where there is none

sound_block = functools.cache(sound)  # for bytes


def blocks_in(buffer):
    """The blocks of a buffer, one after the other."""
    return [bytes(buffer[i:i + BLOCK]) for i in range(0, len(buffer), BLOCK)]


def put_block(buffer, b, block):
    buffer[BLOCK * b:BLOCK * (b + 1)] = block


def is_whole(buffer, most):
    """Whether a buffer is 1 to `most` whole blocks."""
    return len(buffer) % BLOCK == 0 and 1 <= len(buffer) // BLOCK <= most


def is_held(catalog, d):
    return any(catalog[BLOCK * d:BLOCK * (d + 1)])


def buffers_refusal(catalog, cache):
    """Rows 10 and 11."""
    if not is_whole(catalog, MOST_BLOCKS) or not is_whole(cache, MOST_SLOTS):
        return 10, 2, 0
    return next(((11, 2, d) for d, block in enumerate(blocks_in(catalog)) if not sound_block(MOLECULE, block)), None)


def slices_refusal(hits, places, work, longest_motif):
    """Rows 9 and 8: so many hits are lent and so many places needed, and so much work for a motif of that length."""
    return (9, 2, 0) if hits < places else (8, 2, 0) if work < work_size(longest_motif) else None


def add_refusal(catalog, cache, d, bases, mates):
    refusal = buffers_refusal(catalog, cache)
    if refusal:
        return refusal
    if len(catalog) // BLOCK <= d:
        return 12, 2, 0
    if is_held(catalog, d):
        return 13, 2, 0
    strand = molecule_refusal(bases, mates, LONGEST_MOLECULE)
    return (strand[0], 1, strand[1]) if strand else None


def remove_refusal(catalog, cache, d):
    refusal = buffers_refusal(catalog, cache)
    if refusal:
        return refusal
    if len(catalog) // BLOCK <= d:
        return 12, 2, 0
    return None if is_held(catalog, d) else (14, 2, 0)


def query_refusal(catalog, cache, bases, mates, work, hits):
    """`work` and `hits` are the lengths of the two slices."""
    refusal = buffers_refusal(catalog, cache)
    if refusal:
        return refusal
    strand = motif_refusal(bases, mates, LONGEST_MOTIF)
    return (strand[0], 0, strand[1]) if strand else slices_refusal(hits, len(catalog) // BLOCK, work, len(bases))


def clean(cache):
    """Every accepted call first zeroes each unsound cache block."""
    for k, block in enumerate(blocks_in(cache)):
        if not sound_block(ENTRY, block):
            put_block(cache, k, bytes(BLOCK))


def add(catalog, cache, d, bases, mates):
    """The refusal, or None."""
    refusal = add_refusal(catalog, cache, d, bases, mates)
    if not refusal:
        clean(cache)
        put_block(catalog, d, encode(MOLECULE, bases, mates))
    return refusal


def remove(catalog, cache, d):
    """The refusal, or None."""
    refusal = remove_refusal(catalog, cache, d)
    if not refusal:
        clean(cache)
        put_block(catalog, d, bytes(BLOCK))
        for k, block in enumerate(blocks_in(cache)):
            block = bytearray(block)
            forget(block, d)
            put_block(cache, k, block)
    return refusal


@functools.cache
def embeds_in(bases, mates, block):
    """Whether a motif embeds in the molecule of a block."""
    return embeds(bases, mates, *decode(MOLECULE, block))


Queried = collections.namedtuple('Queried', 'refusal count searched')  # searched: the set of the numbers that had to be searched


def query(catalog, cache, bases, mates, work, hits):
    """A query with a work slice of so many entries. Writes the slot of the cache, and the list at the start of the hits."""
    refusal = query_refusal(catalog, cache, bases, mates, work, len(hits))
    if refusal:
        return Queried(refusal, 0, set())
    clean(cache)
    k = key(bases, mates) % (len(cache) // BLOCK)
    old, new, found, searched = blocks_in(cache)[k], encode(ENTRY, bases, mates), [], set()
    for d, block in enumerate(blocks_in(catalog)):
        if not any(block):
            continue
        if keeps(old, bases, mates) and has_bit(old, SEARCHED_AT, d):
            hit = has_bit(old, HITS_AT, d)
        else:
            hit = embeds_in(bases, tuple(mates), block)
            searched.add(d)
        set_bit(new, SEARCHED_AT, d)
        if hit:
            set_bit(new, HITS_AT, d)
            found.append(d)
    seal(new)
    put_block(cache, k, new)
    hits[:len(found)] = found
    return Queried(None, len(found), searched)


def batch_refusal(catalog, cache, motifs, work, hits):
    """02, (v): after 11 refusal 15, place 0 for the size of the motif buffer, else the lowest block that is unsound or empty; then 3, place the index of
    the lowest motif that is too long; then 9, where the hits have fewer than B entries for each motif, and 8, by the work of the longest motif."""
    refusal = buffers_refusal(catalog, cache)
    if refusal:
        return refusal
    if not is_whole(motifs, MOST_MOTIFS):
        return 15, 0, 0
    blocks = blocks_in(motifs)
    for t, block in enumerate(blocks):
        if not holds(MOTIF, block):
            return 15, 0, t
    lengths = [len(decode(MOTIF, block)[0]) for block in blocks]
    for t, m in enumerate(lengths):
        if m > LONGEST_MOTIF:
            return 3, 0, t
    return slices_refusal(hits, len(blocks) * (len(catalog) // BLOCK), work, max(lengths))


Batched = collections.namedtuple('Batched', 'refusal read counts searched')  # counts and searched: a number for each motif, none after a refusal


def batch(catalog, cache, motifs, work, hits):
    """02, (v): single queries in the order of the motifs. Motif t has its hits from entry t * B on. The number read is that of the held numbers that at
    least one of these queries searches."""
    refusal = batch_refusal(catalog, cache, motifs, work, len(hits))
    if refusal:
        return Batched(refusal, 0, [], [])
    b, answers = len(catalog) // BLOCK, []
    for t, block in enumerate(blocks_in(motifs)):
        part = hits[t * b:(t + 1) * b]
        answers.append(query(catalog, cache, *decode(MOTIF, block), work, part))
        assert answers[t].refusal is None
        hits[t * b:(t + 1) * b] = part
    read = set().union(*(answer.searched for answer in answers))
    return Batched(None, len(read), [answer.count for answer in answers], [len(answer.searched) for answer in answers])


# ---- self-test

def few_letters(strand):
    """The strand with A in the place of G, and U in that of C: its letters are A, T and U."""
    return strand[0].replace('G', 'A').replace('C', 'U'), strand[1]


def spellings(strand):
    """The strand as it is, in the other spelling, with T alone and with U alone."""
    bases, mates = strand
    return [(spelled, mates) for spelled in (bases, other_spelling(bases), spelled_with('T', bases), spelled_with('U', bases))]


def self_test_of_windows(rng):
    for p, pm, q, qm, told in WINDOWS:
        assert window(p, pm, q, qm) == told == window_by_definition(p, pm, q, qm), (p, pm, q, qm)
    found = collections.Counter()
    for i in range(4000):
        p, q = random_motif(rng, 5), random_strand(rng, 14)
        if i % 2:
            p, q = few_letters(p), few_letters(q)
        told = window(*p, *q)
        assert told == window_by_definition(*p, *q), (p, q)
        assert (told is None) == (not embeds(*p, *q)), (p, q)
        found[told is not None] += 1
    assert min(found.values()) > 800, found


def self_test_of_spellings(rng):
    """02, (vi): motif and molecule in any spelling give one length, one window and the same embeddings; no letter is refused for it, and no other letter
    matches."""
    for p, pm, q, qm, told in SPELLED:
        assert longest(p, pm, q, qm) == told == longest_by_definition(p, pm, q, qm), (p, pm, q, qm)
    assert [matches(a, b) for a in 'ACGTU' for b in 'ACGTU'] == [a == b or a + b in ('TU', 'UT') for a in 'ACGTU' for b in 'ACGTU']
    assert not any(matches(a, b) for a, b in ('tT', 'Tt', 'tU', 'ut', 'Uu', 'uT'))
    found = collections.Counter()
    for i in range(600):
        p, q = random_motif(rng, 5), random_strand(rng, 10)
        if i % 2:
            p, q = few_letters(p), few_letters(q)
        pairs = list(itertools.product(spellings(p), spellings(q)))
        assert len({(longest(*a, *b), window(*a, *b), pair_refusal(a, b)) for a, b in pairs}) == 1, (p, q)
        f = sorted(rng.sample(range(len(q[0])), min(len(p[0]), len(q[0]))))
        assert len({is_embedding(*a, *b, f) for a, b in pairs}) == 1, (p, q, f)
        found[embeds(*p, *q), 'T' in p[0] or 'U' in p[0]] += 1
    assert min(found[embedded, True] for embedded in (False, True)) > 40, found


def self_test_of_spelled_entries():
    """02, (vi): blocks keep the letter, and motifs are compared byte by byte. Two spellings of a motif are two entries with the same hits; each U in
    the place of a T adds 1 to the key. In one slot each replaces the other."""
    t, u = ('GT', [1, 0]), ('GU', [1, 0])
    assert key(*u) - key(*t) == 1 and decode(MOLECULE, encode(MOLECULE, *t)) == t and decode(ENTRY, encode(ENTRY, *t)) == t
    assert encode(MOLECULE, *t) != encode(MOLECULE, *u) and not keeps(encode(ENTRY, *t), *u) and not keeps(encode(ENTRY, *u), *t)
    for slots, again in ((1, {0, 1}), (2, set())):
        catalog, cache, hits = bytearray(2 * BLOCK), bytearray(slots * BLOCK), [7, 7]
        assert add(catalog, cache, 0, 'GAT', [2, 1, 0]) is None and add(catalog, cache, 1, 'GAU', [2, 1, 0]) is None
        assert catalog[30] == 84 and catalog[BLOCK + 30] == 85
        for motif, searched in ((t, {0, 1}), (t, set()), (u, {0, 1}), (u, set()), (t, again), (u, again)):
            assert query(catalog, cache, *motif, work_size(2), hits) == (None, 2, searched) and hits == [0, 1]
        assert [decode(ENTRY, block) for block in blocks_in(cache)] == ([u] if slots == 1 else [u, t] if key(*u) % 2 == 0 else [t, u])
        assert batch(catalog, cache, encode(MOTIF, *u) + encode(MOTIF, *t), work_size(2), [7] * 4) == (
            None, 2 if slots == 1 else 0, [2, 2], [0, len(again)])


def self_test_of_no_bases(q, qm):
    """02, (iii): an empty motif embeds in every molecule, with L = 0 and no places; its tightest window has start 0 and length 0."""
    assert longest(*NO_BASES, q, qm) == longest_by_definition(*NO_BASES, q, qm) == 0 and embeds(*NO_BASES, q, qm)
    assert is_embedding(*NO_BASES, q, qm, []) and window(*NO_BASES, q, qm) == window_by_definition(*NO_BASES, q, qm) == (0, 0)
    assert pair_refusal(NO_BASES, (q, qm)) is None and work_size(0, len(q)) == 64 + 8 * len(q)
    assert pair_refusal((q, qm), NO_BASES) == pair_refusal(NO_BASES, NO_BASES) == (2, 1, 0)
    assert pair_refusal((q, []), NO_BASES) == pair_refusal(('', qm), NO_BASES) == (1, 0, 0)


def changed(block, i, value):
    """The block with another value in byte i."""
    return block[:i] + bytes([value]) + block[i + 1:]


def self_test_of_blocks(rng):
    assert checksum(encode(MOLECULE, 'A', [0])) == 1888 and key('GC', [1, 0]) == key('GC', [0, 1]) == 139
    for form in FORMS:
        assert sound(form, bytes(BLOCK)) and not holds(form, bytes(BLOCK)) and decode(form, bytes(BLOCK)) == NO_BASES
        for _ in range(300):
            bases, mates = random_strand(rng, form.longest) if form is MOLECULE else random_motif(rng, form.longest)
            block = encode(form, bases, mates, b'\7' * MAP, b'\5' * MAP)
            assert nested(mates) and holds(form, block) and decode(form, block) == (bases, mates)
            i = rng.randrange(BLOCK)
            assert not sound(form, changed(block, i, (block[i] + rng.randint(1, 255)) % 256)), i
        for bases, mates, row, _ in REFUSED:
            assert sound(form, encode(form, bases, mates)) == (row == 2 and form is not MOLECULE), row


def self_test_of_short_blocks(rng):
    """02, (iii): a motif block of length 0, and an entry with length 0 and key 0. Each is no empty block, and unsound when one byte is another."""
    motif, entry, full = encode(MOTIF, *NO_BASES), encode(ENTRY, *NO_BASES), encode(ENTRY, *NO_BASES, b'\7' * MAP, b'\5' * MAP)
    assert motif == bytearray([1]) + bytes(507) + bytearray([1, 0, 0, 0]) and entry == bytearray([2]) + bytes(507) + bytearray([2, 0, 0, 0])
    assert key(*NO_BASES) == 0 and full[:SEARCHED_AT] == entry[:SEARCHED_AT]
    assert [[holds(form, block) for form in FORMS] for block in (motif, entry, full)] == [[False, True, False]] + 2 * [[False, False, True]]
    for form, block in ((MOTIF, motif), (ENTRY, entry), (ENTRY, full)):
        for i in range(BLOCK):
            for value in {0, 1, 2, rng.randrange(256)} - {block[i]}:
                assert not sound(form, changed(block, i, value)), i
    one = encode(ENTRY, 'A', [0])
    assert [[keeps(block, *strand) for strand in (NO_BASES, ('A', [0]))] for block in (entry, full, one, bytes(BLOCK))] == [
        [True, False], [True, False], [False, True], [False, False]]


def self_test_of_story():
    """01's example of queries, with B = 2 and S = 1, and 02, (v): the same queries as one batch, after which the cache is the same."""
    catalog, cache, hits = bytearray(2 * BLOCK), bytearray(BLOCK), [7, 7]
    for d, bases in enumerate(('GAC', 'GGC')):
        assert add(catalog, cache, d, bases, [2, 1, 0]) is None
    paired, alone = ('GC', [1, 0]), ('GC', [0, 1])
    story = ((paired, [0, 1], 2), (paired, [0, 1], 0), (alone, [1, 1], 2), (paired, [0, 1], 2))
    copy, motifs = bytearray(cache), b''.join(encode(MOTIF, *motif) for motif, _, _ in story)
    for motif, list_left, searched in story:
        assert query(catalog, cache, *motif, work_size(2), hits) == (None, len(set(list_left)), set(range(searched))) and hits == list_left
    hits = [7] * 9
    assert batch(catalog, copy, motifs, work_size(2), hits) == (None, 2, [2, 2, 1, 2], [2, 0, 2, 2])
    assert copy == cache and hits == [0, 1, 0, 1, 1, 7, 0, 1, 7]
    assert remove(catalog, cache, 0) is None and query(catalog, cache, *paired, work_size(2), hits) == (None, 1, set())
    assert batch(catalog, cache, encode(MOTIF, *paired), work_size(2), hits) == (None, 0, [1], [0])


# 02, (v): what is wrong with a batch on one molecule of two blocks, in the order of its refusals.
BATCH_FAULTS = (
    ((10, 2, 0), lambda case: case.update(cache=bytearray(BLOCK + 1))),
    ((11, 2, 1), lambda case: case.update(catalog=case['catalog'][:BLOCK] + bytes([9]) + bytes(BLOCK - 1))),
    ((15, 0, 0), lambda case: case.update(motifs=case['motifs'] + bytes(1))),
    ((15, 0, 2), lambda case: case.update(motifs=case['motifs'][:2 * BLOCK] + bytes(BLOCK) + case['motifs'][3 * BLOCK:])),
    ((3, 0, 1), lambda case: case.update(motifs=case['motifs'][:BLOCK] + encode(MOTIF, 'A' * 121, list(range(121))) + case['motifs'][2 * BLOCK:])),
    ((9, 2, 0), lambda case: case.update(hits=7)),
    ((8, 2, 0), lambda case: case.update(work=work_size(4) - 1)),
)


def self_test_of_batch_refusals():
    """Each refusal alone, and before each that comes later; nothing is refused without a fault."""
    motifs = b''.join(encode(MOTIF, *motif) for motif in (('A', [0]), ('GGCC', [3, 2, 1, 0]), NO_BASES, ('GC', [1, 0])))
    catalog = encode(MOLECULE, 'A', [0]) + bytearray(BLOCK)
    for faults in ((), *((fault,) for fault in BATCH_FAULTS), *itertools.combinations(BATCH_FAULTS, 2)):
        case = dict(catalog=catalog, cache=bytearray(BLOCK), motifs=motifs, work=work_size(4), hits=8)
        for _, make in reversed(faults):
            make(case)
        assert batch_refusal(**case) == (faults[0][0] if faults else None), [told for told, _ in faults]
    for count in range(18):
        wanted = None if 1 <= count <= MOST_MOTIFS else (15, 0, 0)
        assert batch_refusal(catalog, bytearray(BLOCK), encode(MOTIF, *NO_BASES) * count, work_size(0), 2 * count) == wanted


def self_test_of_batches(rng):
    """On entries that have searched any numbers: each motif's list stands in its own part and nothing else is written; the number read is that of a union,
    now and then more than any one query searches and less than all together."""
    united = collections.Counter()
    for _ in range(600):
        b, s = rng.randint(1, 9), rng.randint(1, 3)
        catalog, cache = bytearray(BLOCK * b), bytearray(BLOCK * s)
        motifs = [few_letters(random_motif(rng, 3)) for _ in range(3)]
        for motif in motifs:
            put_block(cache, key(*motif) % s, encode(ENTRY, *motif, rng.randbytes(MAP)))
        for d in filter(lambda _: rng.randrange(4), range(b)):
            put_block(catalog, d, encode(MOLECULE, *few_letters(random_strand(rng, 9))))
        chosen = [rng.choice(motifs) for _ in range(rng.randint(1, 5))]
        single, hits, searched = bytearray(cache), [b] * (len(chosen) * b + 3), []
        told = batch(catalog, cache, b''.join(encode(MOTIF, *motif) for motif in chosen), work_size(3), hits)
        for t, motif in enumerate(chosen):
            part = [b] * b
            answer = query(catalog, single, *motif, work_size(3), part)
            assert (answer.count, len(answer.searched)) == (told.counts[t], told.searched[t]) and hits[t * b:(t + 1) * b] == part
            searched.append(answer.searched)
        assert told.read == sum(any(d in numbers for numbers in searched) for d in range(b)) and single == cache and hits[-3:] == [b] * 3
        united['more than one'] += max(told.searched) < told.read
        united['less than all'] += told.read < sum(told.searched)
    assert min(united.values()) > 20, united


def self_test():
    for p, pm, q, qm, told in SETTLED:
        assert longest(p, pm, q, qm) == told == longest_by_definition(p, pm, q, qm), (p, pm, q, qm)
    rng, lengths = random.Random(1), collections.Counter()
    for _ in range(8000):
        p, q = few_letters(random_motif(rng, 6)), few_letters(random_strand(rng, 9))
        told = longest(*p, *q)
        assert told == longest_by_definition(*p, *q), (p, q)
        lengths[told == len(p[0])] += 1
    assert min(lengths.values()) > 800, lengths
    self_test_of_windows(rng)
    self_test_of_spellings(rng)
    self_test_of_spelled_entries()
    for bases, mates, row, place in REFUSED:
        assert molecule_refusal(bases, mates) == (row, place) and (row < 5 or not nested(mates))
        assert motif_refusal(bases, mates) == (None if row == 2 else (row, place))
    for bases, mates, *told in FOLDED:
        assert molecule_refusal(bases, mates) is None and fold(mates) == tuple(told), mates
        self_test_of_no_bases(bases, mates)
    folds = set()
    for _ in range(2000):
        mates = random_strand(rng, 20)[1]
        assert depth(mates) == depth_by_definition(mates), mates
        folds.add(fold(mates))
    assert len(folds) > 20, folds
    self_test_of_blocks(rng)
    self_test_of_short_blocks(rng)
    self_test_of_story()
    self_test_of_batch_refusals()
    self_test_of_batches(rng)


if __name__ == '__main__':
    if sys.argv[1:] != ['--self-test']:
        sys.exit(__doc__)
    self_test()
    print('self-test: ok')
