"""What crates/catalog_testing has, for the scripts that make the cases of catalog_test and batch_test: the lines about the calls on catalog and cache, the
counts of a group, and the bytes that the calls leave, by `lakhido_model`. The columns of a line are described in crates/catalog_testing/src/lib.rt.
And random calls, with their answers from a reference model.
"""
import collections
import functools

import lakhido_model
from lakhido_model import (BLOCK, CHECKSUM_AT, ENTRY, HITS_AT, LONGEST_MOLECULE, LONGEST_MOTIF, MOLECULE, MOST_BLOCKS, MOST_SLOTS, MOTIF, SEARCHED_AT, encode,
                           key, molecule_refusal, motif_refusal, other_spelling, seal, set_bit, sound_block, work_size)
from testing_crate import ROW, after, folded, found, is_refused, refused, total

LARGEST = 9999999  # the field that means the largest number of all
CACHE = (MOST_BLOCKS + 1) * BLOCK  # where the cache begins in the buffer of the test program
BANK = CACHE + (MOST_SLOTS + 1) * BLOCK  # where the motif blocks begin from which batch_test puts batches together
DIGITS = '0123456789abcdefghijklmnopqrstuvwxy'  # one for each of them
UNTOUCHED = 0x0707  # an entry of the hits before a call
LINES, TOLD, COUNTS = [], [], collections.Counter()


def begin():
    """Begins the cases of a test program."""
    LINES.clear()
    TOLD.clear()
    COUNTS.clear()


def files_of(crate):
    """The files of a test program, of the cases since `begin`."""
    return {'crates/%s/stdin' % crate: ''.join(LINES), 'crates/%s/stdout' % crate: ''.join(TOLD)}


# ---- lines

def say(text):
    assert len(text) < 104, text
    LINES.append('%-103s\n' % text)


def remark(note):
    if note:
        say('# ' + note)


def count(kind, answer):
    """Counts a call: of an accepted one the two numbers of its answer too."""
    if is_refused(answer):
        COUNTS[answer // ROW] += 1
        return
    calls, first, second = {'Q': ('queries', 'hits', 'searches'), 'M': ('batches', 'motifs', 'reads')}.get(kind, ('accepted', 'arcs', 'depths'))
    COUNTS[calls] += 1
    COUNTS[first] += answer // 10000 % 10000
    COUNTS[second] += answer % 10000


# What the test programs write of the counts of a group: texts, each with the count behind it.
OF_CALLS = ((': wrong ', 'wrong'), ('; adds and removes ', 'accepted'), (' with arcs ', 'arcs'), (' and depths ', 'depths'), (', queries ', 'queries'),
            (' with hits ', 'hits'), (' and searches ', 'searches'))
OF_BATCHES = ((', batches ', 'batches'), (' of motifs ', 'motifs'), (' with reads ', 'reads'))
OF_BYTES = (('; bytes set ', 'bytes'),)


def group(name, told=OF_CALLS + OF_BYTES):
    """Ends a group: its line, and what the test program writes of its counts."""
    say('G %02d %s' % (len(name), name))
    rows = sorted(row for row in COUNTS if isinstance(row, int))
    assert all(n < 65536 for n in COUNTS.values()), (name, COUNTS)  # the room of a count
    TOLD.append('%s%s; refused by row%s\n' % (
        name, ''.join('%s%d' % (text, COUNTS[kind]) for text, kind in told), ''.join(' %d:%d' % (row, COUNTS[row]) for row in rows)))
    COUNTS.clear()


block_total = functools.cache(total)


def bytes_total(data):
    sum = 0
    for i in range(0, len(data), BLOCK):
        block = bytes(data[i:i + BLOCK])
        sum = (sum * pow(31, len(block), 2 ** 32) + block_total(block)) % 2 ** 32
    return sum


# ---- the calls on bytes

def strand_refusal(side, bases, mates):
    """The number of the first refusal of a query's motif (side 0) or of a molecule (side 1), or 0."""
    refusal = molecule_refusal(bases, mates, LONGEST_MOLECULE) if side else motif_refusal(bases, mates, LONGEST_MOTIF)
    return refused(refusal[0], side, refusal[1]) if refusal else 0


embeds = functools.cache(lakhido_model.embeds)
fold = functools.cache(lakhido_model.fold)


class Model:
    """The bytes of catalog, cache and bank."""

    def __init__(self):
        self.bytes = bytearray(BANK + len(DIGITS) * BLOCK)

    def block(self, b):
        return self.bytes[BLOCK * b:BLOCK * (b + 1)]

    def put(self, b, block):
        self.bytes[BLOCK * b:BLOCK * (b + 1)] = block

    def sound(self, form, b):
        return sound_block(form, bytes(self.block(b)))

    def set(self, i, v, sealed):
        """Sets a byte of a block, and where `sealed` its checksum: those bytes of it that are other ones then."""
        b, old = i // BLOCK, bytes(self.bytes)
        self.bytes[i] = v
        if sealed:
            block = self.block(b)
            seal(block)
            self.put(b, block)
        return [(j, self.bytes[j]) for j in range(BLOCK * b + CHECKSUM_AT, BLOCK * (b + 1)) if j != i and self.bytes[j] != old[j]]

    def lent(self, cat, cache, call):
        """What a call answers that is lent so many bytes of catalog and cache."""
        catalog, kept = self.bytes[:cat], self.bytes[CACHE:CACHE + cache]
        answer = call(catalog, kept)
        self.bytes[:cat], self.bytes[CACHE:CACHE + cache] = catalog, kept
        return answer

    def sum(self, cat, cache):
        """The sum of the bytes of catalog and cache."""
        return (bytes_total(self.bytes[:cat]) + bytes_total(self.bytes[CACHE:CACHE + cache])) % 2 ** 32

    def call(self, kind, d, cat, cache, work, hits, bases, mates):
        """The answer of a call, and the whole slice of hits that it leaves."""
        list, rest = [UNTOUCHED] * hits, [UNTOUCHED] * (MOST_BLOCKS - hits)
        if kind == 'A':
            refusal = self.lent(cat, cache, lambda *lent: lakhido_model.add(*lent, d, bases, mates))
            answer = 0 if refusal else folded(*fold(tuple(mates)))
        elif kind == 'R':
            refusal, answer = self.lent(cat, cache, lambda *lent: lakhido_model.remove(*lent, d)), 0
        else:
            refusal, *told = self.lent(cat, cache, lambda *lent: lakhido_model.query(*lent, bases, mates, work, list))
            answer = found(told[0], len(told[1]))
        return refused(*refusal) if refusal else answer, list + rest


MODEL = Model()


def number_of(digit):
    return 65535 if digit == 'z' else int(digit, 36)


def put_line(kind, d, cat, cache, work, hits, answer, fields, left=0, listed=0):
    say('%s %07d %06d %05d %05d %03d %09d %-38s %010d %010d' % (kind, d, cat, cache, work, hits, answer, fields, left, listed))


def strand_in(bases, mates):
    """The strand that the fields of bases and mates say."""
    if mates[:1] not in ('-', '='):
        return bases, [number_of(digit) for digit in mates]
    n = int(mates[1:])
    return (bases * n)[:n], [n - 1 - i if mates[0] == '=' else i for i in range(n)]


def line(kind, d=0, cat=0, cache=0, work=0, hits=0, answer=0, bases='', mates='', note=''):
    """A line, and for a call what it leaves."""
    remark(note)
    all_bases, all_mates = strand_in(bases, mates)
    left = listed = 0
    if kind in 'ARQ':
        got, list = MODEL.call(kind, d, cat, cache, work, hits, all_bases, all_mates)
        assert got == answer, (got, answer, note)
        left = MODEL.sum(cat, cache)
        listed = total(list) if kind == 'Q' else 0
        count(kind, answer)
    written = mates[0] if mates[:1] in ('-', '=') else mates
    fields = '%-13s %-13s %02d %03d %03d' % (bases, written, len(bases), len(all_bases), len(all_mates))
    put_line(kind, d, cat, cache, work, hits, answer, fields, left, listed)


class World:
    """Calls with so many catalog and cache blocks."""

    def __init__(self, b, s):
        self.b, self.cat, self.cache = b, BLOCK * b, BLOCK * s
        MODEL.__init__()
        line('N')

    def add(self, d, bases, mates, answer, note='', cat=None, cache=None):
        line('A', d, self.cat if cat is None else cat, self.cache if cache is None else cache, answer=answer, bases=bases, mates=mates, note=note)

    def remove(self, d, answer=0, note='', cat=None, cache=None):
        line('R', d, self.cat if cat is None else cat, self.cache if cache is None else cache, answer=answer, note=note)

    def query(self, bases, mates, answer, note='', work=None, hits=None, cat=None, cache=None):
        line('Q', 0, self.cat if cat is None else cat, self.cache if cache is None else cache,
             work_size(len(strand_in(bases, mates)[0])) if work is None else work, self.b if hits is None else hits,
             answer=answer, bases=bases, mates=mates, note=note)


def set_byte(kind, i, v, note=''):
    """A byte of the catalog, the cache or the bank: an alteration (S), one that leaves the block unsound though its checksum is right (U), or one that
    makes a foreign entry (F). With the right checksum its bytes are set too."""
    for j, w in MODEL.set(i, v, kind != 'S'):
        line('B', j, work=w)
    form = MOTIF if BANK <= i else ENTRY if CACHE <= i else MOLECULE
    assert kind == 'S' or MODEL.sound(form, i // BLOCK) == (kind == 'F'), (i, v, note)
    line('S', i, work=v, note=note)
    COUNTS['bytes'] += 1


def buffers(call):
    """Row 10 for each way in which a buffer is not 1 to 512, or 1 to 64, whole blocks."""
    for cat, note in ((0, 'no catalog'), (511, 'catalog of 511 bytes'), (1025, 'catalog of 1025 bytes'), (262656, 'catalog of 513 blocks')):
        call(refused(10, 2), 'row 10, ' + note, cat=cat)
    for cache, note in ((0, 'no cache'), (511, 'cache of 511 bytes'), (513, 'cache of 513 bytes'), (33280, 'cache of 65 blocks')):
        call(refused(10, 2), 'row 10, ' + note, cache=cache)


def hairpins(slots, kind=World):
    """Two blocks, with GAC under 0 and GGC under 1, each with its ends bonded."""
    w = kind(2, slots)
    w.add(0, 'GAC', '210', folded(1, 1))
    w.add(1, 'GGC', '210', folded(1, 1))
    return w


# ---- random calls

def below(x, by, n):
    """A number below n from the digits of x beyond a divisor."""
    return x // by % 65536 % n


def closed(mates, j, i):
    """No bond leaves j to i, and j has none."""
    return mates[j] == j and all(j <= mates[z] <= i for z in range(j, i))


def nested(x, n):
    """A nested strand of n bases, each bonded with an earlier one where that may be."""
    bases, mates = [], []
    for i in range(n):
        bases.append('GGCCAUTU'[below(x, 8, 8)])
        mates.append(i)
        j = below(x, 64, i + 1)
        if closed(mates, j, i):
            mates[i], mates[j] = j, i
        x = after(x)
    return bases, mates


def spoil(how, x, bases, mates):
    """For 0, 1 and 2: a base that is no letter (X or a small t); any mate; a bond that may cross another."""
    i, j = below(x, 4, len(bases)), below(x, 64, len(bases))
    if how == 0:
        bases[i] = 'Xt'[j % 2]
    if how == 1:
        mates[i] = j + i % 2
    if how == 2 and mates[i] == i and mates[j] == j:
        mates[i], mates[j] = j, i


MOTIFS = 12  # that random calls of a seed draw from: six, and those in their other spelling


def length_of(seed, most):
    return below(seed, 4, most) + 1


def motif_of(first, k):
    """Motif k of those that belong to a seed: the seed of its strand, and the strand."""
    seed = after(after(k % 6 * 1000 + first % 1000))
    letters, mates = nested(seed, length_of(seed, 5))
    return seed, letters if k < 6 else list(other_spelling(''.join(letters))), mates


class Random(World):
    """Random calls, with their answers from the reference model: the molecules that are held, and for each slot a motif with the numbers that were
    searched and those that are hits."""

    turns = 'AAAAARRRQQQQQQSS'  # of a history: adds, removes, queries, alterations of a byte of the cache

    def __init__(self, b, s):
        super().__init__(b, s)
        self.held, self.entries, self.altered = {}, [None] * s, {}

    def block(self, k):
        """The bytes of cache block k."""
        out = bytearray(BLOCK)
        if self.entries[k]:
            (bases, mates), searched, hits = self.entries[k]
            out = encode(ENTRY, bases, mates)
            for at, numbers in ((SEARCHED_AT, searched), (HITS_AT, hits)):
                for d in numbers:
                    set_bit(out, at, d)
            seal(out)
        for i, v in self.altered.get(k, {}).items():
            out[i] = v
        return out

    def tidy(self):
        """An accepted call empties altered blocks."""
        for k in self.altered:
            self.entries[k] = None
        self.altered = {}

    def update(self, kind, d, bases, mates):
        if self.b <= d:
            return refused(12, 2)
        if kind == 'A' and d in self.held:
            return refused(13, 2)
        if kind == 'A' and strand_refusal(1, bases, mates):
            return strand_refusal(1, bases, mates)
        if kind == 'R' and d not in self.held:
            return refused(14, 2)
        self.tidy()
        if kind == 'A':
            self.held[d] = bases, mates
            return folded(*fold(tuple(mates)))
        del self.held[d]
        for entry in filter(None, self.entries):
            entry[1].discard(d)
            entry[2].discard(d)
        return 0

    def ask(self, bases, mates, work, hits):
        v = strand_refusal(0, bases, mates)
        if v or hits < self.b:
            return v or refused(9, 2)
        if work < work_size(len(bases)):
            return refused(8, 2)
        self.tidy()
        hit, fresh = self.search(bases, mates)
        return found(len(hit), len(fresh))

    def search(self, bases, mates):
        """The hits of an accepted query, and the numbers that it searches."""
        k = key(bases, mates) % len(self.entries)
        if not self.entries[k] or self.entries[k][0] != (bases, mates):
            self.entries[k] = (bases, mates), set(), set()
        searched, hit = self.entries[k][1:]
        fresh = set(self.held) - searched
        hit.update(d for d in fresh if embeds(bases, tuple(mates), self.held[d][0], tuple(self.held[d][1])))
        searched.update(fresh)
        return hit, fresh

    def alter(self, x):
        """A byte of one of the eight regions of a cache block: kind, length, zeros, bases, mates, the two maps, checksum; at most three from the
        region's start half of the time. Another value, or the same where the block has been altered since the last accepted call and now and
        then else."""
        starts = (0, 1, 2, ENTRY.bases_at, ENTRY.mates_at, SEARCHED_AT, HITS_AT, CHECKSUM_AT, BLOCK)
        r, y = below(x, 16, 8), after(x)
        k = below(x, 256, len(self.entries))
        width = 1 if r < 2 else 4 if below(y, 2, 2) == 0 else starts[r + 1] - starts[r]
        i = starts[r] + below(y, 32, width)
        old = self.block(k)[i]
        v = old if k in self.altered or below(y, 8, 16) == 0 else (old + 1) % 256 if below(y, 128, 2) == 0 else below(y, 256, 256)
        if v != old:
            self.altered[k] = {i: v}
        set_byte('S', CACHE + BLOCK * k + i, v)

    def call(self, kind, d, how, seed, letters, mates):
        """A call with this strand, and with one of the ways in which it may be refused: what `spoil` does, lengths that differ, no bases (a molecule; of
        twenty motifs one has none), too many bases, buffers that are too short or not whole blocks."""
        spoil(how, after(seed), letters, mates)
        bases = ''.join(letters)
        if how == 3:
            mates.append(0)
        if how == 4 or kind == 'Q' and how == 10:
            bases, mates = '', []
        long = how == 5
        work, hits, cat, cache = work_size(len(bases)), self.b, self.cat, self.cache
        work, hits = work // 2 if how == 6 else work, hits // 2 if how == 7 else hits
        cat, cache = cat // 2 + 1 if how == 9 else cat, cache + 1 if how == 8 else cache
        strand = ('A' * 161, list(range(161))) if long else (bases, mates)
        if how in (8, 9):
            answer = refused(10, 2)
        else:
            answer = self.ask(*strand, work, hits) if kind == 'Q' else self.update(kind, d, *strand)
        line(kind, d, cat, cache, work, hits, answer, 'A' if long else bases, '-161' if long else ''.join('0123456789abc'[m] for m in mates))

    def random(self, given, first, times):
        """So many turns from a seed: molecules from 0 on (a), queries (q), or a history (H), of which `turns` says what 16 turns are. Motifs are drawn from
        twelve for each seed, molecules from all."""
        x = first
        for i in range(times):
            kind = {'a': 'A', 'q': 'Q'}.get(given, self.turns[below(x, 1, 16)])
            how = below(after(x), 16, 40) if given == 'H' else 99
            self.turn(kind, how, i if given == 'a' else below(x, 512, self.b + 1), first, x)
            x = after(x)

    def turn(self, kind, how, d, first, x):
        if kind == 'S':
            self.alter(x)
        else:
            y = after(x)
            strand = motif_of(first, below(x, 32, MOTIFS)) if kind == 'Q' else (y, *nested(y, length_of(y, 12)))
            self.call(kind, d, how, *strand)
