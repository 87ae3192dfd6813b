"""For tests alone: the lines that block_test reads, and what it must write. `tools/verify-cases` writes the files.

Each line has 48 bytes: a letter, three numbers of five digits, and a name or a comment. What the letters mean is said in
crates/block_test/src/cases.rt. The expected answers are those of `lakhido_model`.
The image is three blocks and a byte; the strand has room for 162 bases; the two maps have room for 65 bytes.
"""
import collections
import itertools
import random

from lakhido_model import (BLOCK, CHECKSUM_AT, ENTRY, FORMS, HITS_AT, LONGEST_MOLECULE, LONGEST_MOTIF, MAP, MOLECULE, MOTIF, SEARCHED_AT, checksum,
                           decode, encode, forget, has_bit, holds, keeps, nested, seal, sound)
from testing_crate import IN_ORDER, after, total

BLOCKS = 3
ROOM = 162
NUMBERS = {MOLECULE: 1, ENTRY: 2, MOTIF: 3}  # of the tests of soundness
HOLDS_MOTIF = 4
NAMES = {MOLECULE: 'molecule', ENTRY: 'entry', MOTIF: 'motif block'}


class Cases:
    """Runs each command on the model, and writes its line with the answer."""

    def __init__(self):
        self.lines, self.told, self.right = [], [], 0
        self.image = bytearray(BLOCKS * BLOCK + 1)
        self.bases, self.mates = bytearray(ROOM), [0] * ROOM
        self.n = self.m = 0
        self.searched, self.hits = bytearray(MAP), bytearray(MAP)

    def line(self, letter, a=0, b=0, c=0, name=''):
        text = '%s %05d %05d %05d %-27s' % (letter, a, b, c, name)
        assert len(text) == 47, text
        self.lines.append(text + '\n')

    def ask(self, letter, a, b, answer, name):
        self.line(letter, a, b, answer, name)
        self.right += 1

    def strand(self):
        return self.bases[:self.n].decode('latin-1'), self.mates[:self.m]

    def block(self, d):
        return self.image[BLOCK * d:BLOCK * d + BLOCK]

    def set_block(self, d, block):
        self.image[BLOCK * d:BLOCK * d + BLOCK] = block

    # the strand and the maps
    def new(self, n, m, seed, name=''):
        x = seed
        for i in range(ROOM):
            x = after(x)
            self.bases[i], self.mates[i] = ord(IN_ORDER[x // 16 % 5]), i
        self.n, self.m = n, m
        self.line('N', n, m, seed, name)

    def arc(self, i, j):
        self.mates[i], self.mates[j] = j, i
        self.line('A', i, j)

    def maps(self, n=MAP, m=MAP):
        self.searched, self.hits = bytearray(n), bytearray(m)
        self.line('C', n, m)

    def mark(self, d, which):
        for k, s in enumerate((self.searched, self.hits)):
            if which >> k & 1:
                s[d // 8] |= 1 << d % 8
                self.line('P', d, k)

    # one block
    def store(self, i, v):
        self.image[i] = v
        self.line('S', i, v)

    def check(self, n=BLOCK, name=''):
        if n >= BLOCK:
            block = self.block(0)
            seal(block)
            self.set_block(0, block)
        self.ask('R', n, 0, n >= BLOCK, name)

    def judge(self, form, n=BLOCK, name=''):
        self.ask('J', NUMBERS[form], n, sound(form, self.image[:n]), name)

    def holds_motif(self, n=BLOCK, name=''):
        self.ask('J', HOLDS_MOTIF, n, holds(MOTIF, self.image[:n]), name)

    def forget(self, d, name=''):
        block = self.block(0)
        forget(block, d)
        self.set_block(0, block)
        self.ask('F', d, 0, sound(ENTRY, block), name)

    def bits(self, d, name=''):
        block = self.block(0)
        self.ask('Q', d, 0, has_bit(block, SEARCHED_AT, d) + 2 * has_bit(block, HITS_AT, d), name)

    def damage(self, form, i, v, name=''):
        block = self.block(0)
        was, block[i] = block[i], v
        old = sound(form, block)
        seal(block)
        right = sound(form, block)
        block[i] = was
        seal(block)
        self.set_block(0, block)
        self.ask('X', i, v, 1000 * NUMBERS[form] + 100 * old + 10 * right + sound(form, block), name)

    def off(self, form, wrong, name=''):
        """Another checksum. The line of the last byte that differs asks, and makes the checksum right again."""
        told = wrong.to_bytes(BLOCK - CHECKSUM_AT, 'little')
        differing = [i for i in range(CHECKSUM_AT, BLOCK) if self.image[i] != told[i - CHECKSUM_AT]]
        for i in differing[:-1]:
            self.store(i, told[i - CHECKSUM_AT])
        for i in differing[-1:]:
            self.damage(form, i, told[i - CHECKSUM_AT], name)
        if not differing:
            self.judge(form, name=name)

    # the strand into the image, and out of it
    def encoded(self, form):
        """The block of the strand, or None where it or its maps do not fit."""
        bases, mates = self.strand()
        fits = len(bases) <= form.longest and len(mates) == len(bases)
        if form is ENTRY:
            return encode(form, bases, mates, self.searched, self.hits) if fits and len(self.searched) == len(self.hits) == MAP else None
        return encode(form, bases, mates) if fits else None

    def write(self, form, n=BLOCK, name=''):
        block = self.encoded(form) if n == BLOCK else None
        if block:
            self.set_block(0, block)
        self.ask('K' if form is ENTRY else 'M', 0, n, block is not None, name)

    def put(self, d, name=''):
        block = self.encoded(MOLECULE) if d < BLOCKS else None
        if block:
            self.set_block(d, block)
        self.ask('O', d, len(self.image), block is not None, name)

    def keeps(self, n=BLOCK, name=''):
        s = self.image[:n]
        yes = n == BLOCK and s[1] <= LONGEST_MOTIF and keeps(s, *self.strand())
        self.ask('U', 0, n, yes, name)

    def decode(self, n=ROOM, m=ROOM, size=BLOCK, name='', form=MOLECULE):
        s = self.image[:size]
        count = s[1] if size == BLOCK and s[1] <= min(LONGEST_MOLECULE, n, m) else 0
        if count:
            bases, mates = decode(form, s)
            self.bases[:count], self.mates[:count] = bases.encode('latin-1'), mates
        self.ask('d' if size < BLOCK else 'E' if form is MOTIF else 'D', n, m, count, name)

    # the buffer
    def zero(self, d, name=''):
        if d < BLOCKS:
            self.set_block(d, bytes(BLOCK))
        self.ask('Z', d, 0, d < BLOCKS, name)

    def judge_at(self, d, name=''):
        self.ask('Y', d, 0, d < BLOCKS and sound(MOLECULE, self.block(d)), name)

    def clean_all(self, name=''):
        for d in range(BLOCKS):
            if not sound(ENTRY, self.block(d)):
                self.set_block(d, bytes(BLOCK))
        self.ask('H', 0, 0, total(self.image) % 65536, name)

    def forget_all(self, number, name=''):
        for d in range(BLOCKS):
            block = self.block(d)
            forget(block, number)
            self.set_block(d, block)
        self.ask('f', number, 0, total(self.image) % 65536, name)

    def sums(self, name=''):
        for which, entries in enumerate((self.image, self.bases, self.mates)):
            self.ask('W', which, 0, total(entries) % 65536, name)

    def end(self, name):
        self.line('G', name=name)
        self.told.append('%-27s %d right, 0 wrong\n' % (name, self.right))
        self.right = 0


# ---- the cases

def small(t, form):
    """Three bases with an arc of the outer two; in an entry 0 and 1 are searched and 1 is a hit."""
    t.new(3, 3, 5)
    t.arc(0, 2)
    t.maps()
    t.mark(0, 1)
    t.mark(1, 3)
    t.write(form)


def damages(t, form):
    small(t, form)
    start, at, most = form.bases_at, form.mates_at, form.longest
    letter = t.image[start]
    for i, v, name in [
        (0, 9, 'kind'), (0, 3 - form.kind, 'kind, the other'), (1, 0, 'length 0'), (1, 2, 'length, less'), (1, 4, 'length, more'),
        (1, most + 1, 'length, over the limit'),
        (2, 1, 'first zero byte'), (start - 1, 1, 'last zero byte'), (start, 88, 'base, no letter'), (start, 116, 'base, small t'),
        (start, 65 if letter != 65 else 67, 'base, another letter'), (start, 84, 'base, T'), (start, 85, 'base, U'),
        (start + 3, 65, 'first unused base'), (at - 1, 65, 'last unused base'), (at, 1, 'mate, not mutual'), (at, 3, 'mate, out of range'),
        (at + 1, 1, 'mate, high byte'), (at + 6, 1, 'first unused mate'), (at + 2 * most - 1, 1, 'last unused mate'),
        *((CHECKSUM_AT + i, v, 'checksum') for i, v in enumerate((0, 0, 9, 1))),
    ]:
        t.damage(form, i, v, name)
    if form is ENTRY:
        for i, v, name in [
            (SEARCHED_AT, 7, 'searched, one more'), (SEARCHED_AT, 1, 'searched, without the hit'), (HITS_AT - 1, 128, 'searched, last byte'),
            (HITS_AT, 3, 'hit, searched too'), (HITS_AT, 6, 'hit, not searched'), (HITS_AT, 0, 'hit, none'), (CHECKSUM_AT - 1, 128, 'hit, last byte'),
        ]:
            t.damage(form, i, v, name)
    t.end(NAMES[form] + ', a byte changed')


def empties(t):
    t.zero(0)
    t.holds_motif(name='no motif')
    for form in FORMS:
        t.judge(form)
        for i in (0, 1, 2, 300, SEARCHED_AT, HITS_AT, CHECKSUM_AT, BLOCK - 1):
            t.damage(form, i, 1)
        t.damage(form, 0, 2)
    t.end('empty block, a byte changed')


def lengths(t):
    for n in (0, 1, 120, 121, 160, 161):
        for form in FORMS:
            t.zero(0)
            t.new(n, n, 70 + n, 'length %d' % n)
            t.maps()
            t.write(form)
            t.judge(form)
            t.store(1, n)
            t.check(name='byte 1 is the length')
            t.judge(form)
            t.sums()
    t.end('lengths')


def arcs(t):
    for form in FORMS:
        for name, pairs in (('nested', [(0, 3), (1, 2)]), ('crossing', [(0, 2), (1, 3)]), ('side by side', [(0, 1), (2, 3)])):
            t.new(4, 4, 9, name)
            for i, j in pairs:
                t.arc(i, j)
            t.write(form)
            t.judge(form)
    t.end('arcs')


def refusals(t):
    small(t, MOLECULE)
    for n in (0, 511, 513):
        t.judge(MOLECULE, n, 'no block')
        t.judge(ENTRY, n, 'no block')
        t.judge(MOTIF, n, 'no block')
        t.holds_motif(n, 'no block')
        t.write(MOLECULE, n, 'no block')
        t.write(ENTRY, n, 'no block')
        t.keeps(n, 'no block')
    t.store(300, 7)
    t.check(511, 'short: nothing written')
    t.sums()
    for n, m, name in ((2, 3, 'a mate more'), (3, 2, 'a mate less'), (161, 161, 'over 160'), (162, 162, 'over 160'), (160, 162, 'mates over 160')):
        t.new(n, m, 6, name)
        t.write(MOLECULE)
        t.write(ENTRY)
        t.put(1)
        t.sums()
    t.new(121, 121, 6, 'over 120')
    t.write(ENTRY)
    t.sums()
    t.new(3, 3, 6)
    for n, m in ((63, 64), (64, 63), (65, 64), (64, 65), (0, 0)):
        t.maps(n, m)
        t.write(ENTRY, name='maps of %d and %d bytes' % (n, m))
    t.put(3, 'no such block')
    t.zero(3, 'no such block')
    t.judge_at(3, 'no such block')
    t.sums()
    t.end('what does not fit')


def decoders(t):
    t.new(160, 160, 11)
    t.arc(3, 150)
    t.write(MOLECULE)
    t.new(1, 1, 12)
    for n, m in ((159, 160), (160, 159), (0, 0)):
        t.decode(n, m, name='too few places')
    t.decode(160, 160, 511, 'no block')
    t.sums()
    for n in (161, 255):
        t.store(1, n)
        t.decode(name='length over the limit')
        t.sums()
    t.store(1, 160)
    t.decode(160, 160)
    t.sums()
    t.new(1, 1, 12)
    t.decode(160, 160, form=MOTIF)
    t.sums()
    t.new(1, 1, 13)
    t.store(1, 5)
    t.decode(5, 6, name='unsound, not tested again')
    t.sums()
    t.zero(0)
    t.decode(name='empty block')
    t.sums()
    t.end('decoder')


def buffers(t):
    for d in range(3):
        t.new(20 + d, 20 + d, 20 + d)
        t.put(d)
    t.sums()
    for d in range(4):
        t.judge_at(d)
    t.store(BLOCK + 40, 1)
    t.judge_at(1)
    t.zero(1)
    t.judge_at(1)
    t.sums()
    small(t, ENTRY)
    t.clean_all('keeps the entry alone')
    t.sums()
    t.forget_all(1)
    t.bits(0)
    t.bits(1)
    t.judge(ENTRY)
    t.sums()
    t.forget_all(512, 'no number of the maps')
    t.judge(ENTRY)
    t.sums()
    t.end('blocks of a buffer')


def random_arcs(t, rng, n, tries):
    for _ in range(tries if n else 0):
        i, j = rng.randrange(n), rng.randrange(n)
        if i != j and t.mates[i] == i and t.mates[j] == j:
            mates = t.mates[:n]
            mates[i], mates[j] = j, i
            if nested(mates):
                t.arc(i, j)


def random_damage(t, rng, form):
    i = rng.randrange(BLOCK)
    t.damage(form, i, (t.image[i] + rng.randrange(1, 256)) % 256)


def random_molecules(t, rng):
    for k in range(24):
        n = rng.randrange(1, 161)
        t.new(n, n, rng.randrange(1, 99999))
        random_arcs(t, rng, n, 16)
        t.write(MOLECULE)
        t.judge(MOLECULE)
        t.holds_motif()
        t.new(1, 1, rng.randrange(1, 99999))
        t.decode(name='decoded again', form=MOTIF if k % 2 else MOLECULE)
        t.sums()
        random_damage(t, rng, MOLECULE)
        random_damage(t, rng, MOLECULE)
    t.end('random molecules')


def random_entries(t, rng):
    """One motif of twenty has no bases."""
    for k in range(24):
        n = rng.randrange(1, 121) if k % 20 != 7 else 0
        t.new(n, n, rng.randrange(1, 99999))
        random_arcs(t, rng, n, 10)
        t.maps()
        numbers = [rng.randrange(512) for _ in range(8)]
        for d in numbers:
            t.mark(d, rng.choice((1, 3)))
        if k % 2:
            t.mark(rng.randrange(512), 2)
        t.write(ENTRY)
        t.judge(ENTRY)
        t.sums()
        t.keeps(name='this motif')
        t.bits(numbers[0])
        t.bits(rng.randrange(600))
        t.forget(numbers[0])
        t.bits(numbers[0])
        t.judge(ENTRY)
        random_damage(t, rng, ENTRY)
        random_damage(t, rng, ENTRY)
        t.sums()
        t.new(max(n, 1), max(n, 1), rng.randrange(1, 99999))
        t.keeps(name='another motif')
    t.end('random entries')


def keeping(t):
    small(t, ENTRY)
    t.keeps(name='this motif')
    t.arc(0, 0)
    t.arc(2, 2)
    t.keeps(name='another bond')
    t.arc(0, 2)
    t.new(2, 3, 5)
    t.keeps(name='a base less')
    t.new(3, 2, 5)
    t.keeps(name='a mate less')
    t.new(4, 4, 5)
    t.keeps(name='a base more')
    for n in (121, 255):
        t.store(1, n)
        t.keeps(name='length over the limit')
    t.zero(0)
    t.new(0, 0, 5)
    t.keeps(name='empty block')
    t.new(1, 1, 5)
    t.keeps(name='empty block')
    t.end('the motif of an entry')


def spell(t, form, spelling):
    """These letters as the first bases of the block, with the right checksum."""
    for i, letter in enumerate(spelling):
        t.store(form.bases_at + i, ord(letter))
    t.check()


SPELLINGS = 'GTU', 'GUT', 'GUU', 'GTT', 'TTT', 'UUU'


def spelled_blocks(t):
    """02, (vi): T is a letter, in a molecule block, a motif block and an entry; a small t is none. The letter is decoded as it stands."""
    for form in FORMS:
        small(t, form)
        for spelling in (*SPELLINGS, 'GtU', 'tUG', 'UGt', 'GuT', 'GSU', 'GVT'):
            spell(t, form, spelling)
            t.judge(form, name=spelling)
            if form is MOTIF:
                t.holds_motif(name=spelling)
        for v in (84, 85, 116, 117):
            t.damage(form, form.bases_at, v)
    small(t, MOLECULE)
    for spelling, form in itertools.product(SPELLINGS, (MOLECULE, MOTIF)):
        spell(t, MOLECULE, spelling)
        t.new(1, 1, 13)
        t.decode(name=spelling, form=form)
        assert t.bases[:3].decode() == spelling
        t.sums(spelling)
    t.end('T and U in a block')


def spelled_entries(t):
    """02, (vi): an entry keeps the motif of its own letters, and not that of another spelling."""
    small(t, MOLECULE)
    for kept in SPELLINGS:
        spell(t, MOLECULE, kept)
        t.decode(name=kept)
        t.maps()
        t.mark(1, 3)
        t.write(ENTRY, name=kept)
        t.judge(ENTRY)
        t.sums()
        for spelling in SPELLINGS:
            spell(t, ENTRY, spelling)
            t.keeps(name='%s, asked for %s' % (spelling, kept))
        small(t, MOLECULE)
    t.end('T and U in an entry')


def each_byte(t, rng, form):
    """Another value in each byte of a block; in one that is not 0, 0 and the marks of both kinds too."""
    for i in range(BLOCK):
        values = {rng.randrange(1, 256)} if t.image[i] == 0 else {0, 1, 2, 3, 255}
        for v in sorted(values - {t.image[i]}):
            t.damage(form, i, v)


def no_bases_block(t, rng):
    """02, (iii): a motif block may have length 0. It is no empty block, and no block of a catalog."""
    t.new(0, 0, 5)
    t.write(MOTIF, name='checksum 1')
    assert checksum(t.image) == 1
    for form in FORMS:
        t.judge(form, name='as a block: ' + NAMES[form])
    t.holds_motif()
    t.judge_at(0, 'no block of a catalog')
    t.put(1)
    t.judge_at(1, 'no block of a catalog')
    t.sums()
    for n, form in ((ROOM, MOTIF), (ROOM, MOLECULE), (0, MOTIF), (0, MOLECULE)):
        t.decode(n, n, name='no bases', form=form)
        t.sums()
    each_byte(t, rng, MOTIF)
    t.damage(MOLECULE, 0, 0)
    t.sums()
    t.end('motif block, no bases')


def no_bases_entry(t, rng):
    """02, (iii): the motif is kept with length 0. The entry is no empty block."""
    for n, m in ((0, 1), (1, 0)):
        t.new(n, m, 5)
        t.write(ENTRY, name='lengths differ')
    t.new(0, 0, 5)
    t.maps()
    t.write(ENTRY, name='checksum 2')
    assert checksum(t.image) == 2
    for form in FORMS:
        t.judge(form, name='as a block: ' + NAMES[form])
    t.sums()
    each_byte(t, rng, ENTRY)
    t.clean_all('keeps the entry alone')
    t.sums()
    t.end('entry, no bases and maps')


def kept_numbers(t):
    """The same with numbers in its maps, which come and go; and what it keeps."""
    t.maps()
    for d, which in ((0, 1), (1, 3), (511, 3)):
        t.mark(d, which)
    t.write(ENTRY)
    t.judge(ENTRY)
    t.keeps(name='this motif')
    for i, v, name in [
        (0, 0, 'kind 0'), (0, 1, 'kind 1'), (1, 1, 'length 1'), (1, 121, 'over the limit'), (2, 1, 'first zero byte'), (19, 1, 'last zero byte'),
        (20, 65, 'first base'), (139, 65, 'last base'), (140, 1, 'first mate'), (379, 1, 'last mate'), (SEARCHED_AT, 7, 'searched, one more'),
        (SEARCHED_AT, 1, 'searched, without the hit'), (SEARCHED_AT, 0, 'searched, none'), (HITS_AT, 3, 'hit, searched too'), (HITS_AT, 6, 'hit, not searched'),
        (HITS_AT, 0, 'hit, none'), (CHECKSUM_AT - 1, 0, 'last hit'), *((CHECKSUM_AT + i, 255, 'checksum') for i in range(4)),
    ]:
        t.damage(ENTRY, i, v, name)
    for d in (1, 511, 1, 512):
        t.forget(d)
        t.bits(d)
        t.keeps(name='this motif')
        t.sums()
    t.forget_all(0)
    t.judge(ENTRY)
    t.sums()
    for n, m, name in ((1, 1, 'a base more'), (0, 1, 'a mate more'), (1, 0, 'no mates'), (120, 120, 'the longest'), (0, 0, 'this motif')):
        t.new(n, m, 5)
        t.keeps(name=name)
    t.keeps(511, 'no block')
    t.new(1, 1, 5)
    t.write(ENTRY)
    t.new(0, 0, 5)
    t.keeps(name='another motif')
    t.end('entry, no bases, numbers')


# ---- 02, (iv): soundness in one pass. A block is wrong in one stretch of those that the pass walks, in its bytes or in how they are summed.

Stretch = collections.namedtuple('Stretch', 'name start end')


def stretches(form, n):
    """The stretches of a block of n bases that have bytes."""
    names = ['byte 0', 'byte 1', 'head', 'letters', 'unused bases', 'mates', 'unused mates']
    at = [0, 1, 2, form.bases_at, form.bases_at + n, form.mates_at, form.mates_at + 2 * n, form.mates_end]
    if form is ENTRY:
        names, at = names + ['searched', 'hits'], at + [HITS_AT, CHECKSUM_AT]
    return [Stretch(name, a, b) for name, a, b in zip(names, at, at[1:]) if a < b]


def few_arcs(n):
    """One around all other bases; from 40 bases on two side by side in it, and one in the first."""
    return [(0, n - 1)] + ([(1, n // 2), (5, 9), (n // 2 + 1, n - 2)] if n >= 40 else [])


def lay(t, form, n, arcs=()):
    """A strand with these arcs, in a block. An entry has the maps as they are."""
    t.new(n, n, 300 + n, '%d bases, %d arcs' % (n, len(arcs)))
    for i, j in arcs:
        t.arc(i, j)
    t.write(form)
    t.judge(form)


def places(stretch):
    """First and last; of letters the middle too, and of mates both bytes of the first and of the last."""
    a, b = stretch.start, stretch.end - 1
    return sorted({a, b} | {'letters': {(a + b) // 2}, 'mates': {a + 1, b - 1}}.get(stretch.name, set()))


def other_bytes(t, form, n, flips):
    """One byte of each stretch is another, in one bit or in all."""
    for stretch in stretches(form, n):
        for i in places(stretch):
            t.damage(form, i, t.image[i] ^ next(flips), stretch.name)


def wrong_sums(block, form, n):
    """Sums that leave out a stretch, or count it with weights one too small or one too large. A stretch of zeros gives the right sum. Each sum stands once."""
    right, sums = checksum(block), {}
    for name, start, end in stretches(form, n):
        weighted, plain = sum((i + 1) * block[i] for i in range(start, end)), sum(block[start:end])
        for wrong, how in ((right - weighted, 'left out'), (right - plain, 'weights less'), (right + plain, 'weights more')):
            sums.setdefault(wrong, '%s, %s' % (name, how))
    return sums


def other_sums(t, form, n):
    """The block is right but for its checksum: a wrong sum, or one more or less in one byte."""
    for wrong, name in wrong_sums(t.block(0), form, n).items():
        t.off(form, wrong, name)
    for i in range(CHECKSUM_AT, BLOCK):
        for by in (1, 255):
            t.damage(form, i, (t.image[i] + by) % 256, 'checksum, off by one')


def high_bytes(t, form, n):
    """A mate's high byte is not 0, and the checksum does not count it, counts it with the low byte's weight, or counts the mate as one number."""
    without = checksum(t.image)
    for i in (form.mates_at, form.mates_at + 2 * n - 2):
        t.store(i + 1, 1)
        for more, name in ((0, 'left out'), (i + 1, 'low weight'), (256 * (i + 1), 'as a number')):
            t.off(form, without + more, 'high byte, ' + name)
        t.store(i + 1, 0)
        t.check()


# Lengths, with and without arcs. Those of the second list have wrong checksums too.
LAID = {
    MOLECULE: ([(1, 0), (2, 1), (40, 0), (159, 1), (160, 0)], [(40, 1), (160, 1)]),
    MOTIF: ([(0, 0), (2, 1), (40, 1), (159, 0)], [(160, 1)]),
    ENTRY: ([(1, 0), (2, 1), (40, 1), (119, 0), (120, 0)], [(0, 0), (120, 1)]),
}


def some_numbers(t):
    """Numbers in the first bytes of both maps, in the middle, and in the last."""
    t.maps()
    for d, which in ((0, 1), (1, 3), (300, 1), (301, 3), (510, 3), (511, 1)):
        t.mark(d, which)


def all_numbers(t, n):
    """Every number is searched and a hit: the checksum has four bytes."""
    for i in range(SEARCHED_AT, CHECKSUM_AT):
        t.store(i, 255)
    t.check()
    assert t.image[BLOCK - 1] == 1
    t.judge(ENTRY)
    other_sums(t, ENTRY, n)


def one_pass(t, form):
    """The empty block, and those of LAID."""
    flips = itertools.cycle((1, 2, 128, 255, 4))
    t.zero(0)
    other_bytes(t, form, 0, flips)
    some_numbers(t)
    for summed, laid in enumerate(LAID[form]):
        for n, with_arcs in laid:
            lay(t, form, n, few_arcs(n) if with_arcs else ())
            other_bytes(t, form, n, flips)
            if summed:
                other_sums(t, form, n)
    high_bytes(t, form, n)
    if form is ENTRY:
        all_numbers(t, n)
    t.end(NAMES[form] + ', each stretch')


def all_values(t):
    """Bytes 0 and 1 and a base have every value. A motif block differs from a molecule block in its least length alone."""
    for form in (MOLECULE, ENTRY):
        lay(t, form, 40, few_arcs(40))
        for i in (0, 1, form.bases_at + 20):
            for v in range(256):
                t.damage(form, i, v)
    lay(t, MOTIF, 1)
    for i, v in itertools.product((0, 1), (0, 1, 2, 3, 159, 160, 161, 255)):
        t.damage(MOTIF, i, v)
    t.end('all values of a byte')


def agreeing(n):
    """Mates in range that are not nested, though each has the level of its own mate: the number of arcs that are open there."""
    for mates in itertools.product(range(n), repeat=n):
        opened = [sum(mate > k for k, mate in enumerate(mates[:i])) - sum(mate < k for k, mate in enumerate(mates[:i + 1])) for i in range(n)]
        if not nested(mates) and all(opened[i] == opened[mate] for i, mate in enumerate(mates)):
            yield mates


def mates_stored(t, form, mates):
    """Low bytes of mates; the last line asks, with the checksum made right."""
    at = form.mates_at
    *before, last = [i for i, mate in enumerate(mates) if t.image[at + 2 * i] != mate] or [0]
    for i in before:
        t.store(at + 2 * i, mates[i])
    t.damage(form, at + 2 * last, mates[last])


def few_mates(t):
    """Of three bases all mates up to 3, which is none; of four those whose levels agree by chance, and those that name each base once and are not nested."""
    lay(t, MOLECULE, 3)
    for mates in itertools.product(range(4), repeat=3):
        mates_stored(t, MOLECULE, mates)
    once = [mates for mates in itertools.permutations(range(4)) if not nested(mates)]
    lay(t, ENTRY, 4)
    for mates in (*agreeing(4), *once):
        mates_stored(t, ENTRY, mates)
    t.end('mates of few bases')


def long_bonds(t):
    """Arcs in their order: where a base has two, its mate is the later, and the former names it in vain. A motif block holds as many as a molecule block."""
    for form in (MOLECULE, ENTRY):
        n = form.longest
        h = n // 2
        for name, pairs in (
            ('side by side, nested', [(0, h), (1, 2), (h + 1, n - 1), (h + 2, n - 2)]),
            ('crossing, the ends', [(0, n - 2), (1, n - 1)]), ('crossing, the middle', [(0, h), (h - 1, n - 1)]),
            ('crossing, the first', [(0, 2), (1, 3)]), ('crossing, the last', [(n - 4, n - 2), (n - 3, n - 1)]),
            ('crossing, in an arc', [(0, n - 1), (3, h), (h - 1, n - 2)]),
            ('three, each crosses', [(0, h), (20, n - 20), (40, n - 1)]), ('three, the middle crosses', [(0, 20), (10, n - 10), (h, n - 1)]),
            ('one base named twice', [(0, n - 1), (0, n - 2)]), ('the last named twice', [(0, n - 1), (1, n - 1)]),
            ('one base named three times', [(h, 3), (h, n - 1), (h, 5)]), ('named in a row', [(i, i + 1) for i in range(n - 5, n - 1)]),
        ):
            t.new(n, n, 77, name)
            for i, j in pairs:
                t.arc(i, j)
            t.write(form)
            t.judge(form)
        lay(t, form, n, few_arcs(n))
        for i, v in ((0, n), (0, n - 2), (n - 1, n), (n - 1, 1), (h, n), (3, h), (n - 1, 255)):
            t.damage(form, form.mates_at + 2 * i, v, 'the mate of base %d' % i)
    t.end('bonds of the longest')


def first(t):
    t.new(1, 1, 0, 'A, 0')
    t.write(MOLECULE, name='checksum 1888')
    assert checksum(t.image) == 1888
    t.judge(MOLECULE)
    t.sums()
    t.end('the block of A, 0')


def files():
    t, rng = Cases(), random.Random(1)
    first(t)
    empties(t)
    for form in FORMS:
        damages(t, form)
    for part in (lengths, arcs, keeping, decoders, refusals, buffers):
        part(t)
    for part in (random_molecules, random_entries, no_bases_block, no_bases_entry):
        part(t, rng)
    kept_numbers(t)
    for form in FORMS:
        one_pass(t, form)
    for part in (all_values, few_mates, long_bonds, spelled_blocks, spelled_entries):
        part(t)
    return {'crates/block_test/stdin': ''.join(t.lines), 'crates/block_test/stdout': ''.join(t.told)}
