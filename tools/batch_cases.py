"""For tests alone: the lines that batch_test reads, and what it must write. `tools/verify-cases` writes the files.

The answers of the cases are written here by hand, from 02, (v): the refusals in their order; counts and searched numbers of the single queries, one
after the other, with (vi) for two spellings of a motif; the number read as that of a union. Those of random calls come from the reference model of
`Random`, which runs a batch as its queries. `lakhido_model.batch` must give the same answers, and says what bytes and hits a batch leaves.
"""
import functools

import catalog_lines
import lakhido_model
from catalog_lines import (BANK, CACHE, DIGITS, MODEL, MOTIFS, OF_BATCHES, OF_BYTES, OF_CALLS, UNTOUCHED, Random, World, begin, below, buffers, files_of,
                           hairpins, length_of, line, motif_of, nested, put_line, remark, set_byte, strand_in)
from lakhido_model import BLOCK, HITS_AT, LONGEST_MOLECULE, MOLECULE, MOST_BLOCKS, MOST_MOTIFS, NO_BASES, SEARCHED_AT, Batched, encode, key, work_size
from testing_crate import after, folded, found, refused, total, two

ROOM = (MOST_MOTIFS + 1) * MOST_BLOCKS  # entries of the hits in the test program
group = functools.partial(catalog_lines.group, told=OF_CALLS + OF_BATCHES + OF_BYTES)

# The motifs of the bank in cases by hand, by their digit. Keys: 0, 65, 139, 139, 206, 282, 576, 14940; 156, 157, 170, 170, 150, 151 from `g` on, of which
# each two differ in spelling alone. `x` is for what is no motif, and `y` stays empty.
BY_HAND = {
    '0': ('', ''), '1': ('A', '0'), '2': ('GC', '10'), '3': ('GC', '01'), '4': ('AGC', '021'), '5': ('GGCC', '3210'), '6': ('AAUUUUU', '0123456'),
    '7': ('A', '-120'), '8': ('A', '-121'), '9': ('A', '-160'),
    'g': ('GT', '10'), 'h': ('GU', '10'), 'i': ('TU', '10'), 'j': ('UT', '10'), 'k': ('AT', '-2'), 'l': ('AU', '-2'),
}
assert [key(*strand_in(*motif)) for motif in BY_HAND.values()][:8] == [0, 65, 139, 139, 206, 282, 576, 14940]
assert [key(*strand_in(*BY_HAND[digit])) for digit in 'ghijkl'] == [156, 157, 170, 170, 150, 151]


def no(row, side, place=0):
    """A refused batch."""
    return Batched((row, side, place), 0, [], [])


def yes(read, counts, searched):
    """An accepted batch: the number read, and for each motif the count of its hits and how many molecules its query searched."""
    assert len(counts) == len(searched)
    return Batched(None, read, counts, searched)


def sixteen(numbers):
    return numbers + [0] * (MOST_MOTIFS - len(numbers))


def at(digit):
    """Where a motif block of the bank begins."""
    return BANK + BLOCK * DIGITS.index(digit)


class Batches(World):
    """Calls and batches with so many catalog and cache blocks."""

    def __init__(self, b, s, bank=BY_HAND):
        super().__init__(b, s)
        for digit, motif in bank.items():
            self.put(digit, *motif)

    def put(self, digit, bases, mates):
        """Writes a block of the bank."""
        self.put_block(at(digit) // BLOCK, bases, mates)

    def put_block(self, b, bases, mates):
        """Writes a block of the buffer, without a call."""
        line('P', b, bases=bases, mates=mates)
        MODEL.put(b, encode(MOLECULE, *strand_in(bases, mates)))

    def batch(self, digits, told, note='', size=None, work=None, hits=None, cat=None, cache=None):
        """A batch of blocks of the bank, in a motif buffer of `size` bytes."""
        remark(note)
        blocks = [MODEL.bytes[at(digit):at(digit) + BLOCK] for digit in digits]
        size = BLOCK * len(digits) if size is None else size
        motifs = b''.join(blocks)[:size]
        assert len(motifs) == size
        work = work_size(min(LONGEST_MOLECULE, max(block[1] for block in blocks))) if work is None else work
        list = [UNTOUCHED] * (len(digits) * self.b if hits is None else hits)
        cat, cache = self.cat if cat is None else cat, self.cache if cache is None else cache
        got = MODEL.lent(cat, cache, lambda *lent: lakhido_model.batch(*lent, motifs, work, list))
        assert got == told, (got, told, note)
        answer = refused(*told.refusal) if told.refusal else two(len(digits), told.read)
        catalog_lines.count('M', answer)
        numbers = total(sixteen(told.counts) + sixteen(told.searched), told.read)
        put_line('M', size, cat, cache, work, 0, answer, '%-17s %05d %010d' % (digits, len(list), numbers), MODEL.sum(cat, cache),
                 total(list + [UNTOUCHED] * (ROOM - len(list))))


def three(slots):
    """Three molecules: A embeds in 0 and 1, GC with its bond in all, GC without in 2, AGC with a bond in 1, GGCC with two in 2."""
    w = Batches(3, slots)
    w.add(0, 'GAC', '210', folded(1, 1))
    w.add(1, 'AGAC', '0321', folded(1, 1))
    w.add(2, 'GGCC', '3210', folded(2, 2))
    return w


# ---- refusals

def one_held():
    """Two blocks and one slot; 0 is held, and the cache has an entry of A."""
    w = Batches(2, 1)
    w.add(0, 'A', '0', folded(0, 0))
    w.query('A', '0', found(1, 1), 'an entry in the cache')
    return w


def still_there(w):
    w.batch('1', yes(0, [1], [0]), 'the entry is still there')


def sizes():
    """Motif buffers that are not 1 to 16 whole blocks."""
    w = one_held()
    for size in (0, 1, 511, 513, 1023, 1025, 8191):
        w.batch('1' * (1 + size // BLOCK), no(15, 0), 'a motif buffer of %d bytes' % size, size=size)
    for size in (8193, 8703, 8704):
        w.batch('1' * 17, no(15, 0), 'a motif buffer of %d bytes' % size, size=size)
    w.batch('1', no(15, 0), 'no motifs, no hits and no work', size=0, hits=0, work=0)
    still_there(w)
    for count in range(1, 17):
        w.batch('1' * count, yes(0, [1] * count, [0] * count), '%d blocks' % count)
    group('sizes of the motif buffer')


# What makes the block of GGCC with two bonds unsound, with the right checksum.
UNSOUND = ((0, 0, 'kind 0'), (0, 2, 'kind 2'), (0, 9, 'kind 9'), (1, 0, 'no bases'), (1, 3, '3 bases'), (1, 161, '161 bases'), (1, 255, '255 bases'),
           (2, 1, 'byte 2'), (27, 1, 'byte 27'), (28, 88, 'no letter'), (30, 116, 'a small t'), (31, 99, 'a small letter'), (32, 65, 'base 4'),
           (187, 1, 'base 159'), (188, 9, 'a mate too large'), (189, 1, 'a mate too large'), (188, 1, 'not mutual'), (188, 2, 'not mutual'),
           (196, 1, 'mate 4'), (507, 1, 'byte 507'))


def bad_blocks():
    """Blocks that are unsound or empty, at several places: the lowest is named."""
    w = one_held()
    for i, v, note in UNSOUND:
        w.put('x', *BY_HAND['5'])
        set_byte('U', at('x') + i, v, note)
        w.batch('x', no(15, 0, 0), note)
        w.batch('12x3', no(15, 0, 2), note)
    for i, v in ((508, 0), (509, 0), (510, 1), (511, 1)):
        w.put('x', *BY_HAND['5'])
        set_byte('S', at('x') + i, v, 'checksum')
        w.batch('x', no(15, 0, 0))
        w.batch('12x3', no(15, 0, 2))
    for i, v in ((0, 0), (0, 2), (1, 1), (28, 65), (508, 0), (508, 2), (511, 1)):
        w.put('x', '', '')
        set_byte('S', at('x') + i, v, 'a motif with no bases, another byte')
        w.batch('x', no(15, 0, 0))
        w.batch('0x', no(15, 0, 1))
    w.put('x', 'AXC', '012')
    for bad in 'xy':
        for t in range(16):
            w.batch('1' * t + bad + '1' * (15 - t), no(15, 0, t), 'at %d' % t)
        for t in range(16):
            w.batch('1' * t + bad, no(15, 0, t), 'the last of %d' % (t + 1))
    for digits, place in (('xx', 0), ('yy', 0), ('xy', 0), ('yx', 0), ('1xy', 1), ('1yx', 1), ('1' * 14 + 'yx', 14), ('y' * 16, 0), ('0y', 1), ('2x3y', 1)):
        w.batch(digits, no(15, 0, place), 'the lowest')
    still_there(w)
    group('blocks that are no motifs')


def long_blocks():
    """Motifs of 121 to 160 bases, at several places: the lowest is named."""
    w = one_held()
    for n in range(121, 161):
        w.put('x', 'ACGUT', '%s%d' % ('-='[n % 2], n))
        t = n % 16
        w.batch('x', no(3, 0, 0), '%d bases' % n)
        w.batch('7' * t + 'x' + '1' * (15 - t), no(3, 0, t), '%d bases at %d' % (n, t))
    for digits, place in (('18', 1), ('89', 0), ('1298', 2), ('0989', 1), ('1' * 15 + '9', 15), ('9' * 16, 0), ('78', 1)):
        w.batch(digits, no(3, 0, place), 'the lowest')
    still_there(w)
    w.batch('7', yes(1, [0], [1]), '120 bases')
    group('motifs that are too long')


def short_slices():
    """Hits and work that are an entry short, or more; the longest motif at several places."""
    w = one_held()
    for digits, hits in (('1', 1), ('1', 0), ('0', 1), ('12', 3), ('12', 2), ('12', 0), ('123', 5), ('1' * 16, 31), ('1' * 16, 2), ('7', 1)):
        w.batch(digits, no(9, 2), 'row 9, %d for %d' % (hits, 2 * len(digits)), hits=hits)
    for digits, work in (('1', 1407), ('1', 0), ('0', 1343), ('0', 0), ('00', 1343), ('01', 1407), ('10', 1407), ('512', 1599), ('152', 1599), ('125', 1599),
                         ('1250', 1599), ('7', 9023), ('17', 9023), ('71', 9023), ('1' * 15 + '7', 9023), ('17' + '1' * 14, 9023), ('12', 1407), ('21', 1407)):
        w.batch(digits, no(8, 2), 'row 8, %d entries' % work, work=work)
    still_there(w)
    w.batch('01', yes(1, [1, 1], [1, 1]), 'enough', work=1408)
    w.batch('125', yes(1, [1, 0, 0], [0, 1, 1]), 'enough', work=1600)
    w.batch('152', yes(1, [1, 0, 0], [1, 1, 1]), 'enough', work=1600)
    w.batch('512', yes(1, [0, 1, 0], [1, 1, 1]), 'enough', work=1600)
    w.batch('17', yes(1, [1, 0], [1, 1]), 'enough', work=9024)
    w.batch('17', yes(1, [1, 0], [1, 1]), 'more work', work=12000)
    w.batch('1', yes(1, [1], [1]), 'more hits', hits=3)
    w.batch('1' * 16, yes(0, [1] * 16, [0] * 16), 'more hits', hits=33)
    w.batch('0', yes(1, [1], [1]), 'the least of both', work=1344, hits=2)
    group('hits and work')


# What is wrong with a batch of four motifs, in the order of the refusals: lengths, other motifs at some index, a byte of block 1 of the catalog.
FAULTS = (
    (no(10, 2), dict(cache=513)), (no(10, 2), dict(cat=1025)), (no(11, 2, 1), dict(byte=9)), (no(15, 0), dict(size=3 * BLOCK + 1)),
    (no(15, 0, 1), dict(at1='y')), (no(15, 0, 2), dict(at2='x')), (no(3, 0, 0), dict(at0='8')), (no(3, 0, 3), dict(at3='9')),
    (no(9, 2), dict(hits=7)), (no(8, 2), dict(work=1599)),
)


def faulty(w, faults, note):
    """A batch with some of the faults: the first of them is told."""
    case = dict(work=1600, hits=8)
    for _, fault in faults:
        case.update(fault)
    digits = ''.join(case.pop('at%d' % t, digit) for t, digit in enumerate('1251'))
    byte = case.pop('byte', 0)
    if byte:
        set_byte('S', BLOCK, byte, 'block 1 of the catalog is unsound')
    w.batch(digits, faults[0][0], note, **case)
    if byte:
        set_byte('S', BLOCK, 0)


def pairs():
    """Each refusal alone, each before each that comes later, all of them, and one after the other put right."""
    w = one_held()
    w.put('x', 'AXC', '012')
    buffers(lambda _, note, **lens: w.batch('12', no(10, 2), note, **lens))
    for i, fault in enumerate(FAULTS):
        faulty(w, [fault], 'fault %d' % i)
        for j in range(i + 1, len(FAULTS)):
            faulty(w, [fault, FAULTS[j]], 'faults %d and %d' % (i, j))
    for i in range(len(FAULTS)):
        faulty(w, FAULTS[i:], 'faults from %d on' % i)
    for digits, told in (('8x', no(15, 0, 1)), ('x8', no(15, 0, 0)), ('88y', no(15, 0, 2)), ('8' * 15 + 'y', no(15, 0, 15)), ('1' * 15 + '8', no(3, 0, 15))):
        w.batch(digits, told, 'rows 15 and 3', hits=0, work=0)
    w.batch('8x', no(15, 0), 'size first', size=513)
    w.batch('1x2' + '1' * 14, no(15, 0), 'size first')
    still_there(w)
    set_byte('S', BLOCK, 9, 'block 1 is unsound')
    set_byte('S', 0, 2, 'block 0 too')
    w.batch('1', no(11, 2, 0), 'the lowest')
    w.batch('y', no(11, 2, 0), 'rows 11 and 15', hits=0, work=0)
    group('rows of batch, alone and in pairs')


# ---- slots

def story():
    """The story of document 01, as batches."""
    w = hairpins(1, Batches)
    w.batch('2232', yes(2, [2, 2, 1, 2], [2, 0, 2, 2]))
    w.batch('2232', yes(2, [2, 2, 1, 2], [0, 0, 2, 2]), 'the last is in its slot')
    w.remove(0)
    w.batch('2', yes(0, [1], [0]))
    w.batch('232', yes(1, [1, 1, 1], [0, 1, 1]))
    w.query('GC', '10', found(1, 0), 'a single query')
    w.query('GC', '01', found(1, 1))
    w.batch('32', yes(1, [1, 1], [0, 1]), 'after a single query')
    w.remove(1)
    w.batch('3210', yes(0, [0, 0, 0, 0], [0, 0, 0, 0]), 'nothing is held')
    w.batch('0', yes(0, [0], [0]))
    group('story of document 01 in batches')


def one_slot():
    w = three(1)
    w.batch('12345021', yes(3, [2, 3, 1, 1, 1, 3, 3, 2], [3] * 8), 'each replaces the one before')
    w.batch('11', yes(0, [2, 2], [0, 0]), 'the last of the batch before')
    w.batch('1211', yes(3, [2, 3, 2, 2], [0, 3, 3, 0]), 'another between')
    w.batch('0' * 16, yes(3, [3] * 16, [3] + [0] * 15), 'sixteen times the same')
    w.batch('01' * 8, yes(3, [3, 2] * 8, [0] + [3] * 15), 'in turn')
    w.remove(1)
    w.batch('11', yes(0, [1, 1], [0, 0]), 'one less')
    w.add(1, 'A', '0', folded(0, 0))
    w.batch('112', yes(3, [2, 2, 2], [1, 0, 3]), 'the number used again')
    w.query('GC', '10', found(2, 0))
    w.batch('32', yes(3, [1, 2], [3, 3]), 'an equal key is another motif')
    w.batch('7', yes(3, [0], [3]), '120 bases')
    w.batch('77', yes(0, [0, 0], [0, 0]))
    group('one slot for all')


def two_slots():
    """Slot 1 of 2 has A and the two of GC, slot 0 the others."""
    w = three(2)
    w.batch('212', yes(3, [3, 2, 3], [3, 3, 3]), 'another of its slot between')
    w.batch('24052', yes(3, [3, 1, 3, 1, 3], [0, 3, 3, 3, 0]), 'others of the other slot between')
    w.batch('2453', yes(3, [3, 1, 1, 1], [0, 3, 3, 3]))
    w.batch('5353', yes(0, [1, 1, 1, 1], [0, 0, 0, 0]), 'both slots know')
    w.batch('53053', yes(3, [1, 1, 3, 1, 1], [0, 0, 3, 3, 0]))
    w.query('GC', '01', found(1, 0), 'a single query after the batch')
    w.query('GGCC', '3210', found(1, 0))
    w.query('', '', found(3, 3))
    w.batch('50', yes(3, [1, 3], [3, 3]))
    w.batch('03', yes(0, [3, 1], [0, 0]))
    w.remove(2)
    w.batch('0350', yes(2, [2, 0, 0, 2], [0, 0, 2, 2]))
    w.add(2, 'GGCC', '3210', folded(2, 2))
    w.batch('0305', yes(3, [3, 1, 3, 1], [1, 1, 0, 3]), 'one is new')
    group('two slots')


def no_bases(slots):
    """A motif with no bases in slot 0: its hits are all that are held. Of 1, 2, 3 and 64 slots, motif 6 is there too; motif 2 is elsewhere but for one slot."""
    w = three(slots)
    w.batch('0', yes(3, [3], [3]))
    w.batch('00', yes(0, [3, 3], [0, 0]), 'again')
    w.batch('060', yes(3, [3, 0, 3], [0, 3, 3]), 'another motif of slot 0')
    w.batch('020', yes(3, [3] * 3, [0, 3, 3 if slots == 1 else 0]), 'another slot')
    w.batch('20', yes(3 if slots == 1 else 0, [3, 3], [3, 3] if slots == 1 else [0, 0]))
    set_byte('S', CACHE, 1, 'byte 0 of a molecule')
    w.batch('0', yes(3, [3], [3]), 'all is searched again')
    set_byte('S', CACHE, 0, 'byte 0 as in an empty block')
    w.batch('00', yes(3, [3, 3], [3, 0]), 'all is searched again, once')
    for d, n in ((1, 2), (0, 1), (2, 0)):
        w.remove(d)
        w.batch('00', yes(0, [n, n], [0, 0]), 'one less')
    w.query('', '', found(0, 0))
    group('motifs with no bases, %d slot%s' % (slots, 's' if slots > 1 else ''))


def spelled(slots):
    """02, (vi): T and U match each other, and two spellings of a motif are two entries. Slots: of 1 one for all; of 2 and 3 GT and GU have their own, as AT
    and AU, while TU and UT share one; of 64 the same."""
    w = Batches(5, slots)
    for d, (bases, mates, arcs, depth) in enumerate((('GAT', '210', 1, 1), ('GAU', '210', 1, 1), ('TTUU', '3210', 2, 2), ('AUAT', '0123', 0, 0))):
        w.add(d, bases, mates, folded(arcs, depth))
    four = 4 if slots == 1 else 0
    w.batch('gh', yes(4, [2, 2], [4, 4]), 'both spellings search')
    w.batch('hg', yes(four, [2, 2], [0, four]), 'the last is in its slot')
    w.batch('ghgh', yes(four, [2] * 4, [0] + [four] * 3))
    w.batch('ij', yes(4, [1, 1], [4, 4]), 'one key, and two motifs')
    w.batch('jij', yes(4, [1] * 3, [0, 4, 4]))
    w.batch('kl', yes(4, [3, 3], [4, 4]))
    w.batch('lk', yes(four, [3, 3], [0, four]))
    w.query('AU', '01', found(3, four), 'a single query')
    w.query('AT', '01', found(3, four))
    w.remove(0)
    w.batch('kl', yes(3 if slots == 1 else 0, [2, 2], [0, 3 if slots == 1 else 0]), 'one less')
    w.add(4, 'GCT', '210', folded(1, 1))
    w.batch('gh', yes(4 if slots < 64 else 1, [2, 2], [4, 4] if slots < 64 else [1, 1]), 'the new one is searched')
    w.put('x', 'GtU', '012')
    w.batch('gx', no(15, 0, 1), 'a small t')
    w.batch('hg', yes(four, [2, 2], [0, four]), 'a refused batch between')
    group('T and U in batches, %d slot%s' % (slots, 's' if slots > 1 else ''))


# ---- the number read

def union():
    """Each motif has a slot of its own: 1, 11, 14, 0, 26 of 64. What their queries search overlaps, is in another, or has nothing in common."""
    w = Batches(8, 64)
    w.add(3, 'GAC', '210', folded(1, 1))
    w.query('A', '0', found(1, 1))
    w.add(0, 'AGAC', '0321', folded(1, 1))
    w.query('GC', '10', found(2, 2))
    w.add(7, 'GGCC', '3210', folded(2, 2))
    w.query('AGC', '021', found(1, 3))
    w.add(4, 'U', '0', folded(0, 0))
    w.batch('124', yes(3, [2, 3, 1], [3, 2, 1]), 'each in the one before')
    w.batch('421', yes(0, [1, 3, 2], [0, 0, 0]))
    w.batch('4050', yes(4, [1, 4, 1, 4], [0, 4, 4, 0]))
    for digit, searched, hits in (('1', 0b00001001, 0b00001001), ('2', 0b10010000, 0b10000000)):
        block = CACHE + BLOCK * (key(*strand_in(*BY_HAND[digit])) % 64)
        set_byte('F', block + HITS_AT, hits)
        set_byte('F', block + SEARCHED_AT, searched)
    w.batch('12', yes(4, [2, 3], [2, 2]), 'two and two others')
    set_byte('F', CACHE + BLOCK + HITS_AT, 0b00001000)
    set_byte('F', CACHE + BLOCK + SEARCHED_AT, 0b00001000, '0, 4 and 7 are to be searched')
    set_byte('F', CACHE + BLOCK * 11 + HITS_AT, 0b00000001)
    set_byte('F', CACHE + BLOCK * 11 + SEARCHED_AT, 0b00010001, '3 and 7 are to be searched')
    w.batch('1212', yes(4, [2, 3, 2, 3], [3, 2, 0, 0]), 'three and two, one of them in both')
    w.remove(7)
    w.add(7, 'A', '0', folded(0, 0))
    w.batch('4', yes(1, [1], [1]))
    w.batch('124', yes(1, [3, 2, 1], [1, 1, 0]), 'the same one twice')
    group('the number read')


def alone():
    """Batches of one motif: as queries, the number read being the searched number."""
    w = three(2)
    for digit, count, searched in (('2', 3, 3), ('2', 3, 0), ('3', 1, 3), ('0', 3, 3), ('3', 1, 0), ('2', 3, 3), ('0', 3, 0)):
        w.batch(digit, yes(searched, [count], [searched]))
    w.remove(0)
    w.batch('2', yes(0, [2], [0]))
    w.add(0, 'GC', '10', folded(1, 1))
    w.batch('2', yes(1, [3], [1]))
    w.batch('0', yes(1, [3], [1]))
    w.query('', '', found(3, 0))
    w.query('A', '0', found(1, 3))
    w.batch('1', yes(0, [1], [0]))
    group('batches of one motif')


def marks():
    """Hits longer than the lists: what lies between them and behind them stays."""
    for slots in (1, 5):
        w = three(slots)
        again = [3, 3, 3, 3] if slots == 1 else [0, 3, 3, 0]
        for more, searched in ((0, [3, 3, 3, 3]), (1, again), (2, again), (3, again), (100, again), (ROOM - 12, again)):
            w.batch('1235', yes(3, [2, 3, 1, 1], searched), 'hits and %d more' % more, hits=12 + more)
    group('entries between and behind the lists')


# ---- the cache before a batch

# A byte of each region of the entry of GC with its bond.
ALTERED = ((0, 0, 'kind'), (0, 3, 'kind'), (1, 3, 'length'), (2, 1, 'zeros'), (19, 1, 'zeros'), (20, 67, 'first base'), (22, 65, 'unused base'),
           (139, 1, 'unused base'), (140, 0, 'first mate'), (141, 1, 'first mate'), (144, 2, 'unused mate'), (379, 1, 'unused mate'), (380, 1, 'searched'),
           (443, 1, 'searched'), (444, 0, 'hits'), (507, 1, 'hits'), (508, 0, 'checksum'), (511, 1, 'checksum'))
REFUSED = (('y', no(15, 0), {}), ('2', no(15, 0), dict(size=511)), ('28', no(3, 0, 1), {}), ('2', no(9, 2), dict(hits=1)), ('2', no(8, 2), dict(work=0)),
           ('2', no(10, 2), dict(cat=1)))


def altered():
    """A byte of the entry in slot 1: it is lost, and nothing else. Slot 0 has AGC, which is no hit. A refused batch leaves the altered block."""
    for i, v, note in ALTERED:
        w = hairpins(2, Batches)
        w.batch('42', yes(2, [0, 2], [2, 2]))
        set_byte('S', CACHE + BLOCK + i, v, note)
        for digits, told, lens in REFUSED:
            w.batch(digits, told, **lens)
        w.batch('4242', yes(2, [0, 2, 0, 2], [0, 2, 0, 0]), 'all is searched again, once')
        set_byte('S', CACHE + BLOCK + i, v, note)
        w.batch('44', yes(0, [0, 0], [0, 0]), 'a batch of the other slot empties the block')
        w.batch('242', yes(2, [2, 0, 2], [2, 0, 0]))
        set_byte('S', CACHE + BLOCK + i, v, note)
        w.batch('32', yes(2, [1, 2], [2, 2]), 'another motif of the slot first')
    group('one byte altered before a batch')


def damaged():
    """All slots altered, entries that break a rule though their checksum is right, bytes that were never an entry."""
    w = three(4)
    w.batch('0123456', yes(3, [3, 2, 3, 1, 1, 1, 0], [3] * 7), 'slots 0, 1, 3, 3, 2, 2, 0')
    for k in range(4):
        set_byte('S', CACHE + BLOCK * k + 100 * k, 77)
    for digits, told, lens in REFUSED:
        w.batch(digits, told, **lens)
    w.batch('6531', yes(3, [0, 1, 1, 2], [3] * 4), 'all are emptied')
    w.batch('1356', yes(0, [2, 1, 1, 0], [0] * 4))
    for i, v, note in ((0, 1, 'kind 1'), (1, 121, '121 bases'), (20, 88, 'no letter'), (140, 2, 'mate too large'), (444, 7, 'a hit that was not searched')):
        w = hairpins(1, Batches)
        w.batch('2', yes(2, [2], [2]))
        set_byte('U', CACHE + i, v, note)
        w.batch('y', no(15, 0))
        w.batch('22', yes(2, [2, 2], [2, 0]), 'all is searched again, once')
    w = hairpins(64, Batches)
    for k in range(0, 64, 3):
        set_byte('S', CACHE + BLOCK * k + 7 * k, k + 1)
    w.batch('2', no(9, 2), hits=0)
    w.batch('8', no(3, 0))
    w.batch('2342', yes(2, [2, 1, 0, 2], [2] * 4), 'each block is emptied')
    w.batch('42', yes(0, [0, 2], [0, 0]))
    group('damaged caches before a batch')


def foreign():
    """Entries that are sound and yet not what these calls wrote: held numbers are trusted, others ignored, until another motif takes the slot."""
    w = hairpins(1, Batches)
    w.batch('2', yes(2, [2], [2]))
    set_byte('F', CACHE + HITS_AT, 0, 'no hits')
    w.batch('22', yes(0, [0, 0], [0, 0]), 'the entry is trusted')
    w.batch('232', yes(2, [0, 1, 2], [0, 2, 2]), 'until it is replaced')
    set_byte('F', CACHE + HITS_AT, 0)
    set_byte('F', CACHE + SEARCHED_AT, 2, '0 was not searched, 1 is no hit')
    w.batch('22', yes(1, [1, 1], [1, 0]), '0 is searched')
    set_byte('F', CACHE + SEARCHED_AT, 255, 'searched numbers 2 to 7')
    set_byte('F', CACHE + HITS_AT - 1, 128, 'and number 511')
    set_byte('F', CACHE + HITS_AT, 254, 'hits 1 to 7')
    w.batch('222', yes(0, [1, 1, 1], [0, 0, 0]), 'numbers that are not held are left out')
    w.query('GC', '10', found(1, 0))
    group('foreign entries before a batch')


# ---- long motifs, large buffers

def long_motifs():
    w = Batches(3, 1)
    w.put('a', 'A', '=120')
    w.put('b', 'A', '=119')
    w.put('c', 'A', '-119')
    w.add(0, 'A', '=160', folded(80, 80), '80 arcs, each in the one before')
    w.add(1, 'A', '-120', folded(0, 0))
    w.add(2, 'A', '-119', folded(0, 0))
    w.batch('a7bc', yes(3, [1, 1, 1, 2], [3] * 4), '60 arcs; none; 59 around a base; none')
    w.batch('ca', yes(3, [2, 1], [0, 3]))
    w.batch('a9', no(3, 0, 1))
    w.batch('1a0', yes(3, [3, 1, 3], [3] * 3))
    w.batch('ab', no(8, 2), work=9023)
    w.batch('bc', yes(3, [1, 2], [3, 3]), '119 bases', work=8960)
    group('long motifs')


SIXTEEN = '0123475201234752'


def largest():
    """B = 512, S = 64, K = 16. Slots: 0, 1, 11, 11, 14, 28, 26, 11 and again."""
    w = Batches(512, 64)
    for d in range(511):
        w.put_block(d, 'GAC', '210')
    w.add(511, 'GAC', '210', folded(1, 1))
    counts = [512, 512, 512, 0, 0, 0, 0, 512] * 2
    w.batch(SIXTEEN, no(9, 2), hits=8191)
    w.batch(SIXTEEN, no(8, 2), work=9023)
    w.batch(SIXTEEN, yes(512, counts, [512] * 8 + [0, 0, 0, 512, 0, 0, 0, 512]))
    w.batch(SIXTEEN, yes(512, counts, [0, 0, 0, 512, 0, 0, 0, 512] * 2), 'more hits', hits=ROOM)
    w.remove(511)
    w.batch('0124752', yes(0, [511, 511, 511, 0, 0, 0, 511], [0] * 7))
    w.add(511, 'A', '0', folded(0, 0))
    w.batch('10247521', yes(1, [512, 512, 511, 0, 0, 0, 511, 512], [1, 1, 1, 1, 1, 1, 0, 0]))
    set_byte('S', CACHE + BLOCK * 11 + 400, 1)
    w.batch('10247521', yes(512, [512, 512, 511, 0, 0, 0, 511, 512], [0, 0, 512, 0, 0, 0, 0, 0]))
    w.batch('1' * 15 + 'y', no(15, 0, 15))
    w.batch('1' * 15 + '9', no(3, 0, 15))
    set_byte('S', BLOCK * 511, 9)
    w.batch('1', no(11, 2, 511))
    group('512 molecules, 64 slots, 16 motifs')


def sparse():
    """512 blocks of which five are held, in one slot and in 64."""
    for slots in (1, 64):
        w = Batches(512, slots)
        for d in (0, 7, 8, 255, 511):
            w.add(d, *(('GAC', '210', folded(1, 1)) if d % 2 else ('AA', '01', folded(0, 0))))
        searched = [5] * 16 if slots == 1 else [5] * 8 + [0, 0, 0, 5, 0, 0, 0, 5]
        w.batch(SIXTEEN, yes(5, [5, 5, 3, 0, 0, 0, 0, 3] * 2, searched))
        w.batch('2', yes(0, [3], [0]))
        w.batch('21', yes(5 if slots == 1 else 0, [3, 5], [0, 5 if slots == 1 else 0]), hits=ROOM)
    group('512 blocks, five of them held')


# ---- histories

class History(Random, Batches):
    """Random calls with batches. The bank has the motifs of the seed that queries draw from, one with no bases, one of 120, one that is too long, one that is
    unsound, and an empty block."""

    turns = 'AAAARRQQQMMMMMSS'
    NONE, LONGEST, LONG, UNSOUND, EMPTY = 'cdefy'

    def __init__(self, b, s, first):
        Random.__init__(self, b, s)
        self.first, self.motifs = first, {self.NONE: NO_BASES, self.LONGEST: ('GC' * 60, list(range(120)))}
        for k in range(MOTIFS):
            _, letters, mates = motif_of(first, k)
            self.motifs[DIGITS[k]] = ''.join(letters), mates
            self.put(DIGITS[k], ''.join(letters), ''.join(map(str, mates)))
        self.put(self.NONE, '', '')
        self.put(self.LONGEST, 'GC', '-120')
        self.put(self.LONG, 'GC', '-%d' % (121 + first % 40))
        self.put(self.UNSOUND, 'GC', '11')

    def fill(self):
        """A random molecule in each block, without calls."""
        x = self.first
        for d in range(self.b):
            x = after(x)
            letters, mates = nested(x, length_of(x, 12))
            self.held[d] = ''.join(letters), mates
            self.put_block(d, ''.join(letters), ''.join(map(DIGITS.__getitem__, mates)))

    def told(self, digits, whole, work, hits):
        """What the reference model answers where catalog and cache are whole blocks: it runs the queries in their order."""
        if not whole:
            return no(15, 0)
        for t, digit in enumerate(digits):
            if digit in (self.UNSOUND, self.EMPTY):
                return no(15, 0, t)
        if self.LONG in digits:
            return no(3, 0, digits.index(self.LONG))
        if hits < len(digits) * self.b:
            return no(9, 2)
        if work < work_size(max(len(self.motifs[digit][0]) for digit in digits)):
            return no(8, 2)
        self.tidy()
        counts, searched, read = [], [], set()
        for digit in digits:
            hit, fresh = self.search(*self.motifs[digit])
            counts.append(len(hit))
            searched.append(len(fresh))
            read |= fresh
        return yes(len(read), counts, searched)

    def digits(self, how, x):
        """1 to 16 motifs, most often few and of few kinds; for some `how` one of the others among them."""
        y = after(x)
        count = 1 + below(y, 4, 16 if below(y, 1, 4) == 0 else 5)
        kinds = 1 + below(y, 64, MOTIFS)
        digits = ''
        for _ in range(count):
            x = after(x)
            digits += DIGITS[below(x, 32, kinds)]
        other = {0: self.UNSOUND, 1: self.EMPTY, 2: self.LONG, 3: self.LONGEST, 4: self.NONE, 5: self.NONE, 6: self.NONE}.get(how)
        t = below(y, 1024, count)
        return digits[:t] + other + digits[t + 1:] if other else digits

    def turn(self, kind, how, d, first, x):
        if kind != 'M':
            return super().turn(kind, how, d, first, x)
        digits = self.digits(how, x)
        longest = max(MODEL.bytes[at(digit) + 1] for digit in digits)
        size, work, hits = BLOCK * len(digits), work_size(longest), len(digits) * self.b
        size, work, hits = size - 1 if how == 7 else size, work - 1 if how == 8 else work, hits - 1 if how == 9 else hits + how
        cat, cache = self.cat + 1 if how == 10 else self.cat, self.cache - 1 if how == 11 else self.cache
        told = no(10, 2) if how in (10, 11) else self.told(digits, how != 7, work, hits)
        self.batch(digits, told, size=size, work=work, hits=hits, cat=cat, cache=cache)


def histories():
    for b, s, seed in ((1, 1, 12), (2, 1, 23), (3, 1, 34), (3, 2, 45), (4, 3, 56), (8, 3, 67), (9, 5, 78), (17, 2, 89), (33, 64, 91), (12, 8, 98)):
        w = History(b, s, seed * 1000 + 7)
        w.random('H', w.first, 400)
        group('history of %d blocks and %d slots' % (b, s))


def random_molecules():
    w = History(512, 64, 4711)
    w.fill()
    w.random('H', w.first, 100)
    group('512 random molecules, 64 slots')


def files():
    begin()
    for part in (sizes, bad_blocks, long_blocks, short_slices, pairs, story, one_slot, two_slots, union, alone, marks, altered, damaged, foreign, long_motifs):
        part()
    for slots in (1, 2, 3, 64):
        no_bases(slots)
        spelled(slots)
    for part in (histories, sparse, largest, random_molecules):
        part()
    return files_of('batch_test')
