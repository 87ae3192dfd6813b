"""For tests alone: the lines that screening_test reads, and what it must write, by screen_reference.py; and the shipped examples, from their
dot-bracket texts. `tools/verify-cases` writes the files. What a line means is said in crates/screening_test/src/main.rt.
"""
import os
import random

from dotbracket import block_of, motif_and_catalog, read_text
from lakhido_model import BLOCK, MOST_SCREENED, few_letters, random_motif, random_strand, spellings
from screen_reference import output

MOST = (1 + MOST_SCREENED) * BLOCK
EXAMPLES = os.path.join(os.path.dirname(os.path.abspath(__file__)), '..', 'examples')


class Cases:
    """The lines so far, what they must give, and the bytes that they make."""

    def __init__(self):
        self.lines, self.told, self.image = [], [], bytearray(MOST + 1)

    def line(self, letter, a, b=0):
        self.lines.append('%s %05d %05d\n' % (letter, a, b))

    def same_bases(self, d, n):
        """n times A without bonds in block d."""
        self.line('B', d, n)
        self.image[BLOCK * d:BLOCK * (d + 1)] = block_of('A' * n, list(range(n)))

    def empty(self, d):
        self.line('Z', d)
        self.image[BLOCK * d:BLOCK * (d + 1)] = bytes(BLOCK)

    def byte(self, i, value):
        self.line('S', i, value)
        self.image[i] = value

    def block(self, d, block):
        """Block d byte by byte."""
        if any(self.image[BLOCK * d:BLOCK * (d + 1)]):
            self.empty(d)
        for i in range(BLOCK):
            if block[i]:
                self.byte(BLOCK * d + i, block[i])

    def screen(self, n, wrong=0):
        self.line('R', n, wrong)
        self.told.append(self.lines[-1] + ('no room\n' if wrong else output(bytes(self.image[:n]))))

    def each_wrong(self, n):
        for wrong in range(1, 5):
            self.screen(n, wrong)


def lengths(cases):
    """No input, one block, one byte less and more, the longest input; an empty and an unsound first block, and one of a motif with no bases."""
    cases.screen(0)
    cases.same_bases(0, 1)
    for n in (1, 511, 512, 513, 1023, 1024, 1025, 1536):
        cases.screen(n)
    cases.same_bases(1, 1)
    cases.screen(1024)
    cases.screen(1536)
    cases.each_wrong(1024)
    cases.each_wrong(512)
    cases.byte(0, 9)
    cases.screen(512)
    cases.screen(1024)
    cases.each_wrong(1024)
    cases.empty(0)
    cases.screen(1024)
    cases.same_bases(0, 0)
    for n in (512, 1023, 1024, 1536):
        cases.screen(n)
    cases.each_wrong(1024)


def no_bases(cases, rng):
    """A motif with no bases, whose hits are all that are held; its block with another byte; molecules with no bases."""
    cases.same_bases(0, 0)
    for d, n in ((1, 1), (2, 160), (4, 7)):
        cases.same_bases(d, n)
    cases.empty(3)
    for d in range(2, 6):
        cases.screen(BLOCK * d)
    values = [(i, v) for i in (0, BLOCK - 4) for v in (0, 2, 3)] + [(i, 1) for i in (1, 2, 27, 28, 187, 188, 507, 509, 510, 511)]
    for i, v in values + [(rng.randrange(1, BLOCK - 4), rng.randint(1, 255)) for _ in range(24)]:
        old = cases.image[i]
        cases.byte(i, v)
        cases.screen(5 * BLOCK)
        cases.byte(i, old)
    cases.screen(5 * BLOCK)
    for d in (4, 3, 1):
        cases.same_bases(d, 0)
        cases.screen(5 * BLOCK)
    for d in (0, 1, 3, 4):
        cases.empty(d)
        cases.screen(5 * BLOCK)
    cases.same_bases(0, 0)
    cases.empty(2)
    cases.screen(5 * BLOCK)


def long_motifs(cases):
    """Motifs of 119 to 160 bases against molecules of 119, 120 and 160."""
    for d, n in ((1, 119), (2, 120), (3, 160)):
        cases.same_bases(d, n)
    for n in range(119, 161):
        cases.same_bases(0, n)
        cases.screen(4 * BLOCK)
    cases.byte(BLOCK, 9)
    cases.screen(4 * BLOCK)


def example(cases, data):
    """An input of the screen program, byte by byte."""
    for d in range(len(data) // BLOCK):
        cases.block(d, data[BLOCK * d:BLOCK * (d + 1)])
    cases.screen(len(data))


def bonds(cases, rng):
    """Random motifs with bonds in random molecules. One motif of twenty has no bases."""
    for _ in range(12):
        cases.block(0, block_of(*few_letters(random_motif(rng, 5))))
        for d in range(1, 4):
            cases.block(d, block_of(*few_letters(random_strand(rng, 14))))
        cases.screen(4 * BLOCK)


def spelled(cases, rng):
    """02, (vi): T and U match each other, so a motif has the same hits in all its spellings; a small t is no letter, in a motif and in a molecule."""
    for d, (bases, mates) in enumerate((('GAT', [2, 1, 0]), ('GAU', [2, 1, 0]), ('GAC', [2, 1, 0]), ('TTU', [0, 1, 2])), 1):
        cases.block(d, block_of(bases, mates))
    for motif in (('GT', [1, 0]), ('GU', [1, 0]), ('TT', [0, 1]), ('UT', [0, 1]), ('T', [0]), ('U', [0]), ('AT', [0, 1]), ('Gt', [1, 0]), ('Gu', [1, 0])):
        cases.block(0, block_of(*motif))
        cases.screen(5 * BLOCK)
    cases.block(0, block_of('GT', [1, 0]))
    for bases in ('GAt', 'GAu', 'TAT'):
        cases.block(2, block_of(bases, [2, 1, 0]))
        cases.screen(5 * BLOCK)
    for _ in range(4):
        for d in range(1, 4):
            cases.block(d, block_of(*few_letters(random_strand(rng, 14))))
        told = set()
        for motif in spellings(few_letters(random_motif(rng, 4))):
            cases.block(0, block_of(*motif))
            cases.screen(4 * BLOCK)
            told.add(cases.told[-1])
        assert len(told) == 1, told


def unsound_places(cases, rng):
    """64 molecules; each in turn unsound, by a byte of its own; then two, of which the lower counts."""
    cases.same_bases(0, 2)
    for d in range(64):
        cases.same_bases(1 + d, 1 + d % 3)
    cases.screen(MOST)
    for n in (MOST - 1, MOST + 1):
        cases.screen(n)
    cases.each_wrong(MOST)
    for d in range(64):
        i = BLOCK * (1 + d) + rng.randrange(BLOCK)
        old, new = cases.image[i], (cases.image[i] + rng.randint(1, 255)) % 256
        cases.byte(i, new)
        cases.screen(MOST)
        cases.byte(i, old)
    for d in (63, 40, 7, 0):
        cases.byte(BLOCK * (1 + d), 2)
        cases.screen(MOST)
    for d in (0, 7, 40, 63):
        cases.byte(BLOCK * (1 + d), 1)
    for n in (1, 0):
        cases.same_bases(0, n)
        cases.screen(MOST)
    cases.each_wrong(MOST)
    cases.same_bases(33, 0)
    cases.screen(MOST)
    cases.same_bases(33, 1)
    for n in (0, 1):
        cases.same_bases(0, n)
        cases.empty(64 - n)
        cases.screen(MOST)


def example_input(name):
    """The input of the screen program that the two texts of a folder of examples/ give."""
    texts = (os.path.join(EXAMPLES, name, part) for part in ('motif.dbn', 'catalog.dbn'))
    motif, catalog = ((read_text(path), path) for path in texts)
    return motif_and_catalog(*motif, *catalog)


def files():
    rng, cases = random.Random(3), Cases()
    small, trna = example_input('small'), example_input('trna')
    lengths(cases)
    no_bases(cases, rng)
    long_motifs(cases)
    example(cases, small)
    example(cases, trna)
    bonds(cases, rng)
    spelled(cases, rng)
    unsound_places(cases, rng)
    text = ''.join(cases.lines)
    assert len(text) <= 65536, len(text)  # what the program reads
    return {
        'crates/screening_test/stdin': text, 'crates/screening_test/stdout': ''.join(cases.told),
        'examples/small/input.bin': small, 'examples/small/output.txt': output(small),
        'examples/trna/input.bin': trna, 'examples/trna/output.txt': output(trna),
        'crates/screen/stdin': small, 'crates/screen/stdout': output(small),
    }
