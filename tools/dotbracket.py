#!/usr/bin/env python3
"""Turns dot-bracket text, as RNA tools write it, into blocks of the catalog or of motifs, and back; lists molecules.

This is a convenience for people. It is not part of what is proved: the screen program judges every block by itself.
The tool checks each block that it writes or reads by the rules of a molecule block, a motif's by those of a motif block.

Text, for each molecule:
    >name
    GCGAAAGC
    (((..)))
One line of bases (A, C, G, T, U; small letters are taken as capitals) and one line of structure: `.` for a base without a
bond, `(` and `)` for the two ends of one. T and U match each other, and each is kept as it stands. What follows a blank on
the structure line, as the energy that folding programs write there, is left out. Blank lines and lines that begin with `#`
are skipped. The line `>(empty)` alone is an empty block.
Blocks hold no names: decoded molecules are named by their number.

In the text of motifs a line `>name` alone is the motif with no bases, which embeds in every molecule. An empty block is no motif.
The screen program takes one motif, a batch 1 to 16, of which `encode --motif` makes the buffer: a block for each, in the order of the
text.

Errors in a text are given as FILE:LINE:COLUMN, both counted from 1.
"""
import argparse
import itertools
import random
import sys

from lakhido_model import (BLOCK, LETTERS, LONGEST_MOLECULE, LONGEST_MOTIF, MOLECULE, MOST_BLOCKS, MOST_MOTIFS, MOST_SCREENED, MOTIF, NO_BASES, decode, embeds,
                           encode, fault, fold, random_motif, random_strand)

EMPTY_NAME = '(empty)'
EMPTY = None, None  # in the place of bases and mates: an empty block
IN_A_BATCH = 'a batch takes 1 to %d' % MOST_MOTIFS


class Bad(Exception):
    """What is wrong with a file, and where."""


def block_of(bases, mates):
    """The block of a molecule or of a motif, or the empty block."""
    return bytes(BLOCK) if (bases, mates) == EMPTY else bytes(encode(MOLECULE, bases, mates))


def strand_in(block):
    """Bases and mates of a block, or `EMPTY`."""
    return decode(MOLECULE, block) if any(block) else EMPTY


# ---- dot-bracket text

def structure_of(mates):
    return ''.join('.' if mate == i else '(' if mate > i else ')' for i, mate in enumerate(mates))


def mates_of(structure, place):
    """The mates that a structure line says; `place(column)` names a column of it."""
    mates, begun = list(range(len(structure))), []
    for i, mark in enumerate(structure):
        if mark == '(':
            begun.append(i)
        elif mark == ')':
            if not begun:
                raise Bad('%s: `)` closes no bond' % place(i))
            mates[i] = begun.pop()
            mates[mates[i]] = i
        elif mark != '.':
            crossing = ' (crossing bonds are left out)' if mark in '[]{}<>' or mark.isalpha() else ''
            raise Bad('%s: `%s` is none of `.`, `(` and `)`%s' % (place(i), mark, crossing))
    if begun:
        raise Bad('%s: this `(` is not closed' % place(begun[-1]))
    return mates


def records(text, name):
    """The lines of each molecule, as (header line number, name, [(line number, line)])."""
    found = []
    for number, line in enumerate(text.split('\n'), 1):
        line = line.rstrip('\r')
        if not line.strip() or line.startswith('#'):
            continue
        if line.startswith('>'):
            found.append((number, line[1:].strip(), []))
        elif not found:
            raise Bad('%s:%d:1: a molecule begins with a line `>name`' % (name, number))
        else:
            found[-1][2].append((number, line))
    return found


def molecule(lines, header, name):
    """Bases and mates from the two lines of a molecule."""
    if len(lines) != 2:
        number = lines[2][0] if len(lines) > 2 else header
        raise Bad('%s:%d:1: a molecule has one line of bases and one of structure, and this one has %d' % (name, number, len(lines)))
    (first, bases), (second, structure) = lines
    begin, bases = len(bases) - len(bases.lstrip()), bases.strip().upper()
    for i, base in enumerate(bases):
        if base not in LETTERS:
            raise Bad('%s:%d:%d: `%s` is no letter of %s' % (name, first, begin + i + 1, base, LETTERS))
    if len(bases) > LONGEST_MOLECULE:
        raise Bad('%s:%d:%d: %d bases, and a molecule has 1 to %d' % (name, first, begin + LONGEST_MOLECULE + 1, len(bases), LONGEST_MOLECULE))
    indent, structure = len(structure) - len(structure.lstrip()), structure.split()[0]
    if len(structure) != len(bases):
        column = indent + min(len(structure), len(bases)) + 1
        raise Bad('%s:%d:%d: %d bases and %d marks of structure' % (name, second, column, len(bases), len(structure)))
    return bases, mates_of(structure, lambda i: '%s:%d:%d' % (name, second, indent + i + 1))


def strand_of(header, title, lines, name, form):
    """Bases and mates of a record, or `EMPTY`. Where it is a motif, it may have no lines."""
    if not lines and title == EMPTY_NAME:
        return EMPTY
    return NO_BASES if not lines and form is MOTIF else molecule(lines, header, name)


def from_text(text, name, form=MOLECULE):
    """The molecules of a text, as (header line number, name, bases, mates), or its motifs."""
    return [(header, title, *strand_of(header, title, lines, name, form)) for header, title, lines in records(text, name)]


def blocks_of(text, name, form=MOLECULE):
    """The blocks of a text, each checked by the rules of the form and by decoding it again."""
    blocks = []
    for header, _, bases, mates in from_text(text, name, form):
        block = block_of(bases, mates)
        wrong = fault(form, block)
        if wrong or strand_in(block) != (bases, mates):
            raise Bad('%s:%d:1: the tool made an unsound block: %s' % (name, header, wrong))
        blocks.append(block)
    return blocks


def from_blocks(data, name, screen=False, form=MOLECULE):
    """Name, bases and mates of each block, which is checked by the rules of the form. With `screen` the first block is a motif."""
    if not data or len(data) % BLOCK != 0:
        raise Bad('%s: %d bytes are not whole blocks of %d' % (name, len(data), BLOCK))
    found = []
    for d in range(len(data) // BLOCK):
        block, first = data[BLOCK * d:BLOCK * (d + 1)], screen and d == 0
        wrong = fault(MOTIF if first else form, block)
        if wrong:
            raise Bad('%s: block %d, byte %d: %s' % (name, d, wrong[0], wrong[1]))
        title = 'motif' if first else 'motif %d' % d if form is MOTIF else 'molecule %d' % (d - 1 if screen else d)
        found.append((title, *strand_in(block)))
    return found


def motifs_in(data, name):
    """Name, bases and mates of each motif of a buffer of 1 to 16."""
    if len(data) > MOST_MOTIFS * BLOCK:
        raise Bad('%s: %d bytes, and %s blocks of %d' % (name, len(data), IN_A_BATCH, BLOCK))
    found = from_blocks(data, name, form=MOTIF)
    for t, (_, *strand) in enumerate(found):
        if tuple(strand) == EMPTY:
            raise Bad('%s: block %d: an empty block is no motif' % (name, t))
    return found


def record_of(title, bases, mates):
    """The lines of a molecule, of a motif, or of an empty block."""
    if (bases, mates) == EMPTY:
        return '>%s\n' % EMPTY_NAME
    return '>%s\n%s\n%s\n' % (title, bases, structure_of(mates)) if bases else '>%s\n' % title


def text_of(data, name, screen=False):
    """The text of the blocks."""
    return ''.join(record_of(*row) for row in from_blocks(data, name, screen))


def text_of_motifs(data, name):
    """The text of the motifs of a buffer."""
    return ''.join(record_of(*row) for row in motifs_in(data, name))


# ---- the list of molecules

LIST = """Lists the molecules of a text or, with --blocks or --screen, of a file of blocks: first a line of the columns' names, then a
line for each molecule, the columns parted by tabs. Length is the number of bases, arcs that of bonds, and depth the largest number of arcs
of which each lies inside the one before. A text has names; in blocks the name is `molecule` and the number. Empty blocks are left out;
a motif with no bases is not.
What is equal by the column that sorts keeps the order of the file."""
COLUMNS = 'name', 'length', 'arcs', 'depth'


def listed(molecules, by='number', reverse=False):
    """A head, and a line for each of them that is not empty, given as (name, bases, mates): its columns parted by tabs, which the names lose."""
    rows = [(title.replace('\t', ' '), len(bases), *fold(mates)) for title, bases, mates in molecules if bases is not None]
    if by != 'number':
        rows.sort(key=lambda row: row[COLUMNS.index(by)], reverse=reverse)
    elif reverse:
        rows.reverse()
    return ''.join('\t'.join(map(str, row)) + '\n' for row in (COLUMNS, *rows))


def some_blocks(text, name, most, what, form=MOLECULE):
    """The blocks of a text that has 1 to `most` molecules or motifs; else the error names the first line too many."""
    blocks, heads = blocks_of(text, name, form), [header for header, _, _ in records(text, name)]
    if not 1 <= len(blocks) <= most:
        kind = 'motifs' if form is MOTIF else 'molecules'
        raise Bad('%s:%d:1: %d %s, and %s' % (name, heads[most] if len(heads) > most else 1, len(blocks), kind, what))
    return blocks


def motif_blocks(text, name, most=MOST_MOTIFS, what=IN_A_BATCH):
    """The blocks of the motifs of a text, 1 to `most`. They are told which a query or a batch refuses."""
    blocks = some_blocks(text, name, most, what, MOTIF)
    for (header, _, _), block in zip(records(text, name), blocks):
        if not any(block):
            raise Bad('%s:%d:1: an empty block is no motif; the motif with no bases is a line `>name` alone' % (name, header))
        if block[1] > LONGEST_MOTIF:
            print('note: %s:%d:1: a motif of %d bases is refused (0 to %d)' % (name, header, block[1], LONGEST_MOTIF), file=sys.stderr)
    return blocks


def motif_block(text, name):
    """The block of the one motif of a text."""
    return motif_blocks(text, name, 1, 'one is screened')[0]


def motif_and_catalog(motif, motif_name, catalog, catalog_name):
    """An input of the screen program: the block of the motif, then 1 to 64 blocks of the catalog."""
    first = motif_block(motif, motif_name)
    rest = some_blocks(catalog, catalog_name, MOST_SCREENED, '1 to %d are screened' % MOST_SCREENED)
    return b''.join([first, *rest])


# ---- self-test

def expect_error(text, start, read=blocks_of):
    try:
        read(text, 'T')
    except Bad as error:
        assert str(error).startswith(start), (text, str(error), start)
    else:
        raise AssertionError('no error: %r' % text)


def test_list():
    rng = random.Random(2)
    for _ in range(300):
        bases, mates = random_strand(rng, LONGEST_MOLECULE)
        structure = structure_of(mates)
        open_arcs = itertools.accumulate((mark == '(') - (mark == ')') for mark in structure)
        row = listed([('x', bases, mates)]).split('\n')[1]
        assert row == 'x\t%d\t%d\t%d' % (len(bases), structure.count('('), max(open_arcs)), (structure, row)
    text = '>two\tarcs\nGCGC\n()()\n>(empty)\n>deep\nGGACC\n((.))\n>one\nGAC\n(.)\n'
    lines = ['name\tlength\tarcs\tdepth', 'two arcs\t4\t2\t1', 'deep\t5\t2\t2', 'one\t3\t1\t1']
    rows = [row[1:] for row in from_text(text, 'T')]
    for by, reverse, order in (('number', False, [1, 2, 3]), ('number', True, [3, 2, 1]), ('name', False, [2, 3, 1]), ('length', False, [3, 1, 2]),
                               ('arcs', False, [3, 1, 2]), ('arcs', True, [1, 2, 3]), ('depth', False, [1, 3, 2]), ('depth', True, [2, 1, 3])):
        assert listed(rows, by, reverse) == ''.join(lines[i] + '\n' for i in [0] + order), (by, reverse)
    data = b''.join(blocks_of(text, 'T'))
    assert listed(from_blocks(data, 'B')).split('\n')[1:3] == ['molecule 0\t4\t2\t1', 'molecule 2\t5\t2\t2']
    assert listed(from_blocks(data, 'B', screen=True)).split('\n')[1:3] == ['motif\t4\t2\t1', 'molecule 1\t5\t2\t2']
    assert listed([]) == listed([('x', *EMPTY)]) == lines[0] + '\n'
    assert listed(from_blocks(block_of(*NO_BASES) + data, 'B', screen=True)).split('\n')[1:3] == ['motif\t0\t0\t0', 'molecule 0\t4\t2\t1']


def test_motifs():
    rng = random.Random(3)
    none = bytes([1]) + bytes(BLOCK - 5) + bytes([1, 0, 0, 0])
    assert block_of(*NO_BASES) == motif_block('# none\n>m\n\n', 'M') == none and block_of(*EMPTY) == bytes(BLOCK)
    assert motif_and_catalog('>m\n', 'M', '>a\nA\n.\n>(empty)\n', 'C') == none + block_of('A', [0]) + bytes(BLOCK)
    assert text_of(none + block_of('A', [0]) + bytes(BLOCK), 'B', screen=True) == '>motif\n>molecule 0\nA\n.\n>(empty)\n'
    for _ in range(300):
        block = block_of(*random_motif(rng, LONGEST_MOTIF))
        assert motif_block(text_of(block, 'B', screen=True), 'M') == block
    expect_error('\n>(empty)\n', 'T:2:1: an empty block is no motif; the motif with no bases is a line `>name` alone', motif_block)
    expect_error('>m\nA\n', 'T:1:1: a molecule has one line of bases and one of structure, and this one has 1', motif_block)
    expect_error('>m\n>n\n', 'T:2:1: 2 motifs, and one is screened', motif_block)
    expect_error('>a\nA\n.\n>b\n', 'T:4:1: a molecule has one line of bases and one of structure, and this one has 0')
    expect_error(none, 'T: block 0, byte 1: the length is 0, and 1 to 160 are taken', text_of)
    expect_error(block_of('A', [0]) + none, 'T: block 1, byte 1: the length is 0', lambda data, name: text_of(data, name, screen=True))


def test_motif_buffers():
    rng = random.Random(4)
    none, two = block_of(*NO_BASES), block_of('GC', [1, 0])
    assert motif_blocks('>none\n>stem\nGC\n()\n\n>last\n', 'M') == [none, two, none]
    assert text_of_motifs(none + two + none, 'B') == '>motif 0\n>motif 1\nGC\n()\n>motif 2\n'
    for count in range(1, MOST_MOTIFS + 1):
        blocks = [block_of(*random_motif(rng, LONGEST_MOTIF)) for _ in range(count)]
        assert motif_blocks(text_of_motifs(b''.join(blocks), 'B'), 'M') == blocks
    expect_error('# motifs\n' + '>m\n' * 18, 'T:18:1: 18 motifs, and a batch takes 1 to 16', motif_blocks)
    expect_error('# none\n', 'T:1:1: 0 motifs, and a batch takes 1 to 16', motif_blocks)
    expect_error('>m\n>a\nA\n.\n>(empty)\n>n\n', 'T:5:1: an empty block is no motif', motif_blocks)
    expect_error('>m\n>a\nA\n', 'T:2:1: a molecule has one line of bases and one of structure, and this one has 1', motif_blocks)
    expect_error(none * 17, 'T: 8704 bytes, and a batch takes 1 to 16 blocks of 512', text_of_motifs)
    expect_error(none + none[:-1], 'T: 1023 bytes are not whole blocks of 512', text_of_motifs)
    expect_error(b'', 'T: 0 bytes are not whole blocks of 512', text_of_motifs)
    expect_error(none + bytes(BLOCK) + none, 'T: block 1: an empty block is no motif', text_of_motifs)
    expect_error(none + two[:-1] + b'\1', 'T: block 1, byte 508: the checksum is not', text_of_motifs)


def test_spellings():
    """T stays T and U stays U, in text and blocks; a small letter becomes its capital. A motif spelled with one finds what is spelled with the other."""
    for text, bases in (('GATC', 'GATC'), ('GAUC', 'GAUC'), ('TTUU', 'TTUU'), ('gatc', 'GATC'), ('tUuT', 'TUUT')):
        block = block_of(bases, [3, 1, 2, 0])
        assert blocks_of('>x\n%s\n(..)\n' % text, 'T') == motif_blocks('>x\n%s\n(..)\n' % text, 'T') == [block]
        assert text_of(block, 'B') == '>molecule 0\n%s\n(..)\n' % bases and text_of_motifs(block, 'B') == '>motif 0\n%s\n(..)\n' % bases
    expect_error(block_of('GAt', [0, 1, 2]), 'T: block 0, byte 30: base 2 is no letter of ACGTU', text_of)
    for catalog, motif in itertools.permutations('TU'):
        data = motif_and_catalog('>m\nG%s\n()\n' % motif, 'M', '>a\nGA%s\n(.)\n>b\nGAC\n(.)\n' % catalog, 'C')
        (_, *p), *molecules = from_blocks(data, 'B', screen=True)
        assert [embeds(*p, *q) for _, *q in molecules] == [True, False]


def self_test():
    rng = random.Random(1)
    one = block_of('A', [0])
    for _ in range(300):
        bases, mates = random_strand(rng, LONGEST_MOLECULE)
        text = '>x\n%s\n%s (-1.50)\n' % (bases, structure_of(mates))
        block = block_of(bases, mates)
        assert blocks_of(text, 'T') == [block] and blocks_of(text_of(block, 'B'), 'T') == [block]
    whole = b''.join([one, bytes(BLOCK), block_of('GAC', [2, 1, 0])])
    assert b''.join(blocks_of(text_of(whole, 'B'), 'T')) == whole
    assert text_of(whole, 'B', screen=True).startswith('>motif\nA\n.\n>(empty)\n>molecule 1\n')
    assert blocks_of('# a note\n\n>x\r\n gac \r\n (.)\r\n', 'T') == [block_of('GAC', [2, 1, 0])]
    expect_error('GAC\n', 'T:1:1: a molecule begins')
    expect_error('>x\nGAXC\n....\n', 'T:2:3: `X` is no letter of ACGTU')
    test_spellings()
    expect_error('>x\nGAC\n(.\n', 'T:3:3: 3 bases and 2 marks')
    expect_error('>x\nGAC\n(...\n', 'T:3:4: 3 bases and 4 marks')
    expect_error('>x\nGAC\n(((\n', 'T:3:3: this `(` is not closed')
    expect_error('\n>x\n GAC\n .))\n', 'T:4:3: `)` closes no bond')
    expect_error('>x\nGAC\n[.]\n', 'T:3:1: `[` is none')
    expect_error('>x\nGAC\n>y\n', 'T:1:1: a molecule has one line')
    expect_error('>x\nGAC\n...\n...\n', 'T:4:1: a molecule has one line')
    expect_error('>x\n%s\n%s\n' % ('A' * 161, '.' * 161), 'T:2:161: 161 bases')
    data = motif_and_catalog('>m\nA\n.\n', 'M', '>a\nA\n.\n>(empty)\n', 'C')
    assert len(data) == 3 * BLOCK and data[:BLOCK] == data[BLOCK:2 * BLOCK] == one and not any(data[2 * BLOCK:])
    one_text = '>a\nA\n.\n'
    for motif, catalog, start in [(one_text + '\n>b\nA\n.\n', one_text, 'M:5:1: 2 motifs, and one is screened'), ('', one_text, 'M:1:1: 0 motifs'),
                                  ('\n>(empty)\n', one_text, 'M:2:1: an empty block is no motif'), (one_text, '', 'C:1:1: 0 molecules'),
                                  ('>m\n', '>a\n', 'C:1:1: a molecule has one line'), (one_text, one_text * 65, 'C:193:1: 65 molecules, and 1 to 64')]:
        try:
            motif_and_catalog(motif, 'M', catalog, 'C')
        except Bad as error:
            assert str(error).startswith(start), (str(error), start)
        else:
            raise AssertionError((motif, catalog))
    test_motifs()
    test_motif_buffers()
    test_list()


# ---- commands

def read_text(path):
    with open(path, 'rb') as file:
        data = file.read()
    try:
        return data.decode('ascii')
    except UnicodeDecodeError as error:
        line = data[:error.start].count(b'\n') + 1
        column = error.start - (data.rfind(b'\n', 0, error.start) + 1) + 1
        raise Bad('%s:%d:%d: not an ASCII character' % (path, line, column))


def read_blocks(path):
    with open(path, 'rb') as file:
        return file.read()


def write(path, data):
    if path == '-':
        sys.stdout.buffer.write(data)
    else:
        with open(path, 'wb') as file:
            file.write(data)


def parse(words):
    parser = argparse.ArgumentParser(description=__doc__, formatter_class=argparse.RawDescriptionHelpFormatter)
    parser.add_argument('--self-test', action='store_true', help='test this tool and stop')
    commands = parser.add_subparsers(dest='command', required=True)
    one = commands.add_parser('encode', help='text to blocks: a catalog, or motifs')
    one.add_argument('text')
    one.add_argument('--motif', action='store_true', help='the text is that of 1 to %d motifs, which may have no bases' % MOST_MOTIFS)
    two = commands.add_parser('decode', help='blocks to text')
    two.add_argument('blocks')
    kind = two.add_mutually_exclusive_group()
    kind.add_argument('--screen', action='store_true', help='the first block is a motif')
    kind.add_argument('--motif', action='store_true', help='all blocks are motifs, 1 to %d' % MOST_MOTIFS)
    three = commands.add_parser('screen-input', help='the input of the screen program: a motif, then a catalog')
    three.add_argument('motif')
    three.add_argument('catalog')
    four = commands.add_parser('list', help='a line for each molecule: name, length, arcs, depth', description=LIST)
    four.add_argument('file')
    form = four.add_mutually_exclusive_group()
    form.add_argument('--blocks', action='store_true', help='the file has blocks, not text')
    form.add_argument('--screen', action='store_true', help='the file has blocks, and the first is a motif')
    four.add_argument('--by', choices=('number', *COLUMNS), default='number', help='what sorts the lines (else the number, which is the place in the file)')
    four.add_argument('--reverse', action='store_true', help='falling, not rising')
    for command in (one, two, three, four):
        command.add_argument('-o', '--output', default='-', help='where to write (else standard output)')
    return parser.parse_args(words)


def molecules_of(args):
    """The molecules of the file that `list` is given."""
    if args.blocks or args.screen:
        return from_blocks(read_blocks(args.file), args.file, args.screen)
    return [row[1:] for row in from_text(read_text(args.file), args.file)]


def run(words):
    if words == ['--self-test']:
        self_test()
        print('self-test: ok')
        return
    args = parse(words)
    if args.command == 'encode' and args.motif:
        write(args.output, b''.join(motif_blocks(read_text(args.text), args.text)))
    elif args.command == 'encode':
        blocks = some_blocks(read_text(args.text), args.text, MOST_BLOCKS, 'a catalog has 1 to %d' % MOST_BLOCKS)
        write(args.output, b''.join(blocks))
    elif args.command == 'decode' and args.motif:
        write(args.output, text_of_motifs(read_blocks(args.blocks), args.blocks).encode('ascii'))
    elif args.command == 'decode':
        write(args.output, text_of(read_blocks(args.blocks), args.blocks, args.screen).encode('ascii'))
    elif args.command == 'list':
        write(args.output, listed(molecules_of(args), args.by, args.reverse).encode('ascii'))
    else:
        write(args.output, motif_and_catalog(read_text(args.motif), args.motif, read_text(args.catalog), args.catalog))


if __name__ == '__main__':
    try:
        run(sys.argv[1:])
    except (Bad, OSError) as error:
        sys.exit('dotbracket.py: %s' % error)
