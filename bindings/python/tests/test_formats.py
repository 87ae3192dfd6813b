"""Tests of the readers and writers of structure formats."""
from __future__ import annotations

import gzip
import io
import itertools
import os
import random
import sys
import tempfile
import unittest
from array import array
from pathlib import Path
from unittest import mock

sys.path.insert(0, str(Path(__file__).resolve().parents[1] / 'src'))

from lakhido.formats import FORMATS, WRITABLE, FormatError, Item, Record, Reject, guess, read, read_stream, write
from lakhido.formats.pairs import nested
from lakhido.formats.source import LINE_MOST
from lakhido.strand import Strand

try:
    from Bio import AlignIO
except ImportError:
    AlignIO = None

CLOVERLEAF = ('GCGGAUUUAGCUCAGUUGGGAGAGCGCCAGACUGAAGAUCUGGAGGUCCUGUGUUCGAUCCACAGAAUUCGCACCA',
              '(((((((..((((........)))).((((.........)))).....(((((.......))))))))))))....')
LOWER = 'lower case letter `%s`, which is read only where lower case is asked for'
ODD_BYTES = b'\n\r\t >#.()[]<>AaGN09/=-\x00\x07\x1b\x7f\x80\xa0\xff'


def items_of(data: str | bytes, format: str | None = None, lower: bool = False, name: str = 'F') -> list[Item]:
    """What reading these bytes gives."""
    raw = data.encode('latin-1') if isinstance(data, str) else data
    return list(read_stream(io.BytesIO(raw), name=name, format=format, lower=lower))


def plain(item: Item) -> tuple:
    """An item as a row that is easy to write down."""
    if isinstance(item, Reject):
        return item.name, item.line, item.column, item.reason
    return item.name, item.strand.bases.decode(), item.strand.structure, item.line, *item.notes


def rows(data: str | bytes, format: str | None = None, lower: bool = False) -> list[tuple]:
    """What reading these bytes gives, as rows."""
    return [plain(item) for item in items_of(data, format, lower)]


def random_strand(rng: random.Random, most: int = 130) -> Strand:
    """A strand with nested pairs; T and U are both in it."""
    size = rng.randint(1, most)
    marks, opened = [], 0
    for left in range(size, 0, -1):
        if opened and (opened >= left or rng.random() < 0.35):
            marks.append(')')
            opened -= 1
        elif opened + 1 < left and rng.random() < 0.4:
            marks.append('(')
            opened += 1
        else:
            marks.append('.')
    return Strand.of(''.join(rng.choices('ACGTU', k=size)), ''.join(marks))


def random_records(rng: random.Random, count: int) -> list[Record]:
    """Records with names as they may be, no two of them equal."""
    letters = 'Ab5/-_.|>#( )'
    tails = (' '.join(''.join(rng.choices(letters, k=rng.randint(0, 12))).split()) for _ in range(count))
    return [Record(f'{i} {tail}'.strip(), random_strand(rng), 'F', 0, ()) for i, tail in enumerate(tails)]


def written(records: list[Record], format: str) -> str:
    """The text of records."""
    out = io.StringIO()
    write(records, out, format)
    return out.getvalue()


def same(records: list[Record], items: list[Item]) -> bool:
    """Whether the items are these records, by name, strand and notes."""
    return all(isinstance(item, Record) for item in items) and (
        [(r.name, r.strand, r.notes) for r in records] == [(r.name, r.strand, r.notes) for r in items])


class RoundTrip(unittest.TestCase):
    """What is written is read again."""

    def test_random_records(self) -> None:
        rng = random.Random(1)
        for format in WRITABLE:
            records = random_records(rng, 60)
            text = written(records, format)
            for end in '\n', '\r\n', '\r':
                self.assertTrue(same(records, items_of(text.replace('\n', end), format)), (format, end))
            self.assertTrue(same(records, items_of(text)), format)
            self.assertTrue(same(records, items_of('\n \n' + text.replace('\n', '\n\n').rstrip('\n'), format)), format)

    def test_wrapped(self) -> None:
        rng = random.Random(2)
        for record in random_records(rng, 60):
            lines = [f'>{record.name}']
            for text in record.strand.bases.decode(), record.strand.structure:
                width = rng.randint(1, 40)
                lines += [text[i:i + width] for i in range(0, len(text), width)]
            for format in 'dotbracket', 'fasta', None:
                self.assertTrue(same([record], items_of('\n'.join(lines), format)), lines)

    def test_lower(self) -> None:
        rng = random.Random(3)
        for format in WRITABLE:
            records = [Record(f'7{i}', random_strand(rng), 'F', 0, ()) for i in range(20)]
            text = written(records, format).lower().replace('name:', 'Name:')
            self.assertTrue(same(records, items_of(text, format, lower=True)), format)
            self.assertTrue(all('lower case letter' in item.reason for item in items_of(text, format)), format)

    def test_files(self) -> None:
        records = random_records(random.Random(4), 5)
        with tempfile.TemporaryDirectory() as folder:
            for format in WRITABLE:
                path = Path(folder, 'x')
                write(records, path, format)
                self.assertTrue(same(records, list(read(path))))
                packed = gzip.compress(path.read_bytes()[:50]) + gzip.compress(path.read_bytes()[50:])
                path.write_bytes(packed)
                items = list(read(str(path), format=format))
                self.assertTrue(same(records, items))
                self.assertEqual({item.source for item in items}, {str(path)})
                with mock.patch('sys.stdin', io.TextIOWrapper(io.BytesIO(packed))):
                    self.assertTrue(same(records, list(read('-'))))
                with mock.patch('sys.stdout', io.StringIO()) as out:
                    write(records, '-', format)
                self.assertEqual(out.getvalue(), written(records, format))

    def test_what_is_not_written(self) -> None:
        strand = Strand.of('A', '.')
        for format, name in itertools.product(WRITABLE, ('', ' a', 'a ', 'a  b', 'a\nb', 'a\tb', 'a\x1bb', 'caf\xe9')):
            with self.assertRaises(ValueError, msg=(format, name)):
                written([Record(name, strand, 'F', 1, ())], format)
        with self.assertRaises(ValueError):
            written([Record('ENERGY = -1.0 a', strand, 'F', 1, ())], 'ct')
        with self.assertRaises(ValueError):
            written([Record('A 1 2 3', strand, 'F', 1, ())], 'ct')
        for bases, mates in (b'', []), (b'N', [0]), (b'AC', [1, 1]), (b'A', [5]), (b'A', []), (b'GGCC', [2, 3, 0, 1]):
            for format in WRITABLE:
                with self.assertRaises(ValueError, msg=(bases, mates)):
                    written([Record('a', Strand(bases, array('H', mates)), 'F', 1, ())], format)
        with self.assertRaises(ValueError):
            written([], 'stockholm')
        with self.assertRaises(ValueError):
            read('-', format='vienna')


class DotBracket(unittest.TestCase):
    """Dot-bracket text."""

    def test_vienna(self) -> None:
        text = ('>a\nGGGAAACCC\n(((...))) (-1.20)\n>b c\nGGAAATC\n((...)) ( -0.30)\n\n'
                '# a comment\nGAC\n(.)\nGA\n..  0.00\n')
        self.assertEqual(rows(text), [('a', 'GGGAAACCC', '(((...)))', 1), ('b c', 'GGAAATC', '((...))', 4),
                                      ('F-3', 'GAC', '(.)', 9), ('F-4', 'GA', '..', 11)])

    def test_unnamed(self) -> None:
        for source, name in (('a/5 s.dbn.gz', '5_s-1'), ('<stdin>', 'stdin-1'), ('x', 'x-1'),
                             ('a/caf\xe9.ct', 'caf_-1')):
            self.assertEqual([item.name for item in items_of('A\n.\n', name=source)], [name])
            self.assertEqual([item.name for item in items_of('>\nA\n.\n', name=source)], [name])

    def test_several_structures(self) -> None:
        text = '>s\nGGGAAACCC  -120    100\n(((...)))  -1.20\n((.))  1.00\n.........   0.00\n>t\nA\n.\n'
        self.assertEqual(rows(text), [('s/1', 'GGGAAACCC', '(((...)))', 1),
        ('s/2', 4, 6, '9 bases and 5 marks of structure'),
                                      ('s/3', 'GGGAAACCC', '.........', 5), ('t', 'A', '.', 6)])
        self.assertEqual(rows('GGG\nAA\n(.\n..)\n.(\n.)\n.\n'),
                         [('F-1/1', 'GGGAA', '(...)', 1), ('F-1/2', 'GGGAA', '.(.).', 5)])

    def test_ensemble(self) -> None:
        text = ('>p\nGGGAAACCC\n(((...))) ( -1.20)\n(({...,|} [ -1.35]\n((.....)) { -1.00 d=0.43}\n'
                ' frequency of mfe structure in ensemble 0.78; ensemble diversity 0.87\n'
                '(((...))) { -1.20 MEA=8.90}\nGA\n..\n')
        self.assertEqual([row[:3] for row in rows(text)], [('p/1', 'GGGAAACCC', '(((...)))'),
        ('p/2', 'GGGAAACCC', '((.....))'),
                                                           ('p/3', 'GGGAAACCC', '(((...)))'), ('F-2', 'GA', '..')])

    def test_pseudoknots(self) -> None:
        self.assertEqual(rows('>k\nGGGGAAACCCC\n((A[<..)a]>\n>l\nGGCC\n([))\n>m\nGGCC\n([)]\n'),
                         [('k', 3, 1, 'this `(` is not closed'), ('l', 6, 4, '`)` closes no pair'),
                          ('m', 'GGCC', '(.).', 7, '1 pseudoknot pair left out')])
        self.assertEqual(rows('>k\nGGGGAAACCC\n(A[<..)a]>\n'),
                         [('k', 'GGGGAAACCC', '(.....)...', 1, '3 pseudoknot pairs left out')])

    def test_rejects(self) -> None:
        for text, *wrong in (
                ('>x\nGAXC\n....\n', 2, 3, '`X` is no letter of ACGTU'),
                ('>x\nGA.C\n....\n', 2, 3, '`.` is no letter of ACGTU'),
                ('>x\nGA\nC&\n....\n', 3, 2, '`&` is no letter of ACGTU'),
                ('>x\nGA\xe9\n...\n', 2, 3, 'byte 0xE9, no ASCII, is no letter of ACGTU'),
                ('>x\nGAC\n(.\n', 3, 3, '3 bases and 2 marks of structure'),
                ('>x\nGAC\n(...\n', 3, 4, '3 bases and 4 marks of structure'),
                ('>x\nGAC\n(.\n.)\n', 4, 2, '3 bases and 4 marks of structure'),
                ('>x\nGAC\n((.\n', 3, 2, 'this `(` is not closed'),
                ('\n>x\n GAC\n .))\n', 4, 3, '`)` closes no pair'),
                ('>x\nGAC\n(-)\n', 3, 2, '`-` is no mark of structure'),
                ('>x\nGA\n.]\n', 3, 2, '`]` closes no pair'), ('>x\nGA\n.[\n', 3, 2, 'this `[` is not closed'),
                ('>x\nGAC\n', 2, 4, 'no structure follows the sequence'),
                ('>x\n', 1, 1, 'no sequence follows the name'),
                ('>x\n...\n', 2, 1, 'a structure without a sequence before it'),
                ('>x\nGAC GAC\n......\n', 2, 5, '`G` behind the sequence'),
                ('>x\nGAC\n(.) good\n', 3, 5, '`g` behind the structure begins no energy'),
                (f'>x\nGAC\n(.) ({"1" * 100_000}\n', 3, 5, '`(` behind the structure begins no energy')):
            after = rows(text + '>y\nA\n.\n', 'dotbracket')
            self.assertEqual([row[:4] for row in after], [('x', *wrong),
            ('y', 'A', '.', text.count('\n') + 1)], text[:50])
        self.assertEqual(rows('>caf\xe9\nA\n.\nC\n.\n'), [('caf?', 1, 5, 'byte 0xE9, no ASCII, in the name'),
        ('F-2', 'C', '.', 4)])
        self.assertEqual(rows('gA\n..\nC\n.\n')[1], ('F-2', 'C', '.', 3))

    def test_length(self) -> None:
        for size, whole in (65536, True), (65537, False):
            for format in 'dotbracket', 'fasta':
                item, = items_of(f'>x\n{"A" * size}\n({"." * (size - 2)})\n', format)
                self.assertEqual(isinstance(item, Record), whole)
        item, = items_of('>x\n' + ('A' * 60_000 + '\n') * 40 + '...\n')
        self.assertIn('a strand has at most 65,536', item.reason)


class Fasta(unittest.TestCase):
    """FASTA with structure lines."""

    def test_examples(self) -> None:
        text = '; by hand\n>a long name\nGGGAA\nACCC\n\n(((..\n.))) (-1.2)\n>b\nGA\n..\n>\nGT\n()\n'
        self.assertEqual(rows(text, 'fasta'), [('a long name', 'GGGAAACCC', '(((...)))', 2),
        ('b', 'GA', '..', 8),
        ('F-3', 'GT', '()', 11)])

    def test_rejects(self) -> None:
        for text, *wrong in (
                ('>x\nGA\nC\n(.\n', 4, 3, '3 bases and 2 marks of structure'),
                ('>x\nGA\nC\n(.\n))\n', 5, 2, '3 bases and 4 marks of structure'),
                ('>x\nGA\nCN\n(..)\n', 3, 2, '`N` is no letter of ACGTU'),
                ('>x\nGA\n..\nGA\n..\n', 4, 1, 'a line of sequence behind the structure'),
                ('>x\n..\n', 2, 1, 'a structure without a sequence before it'),
                ('>x\nGA\n', 2, 3, 'no structure follows the sequence'),
                ('>x\n\n', 1, 1, 'no sequence follows the name'),
                ('>x\nGA\n.. what\n', 3, 4, '`w` behind the structure begins no energy')):
            after = rows(text + '>y\nA\n.\n', 'fasta')
            self.assertEqual(after, [('x', *wrong), ('y', 'A', '.', text.count('\n') + 1)])
        with self.assertRaisesRegex(FormatError, r'^F:2:1: a FASTA file begins with .* \(read as fasta\)$'):
            items_of('\nGAC\n...\n', 'fasta')


class Connect(unittest.TestCase):
    """CT files."""

    def test_examples(self) -> None:
        one = '  3  dG = -1.2 [initially -1.5]  hair pin\n 1 G 0 2 3 1\n 2 A 1 3 0 2\n 3 T 2 0 1 3\n'
        two = '3\tENERGY = -0.2  hair pin\n1\tG\t0\t2\t0\t1\n2\tA\t1\t3\t0\t2\n3\tT\t2\t0\t0\t3\n'
        self.assertEqual(rows(one), [('hair pin', 'GAT', '(.)', 1)])
        self.assertEqual(rows('# a comment\n' + one + two + one.replace('hair pin', 'A 5')),
                         [('hair pin/1', 'GAT', '(.)', 2), ('hair pin/2', 'GAT', '...', 6), ('A 5', 'GAT', '(.)', 10)])
        self.assertEqual(rows('2\n1 G 0 2 2\n2 U 1 0 1\n2\n1 G 0 2 2 1 more\n2 U 1 0 1 2\n', 'ct'),
                         [('F-1', 'GU', '()', 1), ('F-2', 'GU', '()', 4)])

    def test_rejects(self) -> None:
        good = '3 x', '1 G 0 2 3 1', '2 A 1 3 0 2', '3 U 2 0 1 3'
        for at, line, *wrong in (
                (0, '4 x', 1, 1, 'the header says 4 bases, and 3 rows follow'),
                (0, '2 x', 1, 1, 'the header says 2 bases, and 3 rows follow'),
                (0, '0 x', 1, 1, 'the number of bases is 0, too large or no number'),
                (1, '1 G 0 2 4 1', 2, 9, 'base 1 of 3 has the mate 4'),
                (1, '1 G 0 2 1 1', 2, 9, 'base 1 of 3 has the mate 1'),
                (1, '1 G 0 2 0 1', 4, 9, 'base 3 has the mate 1, which has 0'),
                (2, '2 A 1 3 1 2', 3, 9, 'base 2 has the mate 1, which has 3'),
                (2, '2 N 1 3 0 2', 3, 3, '`N` is no letter of ACGTU'),
                (2, '2 a 1 3 0 2', 3, 3, LOWER % 'a'),
                (2, '  3 A 1 3 0 2', 3, 3, 'the index is to be 2'),
                (2, '2 A 1 3', 3, 8, 'a row has index, letter, previous, next, mate and index'),
                (2, '2 A 1 3 -1 2', 3, 9, 'the mate is no number, or too large'),
                (2, '2 AA 1 3 0 2', 3, 3, 'a word of 2 characters in the place of the letter'),
                (2, f'2 A 1 3 {"9" * 500} 2', 3, 9, 'the mate is no number, or too large'),
                (2, f'2 A 1 3 0{" " * 1000}2', 3, 1001, 'the row has more than 1,000 characters'),
                (2, '2 \xe9 1 3 0 2', 3, 3, 'byte 0xE9, no ASCII, is no letter of ACGTU')):
            lines = [*good[:at], line, *good[at + 1:]]
            after = rows('\n'.join([*lines, '1 y', '1 A 0 0 0 1', '']), 'ct')
            self.assertEqual(after, [('x', *wrong), ('y', 'A', '.', 5)], line[:50])
        self.assertEqual(rows('1 caf\xe9\n1 A 0 0 0 1\n', 'ct'), [('caf?', 1, 6, 'byte 0xE9, no ASCII, in the name')])
        self.assertEqual(rows('1 G 0 2 2 1\n2 C 1 0 1 2\n', 'ct')[0][1:3], (2, 1))

    def test_length(self) -> None:
        size = 65537
        body = '\n'.join(f'{i} A 0' for i in range(1, size + 1))
        for format, text in ('bpseq', body), ('ct', f'{size} x\n{body}'.replace(' A 0', ' A 0 0 0')):
            item, = items_of(text, format)
            self.assertEqual(item.reason, '65,537 bases, and a strand has at most 65,536')

    def test_crossing(self) -> None:
        text = '4 k\n1 G 0 2 3 1\n2 G 1 3 4 2\n3 C 2 4 1 3\n4 C 3 0 2 4\n'
        self.assertEqual(rows(text), [('k', 'GGCC', '(.).', 1, '1 pseudoknot pair left out')])

    def test_nested_subset(self) -> None:
        """Against the rule as it is written: each pair, by left ends, is held against all that are taken."""
        rng = random.Random(5)
        for _ in range(300):
            size = rng.randint(0, 24)
            free, mates = rng.sample(range(size), size), list(range(size))
            for _ in range(rng.randint(0, size // 2)):
                i, j = free.pop(), free.pop()
                mates[i], mates[j] = j, i
            taken: list[tuple[int, int]] = []
            pairs = [(i, j) for i, j in enumerate(mates) if i < j]
            for i, j in pairs:
                if not any(a < i < b < j or i < a < j < b for a, b in taken):
                    taken.append((i, j))
            kept, left_out = nested(mates)
            self.assertEqual([(i, j) for i, j in enumerate(kept) if i < j], taken)
            self.assertEqual(left_out, len(pairs) - len(taken))


class BasePairSequence(unittest.TestCase):
    """BPSEQ files."""

    def test_examples(self) -> None:
        body = '1 G 3\n2 A 0\n3 U 1\n'
        self.assertEqual(rows('Filename: d.5.bpseq\nOrganism: E. coli\nAccession Number: 7\n\n' + body),
                         [('d.5.bpseq', 'GAU', '(.)', 1)])
        self.assertEqual(rows(f'# from a database\n# File PDB_1.ct\n{body}{body}#Name: z\n{body}#\n# the end\n'),
                         [('PDB_1.ct', 'GAU', '(.)', 1), ('F-2', 'GAU', '(.)', 6), ('z', 'GAU', '(.)', 9)])
        self.assertEqual(rows('# a note\n' + body), [('a note', 'GAU', '(.)', 1)])
        self.assertEqual(rows('1 G 3\n2 G 4\n3 C 1\n4 C 2\n'),
                         [('F-1', 'GGCC', '(.).', 1, '1 pseudoknot pair left out')])

    def test_rejects(self) -> None:
        good = '# x', '1 G 3', '2 A 0', '3 U 1'
        for at, line, *wrong in (
                (1, '1 G 4', 2, 5, 'base 1 of 3 has the mate 4'),
                (1, '1 G 0', 4, 5, 'base 3 has the mate 1, which has 0'),
                (2, '2 N 0', 3, 3, '`N` is no letter of ACGTU'), (2, '3 A 0', 3, 1, 'the index is to be 2'),
                (2, '2 A', 3, 4, 'a row has index, letter and mate'),
                (2, '2 A x', 3, 5, 'the mate is no number, or too large')):
            lines = [*good[:at], line, *good[at + 1:]]
            after = rows('\n'.join([*lines, '# y', '1 A 0', '']), 'bpseq')
            self.assertEqual(after, [('x', *wrong), ('y', 'A', '.', 5)], line)
        self.assertEqual(rows('# Name: x\n', 'bpseq'), [('x', 1, 9, 'no rows follow the name')])
        self.assertEqual(rows('2 A 0\n3 A 0\n', 'bpseq'), [('F-1', 1, 1, 'the index is to be 1')])


def random_consensus(rng: random.Random, size: int) -> tuple[str, list[tuple[int, int]], list[tuple[int, int]]]:
    """A WUSS line, its pairs, and those of its pseudoknots, which cross others."""
    line, pairs, knots = [''] * size, [], []
    mates = random_strand(rng, size).mates
    for i in range(size):
        mate = mates[i] if i < len(mates) else i
        if mate == i:
            line[i] = rng.choice('.,_-:~')
        elif i < mate:
            line[i], line[mate] = rng.choice(['<>', '()', '[]', '{}'])
            pairs.append((i, mate))
    free = sorted(rng.sample([i for i in range(size) if line[i] in '.,_-:~'], 2)) if line.count('.') > 2 else []
    if free:
        line[free[0]], line[free[1]] = rng.choice(['Aa', 'Bb'])
        knots.append((free[0], free[1]))
    return ''.join(line), pairs, knots


def random_alignment(rng: random.Random, gaps: str) -> tuple[str, dict[str, str], list, list]:
    """The text of an alignment, which may span blocks, its sequences by name, its pairs and its pseudoknots."""
    size, width = rng.randint(1, 60), rng.randint(1, 70)
    consensus, pairs, knots = random_consensus(rng, size)
    names = [f's{i}/1-{i + 3}' for i in range(5)]
    table = {name: rng.choice('ACGTU') + ''.join(rng.choices('ACGTU' + gaps, k=size - 1)) for name in names}
    lines = ['# STOCKHOLM 1.0']
    for begin in range(0, size, width):
        lines += [f'{name} {row[begin:begin + width]}' for name, row in table.items()]
        lines += [f'#=GC SS_cons {consensus[begin:begin + width]}', '']
    return '\n'.join([*lines, '//', '']), table, pairs, knots


def brute_projection(row: str, pairs: list[tuple[int, int]], knots: list[tuple[int, int]]) -> tuple:
    """Bases, structure and notes, column by column."""
    columns = [i for i, char in enumerate(row) if char in 'ACGTU']
    marks = dict.fromkeys(columns, '.')
    odd = 0
    for i, j in pairs:
        if i in marks and j in marks:
            marks[i], marks[j] = '(', ')'
            odd += ''.join(sorted(row[i] + row[j])).replace('T', 'U') not in ('AU', 'CG', 'GU')
    lost = sum(i in marks and j in marks for i, j in knots)
    notes = [f'{lost} pseudoknot pair{"s" * (lost > 1)} left out'] * (lost > 0)
    notes += [f'{odd} pair{"s" * (odd > 1)} not canonical'] * (odd > 0)
    return ''.join(row[i] for i in columns), ''.join(marks[i] for i in columns), notes


class Stockholm(unittest.TestCase):
    """Stockholm alignments."""

    def test_wrapped(self) -> None:
        text = ('# STOCKHOLM 1.0\n#=GF ID  T\n#=GF AU  Andr\xe9\n\n'
                'seq1/10-17  GGG-A\n#=GR seq1/10-17 SS .....\nseq2   GG.UA\n#=GC SS_cons <<<A.\n\n'
                'seq1/10-17  AACCC\nseq2   AA~UT\n#=GC SS_cons .a>>>\n#=GC RF xxxxx\n//\n'
                '# STOCKHOLM 1.0\nx AC\n#=GC SS_cons ::\n//\n')
        self.assertEqual(rows(text), [('seq1/10-17', 'GGGAAACCC', '(((...)))', 5),
        ('seq2', 'GGUAAAUT', '((....))', 7, '1 pseudoknot pair left out'),
                                      ('x', 'AC', '..', 16)])

    def test_projection(self) -> None:
        rng = random.Random(6)
        for _ in range(60):
            text, table, pairs, knots = random_alignment(rng, '.-_~')
            for item, (name, row) in zip(items_of(text), table.items(), strict=True):
                self.assertEqual((item.name, item.strand.bases.decode(), item.strand.structure, list(item.notes)),
                                 (name, *brute_projection(row, pairs, knots)))

    def test_rejects(self) -> None:
        head, end = '# STOCKHOLM 1.0\n#=GF ID T\n', '//\n# STOCKHOLM 1.0\ny A\n#=GC SS_cons .\n//\n'
        left_out = '; 1 sequence is left out'
        for body, name, *wrong in (
                ('x GN\n#=GC SS_cons ..\n', 'x', 3, 4, '`N` is no letter of ACGTU'),
                ('x GAC\n#=GC SS_cons <>\n', 'x', 3, 5, '3 columns, and SS_cons has 2'),
                ('x  G\n#=GC SS_cons <>\n', 'x', 3, 5, '1 columns, and SS_cons has 2'),
                ('x  --\n#=GC SS_cons <>\n', 'x', 3, 4, 'the sequence is gaps and nothing else'),
                ('x G C\n#=GC SS_cons <>\n', 'x', 3, 5, 'a blank parts the sequence'),
                ('x\n#=GC SS_cons <>\n', 'x', 3, 2, 'no sequence behind the name'),
                ('x gC\n#=GC SS_cons <>\n', 'x', 3, 3, LOWER % 'g'),
                ('x\xe9 GC\n#=GC SS_cons <>\n', 'x?', 3, 2, 'byte 0xE9, no ASCII, in the name'),
                ('x GC\n#=GC SS_cons <)\n', 'T', 4, 15, '`)` stands where a `<` is to be closed' + left_out),
                ('x GC\n#=GC SS_cons <.\n', 'T', 4, 14, 'this `<` is not closed' + left_out),
                ('x GC\n#=GC SS_cons .a\n', 'T', 4, 15, '`a` closes no pair' + left_out),
                ('x GC\n#=GC SS_cons .+\n', 'T', 4, 15, '`+` is no mark of structure' + left_out),
                ('x GC\n', 'T', 1, 1, 'no line `#=GC SS_cons`' + left_out),
                ('#=GC SS_cons ..\n', 'T', 1, 1, 'no sequence')):
            self.assertEqual(rows(head + body + end), [(name, *wrong),
            ('y', 'A', '.', (head + body).count('\n') + 3)], body)
        cut = 'the alignment ends without `//`' + left_out
        self.assertEqual(rows(head + 'x GC\n#=GC SS_cons <>\n'), [('T', 4, 1, cut)])
        self.assertEqual(rows(head + 'x GC\n' + end[3:])[0], ('T', 4, 1, cut))
        self.assertEqual(rows('what\nis this\n' + end[3:], 'stockholm'), [
            ('', 1, 1, 'an alignment begins with `# STOCKHOLM 1.0`'),
        ('y', 'A', '.', 4)])

    @unittest.skipUnless(AlignIO, 'Biopython is not installed')
    def test_biopython(self) -> None:
        rng = random.Random(7)
        alignments = [random_alignment(rng, '.-') for _ in range(30)]
        whole = ''.join(alignment[0] for alignment in alignments)
        items = iter(items_of(whole))
        others = AlignIO.parse(io.StringIO(whole), 'stockholm')
        for theirs, (text, table, pairs, knots) in zip(others, alignments, strict=True):
            consensus = ''.join(line.split()[2] for line in text.split('\n') if line.startswith('#=GC SS_cons'))
            self.assertEqual((len(theirs), theirs.column_annotations['secondary_structure']), (len(table), consensus))
            for row, item in zip(theirs, items):
                self.assertEqual((item.name, item.strand.bases.decode(), item.strand.structure, list(item.notes)),
                                 (row.id, *brute_projection(str(row.seq), pairs, knots)))
        self.assertIsNone(next(items, None))


EXAMPLES = {
    'dotbracket': '>a\nGGAAACC\n((...)) (-1.20)\n>b\nGAC\n(.)\n',
    'fasta': '>a\nGGAA\nACC\n((..\n.))\n>b\nGAC\n(.)\n',
    'stockholm': '# STOCKHOLM 1.0\n#=GF ID T\na GGA\nb -AC\n#=GC SS_cons <.<\n\na CC\nb -G\n#=GC SS_cons >>\n//\n',
    'ct': '3 a\n1 G 0 2 3 1\n2 A 1 3 0 2\n3 C 2 0 1 3\n2 b\n1 A 0 2 0 1\n2 C 1 0 0 2\n',
    'bpseq': '# Name: a\n1 G 3\n2 A 0\n3 C 1\n# Name: b\n1 A 0\n'}


class Guess(unittest.TestCase):
    """The format is told by the content."""

    def test_examples(self) -> None:
        for format, text in EXAMPLES.items():
            for end in '\n', '\r\n', '\r':
                self.assertEqual(guess(text.replace('\n', end).encode()), format)
            self.assertEqual(guess(('\n\n' + text).encode()), format)
        self.assertEqual(guess(('# words\n' + EXAMPLES['ct']).encode()), 'ct')
        self.assertEqual(guess(b'Filename: x\nOrganism: GAC\n1 G 2\n2 C 1\n'), 'bpseq')
        self.assertEqual(guess(b'GAC\n(.)\n'), 'dotbracket')
        self.assertEqual(guess(b'>a\nGA\nGA\n....\n(..)\n'), 'dotbracket')
        self.assertEqual(guess('\n'.join(['>t', *CLOVERLEAF]).encode()), 'dotbracket')
        self.assertEqual(guess(b'4 A 5\n1 G 0 2 0 1\n'), 'ct')
        self.assertEqual(guess(b'Homo sapiens\n(partial) sequence\n1 G 0\n'), 'bpseq')

    def test_none(self) -> None:
        for head, line, column, reason in ((b'', 1, 1, 'empty'),
        (b'\n \n', 1, 1, 'empty'),
        (b'\nhello world\n', 2, 1, 'none of'),
                                           (b'# a comment\n', 1, 1, 'none of'), (b'>a\nG\0\n', 2, 2, 'NUL')):
            with self.assertRaisesRegex(FormatError, reason) as caught:
                guess(head, source='F')
            self.assertEqual((caught.exception.source, caught.exception.line, caught.exception.column),
            ('F', line, column))
            self.assertEqual(str(caught.exception), f'F:{line}:{column}: {caught.exception.reason}')


class Hostile(unittest.TestCase):
    """Any bytes are read, rejected or an error with its place."""

    def check(self, data: bytes, format: str | None) -> list[Item]:
        """Reads bytes; whatever comes has a place in them and sound strands."""
        found: list[Item] = []
        try:
            for item in read_stream(io.BytesIO(data), name='F', format=format):
                found.append(item)
        except FormatError as error:
            self.assertTrue(str(error).startswith(f'F:{error.line}:{error.column}: '), str(error))
            self.assertTrue(error.line >= 1 and error.column >= 1)
            self.assertEqual(error.format, format or error.format)
        for item in found:
            self.assertTrue(item.name.isascii() and item.name.isprintable() and item.line >= 1)
            if isinstance(item, Reject):
                self.assertTrue(item.reason and item.column >= 1 and f'(read as {item.format})' in str(item))
                self.assertIn(item.format, [format] if format else FORMATS)
            else:
                self.assertEqual(Strand.of(item.strand.bases, item.strand.structure), item.strand)
                self.assertTrue(item.strand.bases and not item.strand.bases.translate(None, b'ACGTU'))
        return found

    def test_cut(self) -> None:
        for text, format in itertools.product(EXAMPLES.values(), (*FORMATS, None)):
            for size in range(len(text)):
                self.check(text[:size].encode(), format)
        for format, text in EXAMPLES.items():
            whole = items_of(text, format)
            for size in range(len(text)):
                for item, full in zip(self.check(text[:size].encode(), format), whole):
                    if isinstance(item, Record) and format != 'bpseq':
                        self.assertEqual((item.name, item.strand), (full.name, full.strand))

    def test_changed(self) -> None:
        rng = random.Random(8)
        for format, text in EXAMPLES.items():
            for _ in range(200):
                data = bytearray(text.encode())
                for _ in range(rng.randint(1, 3)):
                    data[rng.randrange(len(data))] = rng.choice(ODD_BYTES)
                self.check(bytes(data), format)
                self.check(bytes(data), None)

    def test_binary(self) -> None:
        rng = random.Random(9)
        for format in (*FORMATS, None):
            for _ in range(20):
                self.check(rng.randbytes(300), format)
                self.check(bytes(rng.choices(b'\n >#.(1A\xe9', k=300)), format)
            with self.assertRaisesRegex(FormatError, 'the file is empty'):
                items_of('', format)
            with self.assertRaisesRegex(FormatError, '^F:1:2: a NUL byte'):
                items_of('>a\nGAC\n(.)\n'.encode('utf-16-le'), format)
        for format in set(FORMATS) - {'stockholm'}:
            with self.assertRaisesRegex(FormatError, rf'^F:1:1: no molecule in the file \(read as {format}\)$'):
                items_of('# a comment\n', format)

    def test_nul_behind_records(self) -> None:
        found = []
        with self.assertRaisesRegex(FormatError, r'^F:4:2: a NUL byte: this is no text \(read as dotbracket\)$'):
            for item in read_stream(io.BytesIO(b'GAC\n(.)\nGC\n(\0'), name='F', format='dotbracket'):
                found.append(item)
        self.assertEqual([plain(item) for item in found], [('F-1', 'GAC', '(.)', 1)])

    def test_huge_line(self) -> None:
        for format in FORMATS:
            with self.assertRaisesRegex(FormatError, f'^F:2:{LINE_MOST + 1}: the line has more than 1,048,576 char'):
                items_of(b'# STOCKHOLM 1.0\n' + b'A' * (LINE_MOST + 100_000), format)
        self.assertEqual(rows(b'# ' + b'A' * (LINE_MOST - 2) + b'\n>a\nA\n.\n', 'dotbracket'), [('a', 'A', '.', 2)])

    def test_damaged_gz(self) -> None:
        rng = random.Random(10)
        text = written(random_records(rng, 600), 'dotbracket').encode()
        packed = gzip.compress(text)
        self.assertGreater(len(text), 1 << 16)
        for data in packed[:-1], packed[:-9], packed[:20], packed[:5], packed[:-8] + b'12345678', packed + b'rest':
            with self.assertRaisesRegex(FormatError, r'^F:\d+:1: the gz file is cut or damaged: '):
                items_of(data, 'dotbracket')
        self.assertEqual(len(items_of(packed)), 600)

    def test_missing_file(self) -> None:
        with self.assertRaises(OSError):
            next(read(os.path.join('no', 'such', 'file')))


if __name__ == '__main__':
    unittest.main()
