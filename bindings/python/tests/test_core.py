"""The package against the header, against a plain implementation of the rules, and against damaged and refused inputs.

LAKHIDO_LIBRARY names the shared library. Random cases have fixed seeds.
"""
from __future__ import annotations

import doctest
import mmap
import os
import pickle
import random
import re
import sys
import tempfile
import unittest
from array import array
from pathlib import Path
from unittest import mock

ROOT = Path(__file__).resolve().parent.parent
sys.path.insert(0, str(ROOT / 'src'))

import plain  # noqa: E402
import lakhido  # noqa: E402
from lakhido import BLOCK, Fold, Query, Refusal, Strand, Window  # noqa: E402
from lakhido import library as binding  # noqa: E402
from lakhido.refusals import accepted  # noqa: E402

HEADER = (ROOT.parent.parent / 'include' / 'lakhido.h').read_text()


def strand(bases: bytes, mates: list[int]) -> Strand:
    """The strand of these bases and mates, whatever they are."""
    return Strand(bases, array('H', mates))


def strand_of(pair: plain.Plain) -> Strand:
    """The strand of the package for a strand of the plain rules."""
    return strand(*pair)


class Case(unittest.TestCase):
    """A case with the library loaded."""

    @classmethod
    def setUpClass(cls) -> None:
        cls.library = lakhido.load()

    def refused(self, call, number, side, place, *arguments):
        """Holds a call to its refusal, and every buffer among the arguments to the bytes that it had."""
        before = [bytes(one) for one in arguments if isinstance(one, bytearray)]
        with self.assertRaises(Refusal) as caught:
            call(self.library, *arguments)
        refusal = caught.exception
        self.assertEqual((refusal.number, refusal.side, refusal.place), (number, side, place), str(refusal))
        self.assertEqual((refusal.call, refusal.reason), (call.__name__, number))
        self.assertEqual([bytes(one) for one in arguments if isinstance(one, bytearray)], before)
        return str(refusal)


class HeaderTest(unittest.TestCase):
    """The header's numbers and declarations, which the package repeats."""

    def test_numbers(self):
        for name, number in re.findall(r'#define LAKHIDO_(\w+) (\d+)\n', HEADER):
            self.assertEqual(getattr(binding, name), int(number), name)
        self.assertIn(f'#define LAKHIDO_VERSION "{lakhido.__version__}"', HEADER)

    def test_enums(self):
        for name, first, members in (('refusal', {'ACCEPTED': 0}, lakhido.Reason), ('side', {}, lakhido.Side)):
            listed = re.search(r'enum lakhido_%s \{(.*?)\};' % name, HEADER, re.S)[1]
            listed = {part: int(number) for part, number in re.findall(r'LAKHIDO_(\w+) = (\d+)', listed)}
            self.assertEqual(listed, first | {member.name: member.value for member in members})

    def test_functions(self):
        declared = re.findall(r'^(lakhido_\w+) lakhido_(\w+)\((.*?)\);', HEADER, re.S | re.M)
        self.assertEqual({name for _, name, _ in declared}, set(binding.FUNCTIONS))
        structs = {'lakhido_answer': binding.Answer, 'lakhido_window_answer': binding.WindowAnswer,
                   'lakhido_batch_answer': binding.BatchAnswer}
        for answer, name, parameters in declared:
            want = []
            for parameter, kind in binding.FUNCTIONS[name][1].items():
                whole = kind is binding.Kind.SIZE
                want += [f'size_t {parameter}'] if whole else [kind.value + parameter, f'size_t {parameter}_length']
            self.assertEqual([' '.join(part.split()) for part in parameters.split(',')], want, name)
            self.assertIs(binding.FUNCTIONS[name][0], structs[answer], name)

    def test_structs(self):
        for name, fields in re.findall(r'typedef struct (\w+) \{(.*?)\}', HEADER, re.S):
            fields = re.findall(r'size_t (\w+)', fields)
            struct = {'lakhido_answer': binding.Answer, 'lakhido_window_answer': binding.WindowAnswer,
                      'lakhido_batch_answer': binding.BatchAnswer}[name]
            self.assertEqual([field for field, _ in struct._fields_], fields)


class StrandTest(unittest.TestCase):
    """Strands and dot-bracket text."""

    def test_of(self):
        one = Strand.of('GGGAAACCC', '(((...)))')
        self.assertEqual(one, Strand.of(b'GGGAAACCC', b'(((...)))'))
        self.assertEqual((one.bases, list(one.mates), len(one)), (b'GGGAAACCC', [8, 7, 6, 3, 4, 5, 2, 1, 0], 9))
        self.assertEqual(Strand.of('', ''), strand(b'', []))
        self.assertEqual(Strand.of('gTUx', '()..').bases, b'gTUx')

    def test_structure(self):
        rng = random.Random(1)
        for _ in range(200):
            one = strand_of(plain.random_strand(rng, 0, 12))
            self.assertEqual(Strand.of(one.bases, one.structure), one)

    def test_wrong_text(self):
        for bases, structure, column, reason in (
                ('GAC', '(.', 3, '3 bases and 2 marks of structure'),
                ('GA', '(.)', 3, '2 bases and 3 marks of structure'),
                ('GAC', '.))', 2, '`)` closes no bond'),
                ('GAC', '(((', 3, 'this `(` is not closed'),
                ('GAC', '(()', 1, 'this `(` is not closed'),
                ('GAC', '[.]', 1, '`[` is none of `.`, `(` and `)`'),
                ('G\u00c4C', '(.)', 2, '`\u00c4` is not an ASCII character'),
                ('A' * 65537, '.' * 65537, 65537, '65537 bases, and 16-bit mates name 65536')):
            with self.assertRaises(ValueError) as caught:
                Strand.of(bases, structure)
            self.assertEqual(caught.exception.column, column)
            self.assertIn(f'column {column}: {reason}', str(caught.exception))

    def test_types(self):
        mates = array('H', [0])
        for wrong in (('A', mates), (bytearray(b'A'), mates), (b'A', [0]), (b'A', array('I', [0]))):
            self.assertRaises(TypeError, Strand, *wrong)


class DirectTest(Case):
    """check, length, show, window and verify against the plain rules."""

    def test_settled(self):
        for p, pm, q, qm, size, places in (
                (b'A', [0], b'A', [0], 1, (0,)), (b'GC', [1, 0], b'GAC', [2, 1, 0], 2, (0, 2)),
                (b'GC', [0, 1], b'GAC', [2, 1, 0], 1, None), (b'GC', [1, 0], b'GC', [0, 1], 0, ()),
                (b'GC', [0, 1], b'GCC', [2, 1, 0], 2, (0, 1)), (b'GC', [0, 1], b'GGC', [2, 1, 0], 2, (1, 2)),
                (b'AGC', [0, 2, 1], b'AG', [0, 1], 1, (0,)), (b'AGC', [0, 2, 1], b'AGAC', [0, 3, 2, 1], 3, (0, 1, 3)),
                (b'GGCC', [3, 2, 1, 0], b'GGCC', [0, 2, 1, 3], 0, ())):
            shown = lakhido.show(self.library, strand(p, pm), strand(q, qm))
            self.assertEqual((shown.length, plain.longest(p, pm, q, qm)), (size, size))
            self.assertEqual(shown.places, shown.places if places is None else places)

    def test_random(self):
        rng = random.Random(2)
        for _ in range(400):
            q, qm = plain.random_strand(rng, 1, 8)
            p, pm = plain.random_motif(rng, q, qm, 4)
            with self.subTest(p=p, pm=pm, q=q, qm=qm):
                self.compare(p, pm, q, qm)

    def compare(self, p, pm, q, qm):
        motif, molecule, fold = strand(p, pm), strand(q, qm), Fold(*plain.fold(qm))
        self.assertEqual(lakhido.check(self.library, molecule), fold)
        size = plain.longest(p, pm, q, qm)
        self.assertEqual(lakhido.length(self.library, motif, molecule), lakhido.Prefix(size, fold))
        shown = lakhido.show(self.library, motif, molecule)
        self.assertEqual((shown.length, len(shown.places), shown.fold), (size, size, fold))
        self.assertTrue(plain.is_embedding(p[:size], pm[:size], q, qm, shown.places))
        whole = size == len(p)
        places = shown.places + (0,) * (len(p) - size)
        self.assertEqual(lakhido.verify(self.library, motif, molecule, places), whole)
        tightest = plain.tightest(p, pm, q, qm)
        self.assertEqual(lakhido.window(self.library, motif, molecule), Window(*tightest) if tightest else None)
        self.assertEqual(tightest is not None, whole)

    def test_verify(self):
        rng = random.Random(3)
        for _ in range(300):
            q, qm = plain.random_strand(rng, 1, 6)
            p, pm = plain.random_motif(rng, q, qm, 3)
            places = tuple(sorted(rng.choices(range(len(q) + 1), k=len(p))))
            answer = lakhido.verify(self.library, strand(p, pm), strand(q, qm), places)
            self.assertEqual(answer, plain.is_embedding(p, pm, q, qm, places), (p, pm, q, qm, places))
        self.assertFalse(lakhido.verify(self.library, strand(b'A', [0]), strand(b'A', [0]), [65535]))
        self.assertRaises(OverflowError, lakhido.verify, self.library, strand(b'A', [0]), strand(b'A', [0]), [65536])

    def test_letters(self):
        for a in plain.LETTERS:
            for b in plain.LETTERS:
                found = lakhido.length(self.library, strand(bytes([a]), [0]), strand(bytes([b]), [0])).length
                self.assertEqual(found == 1, a == b or {a, b} == set(b'TU'))

    def test_no_bases_and_longest(self):
        none, longest = strand(b'', []), Strand.of('G' * 2048 + 'C' * 2048, '(' * 2048 + ')' * 2048)
        for molecule in (strand(b'A', [0]), longest):
            self.assertEqual(lakhido.show(self.library, none, molecule).places, ())
            self.assertEqual(lakhido.window(self.library, none, molecule), Window(0, 0))
            self.assertTrue(lakhido.verify(self.library, none, molecule, []))
        self.assertEqual(lakhido.check(self.library, longest), Fold(2048, 2048))


class RefusalTest(Case):
    """Refusals: number, side, place, words, and buffers that stay as they were."""

    def test_strands(self):
        rng = random.Random(4)
        seen = set()
        for _ in range(1500):
            size = rng.randint(0, 5)
            bases = bytes(rng.choices(b'ACGTU' * 5 + b'Xa', k=size))
            mates = rng.choice((plain.random_mates, plain.random_pairs))(rng, size)
            for _ in range(rng.choice((0, 0, 1, 2)) if size else 0):
                mates[rng.randrange(size)] = rng.randint(0, size)
            if rng.random() < 0.05:
                mates.append(0)
            seen.add(self.judged(strand(bases, mates), mates))
        self.assertEqual(seen, {None, 1, 2, 4, 5, 6, 7})

    def judged(self, one, mates):
        """Holds the refusals of a strand, as molecule and as motif, to the table; gives the molecule's number."""
        good = strand(b'A', [0])
        motif = plain.fault(one.bases, mates, 4096, may_be_empty=True)
        molecule = plain.fault(one.bases, mates, 4096, may_be_empty=False)
        if molecule is None:
            lakhido.check(self.library, one)
        else:
            self.refused(lakhido.check, molecule[0], 1, molecule[1], one)
            self.refused(lakhido.window, molecule[0], 1, molecule[1], good, one)
            self.refused(lakhido.add, molecule[0], 1, molecule[1], bytearray(BLOCK), bytearray(BLOCK), 0, one)
        if motif is not None:
            for call in (lakhido.length, lakhido.show, lakhido.window):
                self.refused(call, motif[0], 0, motif[1], one, good)
            self.refused(lakhido.query, motif[0], 0, motif[1], bytearray(BLOCK), bytearray(BLOCK), one)
        return molecule and molecule[0]

    def test_lengths(self):
        catalog, cache = bytearray(BLOCK), bytearray(BLOCK)

        def plain_strand(size):
            return Strand.of('A' * size, '.' * size)

        one = plain_strand(1)
        words = self.refused(lakhido.check, 3, 1, 0, plain_strand(4097))
        self.assertEqual(words, 'check refused with 3: the molecule has more than 4096 bases')
        self.refused(lakhido.length, 3, 0, 0, plain_strand(65536), one)
        self.refused(lakhido.verify, 3, 1, 0, one, plain_strand(4097), [0])
        words = self.refused(lakhido.add, 3, 1, 0, catalog, cache, 0, plain_strand(161))
        self.assertEqual(words, 'add refused with 3: the molecule has more than 160 bases')
        words = self.refused(lakhido.query, 3, 0, 0, catalog, cache, plain_strand(121))
        self.assertEqual(words, 'query refused with 3: the motif has more than 120 bases')
        motifs = bytearray(lakhido.encode(self.library, one) + lakhido.encode(self.library, plain_strand(121)))
        words = self.refused(lakhido.batch, 3, 0, 1, catalog, cache, motifs)
        self.assertEqual(words, 'batch refused with 3: motif 1 of the batch has more than 120 bases')
        lakhido.check(self.library, plain_strand(4096))
        lakhido.add(self.library, catalog, cache, 0, plain_strand(160))
        self.assertEqual(lakhido.query(self.library, catalog, cache, plain_strand(120)).hits, (0,))

    def test_slices(self):
        one, two = strand(b'A', [0]), strand(b'AC', [0, 1])
        words = self.refused(lakhido.verify, 9, 2, 0, two, two, [0])
        self.assertEqual(words, 'verify refused with 9: there are not as many places as the motif has bases')
        self.refused(lakhido.verify, 9, 2, 0, strand(b'', []), one, [0])
        parts = {'motif_bases': b'A', 'motif_mates': one.mates, 'bases': b'A', 'mates': one.mates}
        short, enough = array('H', [7]) * 135, array('H', [7]) * 136
        with self.assertRaises(Refusal) as caught:
            accepted('length', self.library.call('length', **parts, work=short))
        self.assertEqual(str(caught.exception), 'length refused with 8: the work slice has too few entries')
        self.assertEqual(short, array('H', [7]) * 135)
        self.assertEqual(accepted('length', self.library.call('length', **parts, work=enough)).value, 1)
        answer = self.library.call('show', **parts, places=array('H'), work=enough)
        self.assertEqual((answer.refusal, answer.side, answer.place), (9, 2, 0))

    def test_blocks(self):
        one, two = strand(b'A', [0]), bytearray(2 * BLOCK)
        for catalog, cache in ((0, 1), (1, 0), (513, 1), (1, 65)):
            catalog, cache = bytearray(catalog * BLOCK), bytearray(cache * BLOCK)
            self.refused(lakhido.add, 10, 2, 0, catalog, cache, 0, one)
            self.refused(lakhido.remove, 10, 2, 0, catalog, cache, 0)
            self.refused(lakhido.query, 10, 2, 0, catalog, cache, one)
            self.refused(lakhido.batch, 10, 2, 0, catalog, cache, bytearray(lakhido.EMPTY_MOTIF))
        words = self.refused(lakhido.query, 10, 2, 0, two, bytearray(513), one)
        self.assertIn('the catalog is not 1 to 512 whole blocks of 512 bytes, or the cache is not 1 to 64', words)
        two[BLOCK] = 9
        words = self.refused(lakhido.add, 11, 2, 1, two, bytearray(BLOCK), 0, one)
        self.assertEqual(words, 'add refused with 11: block 1 of the catalog is unsound')
        self.refused(lakhido.batch, 11, 2, 1, two, bytearray(BLOCK), bytearray(lakhido.EMPTY_MOTIF))

    def test_numbers(self):
        one, catalog, cache = strand(b'A', [0]), bytearray(2 * BLOCK), bytearray(BLOCK)
        words = self.refused(lakhido.remove, 14, 2, 0, catalog, cache, 0)
        self.assertEqual(words, 'remove refused with 14: the number has no molecule')
        lakhido.add(self.library, catalog, cache, 0, one)
        words = self.refused(lakhido.add, 13, 2, 0, catalog, cache, 0, one)
        self.assertEqual(words, 'add refused with 13: the number has a molecule')
        for number in (2, 2 ** 64 - 1):
            words = self.refused(lakhido.add, 12, 2, 0, catalog, cache, number, one)
            self.refused(lakhido.remove, 12, 2, 0, catalog, cache, number)
        self.assertEqual(words, 'add refused with 12: the number is no block of the catalog')
        for number in (-1, 2 ** 64):
            self.assertRaises(ValueError, lakhido.remove, self.library, catalog, cache, number)
        self.assertRaises(TypeError, lakhido.remove, self.library, catalog, cache, 0.0)

    def test_motifs(self):
        catalog, cache, good = bytearray(BLOCK), bytearray(BLOCK), lakhido.EMPTY_MOTIF
        size = ', or the buffer is not 1 to 16 whole blocks'
        for motifs, place in ((b'', 0), (good[:-1], 0), (17 * good, 0), (bytes(BLOCK), 0), (good + bytes(BLOCK), 1)):
            words = self.refused(lakhido.batch, 15, 0, place, catalog, cache, bytearray(motifs))
            unsound = f'batch refused with 15: block {place} of the motif buffer is unsound or empty'
            self.assertEqual(words, unsound + ('' if place else size))

    def test_words(self):
        refusal = Refusal(6, 1, 12, 'add')
        self.assertEqual(str(refusal), 'add refused with 6: base 12 of the molecule has a mate that has another mate '
                                       '(mates are not mutual)')
        self.assertEqual((refusal.reason.name, refusal.side.name), ('MATES_NOT_MUTUAL', 'MOLECULE'))
        again = pickle.loads(pickle.dumps(refusal))
        self.assertEqual((again.args, str(again)), (refusal.args, str(refusal)))
        for reason in lakhido.Reason:
            for call in binding.FUNCTIONS:
                self.assertNotRegex(Refusal(reason, 0, 3, call).words, '[{}]')
        self.assertRaises(ValueError, Refusal, 16, 0, 0, 'add')


class CatalogTest(Case):
    """Histories of add, remove, query and batch against the plain machine."""

    def test_settled(self):
        catalog, cache = bytearray(2 * BLOCK), bytearray(BLOCK)
        bonded, free = strand(b'GC', [1, 0]), strand(b'GC', [0, 1])

        def query(motif):
            return lakhido.query(self.library, catalog, cache, motif)

        self.assertEqual(lakhido.add(self.library, catalog, cache, 0, strand(b'GAC', [2, 1, 0])), Fold(1, 1))
        lakhido.add(self.library, catalog, cache, 1, strand(b'GGC', [2, 1, 0]))
        self.assertEqual([query(bonded), query(bonded)], [Query((0, 1), 2), Query((0, 1), 0)])
        self.assertEqual([query(free), query(bonded)], [Query((1,), 2), Query((0, 1), 2)])
        lakhido.remove(self.library, catalog, cache, 0)
        self.assertEqual(query(bonded), Query((1,), 0))

    def test_histories(self):
        rng = random.Random(5)
        for _ in range(8):
            blocks, slots = rng.randint(1, 6), rng.randint(1, 4)
            catalog, cache, machine = bytearray(blocks * BLOCK), bytearray(slots * BLOCK), plain.Machine(slots)
            motifs = [plain.random_strand(rng, 0, 3) for _ in range(5)]
            motifs += [(p.translate(bytes.maketrans(b'TU', b'UT')), pm) for p, pm in motifs]
            for _ in range(40):
                self.step(rng, catalog, cache, machine, motifs)

    def step(self, rng, catalog, cache, machine, motifs):
        """One call of a history."""
        number, kind = rng.randrange(len(catalog) // BLOCK), rng.choice('aarqqb')
        if kind == 'a' and number not in machine.molecules:
            molecule = machine.molecules[number] = plain.random_strand(rng, 1, 7)
            fold = lakhido.add(self.library, catalog, cache, number, strand_of(molecule))
            self.assertEqual(fold, Fold(*plain.fold(molecule[1])))
            start = number * BLOCK
            self.assertEqual(catalog[start:start + BLOCK], plain.block(*molecule))
        elif kind == 'r' and number in machine.molecules:
            machine.remove(number)
            lakhido.remove(self.library, catalog, cache, number)
        elif kind == 'q':
            motif = rng.choice(motifs)
            hits, searched = machine.query(*motif)
            found = lakhido.query(self.library, bytes(catalog), cache, strand_of(motif))
            self.assertEqual(found, Query(hits, len(searched)))
        elif kind == 'b':
            family = rng.choices(motifs, k=rng.randint(1, 4))
            answers = [machine.query(*motif) for motif in family]
            buffer = b''.join(lakhido.encode_motif(self.library, strand_of(motif)) for motif in family)
            found = lakhido.batch(self.library, catalog, cache, buffer)
            self.assertEqual(found.queries, tuple(Query(hits, len(searched)) for hits, searched in answers))
            self.assertEqual(found.read, len(set().union(*(searched for _, searched in answers))))


class BlockTest(Case):
    """Blocks against docs/FORMAT.md."""

    def test_examples(self):
        block = lakhido.encode(self.library, strand(b'GAC', [2, 1, 0]))
        listed = {i: byte for i, byte in enumerate(block) if byte}
        self.assertEqual(listed, {0: 1, 1: 3, 28: 71, 29: 65, 30: 67, 188: 2, 190: 1, 508: 6, 509: 26})
        self.assertEqual({i: byte for i, byte in enumerate(lakhido.EMPTY_MOTIF) if byte}, {0: 1, 508: 1})
        self.assertEqual(len(lakhido.EMPTY_MOTIF), BLOCK)

    def test_random(self):
        rng = random.Random(6)
        for _ in range(100):
            pair = plain.random_strand(rng, 1, 160)
            block = lakhido.encode(self.library, strand_of(pair))
            self.assertEqual(block, plain.block(*pair))
            self.assertEqual(lakhido.decode(memoryview(block)), strand_of(pair))

    def test_motifs(self):
        none, two = strand(b'', []), strand(b'GU', [1, 0])
        self.assertEqual(lakhido.encode_motif(self.library, none), plain.block(b'', []))
        self.assertEqual(lakhido.decode(lakhido.EMPTY_MOTIF), none)
        self.assertEqual(lakhido.encode_motif(self.library, two), plain.block(b'GU', [1, 0]))
        for one, number in ((Strand.of('A' * 121, '.' * 121), 3), (strand(b'X', [0]), 4), (strand(b'', [0]), 1)):
            with self.assertRaises(Refusal) as caught:
                lakhido.encode_motif(self.library, one)
            self.assertEqual((caught.exception.number, caught.exception.side), (number, lakhido.Side.MOTIF))

    def test_no_strand(self):
        self.assertIsNone(lakhido.decode(bytes(BLOCK)))
        for wrong in (b'', bytes(BLOCK + 1), b'\2' + bytes(511), b'\1\241' + bytes(510), b'\0\1' + bytes(510)):
            self.assertRaises(ValueError, lakhido.decode, wrong)


class BufferTest(Case):
    """Buffers of several types, lent in place."""

    def filled(self, catalog, cache):
        """Adds a molecule, finds it, and holds the buffers to those of a bytearray."""
        expected, kept = bytearray(2 * BLOCK), bytearray(BLOCK)
        for one, other in ((expected, kept), (catalog, cache)):
            lakhido.add(self.library, one, other, 1, strand(b'GAC', [2, 1, 0]))
            self.assertEqual(lakhido.query(self.library, one, other, strand(b'GC', [1, 0])), Query((1,), 1))
        self.assertEqual((bytes(catalog), bytes(cache)), (bytes(expected), bytes(kept)))

    def test_views_of_one_buffer(self):
        whole = bytearray(b'\7' * (5 * BLOCK + 3))
        whole[1:1 + 3 * BLOCK] = bytes(3 * BLOCK)
        view = memoryview(whole)
        self.filled(view[1:1 + 2 * BLOCK], view[1 + 2 * BLOCK:1 + 3 * BLOCK])
        self.assertEqual((whole[:1], whole[1 + 3 * BLOCK:]), (b'\7', b'\7' * (2 * BLOCK + 2)))

    def test_mapped_file(self):
        with tempfile.TemporaryFile() as file:
            file.truncate(2 * BLOCK)
            with mmap.mmap(file.fileno(), 0) as catalog:
                self.filled(catalog, bytearray(BLOCK))
                with mmap.mmap(file.fileno(), 0, access=mmap.ACCESS_READ) as read_only:
                    found = lakhido.query(self.library, read_only, bytearray(BLOCK), strand(b'', []))
                    self.assertEqual(found, Query((1,), 1))

    def test_not_held_after_a_call(self):
        catalog, cache = bytearray(BLOCK), bytearray(BLOCK)
        lakhido.query(self.library, catalog, cache, strand(b'', []))
        try:
            lakhido.remove(self.library, catalog, cache, 0)
        except Refusal:
            catalog.extend(bytes(BLOCK))
            cache.extend(bytes(BLOCK))
        self.assertEqual((len(catalog), len(cache)), (2 * BLOCK, 2 * BLOCK))

    def test_overlap(self):
        whole, none = bytearray(3 * BLOCK), strand(b'', [])
        view = memoryview(whole)
        for catalog, cache in ((whole, whole), (view[:2 * BLOCK], view[BLOCK:]), (view[BLOCK:2 * BLOCK], whole)):
            self.assertRaisesRegex(ValueError, 'overlaps', lakhido.remove, self.library, catalog, cache, 0)
            self.assertRaisesRegex(ValueError, 'overlaps', lakhido.query, self.library, catalog, cache, none)
        mates = array('H', range(BLOCK // 2))
        molecule = Strand(b'A', mates)
        with self.assertRaisesRegex(ValueError, 'cache may be written, and it overlaps mates'):
            lakhido.add(self.library, bytearray(BLOCK), memoryview(mates).cast('B'), 0, molecule)
        self.assertEqual(lakhido.query(self.library, view[:BLOCK], view[BLOCK:], none), Query((), 0))
        motifs = bytearray(lakhido.EMPTY_MOTIF)
        self.assertRaisesRegex(ValueError, 'overlaps', lakhido.batch, self.library, view[:BLOCK], motifs, motifs)

    def test_wrong_types(self):
        one, good = strand(b'A', [0]), bytearray(BLOCK)
        for wrong in (bytes(BLOCK), memoryview(good)[::2], None, 'A' * BLOCK):
            self.assertRaises(TypeError, lakhido.add, self.library, wrong, good, 0, one)
            self.assertRaises(TypeError, lakhido.add, self.library, good, wrong, 0, one)
        self.assertRaises(TypeError, self.library.call, 'check', bases=b'A', mates=[0])
        self.assertRaises(TypeError, self.library.call, 'check', bases=b'A')


class LoadTest(unittest.TestCase):
    """Where the library is looked for."""

    def test_named(self):
        path = os.path.abspath(os.environ[binding.VARIABLE])
        self.assertEqual(lakhido.load().path, path)
        with mock.patch.dict(os.environ, {binding.VARIABLE: '/no/such/library'}):
            self.assertRaisesRegex(OSError, '/no/such/library', lakhido.load)
            self.assertEqual(lakhido.load(path).path, path)

    def test_not_named(self):
        path = os.path.abspath(os.environ[binding.VARIABLE])
        with (mock.patch.dict(os.environ), mock.patch.object(binding, 'SONAME', 'liblakhido-none.so'),
              tempfile.TemporaryDirectory() as folder,
              mock.patch.object(binding, '__file__', os.path.join(folder, 'library.py'))):
            del os.environ[binding.VARIABLE]
            self.assertRaisesRegex(OSError, 'LAKHIDO_LIBRARY is not set', lakhido.load)
            beside = os.path.join(folder, 'liblakhido.so')
            os.symlink(path, beside)
            self.assertEqual(lakhido.load().path, beside)

    def test_other_library(self):
        self.assertRaisesRegex(OSError, 'it lacks lakhido_check', lakhido.Library, 'libc.so.6')


class ReadmeTest(unittest.TestCase):
    """The example of the README prints what stands there."""

    def test_readme(self):
        self.assertEqual(doctest.testfile(str(ROOT / 'README.md'), module_relative=False).failed, 0)


if __name__ == '__main__':
    unittest.main()
