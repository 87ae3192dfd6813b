"""Stores against a dictionary; killed writers, failed writes, foreign caches, damaged files, readers beside a writer.

LAKHIDO_LIBRARY names the shared library. LAKHIDO_KILLS is the number of killed loads, 10 if it is not set. Random
cases have fixed seeds, but for the moments of the kills.
"""
from __future__ import annotations

import errno
import json
import os
import random
import shutil
import signal
import time
import unittest
from collections.abc import Callable
from pathlib import Path
from unittest import mock

from samples import InFolder, random_strand

from lakhido import calls
from lakhido.blocks import BLOCK, encode
from lakhido.caches import CACHE_BYTES
from lakhido.hits import Disagreement, cut
from lakhido.library import load
from lakhido.refusals import Reason, Refusal
from lakhido.store import NameHeld, NameNotHeld, Store, StoreError, UnsoundBlock, open_store
from lakhido.strand import Strand

LIBRARY = load()
KILLS = int(os.environ.get('LAKHIDO_KILLS', '10'))
HAIRPIN, STEM, FREE = Strand.of('GGAAACC', '((...))'), Strand.of('GC', '()'), Strand.of('GC', '..')

State = dict[str, Strand]


def writing(path: Path) -> Store:
    """The store as its writer has it; it is made where there is none."""
    return open_store(path, LIBRARY, write=True, create=True)


def state_of(path: Path) -> State:
    """All molecules of a store, in which nothing is out of order."""
    with open_store(path, LIBRARY) as store:
        assert store.faults() == [], store.faults()
        state = dict(store.each(lambda name, strand: (name, strand)))
        assert len(state) == len(store) and set(state) == set(store)
        return state


def filled(path: Path, strands: State) -> State:
    """Makes a store of these molecules."""
    with writing(path) as store:
        for name, strand in strands.items():
            store.add(name, strand)
        store.save()
    return strands


def embeds(motif: Strand, strand: Strand) -> bool:
    """Whether a motif embeds in a molecule, by the direct call."""
    return calls.length(LIBRARY, motif, strand).length == len(motif)


def carriers(motif: Strand, state: State) -> set[str]:
    """The names of the molecules in which a motif embeds."""
    return {name for name, strand in state.items() if embeds(motif, strand)}


def left_over(store: Store) -> set[str]:
    """The files of the folder that the store does not use."""
    catalogs = json.loads((store.path / 'store.json').read_text())['catalogs']
    caches = (f'cache-{number:04d}.bin' for number in range(len(catalogs)))
    return set(os.listdir(store.path)) - {'lock', 'store.json', *catalogs, *caches}


def some(seed: int, count: int, most: int = 24) -> State:
    """Molecules by name."""
    rng = random.Random(seed)
    return {f'molecule-{i}': random_strand(rng, 1, most) for i in range(count)}


class Histories(InFolder):
    def test_a_store_is_a_dictionary(self) -> None:
        rng, state, saved = random.Random(1), {}, {}
        motifs = [Strand.of('', ''), STEM, *(random_strand(rng, 1, 4) for _ in range(18))]
        with mock.patch('lakhido.store.CHANGED_MOST', 2):
            for step in range(12):
                with writing(self.path) as store:
                    for _ in range(3):
                        self.change(rng, store, state, 90)
                    if rng.random() < 0.4:
                        self.compare(store, state, rng.sample(motifs, rng.choice((1, 2))))
                    if step % 4 == 3:
                        state = dict(saved)  # what is not saved is dropped
                    else:
                        store.save()
                        saved = dict(state)
                self.assertEqual(state_of(self.path), saved)
                with open_store(self.path, LIBRARY) as store:
                    self.compare(store, saved, rng.sample(motifs, 17 if step == 8 else rng.choice((1, 2, 3))))
                    self.assertEqual(left_over(store), set())
        self.assertGreater(len(saved), 600)

    def change(self, rng: random.Random, store: Store, state: State, most: int) -> None:
        """Some molecules added, replaced and removed in the store and in the dictionary."""
        for _ in range(rng.randint(1, most)):
            name, strand = f'molecule-{rng.randrange(1500)}', random_strand(rng, 1, 16)
            if name not in state:
                store.add(name, strand)
            elif rng.random() < 0.3:
                store.remove(name)
                del state[name]
                continue
            elif rng.random() < 0.5:
                store.add(name, strand, replace=True)
            else:
                self.assertRaises(NameHeld, store.add, name, strand)
                continue
            state[name] = strand
        self.assertEqual(len(store), len(state))

    def compare(self, store: Store, state: State, motifs: list[Strand]) -> None:
        """The hits are the molecules in which the motif embeds, with the windows and places that the calls give."""
        for motif, hits in zip(motifs, store.search(motifs), strict=True):
            self.assertEqual({hit.name for hit in hits}, carriers(motif, state))
            for hit in hits[:20]:
                window = calls.window(LIBRARY, motif, hit.strand)
                self.assertEqual((hit.strand, hit.start, hit.length), (state[hit.name], window.start, window.length))
                self.assertTrue(calls.verify(LIBRARY, motif, hit.strand, hit.places))
                self.assertEqual(hit.slack, window.length - len(motif))
                if len(motif):
                    self.assertEqual((hit.places[0], hit.places[-1]), (hit.start, hit.start + hit.length - 1))
                    self.assertTrue(embeds(motif, hit.piece))

    def test_catalogs_joined_are_single_screens(self) -> None:
        state = filled(self.path, some(2, 1100))
        motifs = [HAIRPIN, STEM, FREE]
        with open_store(self.path, LIBRARY) as store:
            self.assertEqual(store.catalogs, 3)
            together, alone = store.search(motifs), [store.search([motif])[0] for motif in motifs]
            few = store.search(motifs, slack=2)
        for motif, one, other, tight in zip(motifs, together, alone, few, strict=True):
            expected = [name for name, strand in state.items()
                        if calls.query(LIBRARY, encode(LIBRARY, strand), bytearray(BLOCK), motif).hits]
            self.assertEqual([hit.name for hit in one], expected)
            self.assertEqual([hit.name for hit in other], expected)
            self.assertEqual([hit.name for hit in tight], [hit.name for hit in one if hit.slack <= 2])
        self.assertTrue(few[1])

    def test_blocks_are_those_of_add(self) -> None:
        state = filled(self.path, some(3, 40))
        catalog, cache = bytearray(512 * BLOCK), bytearray(CACHE_BYTES)
        for number, strand in enumerate(state.values()):
            calls.add(LIBRARY, catalog, cache, number, strand)
        self.assertEqual((self.path / 'catalog-0000.g1.bin').read_bytes(), catalog)

    def test_a_free_place_is_taken_first(self) -> None:
        filled(self.path, some(4, 600))
        with writing(self.path) as store:
            store.remove('molecule-20')
            store.remove('molecule-7')
            store.add('new', STEM)
            store.save()
        names = {tuple(place): name for name, *place in json.loads((self.path / 'store.json').read_text())['names']}
        self.assertEqual(names[0, 7], 'new')
        self.assertNotIn((0, 20), names)
        self.assertEqual((self.path / 'catalog-0000.g2.bin').read_bytes()[20 * BLOCK:21 * BLOCK], bytes(BLOCK))
        self.assertTrue((self.path / 'catalog-0001.g1.bin').exists())

    def test_refused_molecules_change_nothing(self) -> None:
        with writing(self.path) as store:
            for strand, reason in ((Strand.of('A' * 161, '.' * 161), Reason.TOO_LONG),
                                   (Strand.of('', ''), Reason.NO_BASES), (Strand.of('GxC', '(.)'), Reason.BAD_LETTER)):
                with self.assertRaises(Refusal) as caught:
                    store.add('name', strand)
                self.assertIs(caught.exception.reason, reason)
            self.assertRaises(NameNotHeld, store.remove, 'name')
            self.assertRaises(NameNotHeld, store.get, 'name')
            store.save()
            self.assertEqual((len(store), store.generation, store.catalogs), (0, 0, 0))
        with open_store(self.path, LIBRARY) as store:
            self.assertEqual(store.search([STEM]), [[]])
            self.assertRaises(Refusal, store.search, [Strand.of('A' * 121, '.' * 121)])
            self.assertRaises(StoreError, store.add, 'name', STEM)
            self.assertRaises(StoreError, store.remove, 'name')

    def test_what_verify_denies_is_no_hit(self) -> None:
        filled(self.path, {'a': HAIRPIN})
        with open_store(self.path, LIBRARY) as store, mock.patch('lakhido.calls.verify', return_value=False):
            self.assertRaises(Disagreement, store.search, [STEM])
        with open_store(self.path, LIBRARY) as store, mock.patch('lakhido.calls.window', return_value=None):
            self.assertRaises(Disagreement, store.search, [STEM])

    def test_window_cut(self) -> None:
        self.assertEqual(cut(Strand.of('GGACCU', '((.)).'), 1, 4), Strand.of('GACC', '(.).'))


class Kills(InFolder):
    """A writer that is killed at any moment leaves the store of one of its saves."""

    ROUNDS = 4

    def setUp(self) -> None:
        super().setUp()
        self.base = self.folder / 'base'
        self.states = [filled(self.base, some(5, 540))]
        with open_store(self.base, LIBRARY) as store:
            store.search([STEM])
        for number in range(self.ROUNDS):
            self.states.append(self.changed(number))

    def changed(self, number: int) -> State:
        """The molecules after one more round: some removed, one replaced in each catalog, some added."""
        state = dict(self.states[number])
        for i in range(5):
            del state[f'molecule-{number * 20 + i}']
        state |= {f'molecule-{10 + number}': STEM, f'molecule-{530 + number}': FREE}
        return state | {f'new-{number}-{i}': strand for i, strand in enumerate(some(number, 40).values())}

    def load(self, saved: Callable[[], object]) -> None:
        """All rounds, each with a save. The table of the store is what tells them from each other."""
        with writing(self.path) as store:
            for before, after in zip(self.states, self.states[1:]):
                for name in before.keys() - after.keys():
                    store.remove(name)
                for name, strand in after.items():
                    if before.get(name) is not strand:
                        store.add(name, strand, replace=True)
                store.save()
                saved()

    def killed(self, seconds: float) -> int:
        """Kills a load after so many seconds; how many saves it was told of."""
        ours, theirs = os.pipe()
        child = os.fork()
        if child == 0:
            try:
                self.load(lambda: os.write(theirs, b'.'))
            finally:
                os._exit(0)
        os.close(theirs)
        time.sleep(seconds)
        os.kill(child, signal.SIGKILL)
        os.waitpid(child, 0)
        with open(ours, 'rb') as pipe:
            return len(pipe.read())

    def test_kills(self) -> None:
        shutil.copytree(self.base, self.path)
        begun = time.monotonic()
        self.load(lambda: None)
        seconds, rng, seen = time.monotonic() - begun, random.Random(), []
        self.assertEqual(state_of(self.path), self.states[-1])
        for _ in range(KILLS):
            shutil.rmtree(self.path)
            shutil.copytree(self.base, self.path)
            told = self.killed(rng.uniform(0, 1.1 * seconds))
            seen.append(self.states.index(state_of(self.path)))
            self.assertIn(seen[-1], (told, told + 1))
            self.look(self.states[seen[-1]])
        if KILLS >= 100:
            self.assertEqual(set(seen), set(range(self.ROUNDS + 1)))

    def look(self, state: State) -> None:
        """The lock is free, what the killed writer left is gone, and a search finds what is there."""
        with writing(self.path) as store:
            self.assertEqual(left_over(store), set())
            hits, = store.search([STEM])
            self.assertEqual({hit.name for hit in hits}, carriers(STEM, state))


class Failures(InFolder):
    def test_a_save_that_fails_leaves_the_old_or_the_new(self) -> None:
        old = filled(self.path, some(6, 520))
        new = dict(old) | {'molecule-515': STEM, 'new': FREE}
        del new['molecule-3']
        shutil.copytree(self.path, self.folder / 'base')
        for call in ('os.fsync', 'os.replace'):
            steps, done = 0, False
            while not done:
                shutil.rmtree(self.path)
                shutil.copytree(self.folder / 'base', self.path)
                done = self.saved(call, steps, new)
                generation = json.loads((self.path / 'store.json').read_text())['generation']
                self.assertTrue(not done or generation == 2)
                self.assertEqual(state_of(self.path), new if generation == 2 else old)
                with writing(self.path) as store:
                    self.assertEqual(left_over(store), set())
                steps += 1
            self.assertGreater(steps, 3)

    def saved(self, call: str, steps: int, new: State) -> bool:
        """Changes the store to `new`, with a disk that is full after so many calls; whether it was saved."""
        real, counter = getattr(os, call.removeprefix('os.')), iter(range(steps))

        def full(*words: object) -> object:
            if next(counter, None) is None:
                raise OSError(errno.ENOSPC, os.strerror(errno.ENOSPC))
            return real(*words)

        with writing(self.path) as store:
            store.remove('molecule-3')
            store.add('molecule-515', new['molecule-515'], replace=True)
            store.add('new', new['new'])
            with mock.patch(call, full):
                try:
                    store.save()
                except OSError as error:
                    self.assertEqual((error.errno, bool(error.filename)), (errno.ENOSPC, True))
                    return False
        return True

    def test_no_store(self) -> None:
        self.assertRaises(StoreError, open_store, self.path, LIBRARY)
        self.assertRaises(StoreError, open_store, self.path, LIBRARY, write=True)
        self.assertEqual(os.listdir(self.folder), [])
        (self.folder / 'letter.txt').write_text('not a store')
        self.assertRaises(StoreError, writing, self.folder)
        self.assertEqual(os.listdir(self.folder), ['letter.txt'])
        self.assertRaises(OSError, writing, self.folder / 'none' / 'store')
        self.assertRaises(OSError, writing, self.folder / 'letter.txt')

    def test_damaged_tables(self) -> None:
        filled(self.path, {'a': STEM, 'b': FREE})
        table = self.path / 'store.json'
        good = json.loads(table.read_text())
        for wrong in ({'version': 2}, {'generation': -1}, {'generation': 'x'}, {'catalogs': ['catalog-0001.g1.bin']},
                      {'catalogs': ['../catalog-0000.g1.bin']}, {'names': [['a', 0, 512]]}, {'names': [['a', 1, 0]]},
                      {'names': [['a', 0, 0], ['a', 0, 1]]}, {'names': [['a', 0, 0], ['b', 0, 0]]},
                      {'names': [['a', 0]]}, {'names': [['a', 0.0, 0]]}, {'names': 3}):
            table.write_text(json.dumps(good | wrong))
            self.assertRaises(StoreError, open_store, self.path, LIBRARY)
        for text in (b'', b'[]', b'{}', b'\xff', table.read_bytes()[:-2]):
            table.write_bytes(text)
            self.assertRaises(StoreError, open_store, self.path, LIBRARY)
            self.assertRaises(StoreError, writing, self.path)

    def test_unsound_blocks_are_named(self) -> None:
        state = filled(self.path, some(7, 600))
        for number, block in ((0, 3), (0, 500), (1, 8)):
            with open(self.path / f'catalog-{number:04d}.g1.bin', 'r+b') as file:
                file.seek(block * BLOCK + 28)
                file.write(b'x')
        with open_store(self.path, LIBRARY) as store:
            found = [(fault.file, fault.number, fault.name) for fault in store.faults()]
            self.assertEqual(found, [('catalog-0000.g1.bin', 3, 'molecule-3'),
                                     ('catalog-0000.g1.bin', 500, 'molecule-500'),
                                     ('catalog-0001.g1.bin', 8, 'molecule-520')])
            for call in (lambda: store.search([STEM]), lambda: store.each(lambda *pair: pair),
                         lambda: store.get('molecule-3')):
                with self.assertRaisesRegex(UnsoundBlock, r'catalog-0000\.g1\.bin: block 3 \(molecule-3\)'):
                    call()
            self.assertEqual(store.get('molecule-4'), state['molecule-4'])
        with writing(self.path) as store:
            self.assertRaises(UnsoundBlock, store.remove, 'molecule-4')

    def test_names_and_blocks_that_disagree(self) -> None:
        filled(self.path, {'a': STEM, 'b': STEM})
        table = self.path / 'store.json'
        table.write_text(table.read_text().replace('["b",0,1]', '["b",0,7]'))
        with open_store(self.path, LIBRARY) as store:
            self.assertEqual([(fault.number, fault.name) for fault in store.faults()], [(1, None), (7, 'b')])
            self.assertRaises(StoreError, store.get, 'b')
            self.assertRaises(StoreError, store.search, [STEM])
        with writing(self.path) as store:
            self.assertRaises(StoreError, store.add, 'c', STEM)

    def test_catalogs_cut_or_gone(self) -> None:
        filled(self.path, {'a': STEM})
        catalog = self.path / 'catalog-0000.g1.bin'
        os.truncate(catalog, 100)
        with open_store(self.path, LIBRARY) as store:
            self.assertRaises(StoreError, store.search, [STEM])
            self.assertRaises(StoreError, store.get, 'a')
            catalog.unlink()
            self.assertRaises(FileNotFoundError, store.search, [STEM])


class Caches(InFolder):
    def setUp(self) -> None:
        super().setUp()
        filled(self.path, {'a': HAIRPIN, 'b': FREE})
        self.cache = self.path / 'cache-0000.bin'
        self.assertEqual(self.hits(STEM), ['a'])

    def hits(self, *motifs: Strand) -> list[str]:
        with open_store(self.path, LIBRARY) as store:
            return [hit.name for hits in store.search(motifs) for hit in hits]

    def usable(self) -> int:
        with open_store(self.path, LIBRARY) as store:
            return store.caches()

    def changed(self) -> None:
        """Another molecule in the place of `a`."""
        with writing(self.path) as store:
            store.remove('a')
            store.add('c', FREE)
            store.save()

    def test_an_older_cache_is_dropped(self) -> None:
        older = self.cache.read_bytes()
        self.changed()
        self.cache.write_bytes(older)
        catalog = (self.path / 'catalog-0000.g2.bin').read_bytes()
        self.assertEqual(calls.query(LIBRARY, catalog, bytearray(older[BLOCK:]), STEM).hits, (0,))  # were it believed
        self.assertEqual(self.usable(), 0)
        self.assertEqual(self.hits(STEM), [])
        self.assertEqual(self.usable(), 1)

    def test_a_cache_of_the_same_generation_and_another_catalog_is_dropped(self) -> None:
        other = self.folder / 'other'
        filled(other, {'x': FREE, 'y': HAIRPIN})
        shutil.copy(self.cache, other)
        with open_store(other, LIBRARY) as store:
            self.assertEqual(store.caches(), 0)
            self.assertEqual([hit.name for hit in store.search([STEM])[0]], ['y'])

    def test_damaged_caches_are_dropped(self) -> None:
        good = self.cache.read_bytes()
        self.assertEqual(self.usable(), 1)
        for bad in (b'', good[:-1], good + b'x', bytes([good[0] ^ 1]) + good[1:], good[:-1] + bytes([good[-1] ^ 1])):
            self.cache.write_bytes(bad)
            self.assertEqual(self.usable(), 0)
            self.assertEqual(self.hits(STEM), ['a'])
            self.assertEqual(self.cache.read_bytes(), good)

    def test_changes_carry_the_cache_on(self) -> None:
        self.changed()
        self.assertEqual(self.usable(), 1)
        answers = []
        real = calls.query
        with open_store(self.path, LIBRARY) as store, mock.patch(
                'lakhido.calls.query', side_effect=lambda *words: answers.append(real(*words)) or answers[-1]):
            store.search([STEM])
        self.assertEqual([(answer.hits, answer.searched) for answer in answers[-1:]], [((), 1)])
        self.assertEqual(self.hits(FREE, STEM, Strand.of('', '')), ['c', 'b', 'c', 'b'])

    def test_a_search_needs_no_place_for_the_cache(self) -> None:
        self.cache.unlink()
        with mock.patch('lakhido.caches.write_loosely', return_value=False) as write:
            self.assertEqual(self.hits(STEM), ['a'])
        self.assertEqual((write.call_count, self.cache.exists()), (1, False))


class Processes(InFolder):
    def test_one_writer(self) -> None:
        with writing(self.path) as store:
            store.add('a', STEM)
            store.save()
            self.assertRaisesRegex(StoreError, 'another process writes', writing, self.path)
            self.assertEqual(state_of(self.path), {'a': STEM})
        writing(self.path).close()

    def test_readers_beside_a_writer(self) -> None:
        variants = [Strand.of('A' * size, '.' * size) for size in range(1, 17)]
        filled(self.path, {f'molecule-{i}': variants[0] if i in (0, 519) else STEM for i in range(520)})
        lasting = open_store(self.path, LIBRARY)
        child = os.fork()
        if child == 0:
            try:
                with writing(self.path) as store:
                    for variant in variants[1:]:
                        store.add('molecule-0', variant, replace=True)
                        store.add('molecule-519', variant, replace=True)
                        store.save()
            finally:
                os._exit(0)
        seen, ended = [], False
        while not ended:
            ended = os.waitpid(child, os.WNOHANG)[0] == child
            fresh = open_store(self.path, LIBRARY)
            for store in (fresh, lasting):
                found = {hit.name: len(hit.strand) for hit in store.search([Strand.of('A', '.')])[0]}
                self.assertEqual(found['molecule-0'], found['molecule-519'])
                self.assertEqual(len(found), 2)
                one, other = store.several(['molecule-0', 'molecule-519'])
                self.assertEqual(one, other)
            seen.append(len(fresh.get('molecule-0')))
        self.assertEqual(seen, sorted(seen))
        self.assertEqual(seen[-1], 16)
        lasting.close()


if __name__ == '__main__':
    unittest.main()
