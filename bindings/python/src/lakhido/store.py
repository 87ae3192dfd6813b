"""Stores: folders of named molecules of any number, searched by the proved calls.

A store has catalogs of 512 blocks (`catalog-0003.g17.bin`: catalog 3 as generation 17 of the store left it), a cache
for each that was searched (`cache-0003.bin`), the table `store.json`, which has the generation, the catalog files in
use and the names, and the file `lock`.

One process at a time opens a store for writing; any number read it, without a lock. No catalog file is ever changed:
a save writes the changed catalogs as new files, then the table in the place of the old one, then removes the catalog
files that the table no longer names. So whenever the writer is killed the table is the old or the new one, and the
files that it names are whole. A reader whose catalog file is gone reads the table anew.
"""
from __future__ import annotations

import heapq
import os
import re
from collections.abc import Callable, Iterator, Sequence
from contextlib import contextmanager
from dataclasses import dataclass
from pathlib import Path
from types import TracebackType
from typing import TypeVar

from . import calls
from .blocks import BLOCK, BLOCKS_MOST, EMPTY, MOTIFS_MOST, decode, encode, encode_motif
from .caches import CACHE_BYTES, read_cache, write_cache
from .files import ASIDE, Lock, named, remove_quietly, sync_folder, write_aside
from .hits import Disagreement, Hit, locate
from .library import Library
from .refusals import Reason, Refusal
from .strand import Strand
from .table import CATALOG, TABLE, StoreError, Table, catalog_name, read_table

LOCK = 'lock'
"""The name of the file that the writer locks."""
CATALOG_BYTES = BLOCKS_MOST * BLOCK
"""The bytes of a catalog."""
CHANGED_MOST = 16
"""How many changed catalogs a writer keeps in memory; one more, and the first of them goes to its file."""

_LEFT_ASIDE = re.compile(r'(catalog-\d{4,}\.g\d+\.bin|cache-\d{4,}\.bin\.\d+|store\.json)' + re.escape(ASIDE))

Result = TypeVar('Result')
Progress = Callable[[int, int], None]
"""Told how much of how much is done."""


class UnsoundBlock(StoreError):
    """A block of a catalog that the library refuses."""


class NameHeld(Exception):
    """A molecule of this name is in the store."""


class NameNotHeld(Exception):
    """No molecule of this name is in the store."""


@dataclass(frozen=True, slots=True)
class Fault:
    """What is wrong with a block of a store."""

    file: str
    number: int
    name: str | None
    reason: str

    def __str__(self) -> str:
        name = 'no name' if self.name is None else self.name
        return f'{self.file}: block {self.number} ({name}): {self.reason}'


@dataclass(slots=True)
class _Changed:
    """A catalog in memory that differs from its file, with its cache."""

    blocks: bytearray
    cache: bytearray


@dataclass(frozen=True, slots=True)
class _Family:
    """Motifs that are searched for in one call: one by a query, 2 to 16 by a batch."""

    motifs: Sequence[Strand]
    blocks: bytes
    """The motif buffer of a batch."""

    def ask(self, library: Library, catalog: bytearray, cache: bytearray) -> list[Sequence[int]]:
        """For each motif the numbers of the molecules of a catalog that it embeds in."""
        if len(self.motifs) == 1:
            return [calls.query(library, catalog, cache, self.motifs[0]).hits]
        return [query.hits for query in calls.batch(library, catalog, cache, self.blocks).queries]


def _family(library: Library, motifs: Sequence[Strand]) -> _Family:
    """Motifs that the library has judged: those that `query` refuses raise a Refusal."""
    return _Family(motifs, b''.join(encode_motif(library, motif) for motif in motifs))


class Store:
    """An open store. Changes are in memory, or in files that the table does not name, until `save`."""

    def __init__(self, path: Path, library: Library, table: Table, lock: Lock | None) -> None:
        """For `open_store`, which makes stores."""
        self.path = path
        self.library = library
        self._table = table
        self._lock = lock
        self._live = set(table.files())  # the catalog files that the table on disk may name: they stay
        self._changed: dict[int, _Changed] = {}
        self._dirty = False
        self._free = self._free_places() if lock else []
        self._keep_caches = True

    # ---- opening and closing

    def __enter__(self) -> Store:
        return self

    def __exit__(self, kind: type[BaseException] | None, error: BaseException | None,
                 trace: TracebackType | None) -> None:
        self.close()

    def close(self) -> None:
        """Ends the use of the store. What was not saved is dropped."""
        if self._lock:
            for name in set(self._table.files()) - self._live:
                remove_quietly(self.path / name)
            self._lock.release()
            self._lock = None

    @property
    def generation(self) -> int:
        """The generation that was opened or saved last; each save that changes a catalog begins a new one."""
        return self._table.generation

    @property
    def catalogs(self) -> int:
        """How many catalogs there are."""
        return len(self._table.catalogs)

    def __len__(self) -> int:
        return len(self._table.places)

    def __contains__(self, name: object) -> bool:
        return name in self._table.places

    def __iter__(self) -> Iterator[str]:
        """The names, in the order of import."""
        return iter(self._table.places)

    # ---- changing

    def add(self, name: str, strand: Strand, *, replace: bool = False) -> None:
        """Puts a molecule into the lowest free place; with `replace`, where the name is held, into the place it has.

        The block is the one that the proved `add` writes. The catalog's cache stays right: it knows nothing of a free
        place. Raises Refusal where `add` refuses the molecule, NameHeld where the name is held and not to be replaced.
        """
        self._must_write()
        block = encode(self.library, strand)
        place = self._table.places.get(name)
        if place is None:
            place = self._take_place()
        elif replace:
            self._empty(place)
        else:
            raise NameHeld(name)
        number, block_number = divmod(place, BLOCKS_MOST)
        blocks, at = self._to_change(number).blocks, BLOCK * block_number
        if blocks[at:at + BLOCK] != EMPTY:
            raise self._nameless(place)
        blocks[at:at + BLOCK] = block
        self._table.places[name] = place

    def remove(self, name: str) -> None:
        """Takes a molecule out: the proved `remove` empties its block and takes its number out of the cache."""
        self._must_write()
        place = self._place_of(name)
        self._empty(place)
        del self._table.places[name]
        heapq.heappush(self._free, place)

    def save(self) -> None:
        """Makes all changes lasting, as the next generation; a store without changes stays as it is.

        Until this returns the store on disk is the old one or the new one.
        """
        if not self._dirty:
            return
        for number in list(self._changed):
            self._put_down(number)
        sync_folder(self.path)
        live = set(self._table.files())
        gone, self._live = self._live - live, self._live | live
        write_aside(self.path / TABLE, [self._table.text(self.generation + 1)])
        sync_folder(self.path)
        self._table.generation += 1
        self._dirty, self._live = False, live
        for name in gone:
            remove_quietly(self.path / name)

    def _must_write(self) -> None:
        if not self._lock:
            raise StoreError(f'{self.path}: the store is not open for writing')

    def _free_places(self) -> list[int]:
        """The places of the catalogs without a name, as a heap: a rising list is one."""
        held = set(self._table.places.values())
        return [place for place in range(self.catalogs * BLOCKS_MOST) if place not in held]

    def _take_place(self) -> int:
        """The lowest free place, in a new catalog if there is none."""
        if not self._free:
            number = self.catalogs
            self._make_room()
            self._changed[number] = _Changed(bytearray(CATALOG_BYTES), bytearray(CACHE_BYTES))
            self._table.catalogs.append(self.generation + 1)
            self._dirty = True
            self._free.extend(range(number * BLOCKS_MOST, (number + 1) * BLOCKS_MOST))
        return heapq.heappop(self._free)

    def _empty(self, place: int) -> None:
        number, block_number = divmod(place, BLOCKS_MOST)
        changed = self._to_change(number)
        with self._judged(number):
            calls.remove(self.library, changed.blocks, changed.cache, block_number)

    def _to_change(self, number: int) -> _Changed:
        """A catalog with its cache in memory, to be changed."""
        changed = self._changed.get(number)
        if changed is None:
            self._make_room()
            blocks = self._blocks(number)
            changed = self._changed[number] = _Changed(blocks, self._cache(number, blocks))
            self._dirty = True
        return changed

    def _make_room(self) -> None:
        while len(self._changed) >= CHANGED_MOST:
            self._put_down(next(iter(self._changed)))

    def _put_down(self, number: int) -> None:
        """Writes a changed catalog and its cache to files of the next generation, which no table names yet."""
        changed, generation = self._changed[number], self.generation + 1
        write_aside(self.path / catalog_name(number, generation), [changed.blocks])
        if any(changed.cache):
            write_cache(self._cache_path(number), number, generation, changed.blocks, changed.cache)
        self._table.catalogs[number] = generation
        del self._changed[number]

    # ---- reading

    def get(self, name: str) -> Strand:
        """The molecule of a name."""
        return self.several([name])[0]

    def several(self, names: Sequence[str]) -> list[Strand]:
        """The molecules of these names, all as one state of the store has them. Raises NameNotHeld."""
        return self._steadily(lambda: [self._get(name) for name in names])

    def each(self, work: Callable[[str, Strand], Result], progress: Progress | None = None) -> list[Result]:
        """What `work` makes of each name and molecule, in the order of places."""
        return self._steadily(lambda: self._each(work, progress or _quietly))

    def search(self, motifs: Sequence[Strand], *, slack: int | None = None,
               progress: Progress | None = None) -> list[list[Hit]]:
        """For each motif its hits in all catalogs, in the order of places; with `slack` those of at most that slack.

        What the caches learn is kept in the store where that can be written. Raises Refusal for a motif that `query`
        refuses.
        """
        families = [_family(self.library, motifs[at:at + MOTIFS_MOST]) for at in range(0, len(motifs), MOTIFS_MOST)]
        return self._steadily(lambda: self._search(families, slack, progress or _quietly))

    def faults(self, progress: Progress | None = None) -> list[Fault]:
        """All blocks that the library calls unsound, and all that do not agree with the table of names."""
        return self._steadily(lambda: self._faults(progress or _quietly))

    def caches(self) -> int:
        """How many catalogs have a cache that belongs to them and knows something."""
        return self._steadily(lambda: sum(any(self._cache(number, self._blocks(number)))
                                          for number in range(self.catalogs)))

    def _steadily(self, read: Callable[[], Result]) -> Result:
        """What `read` makes of one state of the store.

        Where a catalog file is gone because a writer saved, the table is read anew and the work begun again.
        """
        while True:
            try:
                return read()
            except FileNotFoundError:
                table = None if self._lock else read_table(self.path / TABLE)
                if table is None or table.generation == self.generation:
                    raise
                self._table = table

    def _get(self, name: str) -> Strand:
        place = self._place_of(name)
        number, block_number = divmod(place, BLOCKS_MOST)
        at = BLOCK * block_number
        if number in self._changed:
            block = bytearray(self._changed[number].blocks[at:at + BLOCK])
        else:
            path = self._catalog_path(number)
            with named(path), open(path, 'rb') as file:
                file.seek(at)
                block = bytearray(file.read(BLOCK))
        if len(block) != BLOCK:
            raise StoreError(f'{self._catalog_path(number)}: the file ends before block {block_number}')
        if unsound_blocks(self.library, block):
            raise self._unsound(number, block_number)
        return self._molecule(place, block)

    def _each(self, work: Callable[[str, Strand], Result], progress: Progress) -> list[Result]:
        names = self._table.names()
        results: list[Result] = []
        for number in range(self.catalogs):
            progress(number, self.catalogs)
            blocks = self._blocks(number)
            for block_number in unsound_blocks(self.library, blocks):
                raise self._unsound(number, block_number)
            for at in range(0, CATALOG_BYTES, BLOCK):
                place = number * BLOCKS_MOST + at // BLOCK
                if place in names:
                    results.append(work(names[place], self._molecule(place, blocks[at:at + BLOCK])))
        return results

    def _search(self, families: Sequence[_Family], slack: int | None, progress: Progress) -> list[list[Hit]]:
        motifs, names = [motif for family in families for motif in family.motifs], self._table.names()
        found: list[list[Hit]] = [[] for _ in motifs]
        for number in range(self.catalogs):
            progress(number, self.catalogs)
            blocks = self._blocks(number)
            for index, numbers in enumerate(self._query(number, blocks, families)):
                for block_number in numbers:
                    place, at = number * BLOCKS_MOST + block_number, BLOCK * block_number
                    if place not in names:
                        raise self._nameless(place)
                    hit = self._hit(names[place], self._molecule(place, blocks[at:at + BLOCK]), motifs[index], index)
                    if slack is None or hit.slack <= slack:
                        found[index].append(hit)
        return found

    def _hit(self, name: str, strand: Strand, motif: Strand, index: int) -> Hit:
        """Where a motif lies in a molecule that a query named."""
        hit = locate(self.library, name, motif, strand, index)
        if hit is None:
            raise Disagreement(f'query finds a motif in {name}, and window does not')
        return hit

    def _query(self, number: int, blocks: bytearray, families: Sequence[_Family]) -> list[Sequence[int]]:
        """For each motif the numbers of the blocks of a catalog that it embeds in.

        What the cache learns is kept in its file if that can be; without a place to keep it the search is as right.
        """
        cache = self._cache(number, blocks)
        before = bytes(cache)
        numbers: list[Sequence[int]] = []
        with self._judged(number):
            for family in families:
                numbers += family.ask(self.library, blocks, cache)
        if self._keep_caches and cache != before and number not in self._changed:
            generation = self._table.catalogs[number]
            self._keep_caches = write_cache(self._cache_path(number), number, generation, blocks, cache)
        return numbers

    def _faults(self, progress: Progress) -> list[Fault]:
        names = self._table.names()
        found: list[Fault] = []
        for number, file in enumerate(self._table.files()):
            progress(number, self.catalogs)
            blocks = self._blocks(number)
            unsound = set(unsound_blocks(self.library, blocks))
            for block_number in range(BLOCKS_MOST):
                name, at = names.get(number * BLOCKS_MOST + block_number), BLOCK * block_number
                empty = blocks[at:at + BLOCK] == EMPTY
                if block_number in unsound:
                    found.append(Fault(file, block_number, name, 'the block is unsound'))
                elif empty and name is not None:
                    found.append(Fault(file, block_number, name, 'the block is empty'))
                elif not empty and name is None:
                    found.append(Fault(file, block_number, name, 'the table has no name for the molecule'))
        return found

    # ---- files, and what is wrong with them

    def _catalog_path(self, number: int) -> Path:
        return self.path / catalog_name(number, self._table.catalogs[number])

    def _cache_path(self, number: int) -> Path:
        return self.path / f'cache-{number:04d}.bin'

    def _blocks(self, number: int) -> bytearray:
        """The blocks of a catalog, as changed."""
        if number in self._changed:
            return self._changed[number].blocks
        path = self._catalog_path(number)
        with named(path):
            blocks = bytearray(path.read_bytes())
        if len(blocks) != CATALOG_BYTES:
            raise StoreError(f'{path}: {len(blocks)} bytes, and a catalog has {CATALOG_BYTES}')
        return blocks

    def _cache(self, number: int, blocks: bytearray) -> bytearray:
        """The cache that belongs to a catalog."""
        if number in self._changed:
            return self._changed[number].cache
        return read_cache(self._cache_path(number), number, self._table.catalogs[number], blocks)

    def _place_of(self, name: str) -> int:
        if name not in self._table.places:
            raise NameNotHeld(name)
        return self._table.places[name]

    def _molecule(self, place: int, block: bytearray) -> Strand:
        """The molecule in the sound block of a place that has a name."""
        strand = decode(block)
        if strand is None:
            number, block_number = divmod(place, BLOCKS_MOST)
            raise StoreError(f'{self._catalog_path(number)}: block {block_number} is empty, and has a name')
        return strand

    def _nameless(self, place: int) -> StoreError:
        number, block_number = divmod(place, BLOCKS_MOST)
        return StoreError(f'{self._catalog_path(number)}: block {block_number} has a molecule without a name')

    @contextmanager
    def _judged(self, number: int) -> Iterator[None]:
        """Calls on a catalog: where one refuses it for an unsound block, the error names the molecule."""
        try:
            yield
        except Refusal as refusal:
            if refusal.reason is Reason.UNSOUND_BLOCK:
                raise self._unsound(number, refusal.place) from refusal
            raise

    def _unsound(self, number: int, block_number: int) -> UnsoundBlock:
        name = self._table.names().get(number * BLOCKS_MOST + block_number)
        return UnsoundBlock(Fault(str(self._catalog_path(number)), block_number, name, 'the block is unsound'))


def _quietly(done: int, total: int) -> None:
    """Progress that nobody is told."""


def unsound_blocks(library: Library, blocks: bytearray) -> list[int]:
    """The numbers of the unsound blocks of a catalog, as the library judges them.

    It refuses to remove a number behind the end, but before that it refuses an unsound block, the lowest. A copy is
    asked, in which each block that was found is emptied, to find the next.
    """
    copy, cache = bytearray(blocks), bytearray(BLOCK)
    found: list[int] = []
    while True:
        try:
            calls.remove(library, copy, cache, len(copy) // BLOCK)
        except Refusal as refusal:
            if refusal.reason is Reason.NUMBER_TOO_LARGE:
                return found
            if refusal.reason is not Reason.UNSOUND_BLOCK:
                raise
            found.append(refusal.place)
            copy[BLOCK * refusal.place:BLOCK * (refusal.place + 1)] = EMPTY


# ---- opening

def open_store(path: str | os.PathLike[str], library: Library, *, write: bool = False,
               create: bool = False) -> Store:
    """Opens a store for reading or, with `write`, as its one writer; with `create` too it is made where there is none.

    Raises StoreError where there is no store, where it is damaged or where another process writes it, and OSError
    where files fail.
    """
    folder = Path(path)
    if write and create:
        folder.mkdir(exist_ok=True)
    elif not (folder / TABLE).is_file():
        raise StoreError(f'{folder}: there is no store here ({TABLE} is missing)')
    if not write:
        return Store(folder, library, read_table(folder / TABLE), None)
    names = os.listdir(folder)
    if TABLE not in names and not all(name == LOCK or _LEFT_ASIDE.fullmatch(name) for name in names):
        raise StoreError(f'{folder}: the folder has other files and is no store ({TABLE} is missing)')
    try:
        lock = Lock(folder / LOCK)
    except BlockingIOError as error:
        raise StoreError(f'{folder}: another process writes this store') from error
    try:
        return Store(folder, library, _table_for_writing(folder), lock)
    except BaseException:
        lock.release()
        raise


def _table_for_writing(folder: Path) -> Table:
    """The table of a store that is locked, made where there is none. Files that a killed writer left are removed."""
    if not (folder / TABLE).is_file():
        write_aside(folder / TABLE, [Table(0, [], {}).text(0)])
        sync_folder(folder)
    table = read_table(folder / TABLE)
    live = set(table.files())
    for name in os.listdir(folder):
        if _LEFT_ASIDE.fullmatch(name) or CATALOG.fullmatch(name) and name not in live:
            remove_quietly(folder / name)
    return table
