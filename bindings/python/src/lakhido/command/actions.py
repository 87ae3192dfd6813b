"""The actions of the subcommands. Each answers whether it found or did something."""
from __future__ import annotations

import argparse
import io
import os
import re
import sys
from collections.abc import Sequence
from dataclasses import dataclass, field
from pathlib import Path

from .. import __version__, calls, formats
from ..blocks import BLOCKS_MOST
from ..files import named
from ..formats import Record, Reject
from ..hits import Hit, locate
from ..library import Library, load
from ..refusals import Refusal
from ..store import NameHeld, Store, UnsoundBlock, open_store
from ..strand import Strand, StructureError
from . import output
from .progress import Progress

_HELD = 'the store has a molecule of this name (--replace takes the new one)'


class WrongUse(Exception):
    """Words of the command line, or a motif, that cannot be taken."""


def natural(text: str) -> int:
    """A number of the command line, at least 0."""
    number = int(text)
    if number < 0:
        raise ValueError(text)
    return number


# ---- import

@dataclass(slots=True)
class _Import:
    """What became of the records of some files."""

    store: Store
    replace: bool
    taken: int = 0
    replaced: int = 0
    rejects: list[tuple[str, int, str, str]] = field(default_factory=list)
    notes: list[tuple[str, int, str, str]] = field(default_factory=list)

    def take(self, item: Record | Reject) -> None:
        """Puts a record into the store; what the reader, the library or the store refuses is a reject."""
        if isinstance(item, Reject):
            column = '' if item.column is None else f' (column {item.column})'
            self.rejects.append((item.source, item.line, item.name, item.reason + column))
            return
        held = item.name in self.store
        try:
            self.store.add(item.name, item.strand, replace=self.replace)
        except Refusal as refusal:
            self.rejects.append((item.source, item.line, item.name, refusal.words))
        except NameHeld:
            self.rejects.append((item.source, item.line, item.name, _HELD))
        else:
            self.taken += 1
            self.replaced += held
            self.notes += [(item.source, item.line, item.name, note) for note in item.notes]


def import_files(args: argparse.Namespace) -> bool:
    """`lakhido import`. The store changes at the end, by all that was taken or, after an error, by nothing."""
    for file in args.files:
        if file != '-':
            os.stat(file)  # a missing file is told before a store is made
    with open_store(args.store, load(), write=True, create=True) as store:
        done = _Import(store, args.replace)
        with Progress('molecules read:') as progress:
            for file in args.files:
                with named(file):
                    for item in formats.read(file, format=args.format, lower=args.lower):
                        done.take(item)
                        progress(done.taken + len(done.rejects))
        _tell(done.rejects, args.rejects or store.path / 'rejects.tsv', 'reason', 'rejected')
        _tell(done.notes, store.path / 'notes.tsv', 'note', 'with a note')
        store.save()
        print(f'{_count(done.taken, "molecule")} imported, {done.replaced} replaced, {len(store)} in the store')
    return done.taken > 0


def _tell(rows: Sequence[tuple[str, int, str, str]], path: str | Path, last: str, said: str) -> None:
    """Writes the rejects or the notes of an import to a file, and says how many there are."""
    _write(path, output.tsv(('file', 'line', 'name', last), rows))
    if rows:
        print(f'lakhido: {len(rows)} {said}: {path}', file=sys.stderr)


# ---- motifs

def _motifs(args: argparse.Namespace) -> list[tuple[str, Strand]]:
    """The motifs of the command line with their names, at least one: those of --motif, then those of files."""
    found = [(f'motif-{number}', _motif(text)) for number, text in enumerate(args.motif, 1)]
    for file in args.motif_file:
        with named(file):
            for item in formats.read(file):
                if isinstance(item, Reject):
                    raise WrongUse(str(item))
                found.append((item.name, item.strand))
    if not found:
        raise WrongUse('there is no motif: --motif or --motif-file gives one')
    return found


def _motif(text: str) -> Strand:
    words = text.split() or ['', '']
    if len(words) != 2:
        raise WrongUse(f"--motif {text!r}: a motif is bases and structure, as 'GAC (.)'")
    wrong = re.search('[^ACGTU]', words[0])
    if wrong:
        raise WrongUse(f'--motif {text!r}: base {wrong.start() + 1}, `{wrong[0]}`, is not A, C, G, T or U')
    try:
        return Strand.of(*words)
    except StructureError as error:
        raise WrongUse(f'--motif {text!r}: {error}') from error


# ---- search, show, window

def search(args: argparse.Namespace) -> bool:
    """`lakhido search`."""
    library, motifs = load(), _motifs(args)
    with open_store(args.store, library) as store:
        with Progress('catalogs searched:') as progress:
            found = store.search([motif for _, motif in motifs], slack=args.slack, progress=progress)
        _print_hits(args.form, store, motifs, len(store), [hit for hits in found for hit in hits])
    return any(found)


def window(args: argparse.Namespace) -> bool:
    """`lakhido window`."""
    library, motifs = load(), _motifs(args)
    with open_store(args.store, library) as store:
        strands = list(zip(args.names, store.several(args.names)))
        found = [locate(library, name, motif, strand, index)
                 for index, (_, motif) in enumerate(motifs) for name, strand in strands]
        hits = [hit for hit in found if hit]
        _print_hits(args.form, store, motifs, len(strands), hits)
    return bool(hits)


def show(args: argparse.Namespace) -> bool:
    """`lakhido show`."""
    library, motifs = load(), _motifs(args)
    if len(motifs) != 1:
        raise WrongUse(f'show takes one motif, and there are {len(motifs)}')
    (title, motif), = motifs
    with open_store(args.store, library) as store:
        strand = store.get(args.name)
    hit = locate(library, args.name, motif, strand)
    if hit is None:
        length = calls.length(library, motif, strand).length
        print(f'{args.name}: {title} does not embed; of its {len(motif)} bases the first {length} do', file=sys.stderr)
        return False
    if args.output is None:
        ends = f'from {hit.start + 1} to {hit.start + hit.length}'
        print(f'>{hit.name}\n{output.shown(hit, motif)}{title} {ends}, slack {hit.slack}')
    else:
        from .. import pictures  # here, so that the other commands begin sooner
        draw = pictures.arc_diagram if args.drawing == 'arcs' else pictures.loop_drawing
        _write(args.output, draw(strand, name=hit.name, places=hit.places, window=(hit.start, hit.length)))
    return True


def _print_hits(form: str, store: Store, motifs: Sequence[tuple[str, Strand]], molecules: int,
                hits: Sequence[Hit]) -> None:
    titles = [title for title, _ in motifs]
    if form == 'json':
        value = {'store': str(store.path), 'generation': store.generation, 'molecules': molecules,
                 'motifs': [output.motif_object(*motif) for motif in motifs],
                 'hits': [output.hit_object(hit, titles[hit.motif]) for hit in hits]}
        sys.stdout.write(output.json_text(value))
        return
    counts = f'{_count(len(motifs), "motif")}, {_count(molecules, "molecule")}, {_count(len(hits), "hit")}'
    rows = [output.hit_row(hit, titles[hit.motif]) for hit in hits]
    _print_rows(form, store, output.HIT_COLUMNS, rows, counts)


def _print_rows(form: str, store: Store, columns: Sequence[str], rows: Sequence[output.Row], counts: str) -> None:
    foot = f'lakhido {__version__}: {counts}; store {store.path}, generation {store.generation}'
    sys.stdout.write(output.tsv(columns, rows) if form == 'tsv' else output.table(columns, rows, foot))


def _count(number: int, noun: str) -> str:
    return f'{number} {noun}' if number == 1 else f'{number} {noun}s'


def _write(path: str | Path, text: str) -> None:
    """Writes a text to a file, or to standard output where the path is `-`."""
    if path == '-':
        sys.stdout.write(text)
        return
    with named(path), open(path, 'w', encoding='utf-8', errors='surrogateescape', newline='\n') as file:
        file.write(text)


# ---- list, get, rm, verify, stats

def _folds(store: Store, library: Library) -> list[tuple[str, int, int, int]]:
    """Name, length, arcs and depth of each molecule."""
    def row(name: str, strand: Strand) -> tuple[str, int, int, int]:
        fold = calls.check(library, strand)
        return name, len(strand), fold.arcs, fold.depth

    with Progress('catalogs read:') as progress:
        return store.each(row, progress)


def list_molecules(args: argparse.Namespace) -> bool:
    """`lakhido list`."""
    library = load()
    with open_store(args.store, library) as store:
        rows = _folds(store, library)
    if args.sort:
        column = output.LIST_COLUMNS.index(args.sort)
        rows.sort(key=lambda row: row[column], reverse=args.reverse)
    elif args.reverse:
        rows.reverse()
    if args.form == 'json':
        sys.stdout.write(output.json_text([dict(zip(output.LIST_COLUMNS, row)) for row in rows]))
    else:
        _print_rows(args.form, store, output.LIST_COLUMNS, rows, _count(len(rows), 'molecule'))
    return bool(rows)


def get(args: argparse.Namespace) -> bool:
    """`lakhido get`."""
    with open_store(args.store, load()) as store:
        if args.names:
            strands = list(zip(args.names, store.several(args.names)))
        else:
            strands = store.each(lambda name, strand: (name, strand))
    text = io.StringIO()
    try:
        formats.write((Record(name, strand, args.store, 0, ()) for name, strand in strands), text, args.format)
    except ValueError as error:
        raise WrongUse(str(error)) from error
    _write(args.output, text.getvalue())
    return bool(strands)


def remove(args: argparse.Namespace) -> bool:
    """`lakhido rm`."""
    with open_store(args.store, load(), write=True) as store:
        names = list(dict.fromkeys(args.names))
        for name in names:
            store.remove(name)
        store.save()
        print(f'{_count(len(names), "molecule")} removed, {len(store)} in the store')
    return True


def verify(args: argparse.Namespace) -> bool:
    """`lakhido verify`."""
    with open_store(args.store, load()) as store:
        with Progress('catalogs verified:') as progress:
            faults = store.faults(progress)
        for fault in faults:
            print(fault)
        if faults:
            raise UnsoundBlock(f'{store.path}: {_count(len(faults), "block")} not in order')
        print(f'{_count(len(store), "molecule")} in {_count(store.catalogs, "catalog")}: all blocks are sound')
    return True


def stats(args: argparse.Namespace) -> bool:
    """`lakhido stats`."""
    library = load()
    with open_store(args.store, library) as store:
        rows = _folds(store, library)
        values = {
            'generation': store.generation, 'molecules': len(rows), 'catalogs': store.catalogs,
            'free places': store.catalogs * BLOCKS_MOST - len(rows), 'bases': sum(row[1] for row in rows),
            'shortest': min((row[1] for row in rows), default=0), 'longest': max((row[1] for row in rows), default=0),
            'arcs': sum(row[2] for row in rows), 'deepest': max((row[3] for row in rows), default=0),
            'catalogs with a cache': store.caches(),
        }
    if args.form == 'json':
        sys.stdout.write(output.json_text(values))
    elif args.form == 'tsv':
        sys.stdout.write(output.tsv(('what', 'number'), list(values.items())))
    else:
        width = max(map(len, values))
        sys.stdout.write(''.join(f'{name.ljust(width)}  {number}\n' for name, number in values.items()))
    return True
