#!/usr/bin/env python3
"""Splits a file of folded molecules into dot-bracket files of equally many records, the last of fewer.

A record goes to the table of rejects where a reader of the package refuses it, where it is too long for a store, or
where an earlier record has its name; what the readers say of the others goes to the table of notes. So the stores of
all shards together have the molecules that one store of the whole file has.
"""
from __future__ import annotations

import argparse
import itertools
import pathlib
import sys
from collections.abc import Iterable, Iterator
from typing import TextIO

from lakhido.blocks import MOLECULE_MOST
from lakhido.formats import FormatError, Record, Reject, read

PLACE = 'file', 'line', 'name'  # columns of both tables


def row(found: Record | Reject, said: str) -> str:
    """A line of the tables of rejects and notes."""
    values = found.source, str(found.line), found.name, said
    return '\t'.join(' '.join(value.split()) or '-' for value in values) + '\n'


def accepted(found: Iterable[Record | Reject], rejects: TextIO, notes: TextIO) -> Iterator[Record]:
    """The records that go into shards; the tables get what is to be said of the others and of these."""
    names: set[str] = set()
    for record in found:
        if isinstance(record, Reject):
            column = '' if record.column is None else f' (column {record.column})'
            rejects.write(row(record, record.reason + column))
        elif not 1 <= len(record.strand.bases) <= MOLECULE_MOST:
            said = f'{len(record.strand.bases)} bases, and a molecule of a store has 1 to {MOLECULE_MOST}'
            rejects.write(row(record, said))
        elif record.name in names:
            rejects.write(row(record, 'an earlier record has this name'))
        else:
            names.add(record.name)
            notes.writelines(row(record, note) for note in record.notes)
            yield record


def write_shards(records: Iterator[Record], folder: pathlib.Path, most: int) -> None:
    """Files `00000.dbn`, `00001.dbn` and so on, of `most` records each."""
    folder.mkdir(parents=True)
    for number in itertools.count():
        part = list(itertools.islice(records, most))
        if not part:
            return
        with open(folder / f'{number:05d}.dbn', 'w', encoding='utf-8', errors='surrogateescape') as file:
            for record in part:
                file.write(f'>{record.name}\n{record.strand.bases.decode("ascii")}\n{record.strand.structure}\n')


def positive(text: str) -> int:
    if int(text) < 1:
        raise ValueError
    return int(text)


def main() -> int:
    parser = argparse.ArgumentParser(description=__doc__.split('\n')[0])
    parser.add_argument('file', help='the molecules, in any format that the package reads')
    parser.add_argument('folder', type=pathlib.Path, help='the folder for the shards; it must not exist')
    parser.add_argument('--records', type=positive, required=True, help='how many records a shard has')
    parser.add_argument('--rejects', required=True, help='the table of records that no shard has')
    parser.add_argument('--notes', required=True, help='the table of what the readers say of the others')
    parser.add_argument('--lower', action='store_true', help='take letters in lower case as capitals')
    options = parser.parse_args()
    try:
        with open(options.rejects, 'w', encoding='utf-8', errors='surrogateescape') as rejects, \
                open(options.notes, 'w', encoding='utf-8', errors='surrogateescape') as notes:
            for table, last in (rejects, 'reason'), (notes, 'note'):
                table.write('\t'.join((*PLACE, last)) + '\n')
            records = accepted(read(options.file, lower=options.lower), rejects, notes)
            write_shards(records, options.folder, options.records)
    except (FormatError, OSError) as error:
        print(f'shard.py: {error}', file=sys.stderr)
        return 2 if isinstance(error, FormatError) else 3
    return 0


if __name__ == '__main__':
    sys.exit(main())
