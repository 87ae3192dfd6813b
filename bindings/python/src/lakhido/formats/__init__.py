"""Readers and writers of the formats in which RNA tools keep structures.

`read` gives the molecules of a file one by one, and a reject for each that is wrong: it goes on with the next where
the format allows it. A file that is no text, or has no molecule, raises FormatError. Nothing is left out without a
reject or a note. Letters stay as delivered: T stays T, lower case is rejected unless asked for, and a letter other
than A, C, G, T and U is rejected.

Nothing here is proved. The library judges every strand again.
"""
from __future__ import annotations

import os
import sys
from collections.abc import Callable, Iterable, Iterator
from types import ModuleType
from typing import BinaryIO, TextIO

from ..strand import Strand
from . import bpseq, ct, dotbracket, fasta, stockholm
from .guessing import guess
from .record import FormatError, Item, Record, Reject
from .source import Lines, Source, Wrong, lines_of, unpacked

__all__ = ['FORMATS', 'FormatError', 'Item', 'Record', 'Reject', 'WRITABLE', 'guess', 'read', 'read_stream', 'write']

_READERS: dict[str, Callable[[Lines, Source], Iterator[Item]]] = {
    'dotbracket': dotbracket.read, 'stockholm': stockholm.read, 'ct': ct.read, 'bpseq': bpseq.read,
    'fasta': fasta.read}
_WRITERS: dict[str, ModuleType] = {'dotbracket': dotbracket, 'ct': ct, 'bpseq': bpseq, 'fasta': fasta}

FORMATS: tuple[str, ...] = tuple(_READERS)
"""The formats that are read."""
WRITABLE: tuple[str, ...] = tuple(_WRITERS)
"""The formats that are written."""


def _known(format: str, formats: tuple[str, ...]) -> str:
    if format not in formats:
        raise ValueError(f'the format `{format}` is none of {", ".join(formats)}')
    return format


def read(path: str | os.PathLike[str], *, format: str | None = None, lower: bool = False) -> Iterator[Item]:
    """The records and rejects of a file, one by one; `-` is standard input.

    A gz file is known by its first bytes. Where no format is given it is guessed from the content. With `lower` small
    letters are taken as capitals. Raises ValueError for an unknown format, and OSError and FormatError while the items
    are taken.
    """
    if format is not None:
        _known(format, FORMATS)
    name = os.fspath(path)
    if name == '-':
        return _items(sys.stdin.buffer, '<stdin>', format, lower)
    return _file_items(name, format, lower)


def read_stream(stream: BinaryIO, *, name: str = '<stream>', format: str | None = None,
                lower: bool = False) -> Iterator[Item]:
    """The same of an open stream of bytes, which is left open; `name` is the file in records and messages."""
    if format is not None:
        _known(format, FORMATS)
    return _items(stream, name, format, lower)


def _file_items(name: str, format: str | None, lower: bool) -> Iterator[Item]:
    with open(name, 'rb') as stream:
        yield from _items(stream, name, format, lower)


def _items(stream: BinaryIO, name: str, format: str | None, lower: bool) -> Iterator[Item]:
    head, stream = unpacked(stream, Source(name, format or ''))
    source = Source(name, format or guess(head, source=name), lower)
    none = True
    for item in _READERS[source.format](lines_of(stream, source), source):
        none = False
        yield item
    if none:
        raise source.error(1, 1, 'no molecule in the file' if head else 'the file is empty')


def _checked(records: Iterable[Record], format: str) -> Iterator[Record]:
    """The records, each tested before it is written: raises ValueError where reading would not give it back."""
    for record in records:
        if not _name_returns(record.name, format):
            raise ValueError(f'the name {record.name!r} cannot be written as {format}')
        if not _strand_returns(record.strand):
            raise ValueError(f'{record.name}: a strand is written where it has bases, all of ACGTU, and nested pairs')
        yield record


def _name_returns(name: str, format: str) -> bool:
    """Whether reading gives a written name back."""
    try:
        return name != '' and _WRITERS[format].name_in(name) == name
    except Wrong:
        return False


def _strand_returns(strand: Strand) -> bool:
    """Whether reading gives a written strand back."""
    try:
        same = Strand.of(strand.bases, strand.structure) == strand
    except ValueError:
        return False
    return same and len(strand) > 0 and not strand.bases.translate(None, b'ACGTU')


def write(records: Iterable[Record], file: str | os.PathLike[str] | TextIO, format: str) -> None:
    """Writes records to a file, `-` for standard output, or to an open text stream.

    Raises ValueError for an unknown format, for a name that the format does not give back (empty, with two blanks one
    after the other, not printable) and for a strand that has no bases, other letters or pairs that are not nested; the
    records before it are written then.
    """
    writer = _WRITERS[_known(format, WRITABLE)].write
    if not isinstance(file, (str, os.PathLike)):
        writer(_checked(records, format), file)
    elif os.fspath(file) == '-':
        writer(_checked(records, format), sys.stdout)
    else:
        with open(file, 'w', encoding='ascii', newline='\n') as out:
            writer(_checked(records, format), out)
