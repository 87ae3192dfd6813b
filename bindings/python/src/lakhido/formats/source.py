"""Files as numbered lines: opened, unpacked and split, with what is no text refused."""
from __future__ import annotations

import codecs
import gzip
import io
import os
import zlib
from collections.abc import Iterator
from dataclasses import dataclass
from typing import BinaryIO

from ..strand import Strand
from .record import FormatError, Record, Reject

HEAD = 1 << 16
"""As many bytes at the beginning of a file decide its format."""
LINE_MOST = 1 << 20
"""The most characters of a line, so that a file without line ends does not fill the memory."""
Lines = Iterator[tuple[int, str]]
"""The lines of a file without their ends, each with its number, counted from 1."""

_GZ = b'\x1f\x8b'
_DAMAGE = EOFError, zlib.error, gzip.BadGzipFile


class Wrong(Exception):
    """What is wrong with one record, and where. A reader makes a reject of it and goes on."""

    def __init__(self, line: int, column: int | None, reason: str) -> None:
        super().__init__(line, column, reason)
        self.line: int = line
        self.column: int | None = column
        self.reason: str = reason


@dataclass(frozen=True, slots=True)
class Source:
    """The file that is read, and how: it makes the records, rejects and errors that name it."""

    name: str
    format: str
    lower: bool = False

    def record(self, name: str, line: int, strand: Strand, notes: tuple[str, ...] = ()) -> Record:
        """A record of this file."""
        return Record(name, strand, self.name, line, notes)

    def reject(self, name: str, wrong: Wrong) -> Reject:
        """A reject of this file. Of the name only what is printable is kept."""
        shown = ''.join(char if ' ' <= char <= '~' else '?' for char in name)
        return Reject(shown, self.name, wrong.line, wrong.column, wrong.reason, self.format)

    def error(self, line: int, column: int | None, reason: str) -> FormatError:
        """The error that ends the reading of this file."""
        return FormatError(self.name, line, column, reason, self.format)

    def unnamed(self, number: int) -> str:
        """The name of the molecule of this number where the file gives it none: names of several files differ."""
        stem = os.path.basename(self.name).strip('<>').removesuffix('.gz')
        stem = ''.join(char if ' ' < char <= '~' else '_' for char in os.path.splitext(stem)[0])
        return f'{stem}-{number}'


class _Again(io.RawIOBase):
    """A stream of which the head was read: it gives the head again, then the rest. Closing it closes nothing else."""

    def __init__(self, head: bytes, rest: BinaryIO) -> None:
        super().__init__()
        self._head, self._rest = head, rest

    def readable(self) -> bool:
        """It is."""
        return True

    def readinto(self, buffer: memoryview) -> int:
        """Fills the buffer from the head or from the rest."""
        if not self._head:
            return self._rest.readinto(buffer)
        size = min(len(buffer), len(self._head))
        buffer[:size], self._head = self._head[:size], self._head[size:]
        return size


def unpacked(stream: BinaryIO, source: Source) -> tuple[bytes, BinaryIO]:
    """The head of a stream, and the stream from its beginning. One with the magic bytes of gz is unpacked."""
    head = stream.read(HEAD)
    if head.startswith(_GZ):
        stream = gzip.GzipFile(fileobj=io.BufferedReader(_Again(head, stream), HEAD))
        try:
            head = stream.read(HEAD)
        except _DAMAGE as error:
            raise source.error(1, 1, f'the gz file is cut or damaged: {error}') from None
    return head, io.BufferedReader(_Again(head, stream), HEAD)


def _check_line(number: int, line: str, source: Source) -> None:
    """Raises FormatError for a line that no text has."""
    if '\0' in line:
        raise source.error(number, line.index('\0') + 1, 'a NUL byte: this is no text')
    if len(line) > LINE_MOST:
        raise source.error(number, LINE_MOST + 1, f'the line has more than {LINE_MOST:,} characters')


def lines_of(stream: BinaryIO, source: Source) -> Lines:
    """The lines of a stream; LF, CR LF and CR end a line.

    Bytes that are no ASCII stay, as characters that are neither letters nor blanks, for the reader of the format to
    judge: a comment may hold them. A NUL byte, a line too long and a damaged gz file raise FormatError.
    """
    decoder = io.IncrementalNewlineDecoder(codecs.getincrementaldecoder('ascii')('surrogateescape'), translate=True)
    number, rest, data = 1, '', b'more'
    while data:
        try:
            data = stream.read1(HEAD)
        except _DAMAGE as error:
            raise source.error(number, 1, f'the gz file is cut or damaged: {error}') from None
        text = rest + decoder.decode(data, not data)
        *lines, rest = text.split('\n')
        if not data and rest:
            lines.append(rest)
        suspect = '\0' in text or len(text) > LINE_MOST
        for line in lines:
            if suspect:
                _check_line(number, line, source)
            yield number, line
            number += 1
        if suspect:
            _check_line(number, rest, source)


def name_of(text: str, line: int, column: int) -> str:
    """A name as a line has it from this column on, with one blank for a run of them. Raises Wrong where it is not
    printable ASCII."""
    name = ' '.join(text.split())
    if not (name.isascii() and name.isprintable()):
        index = next(i for i, char in enumerate(text) if not (' ' <= char <= '~' or char.isspace()))
        raise Wrong(line, column + index, f'{byte_of(text[index])} in the name')
    return name


def byte_of(char: str) -> str:
    """A character as a message shows it: itself, or its byte where it is not printable ASCII."""
    if ' ' <= char <= '~':
        return f'`{char}`'
    code = ord(char)
    return f'byte 0x{code - 0xDC00 if code >= 0xDC80 else code:02X}' + (', no ASCII,' if code > 127 else '')
