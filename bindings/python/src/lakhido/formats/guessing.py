"""Which format a file has, told from how it begins."""
from __future__ import annotations

from itertools import islice

from . import bpseq, ct
from .dotbracket import is_structure
from .record import FormatError

_NUCLEOTIDES = 'ACGTUNRYSWKMBDHVX'  # the letters that sequences have, those of unknown bases too


def _split(head: bytes) -> list[str]:
    """The lines of a head."""
    text = head.decode('ascii', 'surrogateescape')
    return text.replace('\r\n', '\n').replace('\r', '\n').split('\n')


def _under_a_name(words: list[str], begin: int) -> str:
    """`fasta` where the sequence spans lines and at most one structure follows, else `dotbracket`. The first words of
    all lines are given, and which of them follows the name."""
    lines = sequence = structure = 0
    for word in islice(words, begin, None):
        if word[0] == '>':
            break
        if is_structure(word, sequence > 0):
            structure += len(word)
        elif structure:
            break
        else:
            lines, sequence = lines + 1, sequence + len(word)
    return 'fasta' if lines > 1 and structure <= sequence else 'dotbracket'


def _of_line(lines: list[list[str]], i: int) -> str | None:
    """The format that line i, given as its words like those around it, tells, or none."""
    words, following = lines[i], lines[i + 1][0] if i + 1 < len(lines) else '>'
    if words[0] == '1' and len(words) > 2 and words[1].isalpha():
        if ct.is_row(words):
            return 'ct'
        if len(words) == bpseq.SHAPE.words and len(words[1]) == 1 and words[2].isdigit():
            return 'bpseq'
    if words[0][0] == '>':
        return _under_a_name([line[0] for line in lines], i + 1)
    sequence = not words[0].upper().strip(_NUCLEOTIDES) and following[0] != '>' and is_structure(following, False)
    return 'dotbracket' if sequence or not words[0].strip('.()') else None


def guess(head: bytes, *, source: str = '<head>') -> str:
    """The format of a file that begins so: `dotbracket`, `stockholm`, `ct`, `bpseq` or `fasta`.

    The first line that only one format can have decides, whatever the file is called. Text that is both FASTA and
    dot-bracket counts as FASTA where the sequence spans lines. Raises FormatError where no line decides.
    """
    lines = _split(head)
    if b'\0' in head:
        number, line = next((number, line) for number, line in enumerate(lines, 1) if '\0' in line)
        raise FormatError(source, number, line.index('\0') + 1, 'a NUL byte: this is no text')
    begin = next((number for number, line in enumerate(lines) if line.strip()), None)
    if begin is None:
        raise FormatError(source, 1, 1, 'the file is empty')
    if lines[begin].startswith('# STOCKHOLM'):
        return 'stockholm'
    told = [words for words in map(str.split, lines) if words and words[0][0] != '#']
    found = next(filter(None, (_of_line(told, i) for i in range(len(told)))), None)
    if found:
        return found
    raise FormatError(source, begin + 1, 1, 'the format is none of dotbracket, stockholm, ct, bpseq and fasta')
