"""What the command prints: tables in the habit of cmsearch, texts parted by tabs, and JSON."""
from __future__ import annotations

import json
from collections.abc import Sequence
from typing import Any

from ..hits import Hit
from ..strand import Strand

HIT_COLUMNS = 'name', 'motif', 'from', 'to', 'slack', 'piece', 'structure'
LIST_COLUMNS = 'name', 'length', 'arcs', 'depth'

Row = Sequence[str | int]


def cell(value: str | int) -> str:
    """A value as a column has it: on one line and without tabs, and `-` where it is empty."""
    return ' '.join(str(value).split('\t')).replace('\n', ' ').replace('\r', ' ') or '-'


def tsv(columns: Sequence[str], rows: Sequence[Row]) -> str:
    """A line of the columns' names and a line for each row, the columns parted by tabs."""
    return ''.join('\t'.join(map(cell, row)) + '\n' for row in (columns, *rows))


def table(columns: Sequence[str], rows: Sequence[Row], foot: str) -> str:
    """Columns of even width under two lines that begin with `#`. A table without its last line, `# [ok]`, is cut."""
    heads = ['#' + columns[0], *columns[1:]]
    cells = [[cell(value) for value in row] for row in rows]
    widths = [max(len(line[i]) for line in (heads, *cells)) for i in range(len(columns))]
    right = [bool(rows) and isinstance(rows[0][i], int) for i in range(len(columns))]
    rule = ['#' + '-' * (widths[0] - 1), *('-' * width for width in widths[1:])]
    lines = [_aligned(line, widths, right) for line in (heads, rule, *cells)]
    return '\n'.join([*lines, '#', '# ' + foot, '# [ok]']) + '\n'


def _aligned(line: Sequence[str], widths: Sequence[int], right: Sequence[bool]) -> str:
    parts = zip(line, widths, right)
    return ' '.join(text.rjust(width) if to_right else text.ljust(width) for text, width, to_right in parts).rstrip()


def hit_row(hit: Hit, motif: str) -> Row:
    """The columns of a hit. `from` and `to` count from 1 and are in the window; one of no bases is from 1 to 0."""
    piece, first, last = hit.piece, hit.start + 1, hit.start + hit.length
    return hit.name, motif, first, last, hit.slack, piece.bases.decode('ascii'), piece.structure


def hit_object(hit: Hit, motif: str) -> dict[str, Any]:
    """A hit for JSON: the columns, and the place of each base of the motif, counted from 1."""
    return dict(zip(HIT_COLUMNS, hit_row(hit, motif))) | {'places': [place + 1 for place in hit.places]}


def motif_object(name: str, motif: Strand) -> dict[str, str]:
    """A motif for JSON."""
    return {'name': name, 'bases': motif.bases.decode('ascii'), 'structure': motif.structure}


def json_text(value: Any) -> str:
    """JSON on one line, in ASCII."""
    return json.dumps(value) + '\n'


def shown(hit: Hit, motif: Strand) -> str:
    """A molecule in three lines: bases, structure, and the bases of the motif at their places."""
    marks = ['-'] * len(hit.strand)
    for base, place in zip(motif.bases.decode('ascii'), hit.places):
        marks[place] = base
    return f'{hit.strand.bases.decode("ascii")}\n{hit.strand.structure}\n{"".join(marks)}\n'
