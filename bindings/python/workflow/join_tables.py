"""Tables with a line of column names, the columns parted by tabs: many joined to one. Standard library only."""
from __future__ import annotations

import os
from collections.abc import Iterable


class TableError(Exception):
    """Tables that do not go together."""


def read(path: str | os.PathLike[str]) -> tuple[str, list[str]]:
    """The line of column names and the other lines; two empty ones where the file is empty."""
    with open(path, encoding='utf-8', errors='surrogateescape', newline='\n') as file:
        lines = file.read().split('\n')
    if lines.pop():
        raise TableError(f'{path}: the last line has no end, so the table may be cut short')
    return (lines[0], lines[1:]) if lines else ('', [])


def join(path: str | os.PathLike[str], tables: Iterable[str | os.PathLike[str]]) -> None:
    """Writes the rows of all tables under one line of column names, sorted by name; rows of one name keep their order.

    An empty file is a table without rows. TableError where the column names of two tables differ.
    """
    columns, rows = '', []
    for table in tables:
        head, found = read(table)
        if columns and head and head != columns:
            raise TableError(f'{table}: the columns are not those of the tables before it')
        columns = columns or head
        rows += found
    if columns:
        name = columns.split('\t').index('name')
        rows.sort(key=lambda row: row.split('\t')[name])
    with open(path, 'w', encoding='utf-8', errors='surrogateescape', newline='\n') as file:
        file.writelines(f'{line}\n' for line in ([columns] if columns else []) + rows)
