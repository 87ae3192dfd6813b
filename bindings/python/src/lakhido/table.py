"""The table of a store, `store.json`: the generation, the catalog files in use, and the names with their places."""
from __future__ import annotations

import json
import re
from dataclasses import dataclass
from pathlib import Path

from .files import named
from .library import BLOCKS_MOST

VERSION = 1
"""The version of the table."""
TABLE = 'store.json'
"""The name of its file."""
CATALOG = re.compile(r'catalog-(\d{4,})\.g(\d+)\.bin')
"""The names of catalog files: number and generation."""


class StoreError(Exception):
    """A folder that is no store, or a damaged one, or one that another process writes."""


@dataclass(slots=True)
class Table:
    """What `store.json` says. A place is 512 times the number of a catalog and the number of a block in it."""

    generation: int
    catalogs: list[int]
    """The generation that each catalog was written in."""
    places: dict[str, int]

    def text(self, generation: int) -> bytes:
        """The table as that of a generation."""
        return json.dumps({
            'version': VERSION, 'generation': generation, 'catalogs': self.files(),
            'names': [[name, *divmod(place, BLOCKS_MOST)] for name, place in self.places.items()],
        }, separators=(',', ':')).encode('ascii')

    def files(self) -> list[str]:
        """The names of the catalog files."""
        return [catalog_name(number, generation) for number, generation in enumerate(self.catalogs)]

    def names(self) -> dict[int, str]:
        """The name at each place."""
        return {place: name for name, place in self.places.items()}


def catalog_name(number: int, generation: int) -> str:
    """The name of a catalog's file."""
    return f'catalog-{number:04d}.g{generation}.bin'


def read_table(path: Path) -> Table:
    """The table of a store, all of it checked: a table that breaks a rule is a StoreError."""
    with named(path):
        text = path.read_bytes()
    try:
        value = json.loads(text)
        if value['version'] != VERSION:
            raise StoreError(f'{path}: version {value["version"]}, and this program reads version {VERSION}')
        catalogs = [_generation_of(number, name) for number, name in enumerate(value['catalogs'])]
        places = {str(name): _place(catalog, number, len(catalogs)) for name, catalog, number in value['names']}
        table = Table(_number(value['generation']), catalogs, places)
    except (ValueError, TypeError, KeyError) as error:
        raise StoreError(f'{path}: this is no table of a store: {error}') from error
    if len(places) != len(value['names']) or len(set(places.values())) != len(places):
        raise StoreError(f'{path}: a name or a place stands in it twice')
    return table


def _generation_of(number: int, name: str) -> int:
    match = CATALOG.fullmatch(name)
    if match is None or int(match[1]) != number:
        raise ValueError(f'{name!r} is no name for catalog {number}')
    return int(match[2])


def _number(value: object) -> int:
    if not isinstance(value, int) or value < 0:
        raise ValueError(f'{value!r} is no number from 0 on')
    return value


def _place(catalog: object, number: object, catalogs: int) -> int:
    catalog, number = _number(catalog), _number(number)
    if catalog >= catalogs or number >= BLOCKS_MOST:
        raise ValueError(f'there is no block {number} in catalog {catalog}')
    return catalog * BLOCKS_MOST + number
