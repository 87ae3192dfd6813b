"""Cache files: the answers kept for one catalog, used with that catalog in that generation and with no other.

A cache that belongs to another state of its catalog gives wrong hits and no sign of it, since the library believes a
sound entry. So the file begins with a block that has the catalog's number and generation and a digest of catalog and
cache: where one of these differs the cache is dropped, which costs time and no answer.
"""
from __future__ import annotations

import struct
from hashlib import blake2b
from pathlib import Path

from .blocks import BLOCK, SLOTS_MOST
from .files import write_loosely

CACHE_BYTES = SLOTS_MOST * BLOCK
"""The bytes of a cache without the block before it."""

_MARK = b'lakhido1'
_WHOSE = struct.Struct('<8sQQ')


def _head(number: int, generation: int, catalog: bytearray, cache: bytearray) -> bytes:
    """The block before a cache: a mark, number and generation of the catalog, the digest, zeros."""
    whose = _WHOSE.pack(_MARK, number, generation)
    digest = blake2b(whose, digest_size=32)
    digest.update(catalog)
    digest.update(cache)
    return (whose + digest.digest()).ljust(BLOCK, b'\0')


def read_cache(path: Path, number: int, generation: int, catalog: bytearray) -> bytearray:
    """The cache of this catalog in this generation; zeros, a new cache, where the file fails or does not belong."""
    try:
        data = path.read_bytes()
    except OSError:
        return bytearray(CACHE_BYTES)
    head, cache = data[:BLOCK], bytearray(data[BLOCK:])
    belongs = len(cache) == CACHE_BYTES and head == _head(number, generation, catalog, cache)
    return cache if belongs else bytearray(CACHE_BYTES)


def write_cache(path: Path, number: int, generation: int, catalog: bytearray, cache: bytearray) -> bool:
    """Writes the cache of this catalog in this generation, and says whether that went well.

    The digest tells a torn file, so that it need not be brought to the disk.
    """
    return write_loosely(path, [_head(number, generation, catalog, cache), cache])
