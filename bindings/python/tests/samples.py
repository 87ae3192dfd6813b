"""Random strands for the tests of stores, and folders that are gone after a test."""
from __future__ import annotations

import random
import sys
import tempfile
import unittest
from array import array
from pathlib import Path

SOURCE = Path(__file__).resolve().parent.parent / 'src'
sys.path.insert(0, str(SOURCE))

from lakhido.strand import Strand  # noqa: E402


def random_strand(rng: random.Random, least: int, most: int) -> Strand:
    """A nested strand: each base opens an arc, closes the last one that is open, or has none."""
    size = rng.randint(least, most)
    mates, begun = array('H', range(size)), []
    for i in range(size):
        kind = rng.random()
        if kind < 0.4:
            begun.append(i)
        elif kind < 0.8 and begun:
            mates[i] = begun.pop()
            mates[mates[i]] = i
    return Strand(bytes(rng.choices(b'ACGTU', k=size)), mates)


class InFolder(unittest.TestCase):
    """A test with a folder of its own."""

    def setUp(self) -> None:
        folder = tempfile.TemporaryDirectory()
        self.addCleanup(folder.cleanup)
        self.folder = Path(folder.name)
        self.path = self.folder / 'store'
