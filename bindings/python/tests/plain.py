"""The rules of molecules, motifs, blocks and queries in plain Python, as their text has them: slow, for short strands.

Nothing here is taken from the library or from the package. A strand is a pair of bytes and a list of mates; `p` and
`pm` are those of a motif, `q` and `qm` those of a molecule.
"""
from __future__ import annotations

import random
from itertools import combinations

Plain = tuple[bytes, list[int]]

LETTERS = b'ACGTU'


def matching(a: int, b: int) -> bool:
    """Two bases match when they are the same byte or both are among T and U."""
    return a == b or (a in b'TU' and b in b'TU')


def is_embedding(p: bytes, pm: list[int], q: bytes, qm: list[int], places: tuple[int, ...]) -> bool:
    """Order, bases, and two positions an arc exactly when their images are one."""
    if len(places) != len(p) or any(place >= len(q) for place in places):
        return False
    pairs = list(combinations(range(len(p)), 2))
    return (all(places[i] < places[j] for i, j in pairs)
            and all(matching(p[i], q[place]) for i, place in enumerate(places))
            and all((pm[i] == j) == (qm[places[i]] == places[j]) for i, j in pairs))


def embeds(p: bytes, pm: list[int], q: bytes, qm: list[int]) -> bool:
    """Whether any rising choice of positions is an embedding."""
    return any(is_embedding(p, pm, q, qm, places) for places in combinations(range(len(q)), len(p)))


def longest(p: bytes, pm: list[int], q: bytes, qm: list[int]) -> int:
    """The largest L such that the prefix of L bases is closed and embeds."""
    return max(size for size in range(len(p) + 1)
               if all(mate < size for mate in pm[:size]) and embeds(p[:size], pm[:size], q, qm))


def cut(q: bytes, qm: list[int], start: int, size: int) -> Plain:
    """A window as a molecule of its own: it has the arcs with both ends in it."""
    inside = range(start, start + size)
    return q[start:start + size], [(qm[i] if qm[i] in inside else i) - start for i in inside]


def tightest(p: bytes, pm: list[int], q: bytes, qm: list[int]) -> tuple[int, int] | None:
    """Start and length of the shortest window that carries the motif, of these the first; None where there is none."""
    for size in range(len(p), len(q) + 1):
        for start in range(len(q) - size + 1):
            if embeds(p, pm, *cut(q, qm, start, size)):
                return start, size
    return None


def arcs_of(mates: list[int]) -> list[tuple[int, int]]:
    """The pairs i < j of mates."""
    return [(i, mate) for i, mate in enumerate(mates) if i < mate]


def fold(mates: list[int]) -> tuple[int, int]:
    """The number of arcs, and the largest number of arcs of which each lies inside the one before."""
    arcs = arcs_of(mates)

    def deepest(a: int, b: int) -> int:
        return max((1 + deepest(i, j) for i, j in arcs if a < i and j < b), default=0)

    return len(arcs), deepest(-1, len(mates))


def fault(bases: bytes, mates: list[int], most: int, *, may_be_empty: bool) -> tuple[int, int] | None:
    """The first of the rows 1 to 7 of the table of refusals that applies to a strand, and its place."""
    if len(bases) != len(mates):
        return 1, 0
    if not bases and not may_be_empty:
        return 2, 0
    if len(bases) > most:
        return 3, 0
    arcs, positions = arcs_of(mates), range(len(bases))
    rows = (
        (4, [i for i in positions if bases[i] not in LETTERS]),
        (5, [i for i in positions if mates[i] not in positions]),
        (6, [i for i in positions if mates[i] in positions and mates[mates[i]] != i]),
        (7, [i for a, b in arcs for i, j in arcs if a < i < b < j]),
    )
    return next(((number, min(places)) for number, places in rows if places), None)


def block(bases: bytes, mates: list[int]) -> bytes:
    """The block of a molecule or a motif."""
    content = bytearray(508)
    content[0], content[1] = 1, len(bases)
    content[28:28 + len(bases)] = bases
    for i, mate in enumerate(mates):
        content[188 + 2 * i], content[189 + 2 * i] = mate % 256, mate // 256
    return bytes(content) + sum((i + 1) * byte for i, byte in enumerate(content)).to_bytes(4, 'little')


class Machine:
    """The plain machine: the molecules by number, and for each slot nothing or a motif with a set of numbers."""

    def __init__(self, slots: int) -> None:
        self.molecules: dict[int, Plain] = {}
        self.slots: list[tuple[Plain, set[int]] | None] = [None] * slots

    def remove(self, number: int) -> None:
        """Takes the number out of the molecules and out of every set."""
        del self.molecules[number]
        for slot in self.slots:
            if slot is not None:
                slot[1].discard(number)

    def query(self, p: bytes, pm: list[int]) -> tuple[tuple[int, ...], set[int]]:
        """The hits, rising, and the numbers that are searched; then the slot is this motif with all numbers held."""
        place = (sum(p) + sum(pm)) % len(self.slots)
        kept, held = self.slots[place], set(self.molecules)
        searched = held - kept[1] if kept is not None and kept[0] == (p, pm) else held
        self.slots[place] = (p, pm), held
        return tuple(d for d in sorted(held) if embeds(p, pm, *self.molecules[d])), searched


def random_mates(rng: random.Random, size: int) -> list[int]:
    """Mates of nested arcs."""
    mates, begun = list(range(size)), []
    for i in range(size):
        step = rng.choice('.()')
        if step == '(':
            begun.append(i)
        elif step == ')' and begun:
            mates[i] = begun.pop()
            mates[mates[i]] = i
    return mates


def random_pairs(rng: random.Random, size: int) -> list[int]:
    """Mates that are mutual, of arcs that may cross."""
    mates, rest = list(range(size)), rng.sample(range(size), size)
    for _ in range(rng.randint(0, size // 2)):
        i, j = rest.pop(), rest.pop()
        mates[i], mates[j] = j, i
    return mates


def random_strand(rng: random.Random, least: int, most: int) -> Plain:
    """A strand of five letters, or of few so that more embeds."""
    size = rng.randint(least, most)
    letters = rng.choice((LETTERS, b'GTU', b'AG'))
    return bytes(rng.choices(letters, k=size)), random_mates(rng, size)


def random_motif(rng: random.Random, q: bytes, qm: list[int], most: int) -> Plain:
    """A motif: one in three at random, else one that embeds in this molecule, some of its T and U exchanged."""
    if rng.random() < 1 / 3:
        return random_strand(rng, 0, most)
    places = sorted(rng.sample(range(len(q)), rng.randint(0, min(most, len(q)))))
    p = bytes(rng.choice(b'TU') if q[place] in b'TU' else q[place] for place in places)
    return p, [places.index(qm[place]) if qm[place] in places else i for i, place in enumerate(places)]
