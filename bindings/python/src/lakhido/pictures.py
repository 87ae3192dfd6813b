"""Pictures of a molecule as SVG text: its arcs over a row of bases, or its loops and stems in the plane.

Both mark an embedding (`places`, the bases of the molecule that carry the motif, counted from 0 and rising) and shade
a window (start and length). The same input gives the same text: numbers have two decimals, and nothing depends on a
clock, an installed font or the order of a set. A picture is a convenience and not part of what is proved.

In each picture a base is one element of class `base`, an arc one of class `arc` (`arc embedded` where both of its ends
are places), a place one circle of class `place` and the window one element of class `window`. The colours are of the
palette of Okabe and Ito, and what is marked differs in shape or width too, so that no reader depends on colours.
"""
from __future__ import annotations

import math
import re
from collections.abc import Callable, Iterable, Iterator, Sequence
from dataclasses import dataclass
from xml.sax.saxutils import escape

from .strand import Strand

LETTERED_MOST = 100  # an arc diagram of more bases has dots for letters
LOOPS_MOST = 200  # a loop drawing takes no more bases

ARC = '#0072B2'
EMBEDDED = '#D55E00'
PLACE = '#E69F00'
WINDOW = '#D5ECFA'  # the palette's sky blue, a quarter of it on white
BACKBONE = '#767676'
INK = '#000000'
PAPER = '#FFFFFF'

LETTER_STEP = 14.0  # from base to base of an arc diagram with letters
DOT_STEP = 6.0  # the same with dots
UNIT = 20.0  # side of each polygon of a loop drawing: from base to base and from mate to mate
MARGIN = 32.0
HEAD = 34.0  # height of the line with the name
FOOT = 34.0  # height of the line with the legend
GLYPH = 7.4  # a letter of the name or the legend is at most so wide
LETTER_DROP = 4.0  # from the middle of a letter down to its baseline
NAME_MOST = 80  # the line with the name shows no more letters; the title for screen readers has all

ROUND = 'stroke-linecap="round" stroke-linejoin="round"'
NOT_XML = re.compile('[^\t\n\r\x20-\ud7ff\ue000-\ufffd\U00010000-\U0010ffff]')

Point = tuple[float, float]


@dataclass(frozen=True, slots=True)
class _Scene:
    """What a picture shows, tested: arcs as (lower end, upper end) by their lower ends, and what is marked."""
    name: str
    bases: str
    arcs: tuple[tuple[int, int], ...]
    places: tuple[int, ...]
    window: range
    legend: str

    def embedded(self) -> frozenset[tuple[int, int]]:
        """The arcs of the embedding: two of its bases are bonded exactly when the bases of the motif are."""
        places = frozenset(self.places)
        return frozenset(arc for arc in self.arcs if places.issuperset(arc))


def arc_diagram(strand: Strand, *, name: str = '', places: Iterable[int] | None = None,
                window: tuple[int, int] | None = None) -> str:
    """The bases in a row and each arc as a half circle above it.

    ValueError where mates are not mutual, or places or the window are not in the molecule.
    """
    scene = _scene(strand, name, places, window)
    lettered = len(scene.bases) <= LETTERED_MOST
    step = LETTER_STEP if lettered else DOT_STEP
    reach = max((j - i for i, j in scene.arcs), default=0) * step / 2
    feet = HEAD + reach
    row = feet + step / 2 + 2
    points = [(MARGIN + step * i, row) for i in range(len(scene.bases))]
    below = row + step / 2 + 2
    body = [
        *_shaded_box(scene, step, below),
        *_strokes(scene, lambda i, j: _half_circle(points[i][0], points[j][0], feet)),
        *_discs('place', (points[i] for i in scene.places), 6.0 if lettered else 2.7, PLACE, EMBEDDED),
        *(_letters(scene.bases, points) if lettered else _discs('base', points, 1.0, INK, 'none')),
        *_ticks((i, (x, below), (x, below + 5), (x, below + 12)) for i, (x, _) in _numbered(points)),
    ]
    return _svg(scene, 'Arc diagram', 2 * MARGIN + step * max(len(points) - 1, 0), below + 22, body)


def loop_drawing(strand: Strand, *, name: str = '', places: Iterable[int] | None = None,
                 window: tuple[int, int] | None = None) -> str:
    """The fold in the plane: each loop a regular polygon, each stem a ladder of squares; up to 200 bases.

    Polygons have one side length, so that any two neighbours and any two mates are equally far from each other. Two
    parts of a fold with many large loops may lie over each other. ValueError as for an arc diagram, where arcs cross,
    and where there are more bases.
    """
    scene = _scene(strand, name, places, window)
    if len(scene.bases) > LOOPS_MOST:
        raise ValueError(f'a loop drawing takes up to {LOOPS_MOST} bases, and the molecule has {len(scene.bases)}')
    points = _within(_layout(strand.mates))
    shaded = [points[i] for i in scene.window]
    body = [
        *_chain('window', shaded, f'stroke="{WINDOW}" stroke-width="28.00" {ROUND}'),
        *_chain('backbone', points, f'stroke="{BACKBONE}" stroke-width="1.50"'),
        *_strokes(scene, lambda i, j: _line(points[i], points[j])),
        *_discs('blank', points, 6.5, PAPER, 'none'),
        *_discs('blank', shaded, 6.5, WINDOW, 'none'),
        *_discs('place', (points[i] for i in scene.places), 7.5, PLACE, EMBEDDED),
        *_letters(scene.bases, points),
        *_ticks((i, *_outward(points, i)) for i, _ in _numbered(points)),
    ]
    width = max((x for x, _ in points), default=0.0) + MARGIN
    height = max((y for _, y in points), default=HEAD) + MARGIN
    return _svg(scene, 'Loop drawing', width, height, body)


# ---- what is shown

def _scene(strand: Strand, name: str, places: Iterable[int] | None, window: tuple[int, int] | None) -> _Scene:
    size, chosen = len(strand.bases), () if places is None else tuple(places)
    if any(not 0 <= i < size for i in chosen) or any(i >= j for i, j in zip(chosen, chosen[1:])):
        raise ValueError(f'places rise and are below {size}, the number of bases')
    start, length = (0, 0) if window is None else window
    if start < 0 or length < 0 or start + length > size:
        raise ValueError(f'a window from {start} of {length} bases is not inside a molecule of {size}')
    legend = _legend(None if places is None else len(chosen), window)
    return _Scene(name, strand.bases.decode('latin-1'), tuple(_arcs(strand.mates, size)), chosen,
                  range(start, start + length), legend)


def _arcs(mates: Sequence[int], size: int) -> Iterator[tuple[int, int]]:
    if len(mates) != size:
        raise ValueError(f'{size} bases and {len(mates)} mates')
    for i, mate in enumerate(mates):
        if not 0 <= mate < size or mates[mate] != i:
            raise ValueError(f'the mate of base {i} is {mate}, which is not bonded to it')
        if i < mate:
            yield i, mate


def _legend(matched: int | None, window: tuple[int, int] | None) -> str:
    """Positions count from 1, and the slack is what the window has more than the motif."""
    parts = [] if matched is None else [f'embedding of {_count(matched, "base")}']
    if window is not None:
        start, length = window
        parts.append(f'window from {start + 1} to {start + length}' if length else 'window of no bases')
        if matched is not None:
            parts.append(f'slack {length - matched}')
    return ', '.join(parts)


def _count(number: int, noun: str) -> str:
    return f'{number} {noun}' if number == 1 else f'{number} {noun}s'


# ---- where the bases of a loop drawing are

def _layout(mates: Sequence[int]) -> list[Point]:
    """A point for each base, the outer loop above and its widest stem straight below it; y grows downwards.

    Every loop is walked with its inside on the left hand. A stem of a loop is then to the right of the side that its
    two ends make, so that the loop which it closes is outside the first.
    """
    points: list[Point] = [(0.0, 0.0)] * len(mates)
    outer = _members(mates, 0, len(mates))
    turn = math.tau / (len(outer) + 2)  # two sides are left out between the ends of the molecule
    _walk(points, outer, turn, turn * _lowest_side(mates, outer))
    pending = list(_stems(mates, outer))
    while pending:
        lower, upper = pending.pop()
        inner = _members(mates, lower + 1, upper)
        (x, y), (closing_x, closing_y) = points[lower], points[upper]
        turn = math.tau / (len(inner) + 2)
        _walk(points, [lower, *inner], turn, math.atan2(y - closing_y, x - closing_x) - turn)
        pending.extend(_stems(mates, inner))
    return points


def _members(mates: Sequence[int], start: int, end: int) -> list[int]:
    """The bases from `start` to before `end` on one loop: those without a bond, and both ends of each stem.

    Of two arcs that cross, one begins on a loop that the other or an arc inside it closes: the walk leaves it.
    """
    members, i = [], start
    while i < end:
        members.append(i)
        if mates[i] > i:
            i = mates[i]
            members.append(i)
        i += 1
    if i > end:
        raise ValueError(f'the arc of the bases {mates[members[-1]]} and {members[-1]} crosses another')
    return members


def _stems(mates: Sequence[int], members: list[int]) -> Iterator[tuple[int, int]]:
    return ((i, mates[i]) for i in members if mates[i] > i)


def _lowest_side(mates: Sequence[int], outer: list[int]) -> int:
    """The side of the outer loop that is drawn level, below it: that of the widest stem, else the middle one."""
    if all(mates[i] == i for i in outer):
        return max(len(outer) - 2, 0) // 2
    return max((t for t, i in enumerate(outer) if mates[i] > i), key=lambda t: mates[outer[t]] - outer[t])


def _walk(points: list[Point], ring: list[int], turn: float, heading: float) -> None:
    """Sets the points of `ring` behind its first, a side apart, turning left on the screen at each."""
    for t, (here, there) in enumerate(zip(ring, ring[1:])):
        x, y = points[here]
        points[there] = x + UNIT * math.cos(heading - t * turn), y + UNIT * math.sin(heading - t * turn)


def _within(points: list[Point]) -> list[Point]:
    """The same points, moved to just inside the margin and below the name."""
    left, top = min((x for x, _ in points), default=0.0), min((y for _, y in points), default=0.0)
    return [(x - left + MARGIN, y - top + HEAD + MARGIN) for x, y in points]


def _outward(points: list[Point], i: int) -> list[Point]:
    """Three points away from the loops of base `i`, which are on the left of the way from neighbour to neighbour."""
    (x, y), before, after = points[i], points[max(i - 1, 0)], points[min(i + 1, len(points) - 1)]
    across, down = before[1] - after[1], after[0] - before[0]
    size = math.hypot(across, down)
    across, down = (across / size, down / size) if size > 0.01 else (0.0, -1.0)
    return [(x + far * across, y + far * down) for far in (8, 12, 20)]


# ---- parts of the text

def _svg(scene: _Scene, kind: str, width: float, height: float, body: list[str]) -> str:
    """The whole text; the picture is wide enough for its name and its legend."""
    shown = scene.name if len(scene.name) <= NAME_MOST else scene.name[:NAME_MOST - 1] + '\u2026'
    counted = f'{_count(len(scene.bases), "base")}, {_count(len(scene.arcs), "arc")}'
    legend = scene.legend or counted
    full = _number(max(width, 2 * MARGIN + GLYPH * max(len(shown), len(legend))))
    tall = _number(height + FOOT)
    lines = [
        f'<svg xmlns="http://www.w3.org/2000/svg" role="img" width="{full}" height="{tall}" '
        f'viewBox="0 0 {full} {tall}" font-family="monospace" font-size="12">',
        f'<title>{_text(scene.name or "RNA molecule")}</title>',
        f'<desc>{kind}: {"; ".join(filter(None, (counted, scene.legend)))}.</desc>',
        f'<rect width="{full}" height="{tall}" fill="{PAPER}"/>',
        f'<text class="name" x="{_number(MARGIN)}" y="20.00" font-weight="bold">{_text(shown)}</text>',
        *body,
        f'<text class="legend" x="{_number(MARGIN)}" y="{_number(height + FOOT - 14)}">{legend}</text>',
        '</svg>',
    ]
    return '\n'.join(lines) + '\n'


def _number(value: float) -> str:
    return f'{round(value, 2) + 0.0:.2f}'  # + 0.0: there is no -0.00


def _text(value: str) -> str:
    """Escaped; what XML has no way to write becomes the replacement character."""
    return escape(NOT_XML.sub('\ufffd', value))


def _group(attributes: str, lines: Iterable[str]) -> list[str]:
    """The lines with attributes that they share; nothing where there are none."""
    inside = list(lines)
    return [f'<g {attributes}>', *inside, '</g>'] if inside else []


def _strokes(scene: _Scene, path: Callable[[int, int], str]) -> list[str]:
    """The arcs, as `path(lower, upper)` draws each; those of the embedding are thicker and on top."""
    embedded = scene.embedded()
    plain = (f'<path class="arc" d="{path(*arc)}"/>' for arc in scene.arcs if arc not in embedded)
    thick = (f'<path class="arc embedded" d="{path(*arc)}"/>' for arc in scene.arcs if arc in embedded)
    return [*_group(f'fill="none" stroke="{ARC}" stroke-width="1.50"', plain),
            *_group(f'fill="none" stroke="{EMBEDDED}" stroke-width="3.50"', thick)]


def _half_circle(left: float, right: float, feet: float) -> str:
    radius = _number((right - left) / 2)
    return f'M {_number(left)} {_number(feet)} A {radius} {radius} 0 0 1 {_number(right)} {_number(feet)}'


def _line(here: Point, there: Point) -> str:
    return f'M {_number(here[0])} {_number(here[1])} L {_number(there[0])} {_number(there[1])}'


def _discs(kind: str, points: Iterable[Point], radius: float, fill: str, stroke: str) -> list[str]:
    return _group(f'fill="{fill}" stroke="{stroke}"', (
        f'<circle class="{kind}" cx="{_number(x)}" cy="{_number(y)}" r="{_number(radius)}"/>' for x, y in points))


def _letters(bases: str, points: Sequence[Point]) -> list[str]:
    return _group(f'fill="{INK}" text-anchor="middle"', (
        f'<text class="base" x="{_number(x)}" y="{_number(y + LETTER_DROP)}">{_text(base)}</text>'
        for base, (x, y) in zip(bases, points)))


def _numbered(points: Sequence[Point]) -> Iterator[tuple[int, Point]]:
    """The bases whose position is written: the first, and every tenth, counted from 1."""
    return ((i, point) for i, point in enumerate(points) if i == 0 or i % 10 == 9)


def _ticks(marks: Iterable[tuple[int, Point, Point, Point]]) -> list[str]:
    """For each base a line between the first two points, and its position, counted from 1, around the third."""
    lines, labels = [], []
    for i, here, there, (x, y) in marks:
        lines.append(f'<path d="{_line(here, there)}"/>')
        labels.append(f'<text class="tick" x="{_number(x)}" y="{_number(y + LETTER_DROP)}">{i + 1}</text>')
    return [*_group(f'fill="none" stroke="{BACKBONE}"', lines),
            *_group(f'fill="{INK}" font-size="10" text-anchor="middle"', labels)]


def _chain(kind: str, points: Sequence[Point], attributes: str) -> list[str]:
    if not points:
        return []
    listed = ' '.join(f'{_number(x)},{_number(y)}' for x, y in (points if len(points) > 1 else [*points, *points]))
    return [f'<polyline class="{kind}" fill="none" {attributes} points="{listed}"/>']


def _shaded_box(scene: _Scene, step: float, below: float) -> list[str]:
    if not scene.window:
        return []
    x, width = MARGIN + step * (scene.window.start - 0.5), step * len(scene.window)
    return [f'<rect class="window" x="{_number(x)}" y="{_number(HEAD - 4)}" width="{_number(width)}" '
            f'height="{_number(below - HEAD + 4)}" fill="{WINDOW}"/>']
