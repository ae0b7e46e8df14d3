"""Where the nodes of the graph stand.

Each island is laid out by itself, with a spring between any two of its trees that is the longer the more moves they are
apart. Then the islands are put beside each other.

The same places have to come out on every machine, so floats are only added, subtracted, multiplied, divided and rooted,
one at a time: `sum` is not used on them, as newer Pythons add otherwise.
"""

from __future__ import annotations

from functools import lru_cache
from math import sqrt
from typing import Sequence

WIDTH = 720.0
"""How wide the islands together may be, where no single one is wider."""
WHOLE = 104.0
"""The radius of a node that has all visits."""
LEAST = 5.0
"""The least radius, so that each node can be seen."""
HEADING = 22.0
"""The room above each island, and above the trees that are alone, for a line of words."""

_GAP = 5.0
"""The least room between two nodes."""
_APART = 26.0
"""The room between two islands."""
_HEADING_WIDTH = 120.0
_LENGTH = 54.0
"""How long a spring is for each move, beside the radii."""
_ROOM = 7.0
"""How wide an island is at least for each of its trees, as far as the picture is wide enough."""
_FAR = 300.0
"""A way that is longer is shortened."""
_SWEEPS = 60
_PUSHES = 120
# The cosine and the sine of the golden angle: points turned by it fill a disc evenly.
_TURN = (-0.7373688780783197, 0.6754902942615238)

Point = tuple[float, float]


def radii(weights: Sequence[int]) -> tuple[float, ...]:
    """The radius of each node: its area is its share of all weights, unless that is less than the least area."""
    whole = sum(weights)
    return tuple(max(LEAST, WHOLE * sqrt(weight / whole)) for weight in weights)


def place(
    count: int, links: Sequence[tuple[int, int]], islands: Sequence[int], weights: Sequence[int],
) -> tuple[Point, ...]:
    """A place for each node, in a picture whose left upper corner is at 0, 0. No two nodes overlap.

    The islands come first, the largest before the others, and then in rows the trees that are alone.
    """
    return _places(count, tuple(links), tuple(islands), tuple(weights))


# The graph is drawn twice, in its own file and in the page.
@lru_cache(maxsize=1)
def _places(
    count: int, links: tuple[tuple[int, int], ...], islands: tuple[int, ...], weights: tuple[int, ...],
) -> tuple[Point, ...]:
    """What `place` gives."""
    sizes = radii(weights)
    groups = grouped(islands)
    places: list[Point] = [(0.0, 0.0)] * count
    lonely = [members[0] for members in groups if len(members) == 1]
    below = _put_islands(places, sizes, links, [members for members in groups if len(members) > 1])
    _put_in_rows(places, sizes, lonely, below)
    return tuple(places)


def grouped(islands: Sequence[int]) -> list[list[int]]:
    """The nodes of each island: the island of most nodes first, and of as many the one with the smallest number."""
    groups: dict[int, list[int]] = {}
    for node, island in enumerate(islands):
        groups.setdefault(island, []).append(node)
    return [groups[island] for island in sorted(groups, key=lambda island: (-len(groups[island]), island))]


# One island


def _island(sizes: Sequence[float], links: Sequence[tuple[int, int]]) -> list[Point]:
    """The places of the nodes of one island, which are counted from 0."""
    beside: list[list[int]] = [[] for _ in sizes]
    for one, other in links:
        beside[one].append(other)
        beside[other].append(one)
    springs = [_springs(node, beside, sizes) for node in range(len(sizes))]
    xs, ys = _spiral(beside, springs)
    for _ in range(_SWEEPS):
        _relax(xs, ys, springs)
    xs, ys = _fitted(xs, ys, WIDTH - 2.0 * max(sizes))
    for _ in range(_PUSHES):
        if not _push(xs, ys, sizes):
            break
    return _spread(xs, ys, sizes)


def _springs(start: int, beside: Sequence[Sequence[int]], sizes: Sequence[float]) -> list[float]:
    """How long the spring between a node and each other is: as long as the way with the fewest links."""
    ways = {start: 0.0}
    newest = [start]
    while newest:
        found: dict[int, float] = {}
        for node in newest:
            for other in beside[node]:
                if other not in ways:
                    way = ways[node] + sizes[node] + _LENGTH + sizes[other]
                    found[other] = min(way, found.get(other, way))
        ways.update(found)
        newest = list(found)
    return [_shortened(ways[node]) for node in range(len(beside))]


def _shortened(way: float) -> float:
    """A long way takes less room, so that a long chain folds."""
    return way if way <= _FAR else sqrt(way * _FAR)


def _spiral(beside: Sequence[Sequence[int]], springs: Sequence[Sequence[float]]) -> tuple[list[float], list[float]]:
    """Where the nodes are before the springs pull: around the one with most neighbours, the near ones first."""
    count = len(beside)
    middle = max(range(count), key=lambda node: (len(beside[node]), -node))
    xs, ys = [0.0] * count, [0.0] * count
    cosine, sine = _TURN
    x, y = 1.0, 0.0
    for rank, node in enumerate(sorted(range(count), key=lambda node: (springs[middle][node], node))):
        far = _LENGTH * sqrt(float(rank))
        xs[node], ys[node] = far * x, far * y
        x, y = x * cosine - y * sine, x * sine + y * cosine
    return xs, ys


def _relax(xs: list[float], ys: list[float], lengths: Sequence[Sequence[float]]) -> None:
    """Moves each node once to where its springs want it on the average, the short ones counting more."""
    for node, wanted in enumerate(lengths):
        here_x, here_y = xs[node], ys[node]
        to_x = to_y = strength = 0.0
        for x, y, length in zip(xs, ys, wanted):
            across, down = here_x - x, here_y - y
            square = across * across + down * down
            if square > 0.0:
                pull = 1.0 / (length * length)
                stretch = length / sqrt(square)
                to_x += pull * (x + across * stretch)
                to_y += pull * (y + down * stretch)
                strength += pull
        if strength > 0.0:
            xs[node], ys[node] = to_x / strength, to_y / strength


def _fitted(xs: list[float], ys: list[float], widest: float) -> tuple[list[float], list[float]]:
    """The same places lying rather than standing, not too dense for so many nodes, and not too wide."""
    wide, high = max(xs) - min(xs), max(ys) - min(ys)
    if wide < high:
        xs, ys, wide = ys, xs, high
    factor = min(widest, max(wide, _ROOM * len(xs))) / max(wide, 1.0)
    return [x * factor for x in xs], [y * factor for y in ys]


def _push(xs: list[float], ys: list[float], sizes: Sequence[float]) -> bool:
    """Pushes nodes that overlap apart, once, the smaller one further. Gives whether there were any."""
    found = False
    for one in range(len(sizes)):
        for other in range(one):
            across, down = xs[one] - xs[other], ys[one] - ys[other]
            room = sizes[one] + sizes[other] + _GAP
            square = across * across + down * down
            if square < room * room:
                found = True
                far = sqrt(square)
                if far == 0.0:
                    across, down, far = 1.0, 0.0, 1.0
                missing = (room - sqrt(square)) * 1.01 / far
                part = sizes[other] / (sizes[one] + sizes[other])
                xs[one] += across * missing * part
                ys[one] += down * missing * part
                xs[other] -= across * missing * (1.0 - part)
                ys[other] -= down * missing * (1.0 - part)
    return found


def _spread(xs: Sequence[float], ys: Sequence[float], sizes: Sequence[float]) -> list[Point]:
    """The same places so far apart that no nodes overlap, where pushing has left some that do."""
    factor = 1.0
    for one in range(len(sizes)):
        for other in range(one):
            across, down = xs[one] - xs[other], ys[one] - ys[other]
            far = sqrt(across * across + down * down)
            room = sizes[one] + sizes[other] + 1.0
            factor = max(factor, room / max(far, LEAST / 10.0))
    return [(x * factor, y * factor) for x, y in zip(xs, ys)]


# All islands


def _put_islands(
    places: list[Point], sizes: Sequence[float], links: Sequence[tuple[int, int]], groups: Sequence[Sequence[int]],
) -> float:
    """Puts the islands of two or more nodes beside each other. Gives the row below all of them."""
    boxes: list[tuple[float, float, float, float]] = []
    for members in groups:
        inside = {node: number for number, node in enumerate(members)}
        own = [(inside[one], inside[other]) for one, other in links if one in inside]
        island_sizes = [sizes[node] for node in members]
        island = _island(island_sizes, own)
        left = min(x - size for (x, _), size in zip(island, island_sizes))
        top = min(y - size for (_, y), size in zip(island, island_sizes))
        wide = max(max(x + size for (x, _), size in zip(island, island_sizes)) - left, _HEADING_WIDTH)
        high = max(y + size for (_, y), size in zip(island, island_sizes)) - top + HEADING
        at_x, at_y = _free_corner(boxes, wide)
        boxes.append((at_x, at_y, at_x + wide + _APART, at_y + high + _APART))
        for node, (x, y) in zip(members, island):
            places[node] = (at_x + x - left, at_y + HEADING + y - top)
    return max((bottom for _, _, _, bottom in boxes), default=0.0)


def _free_corner(boxes: Sequence[tuple[float, float, float, float]], wide: float) -> Point:
    """The highest place, and of these the leftmost, below all boxes that a new one so wide would stand under."""
    best = (0.0, max((bottom for _, _, _, bottom in boxes), default=0.0))
    for at_x in sorted({0.0, *(right for _, _, right, _ in boxes)}):
        if at_x + wide <= WIDTH:
            at_y = max((bottom for left, _, right, bottom in boxes if left < at_x + wide and at_x < right), default=0.0)
            if at_y < best[1]:
                best = (at_x, at_y)
    return best


def _put_in_rows(places: list[Point], sizes: Sequence[float], nodes: Sequence[int], below: float) -> None:
    """Puts nodes into rows, each as far from the next as the row's largest node needs."""
    top = below + HEADING
    rest = list(nodes)
    while rest:
        cell = 2.0 * max(sizes[node] for node in rest) + 2.0 * _GAP
        length = max(1, int(WIDTH / cell))
        for number, node in enumerate(rest[:length]):
            places[node] = (cell * (number + 0.5), top + cell / 2.0)
        rest = rest[length:]
        top += cell
