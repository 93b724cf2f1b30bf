"""Where the vertices of a graph stand on a picture. Known graphs stand as people draw them, found by their shape whatever their
vertices are called; all others are laid out by springs, and come out the same at each run.

    >>> places(["a", "b"], [["a", "b", 3]])
    {'a': (-1.0, 0.0), 'b': (1.0, 0.0)}

An edge is two names, and what else stands in it is not looked at. x goes to the right and y down, about from -1 to 1. This module
imports nothing of ours, so that other tools can take it as it is."""

from __future__ import annotations

import itertools
import math
import random
from collections.abc import Collection, Iterable, Iterator, Mapping, Sequence
from typing import Any

__all__ = ["places", "places_of_text"]

Point = tuple[float, float]
# The place of each vertex, by its name.
Places = dict[Any, Point]
# For each vertex its neighbours.
Near = Mapping[Any, set[Any]]
# The edges of a graph, whose vertices are numbers, and the places of these.
Model = tuple[Sequence[tuple[int, int]], Sequence[Point]]

CUBE_SPOTS = ((-0.95, -0.35), (0.35, -0.35), (0.35, 0.95), (-0.95, 0.95),
              (-0.35, -0.95), (0.95, -0.95), (0.95, 0.35), (-0.35, 0.35))
CUBE_LINES = ((0, 1), (1, 2), (2, 3), (3, 0), (4, 5), (5, 6), (6, 7), (7, 4), (0, 4), (1, 5), (2, 6), (3, 7))
PETERSEN_LINES = ((0, 1), (1, 2), (2, 3), (3, 4), (4, 0), (5, 7), (7, 9), (9, 6), (6, 8), (8, 5),
                  (0, 5), (1, 6), (2, 7), (3, 8), (4, 9))
LONGEST_ROW, LONGEST_LEG = 8, 6
# How often springs are pulled, from how many starts, and how many steps then make a place better.
ROUNDS, STARTS, STEPS = 300, 3, 400
# No vertices may be nearer than this. A circle takes at most so much of the distance between the nearest, with its ring.
NEAREST, CLOSE = 0.25, 0.33
# Given places may be no nearer to each other than this part of the greatest distance.
LEAST_APART = 0.005


def places(vertices: Iterable[Any], edges: Iterable[Sequence[Any]]) -> Places:
    """The place (x, y) of each vertex of a graph, by its name."""
    names = list(vertices)
    if not names:
        return {}
    near = neighbours(names, edges)
    found = known(names, near) or tree(names, near) or best(names, near)
    return {name: (round(found[name][0], 4) + 0.0, round(found[name][1], 4) + 0.0) for name in names}


def places_of_text(text: str, vertices: Collection[str]) -> Places:
    """The places that a text gives, with a line 'name x y' for each vertex. A ValueError that says what is wrong, and in which
    line."""
    found: Places = {}
    for number, line in enumerate(text.splitlines(), 1):
        words = line.split()
        if not words:
            continue
        if len(words) != 3:
            raise ValueError("line %d of the places: it has to be 'name x y'" % number)
        name, x, y = words[0], coordinate(words[1]), coordinate(words[2])
        if name not in vertices:
            raise ValueError("line %d of the places: no vertex has the name %.16s" % (number, name))
        if x is None or y is None:
            raise ValueError("line %d of the places: x and y must be numbers from -1000000 to 1000000" % number)
        if name in found:
            raise ValueError("line %d of the places: %s has a place already" % (number, name))
        if (x, y) in found.values():
            raise ValueError("line %d of the places: another vertex is there" % number)
        found[name] = x, y
    missing = [name for name in vertices if name not in found]
    if missing:
        raise ValueError("the places have none for %s" % missing[0])
    pairs = [math.dist(one, other) for one, other in itertools.combinations(found.values(), 2)]
    if pairs and min(pairs) < max(pairs) * LEAST_APART:
        raise ValueError("two of the places are too near to each other, beside how far apart others are")
    return {name: found[name] for name in vertices}


def coordinate(word: str) -> float | None:
    """The number that a word is, or None."""
    try:
        number = float(word)
    except ValueError:
        return None
    return number if abs(number) <= 1_000_000 else None


def neighbours(names: Iterable[Any], edges: Iterable[Sequence[Any]]) -> dict[Any, set[Any]]:
    """For each vertex the set of those to which an edge leads."""
    near: dict[Any, set[Any]] = {name: set() for name in names}
    for u, v, *_ in edges:
        if u != v and u in near and v in near:
            near[u].add(v)
            near[v].add(u)
    return near


def ring(count: int, start: float = -90.0, size: float = 1.0) -> list[Point]:
    """So many places on a circle, clockwise from an angle in degrees; -90 is at the top."""
    turns = [math.radians(start + 360 * i / count) for i in range(count)]
    return [(size * math.cos(turn), size * math.sin(turn)) for turn in turns]


def count_of_edges(near: Near) -> int:
    return sum(map(len, near.values())) // 2


def walk(first: Any, near: Mapping[Any, Iterable[Any]]) -> dict[Any, int]:
    """The vertices that can be reached from one, each with its distance, nearest first."""
    far, order = {first: 0}, [first]
    # The list grows meanwhile.
    for name in order:
        for other in near[name]:
            if other not in far:
                far[other] = far[name] + 1
                order.append(other)
    return far


# The shapes. Each gives the places of all vertices, or None.

def known(names: Sequence[Any], near: Near) -> Places | None:
    """At most two vertices, side by side, and the graphs that have a model: the first model that fits."""
    if len(names) <= 2:
        return dict(zip(names, line(len(names))))
    for lines, spots in models(len(names), len(near[names[0]])):
        match = matching(lines, len(spots), names, near)
        if match:
            return dict(zip(match, spots))
    return None


def models(size: int, degree: int) -> Iterator[Model]:
    """The graphs of so many vertices, 3 or more, that have places of their own: their edges and their places. The first
    vertex has `degree` neighbours."""
    circle, around = ring(size, -135 if size == 4 else -90), [(i, (i + 1) % size) for i in range(size)]
    pairs = list(itertools.combinations(range(size), 2))
    yield around[:-1], line(size)
    yield around, circle
    yield pairs, circle
    if size == 4:
        # A square with a diagonal, from the top on the left to the bottom on the right. The first vertex and the earlier of its
        # neighbours on the square follow each other clockwise.
        yield [pair for pair in pairs if pair != (1, 3)], circle if degree == 3 else [circle[i] for i in (0, 3, 2, 1)]
    if size > 3:
        # One vertex in the middle that is joined to all others, which are joined to none else, or stand in a cycle.
        spokes, rim = [(0, i) for i in range(1, size)], [(i, i % (size - 1) + 1) for i in range(1, size)]
        for lines in spokes, spokes + rim:
            yield lines, [(0.0, 0.0), *ring(size - 1)]
    if 2 <= degree <= size - 2:
        yield two_rows(size - degree, degree)
    if size == 8:
        yield CUBE_LINES, CUBE_SPOTS
    if size == 10:
        yield PETERSEN_LINES, two_rings(5)
    for high in range(2, 5):
        if size % high == 0 and size // high >= max(high, 3):
            yield grid(size // high, high)
    if size % 2 == 0 and size >= 6:
        yield prism(size // 2)


def line(size: int) -> list[Point]:
    """The places of a path: a line, or one that runs to and fro if it is long."""
    if size <= LONGEST_ROW:
        return [((2 * i - size + 1) / max(size - 1, 1), 0.0) for i in range(size)]
    legs = math.ceil(size / LONGEST_LEG)
    long = math.ceil(size / legs)
    steps = [divmod(i, long) for i in range(size)]
    return [(2 * (long - 1 - at if leg % 2 else at) / (long - 1) - 1, (leg - (legs - 1) / 2) * 2 / (long - 1) * 1.2)
            for leg, at in steps]


def two_rows(above: int, below: int) -> Model:
    """A complete bipartite graph in two rows."""
    wide = max(above, below) - 1
    spots = [((2 * i - count + 1) / wide, y) for count, y in ((above, -0.75), (below, 0.75)) for i in range(count)]
    return [(u, above + v) for u in range(above) for v in range(below)], spots


def grid(wide: int, high: int) -> Model:
    at = {(x, y): y * wide + x for y in range(high) for x in range(wide)}
    lines = [(i, at[next_]) for (x, y), i in at.items() for next_ in ((x + 1, y), (x, y + 1)) if next_ in at]
    return lines, [(2 * x / (wide - 1) - 1, (2 * y - high + 1) / (wide - 1)) for x, y in at]


def prism(size: int) -> Model:
    lines = [(i, (i + 1) % size) for i in range(size)]
    return lines + [(size + i, size + j) for i, j in lines] + [(i, size + i) for i in range(size)], two_rings(size)


def two_rings(size: int) -> list[Point]:
    """A ring, and one half as large within it."""
    return ring(size) + ring(size, size=0.5)


def tree(names: Sequence[Any], near: Near) -> Places | None:
    """A tree: its middle at the top, and below each vertex those that hang on it."""
    if count_of_edges(near) != len(names) - 1 or len(walk(names[0], near)) < len(names):
        return None
    top = min(names, key=lambda name: max(walk(name, near).values()))
    far, found, leaves = walk(top, near), {}, itertools.count()

    def hang(name: Any) -> float:
        below = [other for other in names if other in near[name] and far[other] > far[name]]
        across = [hang(other) for other in below]
        x = (across[0] + across[-1]) / 2 if across else float(next(leaves))
        found[name] = (x, 1.2 * far[name])
        return x

    hang(top)
    return centred(found)


def matching(lines: Sequence[Any], size: int, names: Sequence[Any], near: Near) -> list[Any] | None:
    """The names in an order in which the graph has just the edges of a model, or None. The first such order by the names."""
    if len(names) != size or count_of_edges(near) != len(lines):
        return None
    model = neighbours(range(size), lines)
    if sorted(map(len, model.values())) != sorted(map(len, near.values())):
        return None
    order = list(walk(0, {i: sorted(model[i]) for i in model}))
    given: dict[int, Any] = {}

    def place(number: int) -> bool:
        if number == size:
            return True
        spot = order[number]
        for name in names:
            fits = name not in given.values() and len(near[name]) == len(model[spot]) and all(
                (other in model[spot]) == (given[other] in near[name]) for other in order[:number])
            if fits:
                given[spot] = name
                if place(number + 1):
                    return True
                del given[spot]
        return False

    return [given[spot] for spot in range(size)] if place(0) else None


# All other graphs.

def best(names: Sequence[Any], near: Near) -> Places:
    """Of a ring and of springs from several starts the places at which fewest edges go through circles of others, and then fewest
    cross, made better by steps if some still do."""
    draw = random.Random(len(names))
    choices = [dict(zip(names, ring(len(names))))]
    for _ in range(STARTS):
        choices.append(springs(names, near, choices[0]))
        # Springs that start elsewhere may come to rest elsewhere.
        choices[0] = dict(zip(draw.sample(list(names), len(names)), choices[0].values()))
    choices[0] = dict(zip(names, ring(len(names))))
    return better(names, near, min(choices, key=lambda found: cost(names, near, found)), draw)


def cost(names: Sequence[Any], near: Near, found: Places) -> tuple[int, int]:
    return len(crowded(names, near, found)), crossings(near, found)


def better(names: Sequence[Any], near: Near, found: Places, draw: random.Random) -> Places:
    """Places of which fewer are in the way of edges, by steps of one vertex each."""
    bad = crowded(names, near, found)
    for step in range(STEPS):
        if not bad:
            break
        name, far = draw.choice(draw.choice(bad)), 0.7 * (1 - step / STEPS) + 0.1
        x, y = found[name]
        moved = {**found, name: (clamped(x + draw.uniform(-far, far)), clamped(y + draw.uniform(-far, far)))}
        then = crowded(names, near, moved)
        if len(then) <= len(bad):
            found, bad = moved, then
    return centred(found)


def clamped(part: float) -> float:
    return min(1.0, max(-1.0, part))


def springs(names: Sequence[Any], near: Near, begin: Places) -> Places:
    """Places at which vertices are about as far apart as edges lead from one to the other: springs between all of them, which
    start in a ring and come to rest in so many rounds."""
    far = {name: walk(name, near) for name in names}
    apart = max(max(each.values()) for each in far.values()) + 1
    # A little out of round, so that no symmetry keeps the springs from coming to rest elsewhere.
    found = {name: (x * apart / 2 * (1 + 0.01 * i), y * apart / 2 * (1 + 0.007 * i)) for i, (name, (x, y)) in enumerate(begin.items())}
    for _ in range(ROUNDS):
        found = {name: pulled(name, found, far[name], apart) for name in names}
    return centred(level(found))


def pulled(name: Any, found: Places, far: Mapping[Any, int], apart: float) -> Point:
    """The place to which the springs of all others pull a vertex."""
    x, y, all_ = 0.0, 0.0, 0.0
    for other, (at_x, at_y) in found.items():
        if other == name:
            continue
        wanted = far.get(other, apart)
        off_x, off_y = found[name][0] - at_x, found[name][1] - at_y
        long, weight = math.hypot(off_x, off_y) or 1e-9, 1 / wanted ** 2
        x += weight * (at_x + wanted * off_x / long)
        y += weight * (at_y + wanted * off_y / long)
        all_ += weight
    return x / all_, y / all_


def level(found: Places) -> Places:
    """The places turned so that the picture is wide and not high."""
    middle = [sum(place[i] for place in found.values()) / len(found) for i in (0, 1)]
    points = [(x - middle[0], y - middle[1]) for x, y in found.values()]
    turn = math.atan2(2 * sum(x * y for x, y in points), sum(x * x - y * y for x, y in points)) / 2
    right, down = math.cos(turn), math.sin(turn)
    return {name: (x * right + y * down, y * right - x * down) for name, (x, y) in zip(found, points)}


def centred(found: Places) -> Places:
    """The places moved to the middle, with the greatest side from -1 to 1."""
    low, high = ([side(place[i] for place in found.values()) for i in (0, 1)] for side in (min, max))
    wide = max(high[0] - low[0], high[1] - low[1]) or 1.0
    return {name: ((2 * x - low[0] - high[0]) / wide, (2 * y - low[1] - high[1]) / wide) for name, (x, y) in found.items()}


def lines_of(near: Near) -> list[tuple[Any, Any]]:
    """Each edge once."""
    return [(u, v) for u, v in itertools.combinations(near, 2) if v in near[u]]


def crowded(names: Sequence[Any], near: Near, found: Places) -> list[tuple[Any, ...]]:
    """The vertices that are in the way: three for an edge that goes through the circle of the third, and two, several times, for
    two that are too near to each other."""
    apart = {pair: math.dist(found[pair[0]], found[pair[1]]) for pair in itertools.combinations(names, 2)}
    close = CLOSE * max(NEAREST, min(apart.values(), default=1.0))
    bad: list[tuple[Any, ...]] = [pair for pair, far in apart.items() if far < NEAREST for _ in range(9)]
    for u, v in lines_of(near):
        (a, b), (c, d) = found[u], found[v]
        low, high, top, down = min(a, c) - close, max(a, c) + close, min(b, d) - close, max(b, d) + close
        bad += [(name, u, v) for name, (x, y) in found.items()
                if low < x < high and top < y < down and name != u and name != v and distance((x, y), (a, b), (c, d)) < close]
    return bad


def distance(point: Point, one: Point, other: Point) -> float:
    """How far a point is from the line between two others."""
    across, down = other[0] - one[0], other[1] - one[1]
    long = across ** 2 + down ** 2 or 1e-9
    part = min(1.0, max(0.0, ((point[0] - one[0]) * across + (point[1] - one[1]) * down) / long))
    return math.hypot(point[0] - one[0] - part * across, point[1] - one[1] - part * down)


def crossings(near: Near, found: Places) -> int:
    """How many pairs of edges cross."""
    def side(one: Point, other: Point, point: Point) -> float:
        return (other[0] - one[0]) * (point[1] - one[1]) - (other[1] - one[1]) * (point[0] - one[0])

    def cross(u: Any, v: Any, w: Any, z: Any) -> bool:
        a, b, c, d = (found[name] for name in (u, v, w, z))
        return side(a, b, c) * side(a, b, d) < -1e-9 and side(c, d, a) * side(c, d, b) < -1e-9

    return sum(cross(u, v, w, z) for (u, v), (w, z) in itertools.combinations(lines_of(near), 2) if len({u, v, w, z}) == 4)
