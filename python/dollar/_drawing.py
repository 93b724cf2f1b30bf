"""Pictures of tables as SVG, and what the pages of the board need to draw theirs: where vertices stand, how large they are, and which
text fits them."""

from __future__ import annotations

import itertools
import math
from collections.abc import Callable, Iterable, Iterator, Mapping, Sequence
from html import escape
from typing import Any, NamedTuple, TypeVar

from dollar import _checks as checks
from dollar._places import Places, centred, places, places_of_text
from dollar._vertices import Dollars

LEAST_ROUND, MOST_ROUND, APART, LEAST_SIZE = 21, 46, 38, 82
NAME_AT, AMOUNT_AT, NAME_SIZE, AMOUNT_SIZE = -6, 10, 11, 16
STRANDS, MARGIN, LINE_HIGH, ROW, LEAST_WIDE, EDGE = 8, 15, 18, 22, 296, 30
DEBT, BURNING, ADDED, LINE = "#b3261e", "#b35900", "#1a66cc", "#667"
# A board that is played on has room for amounts of so many digits from the start.
USUAL = [-99, 999]
WIDTHS = {**dict.fromkeys("mwMW", 1.0), **dict.fromkeys("fijlrtI-", 0.42), **dict.fromkeys("OQGDHNU", 0.8)}
HATCH = ('<defs><pattern id="hatch" width="6" height="6" patternUnits="userSpaceOnUse" patternTransform="rotate(45)">'
         '<path d="M0 0V6" stroke="#b3261e" stroke-opacity="0.45" stroke-width="1.3"/></pattern></defs>')
PLATE = 'paint-order="stroke" stroke="%s" stroke-width="3" stroke-linejoin="round"'
Point = tuple[float, float]
Thing = TypeVar("Thing")
# A sign of the legend: how wide it is, its words, and what draws it at a place.
Sign = tuple[int, str, Callable[[float, float], Iterable[str]]]


class Frame(NamedTuple):
    """One drawing of a table: its places and amounts, lines of text below it, the order in which vertices burn, the two ends of an edge
    that was added, and a script."""

    table: Any
    places: Places
    amounts: Mapping[str, int]
    lines: Sequence[str] = ()
    order: Sequence[str] = ()
    added: tuple[str, str] | None = None
    script: Mapping[str, int] | None = None


def width(text: object) -> float:
    """How wide a text is at most, in letters' heights, in the fonts that are used for sans-serif."""
    return sum(WIDTHS.get(letter, 0.7) for letter in str(text))


def room(radius: float, reach: float) -> float:
    """How wide a text may be in a circle of a radius, if it goes up or down from the middle as far as reach."""
    return 2 * math.sqrt(max(0.0, (radius - 2) ** 2 - reach ** 2))


def radius_for(names: Iterable[str], amounts: Iterable[object]) -> int:
    """The radius for circles in which the names and the amounts can be read."""
    wide = max((width(name) * 9 for name in names), default=0), max((width(amount) * 13 for amount in amounts), default=0)
    wanted = max(math.hypot(wide[0] / 2, 14), math.hypot(wide[1] / 2, AMOUNT_AT)) + 2
    return min(max(LEAST_ROUND, math.ceil(wanted)), MOST_ROUND)


def fitted(text: object, wide: float, size: float) -> float:
    """The size of letters, at most size, at which a text is no wider than this."""
    return round(min(size, wide / max(width(text), 1)), 1)


def name_size(name: str, radius: float) -> float:
    """The size of letters at which a name fits its circle."""
    return fitted(name, room(radius, 14), NAME_SIZE)


def span(found: Places, radius: float) -> float:
    """By how much places are to be drawn apart for circles of this radius not to touch."""
    points = list(found.values())
    near = min((math.dist(x, y) for i, x in enumerate(points) for y in points[:i]), default=2.0)
    return max(LEAST_SIZE, (2 * radius + APART) / near)


def places_for(table: Any, own: str | None = None) -> Places:
    """The places of a table's vertices: those that a text gives, or else those that its graph has."""
    if own is None:
        return places(table["vertices"], table["edges"])
    return centred(places_of_text(own, table["vertices"]))


def layout(table: Any, amounts: Iterable[object], own: str | None = None) -> dict[str, Any]:
    """Where a page has the vertices of a table, and how large they and their names are, if these amounts are to fit. It may be turned if
    nobody has given the places."""
    names, found = table["vertices"], places_for(table, own)
    radius = radius_for(names, amounts)
    size = span(found, radius)
    left, top = (min(place[axis] for place in found.values()) * size for axis in (0, 1))
    right, low = (max(place[axis] for place in found.values()) * size for axis in (0, 1))
    edge = radius + EDGE
    wide = max(right - left + 2 * edge, 2 * (radius + 70))
    return {
        "radius": radius, "room": room(radius, AMOUNT_AT), "strands": STRANDS, "turns": own is None,
        "width": round(wide), "height": round(low - top + 2 * edge),
        "sizes": {name: name_size(name, radius) for name in names},
        "places": {name: [round(x * size - (left + right) / 2 + wide / 2, 1), round(y * size - top + edge, 1)]
                   for name, (x, y) in found.items()},
    }


def strands(start: Point, end: Point, count: int, colour: str, added: bool) -> Iterator[str]:
    """The edges between two vertices: each a line, or one thick line with their number where they are many."""
    (x, y), (z, w) = start, end
    drawn, long = 1 if count > STRANDS else count, math.hypot(z - x, w - y)
    for i in range(drawn):
        bow = (i - (drawn - 1) / 2) * min(36, 252 / drawn)
        bent = (x + z) / 2 - bow * (w - y) / long, (y + w) / 2 + bow * (z - x) / long
        yield ('<path d="M%.1f %.1f Q%.1f %.1f %.1f %.1f" fill="none" stroke="%s" stroke-width="%s"/>'
               % (x, y, *bent, z, w, ADDED if added and i == 0 else colour, 1.8 if drawn == count else 5))
    if drawn < count:
        yield ('<text x="%.1f" y="%.1f" font-size="11" fill="#223" %s>%d edges</text>'
               % ((x + z) / 2, (y + w) / 2 - 8, PLATE % "#fff", count))


def circles(x: float, y: float, r: int, debt: bool, burns: bool, is_q: bool) -> Iterator[str]:
    """The circle of a vertex."""
    fill, line = ("#fbd3cd", DEBT) if debt else ("#e6f2e6", "#2e6b34")
    line, thick = (BURNING, 3) if burns else (line, 1.8)
    if is_q:
        yield '<circle cx="%.1f" cy="%.1f" r="%d" fill="#fff" stroke="%s" stroke-width="1.5"/>' % (x, y, r + 4, line)
    yield '<circle cx="%.1f" cy="%.1f" r="%d" fill="%s" stroke="%s" stroke-width="%s"/>' % (x, y, r, fill, line, thick)
    if debt:
        yield '<circle cx="%.1f" cy="%.1f" r="%d" fill="url(#hatch)"/>' % (x, y, r)


def badge(x: float, y: float, number: int) -> Iterator[str]:
    """A number in the order of burning."""
    yield '<circle cx="%.1f" cy="%.1f" r="9" fill="%s"/>' % (x, y, BURNING)
    yield '<text x="%.1f" y="%.1f" font-size="12" font-weight="bold" fill="#fff">%d</text>' % (x, y + 4, number)


def vertex(place: Point, r: int, name: str, amount: int, burns: bool, is_q: bool, count: int) -> Iterator[str]:
    """A vertex with its name, its amount, and what a script has it lend."""
    x, y = place
    plate = PLATE % "#fbd3cd" if amount < 0 else ""
    yield from circles(x, y, r, amount < 0, burns, is_q)
    yield ('<text x="%.1f" y="%.1f" font-size="%s" fill="#334" %s>%s</text>'
           % (x, y + NAME_AT, name_size(name, r), plate, escape(name)))
    yield ('<text x="%.1f" y="%.1f" font-size="%s" font-weight="bold" fill="#111" %s>%d</text>'
           % (x, y + AMOUNT_AT, fitted(amount, room(r, AMOUNT_AT), AMOUNT_SIZE), plate, amount))
    if count:
        yield ('<text x="%.1f" y="%.1f" font-size="11" font-weight="bold" fill="#223" %s>%s</text>'
               % (x, y + r + 15, PLATE % "#fff", "lends %d" % count if count > 0 else "borrows %d" % -count))


def drawn(middle: Point, wide: float, size: float, r: int, frame: Frame) -> Iterator[str]:
    """One drawing of a table around a place: edges, one of them blue if it was added between two vertices, the vertices, and lines of
    text below."""
    table, edges = frame.table, checks.edges(dict(frame.table))
    place = {v: (middle[0] + size * x, middle[1] + size * y) for v, (x, y) in frame.places.items()}
    number = {v: i + 1 for i, v in enumerate(frame.order)}
    yield '<g font-family="sans-serif" text-anchor="middle">'
    for u, v in itertools.combinations(table["vertices"], 2):
        colour = BURNING if u in number and v in number else LINE
        yield from strands(place[u], place[v], edges[u].get(v, 0), colour, (u, v) == frame.added)
    for v in table["vertices"]:
        yield from vertex(place[v], r, v, frame.amounts[v], v in number, v == table["q"], (frame.script or {}).get(v, 0))
    for v in frame.order:
        yield from badge(place[v][0] + 0.86 * r, place[v][1] - 0.86 * r, number[v])
    for i, line in enumerate(frame.lines):
        yield ('<text x="%.1f" y="%d" font-size="%s" fill="#223">%s</text>'
               % (middle[0], middle[1] + size + r + MARGIN + LINE_HIGH * (i + 1), fitted(line, wide - 12, 13), escape(line)))
    yield "</g>"


def signs(frames: Sequence[Frame]) -> Iterator[Sign]:
    """The signs that some frames have."""
    yield 32, "q: verdicts are reckoned from here", lambda x, y: circles(x, y, 7, False, False, True)
    if any(amount < 0 for frame in frames for amount in frame.amounts.values()):
        yield 32, "in debt", lambda x, y: circles(x, y, 7, True, False, False)
    if any(frame.order for frame in frames):
        yield 32, "burns, as number 1", lambda x, y: badge(x, y, 1)
    if any(frame.added for frame in frames):
        yield 32, "was added", lambda x, y: ['<path d="M%.1f %.1fh24" stroke="%s" stroke-width="1.8"/>' % (x - 12, y, ADDED)]
    if any(frame.script for frame in frames):
        yield 54, "what the script says", lambda x, y: [
            '<text x="%.1f" y="%.1f" font-size="11" font-weight="bold" fill="#223">lends 1</text>' % (x, y + 4)]


def legend(frames: Sequence[Frame], wide: float) -> list[list[tuple[float, Sign]]]:
    """The rows of the legend: in each the signs, with their places from the left."""
    rows: list[list[tuple[float, Sign]]] = [[]]
    right = 6.0
    for sign in signs(frames):
        needed = sign[0] + width(sign[1]) * 11 + 8
        if rows[-1] and right + needed > wide - 8:
            rows.append([])
            right = 6.0
        rows[-1].append((right, sign))
        right += needed
    return rows


def pictured(title: str, frames: Sequence[Frame]) -> str:
    """The SVG text for frames side by side."""
    return "\n".join(parts_of(title, frames)) + "\n"


def parts_of(title: str, frames: Sequence[Frame]) -> Iterator[str]:
    r = radius_for((name for frame in frames for name in frame.table["vertices"]),
                   (amount for frame in frames for amount in frame.amounts.values()))
    size = max(span(frame.places, r) for frame in frames)
    wide, high = max(2 * (size + r + MARGIN), LEAST_WIDE), 2 * (size + r + MARGIN)
    rows = legend(frames, wide * len(frames))
    foot = high + LINE_HIGH * (max(len(frame.lines) for frame in frames) + 1)
    whole = wide * len(frames), foot + ROW * len(rows)
    yield '<svg xmlns="http://www.w3.org/2000/svg" viewBox="0 0 %d %d" width="%d" height="%d" role="img">' % (*whole, *whole)
    yield "<title>%s</title>" % escape(title)
    yield HATCH
    yield '<rect width="%d" height="%d" rx="8" fill="#fff"/>' % whole
    for i, frame in enumerate(frames):
        if i:
            yield ('<path d="M%d %d h22 m-7 -6 l7 6 l-7 6" fill="none" stroke="#223" stroke-width="1.8"/>'
                   % (wide * i - 11, high // 2))
        yield from drawn((wide * i + wide / 2, high / 2), wide, size, r, frame)
    yield '<g font-family="sans-serif">'
    for i, row in enumerate(rows):
        y = foot + ROW * i + 4
        for x, (before, words, draw) in row:
            yield '<g text-anchor="middle">%s</g>' % "".join(draw(x + before / 2 - 2, y))
            yield '<text x="%.1f" y="%.1f" font-size="11" fill="#445">%s</text>' % (x + before, y + 4, words)
    yield "</g>"
    yield "</svg>"


def held(table: Any) -> dict[str, int]:
    """The amounts of a table by the names of its vertices."""
    return dict(zip(table["vertices"], table["amounts"]))


def by_names(table: Any, of: Mapping[Any, Thing]) -> dict[str, Thing]:
    """What belongs to the vertices of a Table, by their names."""
    return {table.names[table.place(v)]: each for v, each in of.items()}


def picture(table: Any, script: Dollars | None = None, order: Sequence[Any] = (),
            places: Mapping[Any, Point] | None = None) -> str:
    """A picture of a table as SVG: each vertex with its name and its dollars, red and hatched if it is in debt, and q with a double ring.
    Below a vertex is how often the script lets it lend or borrow; the other numbers are the order in which vertices burn. `places` has
    the places of the vertices, x to the right and y down.

    >>> from dollar import Table
    >>> picture(Table([[0, 1], [1, 0]], [2, -1])).startswith("<svg ")
    True
    """
    its = checks.table_of(table)
    drawn_table, names = its.to_dict(), its.names
    found = places_for(drawn_table) if places is None else centred(by_names(its, places))
    lent = None if script is None else dict(zip(names, its._vertices.amounts(script, "lending")))
    return pictured("A table", [Frame(drawn_table, found, held(drawn_table), (), [names[its.place(v)] for v in order], None, lent)])


def verdict_picture(name: str, table: Any, verdict: Any, own: str | None = None) -> str:
    """A picture of a table with the script of its verdict, and beside it of the reduced divisor with the order in which all burns."""
    word, script, reduced = verdict
    its = checks.table_of(table)
    drawn_table, script, reduced = its.to_dict(), by_names(its, script), by_names(its, reduced)
    order = by_names(its, dict.fromkeys(getattr(verdict, "burning", None) or checks.burnt(its, reduced)))
    says = ["all burns, in this order;", "it can be won" if word == "winnable" else "it can't be won"]
    found = places_for(drawn_table, own)
    return pictured("%s, %s by %s" % (name, word, " ".join("%s=%d" % pair for pair in script.items())), [
        Frame(drawn_table, found, held(drawn_table), [name, "" if any(script.values()) else "no vertex need lend"], (), None, script),
        Frame(drawn_table, found, reduced, says, list(order))])
