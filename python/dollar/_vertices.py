"""The vertices of a graph: what a table was made of, and the names by which the program knows them."""

from __future__ import annotations

import math
import operator
import re
from collections.abc import Callable, Hashable, Iterable, Iterator, Mapping, Sequence
from numbers import Number
from typing import Any, NoReturn, Protocol, SupportsIndex

Vertex = Hashable
# Numbers by vertices, of an answer.
Pairs = Mapping[Hashable, int]


class Row(Protocol):
    """Whole numbers in the order of the vertices: a list, a tuple, an array of numpy. Python's type of what can be gone through would let
    a dict pass, whatever its numbers are."""

    def __iter__(self) -> Iterator[SupportsIndex]: ...

    def __getitem__(self, place: int, /) -> SupportsIndex: ...


# Amounts as they are given: in the order of the vertices, or by vertices, as a table has them.
Dollars = Row | Mapping[Any, SupportsIndex]

NAME = re.compile(r"[A-Za-z0-9_]{1,16}", re.ASCII)


def whole(number: object, what: str) -> int:
    """A whole number as an int. Anything else is a TypeError, no matter how near to a whole number it is.

    >>> whole(1.0, "the amount of vertex a")
    Traceback (most recent call last):
        ...
    TypeError: the amount of vertex a is not a whole number: 1.0
    """
    try:
        # What is true or false is a number for Python, and none for the program.
        if type(number).__name__ not in ("bool", "bool_"):
            return int(operator.index(number))  # type: ignore[arg-type]
    except TypeError:
        pass
    raise TypeError("%s is not a whole number: %r" % (what, number))


def shown(number: int) -> str:
    """A number, or how long it is if nobody would read it.

    >>> shown(-20), shown(10 ** 5000)
    ('-20', 'a number of 5001 digits')
    """
    digits = 1 + int(math.log10(abs(number) or 1))
    return str(number) if digits <= 40 else "a number of %d digits" % digits


def within(number: object, what: str, least: int, most: int) -> int:
    """A whole number that is within limits. Another one is a ValueError that has it and the limits."""
    found = whole(number, what)
    if not least <= found <= most:
        raise ValueError("%s: %s, and only %d to %d is possible" % (what, shown(found), least, most))
    return found


def seconds(patience: object) -> None:
    """A ValueError if patience is no time that anybody can wait."""
    if patience is not None and not (isinstance(patience, (int, float)) and patience > 0):
        raise ValueError("patience: %r, and only more than 0 seconds, or None, is possible" % (patience,))


def is_whole(thing: object) -> bool:
    """Whether a thing is a whole number."""
    try:
        return whole(thing, "") is not None
    except TypeError:
        return False


def is_hashable(thing: object) -> bool:
    """Whether a thing has a hash: a tuple may be Hashable, and hold a list."""
    try:
        return hash(thing) is not None
    except TypeError:
        return False


def is_same(key: object, vertex: object) -> bool:
    """Whether a key that is equal to a vertex is meant for it: for Python True, 1 and 1.0 are equal.

    >>> is_same(1, 1), is_same(True, 1), is_same((0, 1.0), (0, 1))
    (True, False, False)
    """
    if isinstance(key, tuple) and isinstance(vertex, tuple):
        return all(map(is_same, key, vertex))
    if type(key) is type(vertex) or (is_whole(key) and is_whole(vertex)):
        return True
    return not isinstance(key, Number) and str(key) == str(vertex)


class Vertices:
    """Vertices, their names, and the place of each in the order of the table."""

    __slots__ = ("are_names", "given", "names", "places", "_texts")

    def __init__(self, given: Iterable[Vertex], names: Callable[[Any], str] | None = None) -> None:
        self.given = tuple(given)
        wrong = [vertex for vertex in self.given if not is_hashable(vertex)]
        if wrong:
            raise TypeError("%r can't be a vertex: a vertex is a text, a number, a tuple, or whatever has a hash" % (wrong[0],))
        self.places = {vertex: place for place, vertex in enumerate(self.given)}
        if len(self.places) != len(self.given):
            twice = next(vertex for place, vertex in enumerate(self.given) if self.places[vertex] != place)
            raise ValueError("the vertex %r is given twice" % (twice,))
        self.names = tuple(named(self.given, names))
        self.are_names = self.given == self.names
        self._texts: dict[str, list[int]] | None = None

    def of_text(self, text: str) -> list[int]:
        """The places of the vertices that have this name, or whose text it is."""
        if self._texts is None:
            self._texts = {}
            for place, (vertex, name) in enumerate(zip(self.given, self.names)):
                for each in {name, str(vertex)}:
                    self._texts.setdefault(each, []).append(place)
        return self._texts.get(text, [])

    def place(self, key: object) -> int:
        """The place of a vertex, which is given as itself, or by a text that means no other.

        >>> renamed = Vertices([0, 1, 2], lambda vertex: str(vertex + 1))
        >>> renamed.place(1), renamed.place("3")
        (1, 2)
        >>> renamed.place("1")
        Traceback (most recent call last):
            ...
        ValueError: '1' means the vertex 0 or the vertex 1: use the vertex itself
        """
        try:
            place = self.places.get(key)
        except TypeError:
            place = None
        if place is not None:
            if is_same(key, self.given[place]):
                return place
        else:
            found = self.of_text(key if isinstance(key, str) else self.number(key))
            if len(found) > 1:
                raise ValueError("%r means %s: use the vertex itself" % (
                    key, " or ".join("the vertex %r" % (self.given[each],) for each in found)))
            if found:
                return found[0]
        raise ValueError("there is no vertex %r: the vertices are %s" % (key, ", ".join(self.names)))

    def number(self, key: object) -> str:
        """The text of a key that is a whole number, if all vertices are texts, as those of a file are; or else none."""
        try:
            return str(whole(key, "a vertex")) if self.are_names else ""
        except TypeError:
            return ""

    def amounts(self, given: Any, what: str = "amount") -> tuple[int, ...]:
        """Amounts in the order of the vertices, or other numbers, as the lendings of a script. A vertex that a dict does not have has 0."""
        if isinstance(given, (set, frozenset, str, bytes, bytearray, memoryview)) or not (hasattr(given, "keys") or hasattr(given, "__iter__")):
            raise TypeError("%ss are a list in the order of the vertices, or a dict, and not %r" % (what, given))
        if not hasattr(given, "keys"):
            row = list(given)
            if len(row) != len(self.names):
                raise ValueError("there are %d %ss for %d vertices" % (len(row), what, len(self.names)))
            return tuple(whole(amount, "the %s of vertex %s" % (what, name)) for name, amount in zip(self.names, row))
        found: dict[int, int] = {}
        # A series of pandas may take a key for a place; what stands beside its label is what was meant.
        for key, amount in given.items() if hasattr(given, "items") else ((key, given[key]) for key in given.keys()):
            place = self.place(key)
            if place in found:
                raise ValueError("there are two %ss for vertex %s" % (what, self.names[place]))
            found[place] = whole(amount, "the %s of vertex %s" % (what, self.names[place]))
        return tuple(found.get(place, 0) for place in range(len(self.names)))

    def keyed(self, amounts: Iterable[int]) -> Pairs:
        """Amounts, in the order of the vertices, by the vertices."""
        if self.are_names:
            return Fixed(zip(self.given, amounts))
        found = Amounts(zip(self.given, amounts))
        found.vertices = self
        return found

    def read(self, texts: Pairs) -> Pairs:
        """Amounts by names, as the program prints them, by the vertices."""
        if tuple(texts) != self.names:
            raise ValueError("the answer is about other vertices: %s" % ", ".join(map(str, texts)))
        return self.keyed(texts.values())


class Fixed(dict[Hashable, int]):
    """Numbers by vertices that can't be changed: who gets an answer may share it.

    >>> found = Fixed(a=2, b=-1)
    >>> found["a"] = 3
    Traceback (most recent call last):
        ...
    TypeError: the numbers of an answer can't be changed: take dict(..) of them
    """

    __slots__ = ()

    def refuse(self, *given: Any, **named: Any) -> NoReturn:
        raise TypeError("the numbers of an answer can't be changed: take dict(..) of them")

    __setitem__ = __delitem__ = __ior__ = clear = pop = popitem = setdefault = update = refuse  # type: ignore[assignment]

    def __reduce__(self) -> tuple[Any, ...]:
        return type(self), (dict(self),), getattr(self, "__dict__", None)


class Amounts(Fixed):
    """Numbers by vertices. A text is a key too where it means one vertex.

    >>> found = Vertices([0, 1]).keyed([2, -1])
    >>> found, found[1], found["1"], "1" in found, found.get("2")
    ({0: 2, 1: -1}, -1, -1, True, None)
    """

    vertices: Vertices | None = None

    def __missing__(self, key: object) -> int:
        try:
            if isinstance(key, str) and self.vertices is not None:
                return dict.__getitem__(self, self.vertices.given[self.vertices.place(key)])
        except ValueError:
            pass
        raise KeyError(key)

    def get(self, key: Any, default: Any = None) -> Any:
        try:
            return self[key]
        except KeyError:
            return default

    def __contains__(self, key: object) -> bool:
        return self.get(key) is not None


def by_name(amounts: Mapping[Any, int]) -> dict[str, int]:
    """Numbers by the names of the vertices."""
    vertices = getattr(amounts, "vertices", None)
    if vertices is None:
        return {str(vertex): amount for vertex, amount in amounts.items()}
    return {vertices.names[vertices.places[vertex]]: amount for vertex, amount in amounts.items()}


def named(vertices: Sequence[Vertex], names: Callable[[Any], str] | None = None) -> list[str]:
    """The names of the vertices, which are all different: their texts, or v0, v1 and so on if these can't be names; or those that
    `names` gives.

    >>> named(["New York", "Rome"]), named([0, 1])
    (['v0', 'v1'], ['0', '1'])
    """
    found = [(names or str)(vertex) for vertex in vertices]
    if names is None:
        return found if all(map(NAME.fullmatch, found)) and len({*found}) == len(found) else ["v%d" % place for place in range(len(found))]
    for place, name in enumerate(found):
        if not isinstance(name, str) or not NAME.fullmatch(name):
            raise ValueError("the parameter `names` gives vertex %s the name %r: a name has 1 to 16 letters from a to z or A to Z, digits or _"
                             % (vertices[place], name))
        if name in found[:place]:
            raise ValueError("the vertices %r and %r have the same name, %s" % (vertices[found.index(name)], vertices[place], name))
    return found
