"""Tables, and what they can be made of. Nothing that is given is dropped or rounded."""

from __future__ import annotations

import importlib
import json
import operator
import os
import re
from collections.abc import Callable, Hashable, Iterable, Iterator, Mapping, Sequence, Set as AbstractSet
from pathlib import Path
from typing import TYPE_CHECKING, Any, Literal, NamedTuple, Protocol, SupportsIndex, TypeVar, Union, cast, overload

from dollar import _checks as checks, _drawing as drawing, _hints as hints
from dollar._grammar import limit
from dollar._program import CLONE, Place
from dollar._vertices import Dollars, Pairs, Vertex, Vertices, is_hashable, whole

if TYPE_CHECKING:
    from dollar._answers import History, RankTest, RiemannRoch, Verdict
    from dollar._divisors import EffectiveDivisors, LinearSystem, ReducedDivisors
    from dollar._library import Asker
    from dollar._session import Session

MEMBERS = ("vertices", "edges", "amounts", "q")
# The program reads no further: a longer file is refused.
MOST_BYTES, MOST_TEXT = limit("dg_system::MAX_FILE"), 1 << 26
MOST_AMOUNT = limit("dg_chips::MAX_AMOUNT")
# The examples that are installed with the package, or else those of the clone.
EXAMPLES = next(filter(Path.is_dir, [Path(__file__).with_name("examples")]), CLONE / "examples")
# The vertices of a table, and what gives their names.
V = TypeVar("V", bound=Hashable)
Names = Callable[[Any], str]


class OfGraph(Protocol):
    """A graph of networkx or of Sage, or what has its `edges`."""

    @property
    def edges(self) -> Any: ...


# What a table can be made of: the members of a table, a graph, or an adjacency matrix.
Graph = Union[Mapping[str, object], OfGraph, Iterable[Iterable[SupportsIndex]], "Table[Any]"]
# A Table, or the members of one; and what a command takes as a table, which may be the place of a file too.
Members = Union["Table[Any]", Mapping[str, Any]]
Asked = Union["Table[Any]", Mapping[str, object], Place]


class Multigraph(NamedTuple):
    """What a table is made of: its vertices; for each edge two of them, and how often it is there; and the amounts and q, if it
    tells them."""

    vertices: list[Any]
    edges: list[tuple[Any, Any, int]]
    amounts: Any = None
    q: Any = None


def edge_weight(u: Any, v: Any, weight: Any) -> int:
    """How many edges a weight stands for."""
    what = "the weight of the edge from %s to %s" % (u, v)
    count = whole(weight, what)
    if count < 1:
        raise ValueError("%s is not a number of edges: %d" % (what, count))
    return count


def merged(vertices: Iterable[Any], edges: Iterable[tuple[Any, Any, int]]) -> list[tuple[Any, Any, int]]:
    """The edges, those between the same two vertices as one, each from the earlier to the later vertex."""
    counts: dict[tuple[Any, Any], int] = {}
    place = {vertex: at for at, vertex in enumerate(vertices)}
    for u, v, count in edges:
        if not (is_hashable(u) and is_hashable(v) and u in place and v in place):
            raise ValueError("the edge from %s to %s has no vertex" % (u, v))
        if place[u] == place[v]:
            raise ValueError("the edge from %s to %s is a loop" % (u, v))
        pair = (u, v) if place[u] < place[v] else (v, u)
        counts[pair] = counts.get(pair, 0) + count
    return [(u, v, count) for (u, v), count in counts.items()]


def of_networkx(graph: Any) -> Multigraph:
    """The multigraph of a graph of networkx, or of anything that has its `nodes` and `edges`."""
    vertices = list(graph.nodes)
    if callable(graph.edges):
        edges = [(u, v, edge_weight(u, v, data.get("weight", 1))) for u, v, data in graph.edges(data=True)]
    else:
        wrong = [edge for edge in graph.edges if len(edge) != 2]
        if wrong:
            raise ValueError("an edge is a pair of vertices, and not %r" % (wrong[0],))
        edges = [(u, v, 1) for u, v in graph.edges]
    return Multigraph(vertices, merged(vertices, edges), *held_by_nodes(graph))


def held_by_nodes(graph: Any) -> tuple[Any, Any]:
    """The amounts that the nodes of a graph of networkx have, and q if the graph tells it beside them; None if they have none."""
    amounts = {node: of["amount"] for node, of in getattr(graph.nodes, "items", list)() if "amount" in of}
    if not amounts:
        return None, None
    poor = [node for node in graph.nodes if node not in amounts]
    if poor:
        raise ValueError("the node %s has no attribute `amount`, which others have" % (poor[0],))
    return amounts, getattr(graph, "graph", {}).get("q")


def of_sage_graph(graph: Any) -> Multigraph:
    """The multigraph of a Graph of Sage. If it is weighted, the weight of an edge is how often it is there."""
    vertices = list(graph.vertices())
    edges = []
    for u, v, label in graph.edges(labels=True):
        if label is not None and not graph.weighted():
            raise ValueError("the edge from %s to %s has the label %r: only in a graph with weighted=True it is a number of edges"
                             % (u, v, label))
        edges.append((u, v, 1 if label is None else edge_weight(u, v, label)))
    return Multigraph(vertices, merged(vertices, edges))


def both_ways(vertices: list[Any], counts: dict[tuple[Any, Any], int]) -> list[tuple[Any, Any, int]]:
    """The edges of a graph that tells them in both directions."""
    for (u, v), count in counts.items():
        if count < 0:
            raise ValueError("the number of edges from %s to %s is %d" % (u, v, count))
        ways = u, v, count, counts.get((v, u), 0)
        if ways[3] != count:
            raise ValueError("a directed graph has no table: from %s to %s there are %d edges, and %d back" % ways)
    place = {vertex: at for at, vertex in enumerate(vertices)}
    return merged(vertices, [(u, v, count) for (u, v), count in counts.items() if place[u] <= place[v] and count])


def of_sandpile(sandpile: Any, amounts: Any = None) -> Multigraph:
    """The multigraph of a Sandpile of Sage, which has each edge in both directions; its sink is q."""
    vertices, ways = list(sandpile.vertices()), sandpile.dict()
    counts = {(u, v): whole(count, "the weight of the edge from %s to %s" % (u, v))
              for u, near in ways.items() for v, count in near.items()}
    return Multigraph(vertices, both_ways(vertices, counts), amounts, sandpile.sink())


def of_sandpile_divisor(divisor: Any) -> Multigraph:
    """The multigraph and amounts of a SandpileDivisor of Sage."""
    graph = of_sandpile(divisor.sandpile() if callable(divisor.sandpile) else divisor.sandpile, dict(divisor))
    missing = [vertex for vertex in graph.vertices if vertex not in divisor]
    if missing:
        raise ValueError("there is no amount for vertex %s: a configuration has none at the sink" % missing[0])
    return graph


def of_matrix(matrix: Any) -> Multigraph:
    """The multigraph of an adjacency matrix: how many edges join the vertex of a row to that of a column."""
    of = matrix
    if hasattr(matrix, "to_numpy"):
        of = matrix.to_numpy()
    elif hasattr(matrix, "toarray"):
        of = matrix.toarray()
    elif hasattr(matrix, "tolist"):
        of = matrix.tolist()
    rows = [list(row) for row in of]
    for at, row in enumerate(rows):
        if len(row) != len(rows):
            raise ValueError("an adjacency matrix has as many columns as rows: row %d has %d, and there are %d rows%s" % (
                at, len(row), len(rows), "; Table.of_edges takes pairs of vertices" if all(len(each) in (2, 3) for each in rows) else ""))
    vertices = labels_of(matrix) if hasattr(matrix, "to_numpy") else list(range(len(rows)))
    counts = {(u, v): edge_count(u, v, count) for u, row in zip(vertices, rows) for v, count in zip(vertices, row)}
    if len(counts) != len(rows) ** 2:
        raise ValueError("two rows of the frame have the same label")
    return Multigraph(vertices, both_ways(vertices, counts))


def edge_count(u: Any, v: Any, count: Any) -> int:
    """An entry of an adjacency matrix."""
    what = "the number of edges from %s to %s" % (u, v)
    if isinstance(count, float) and count.is_integer():
        raise TypeError("%s is not a whole number: %r; of a matrix of floats, as networkx gives it, take .astype(int)" % (what, count))
    return whole(count, what)


def labels_of(frame: Any) -> list[Any]:
    """The labels of the rows of a frame of pandas, which those of its columns have to be too."""
    rows, columns = list(frame.index), list(frame.columns)
    if rows != columns:
        raise ValueError("the columns of an adjacency matrix have other labels than its rows, or another order: %s and %s"
                         % (", ".join(map(str, columns)), ", ".join(map(str, rows))))
    return rows


def of_members(table: Any) -> Multigraph:
    """The multigraph, amounts and q of a table as a file has it."""
    if set(table) != set(MEMBERS):
        raise ValueError("a table has the members vertices, edges, amounts and q, and not %s" % ", ".join(map(str, table)))
    vertices, edges = member(table, "vertices"), []
    for at, edge in enumerate(member(table, "edges")):
        if isinstance(edge, str) or not isinstance(edge, Sequence) or len(edge) != 3:
            raise ValueError("edge %d is not a list of two names and a number: %r" % (at, edge))
        edges.append((edge[0], edge[1], edge_weight(*edge)))
    if table["q"] is None:
        raise ValueError("the member q is a vertex, and not None")
    Vertices(vertices)
    merged(vertices, edges)
    return Multigraph(vertices, edges, member(table, "amounts"), table["q"])


def member(table: Any, name: str) -> list[Any]:
    """A member of a table as a file has it, which has to be a list."""
    found = table[name]
    if isinstance(found, (str, bytes, Mapping)) or not hasattr(found, "__iter__"):
        raise TypeError("the member %s is a list, and not %r" % (name, found))
    return list(found)


def of_graph6(line: str | bytes) -> Multigraph:
    """The multigraph of a line in the format graph6; its vertices are the numbers from 0 on."""
    text = line.decode("ascii") if isinstance(line, bytes) else line
    text = re.sub("^>>graph6<<", "", text.rstrip("\r\n"))
    codes = [ord(letter) - 63 for letter in text]
    if not codes or not all(0 <= code < 64 for code in codes):
        raise ValueError("not a line of graph6: %r" % text)
    size, pairs = codes[0], [(u, v) for v in range(codes[0]) for u in range(v)]
    if size == 63:
        raise ValueError("the graph has more than 62 vertices, and a table has at most 16")
    bits = [code >> at & 1 for code in codes[1:] for at in range(5, -1, -1)]
    if len(codes) - 1 != (len(pairs) + 5) // 6 or any(bits[len(pairs):]):
        raise ValueError("not a line of graph6: %r" % text)
    return Multigraph(list(range(size)), [(u, v, 1) for (u, v), bit in zip(pairs, bits) if bit])


def of_pairs(edges: Iterable[Sequence[Any]]) -> Multigraph:
    """The multigraph of pairs of vertices, each with a number of edges or without one."""
    found: list[tuple[Any, Any, int]] = []
    for at, edge in enumerate(edges):
        if isinstance(edge, (str, bytes)) or not isinstance(edge, Sequence) or len(edge) not in (2, 3):
            raise ValueError("edge %d is not a pair of vertices, nor one with a number: %r" % (at, edge))
        found.append((edge[0], edge[1], 1 if len(edge) == 2 else edge_weight(*edge)))
    vertices = list(dict.fromkeys(vertex for u, v, _ in found for vertex in (u, v)))
    return Multigraph(vertices, merged(vertices, found))


def multigraph(thing: Any) -> Multigraph:
    """What a table is to be made of, whatever says it."""
    if isinstance(thing, Table):
        return Multigraph(list(thing.vertices), list(thing.edges), list(thing.amounts), thing.q)
    if isinstance(thing, (str, bytes, bytearray, memoryview, os.PathLike)):
        raise TypeError("Table.read reads a file, and Table.graph6 a line of graph6: %r is neither a graph nor a matrix" % (thing,))
    if hasattr(thing, "sandpile") and isinstance(thing, Mapping):
        return of_sandpile_divisor(thing)
    if isinstance(thing, Mapping):
        return of_members(thing)
    if hasattr(thing, "sink") and hasattr(thing, "dict"):
        return of_sandpile(thing)
    if hasattr(thing, "edges") and (hasattr(thing, "nodes") or hasattr(thing, "vertices")):
        if getattr(thing, "is_directed", bool)():
            raise ValueError("a directed graph has no table")
        return of_networkx(thing) if hasattr(thing, "nodes") else of_sage_graph(thing)
    if hasattr(thing, "__iter__"):
        return of_matrix(thing)
    raise TypeError("a table is made of a graph, a matrix or a table, and not of %r" % (thing,))


class Table(Mapping[V, int]):
    """A graph, the dollars at its vertices, and the vertex q from which verdicts are computed. A table can't be changed.

    It is made of a graph of networkx, which may be a MultiGraph; a Graph, a Sandpile or a SandpileDivisor of Sage; an adjacency
    matrix; another table; or the members of a table file as a dict. `Table.read` reads a file, `Table.graph6` a line of graph6, and
    `Table.of_edges` takes pairs of vertices.

    The amounts are a list in the order of the vertices, or a dict by vertices; a vertex that is not in it has 0 dollars. If they are
    not given, they are taken from the first parameter, or else all 0. q is the first vertex if neither says another.

    A table keeps the vertices that it was made of: they are the keys of amounts, scripts and answers. A text is a key too if it
    means one vertex. The name of a vertex, which the program prints, is its text. If these can't all be names, the names are v0, v1 and
    so on; or `names` is a function that gives them.

    >>> Table([[0, 2], [2, 0]], [3, -1])
    Table(<2 vertices, 2 edges>, [3, -1], q=0)
    >>> table = Table({"vertices": ["a", "b"], "edges": [["a", "b", 1]], "amounts": [2, -1], "q": "a"})
    >>> table.vertices, table.edges, table.amounts, table.q
    (('a', 'b'), (('a', 'b', 1),), (2, -1), 'a')
    >>> Table(table, {"b": 5}, "b").amounts
    (0, 5)

    It is a mapping from its vertices to their dollars.

    >>> table["a"], dict(table), sum(table.values()), "c" in table, len(table)
    (2, {'a': 2, 'b': -1}, 1, False, 2)

    Nothing is dropped or rounded: a number that isn't whole is a TypeError, anything else that doesn't fit a ValueError.

    >>> Table(table, {"a": 1.7})
    Traceback (most recent call last):
        ...
    TypeError: the amount of vertex a is not a whole number: 1.7
    """

    __slots__ = ("_amounts", "_edges", "_kept", "_q", "_vertices")
    _amounts: tuple[int, ...]
    _edges: tuple[tuple[V, V, int], ...]
    # What was made of the graph, for all tables on it.
    _kept: dict[Any, Any]
    _q: int
    _vertices: Vertices

    @overload
    def __init__(self: Table[V], graph: Table[V], amounts: Dollars | None = ..., q: Vertex | None = ..., *,
                 names: Names | None = ...) -> None: ...

    @overload
    def __init__(self: Table[str], graph: Mapping[str, object], amounts: Dollars | None = ..., q: Vertex | None = ..., *,
                 names: Names | None = ...) -> None: ...

    @overload
    def __init__(self: Table[int], graph: Iterable[Iterable[SupportsIndex]], amounts: Dollars | None = ..., q: Vertex | None = ..., *,
                 names: Names | None = ...) -> None: ...

    @overload
    def __init__(self: Table[Any], graph: OfGraph | Multigraph, amounts: Dollars | None = ..., q: Vertex | None = ..., *,
                 names: Names | None = ...) -> None: ...

    def __init__(self, graph: Graph | Multigraph, amounts: Dollars | None = None, q: Vertex | None = None, *,
                 names: Names | None = None) -> None:
        made = graph if isinstance(graph, Multigraph) else multigraph(graph)
        if isinstance(graph, Table) and names is None:
            self._vertices, self._edges, self._kept = graph._vertices, graph._edges, graph._kept
        else:
            self._vertices, self._edges, self._kept = Vertices(made.vertices, names), tuple(made.edges), {}
        given = made.amounts if amounts is None else amounts
        self._amounts = self._vertices.amounts([0] * len(made.vertices) if given is None else given)
        q = made.q if q is None else q
        if q is None and not made.vertices:
            raise ValueError("there is no vertex")
        self._q = 0 if q is None else self._vertices.place(q)

    @classmethod
    def read(cls, file: Place) -> Table[str]:
        """The table of a file. An error names the file and what is wrong in it.

        >>> import tempfile
        >>> with tempfile.NamedTemporaryFile() as file:
        ...     Table([[0, 1], [1, 0]], [2, -1]).write(file.name)
        ...     print(Table.read(file.name).amounts)
        (2, -1)
        """
        try:
            with open(file, encoding="utf-8") as text:
                return Table(json.load(text))
        except (TypeError, ValueError, RecursionError) as error:
            kind = TypeError if isinstance(error, TypeError) else ValueError
            raise kind("%s: %s" % (os.fspath(file), error)) from None

    @classmethod
    def graph6(cls, line: str | bytes, amounts: Dollars | None = None, q: Vertex | None = None) -> Table[int]:
        """The table of a line in the format graph6, as nauty's programs print it; its vertices are 0, 1, 2 and so on.

        >>> Table.graph6("Bw", [1, 0, -1]).edges
        ((0, 1, 1), (0, 2, 1), (1, 2, 1))
        """
        return Table(of_graph6(line), amounts, q)

    @classmethod
    def of_edges(cls, edges: Iterable[Sequence[Any]], amounts: Dollars | None = None, q: Vertex | None = None, *,
                 names: Names | None = None) -> Table[Any]:
        """The table of a graph by its edges, each a pair of vertices, with a third part if it is there more than once. The vertices are in
        the order in which they occur first.

        >>> Table.of_edges([("a", "b"), ("b", "c", 2)], {"a": 1}).edges
        (('a', 'b', 1), ('b', 'c', 2))
        """
        return Table(of_pairs(edges), amounts, q, names=names)

    @property
    def vertices(self) -> tuple[V, ...]:
        """The vertices that the table was made of, in order.

        >>> table = Table({"vertices": ["New York", "Rome"], "edges": [["New York", "Rome", 2]], "amounts": [3, -1], "q": "Rome"})
        >>> table.vertices, table.names, table.edges
        (('New York', 'Rome'), ('v0', 'v1'), (('New York', 'Rome', 2),))
        >>> table.amounts, table.divisor, table.q, table.place("Rome")
        ((3, -1), {'New York': 3, 'Rome': -1}, 'Rome', 1)
        """
        return cast(tuple[V, ...], self._vertices.given)

    @property
    def names(self) -> tuple[str, ...]:
        """The names of the vertices, by which the program knows them; `help(Table.vertices)` has an example."""
        return self._vertices.names

    @property
    def edges(self) -> tuple[tuple[V, V, int], ...]:
        """The edges: two vertices, and how often the edge is there; `help(Table.vertices)` has an example."""
        return self._edges

    @property
    def amounts(self) -> tuple[int, ...]:
        """The amounts, in the order of the vertices; `help(Table.vertices)` has an example."""
        return self._amounts

    @property
    def q(self) -> V:
        """The vertex from which verdicts are computed; `help(Table.vertices)` has an example."""
        return self.vertices[self._q]

    @property
    def divisor(self) -> Mapping[V, int]:
        """The amounts by vertices; `help(Table.vertices)` has an example."""
        return cast(Mapping[V, int], self._vertices.keyed(self._amounts))

    def place(self, vertex: Vertex) -> int:
        """The place of a vertex in the order of the vertices, from 0; `help(Table.vertices)` has an example."""
        return self._vertices.place(vertex)

    @property
    def degree(self) -> int:
        """The degree of the divisor: all dollars.

        >>> Table([[0, 1], [1, 0]], [2, -1]).degree
        1
        """
        return sum(self._amounts)

    @property
    def genus(self) -> int:
        """The genus of the graph: its edges minus its vertices, plus 1.

        >>> Table([[0, 3], [3, 0]]).genus
        2
        """
        return sum(count for _, _, count in self._edges) - len(self._amounts) + 1

    def canonical(self) -> Table[V]:
        """The canonical divisor K: at each vertex its edges minus 2.

        >>> Table([[0, 3], [3, 0]]).canonical().amounts
        (1, 1)
        """
        return self._with(tuple(sum(row) - 2 for row in self._near()))

    def residual(self) -> Table[V]:
        """K - D, the residual of the divisor, whose rank is the other one of Riemann-Roch.

        >>> Table([[0, 3], [3, 0]], [2, 0]).residual().amounts
        (-1, 1)
        """
        return self.canonical() - self

    def valence(self, vertex: Vertex) -> int:
        """How many edges a vertex has.

        >>> table = Table.of_edges([("a", "b"), ("b", "c", 2)])
        >>> table.valence("b"), table.neighbors("b"), table.laplacian()
        (3, {'a': 1, 'c': 2}, [[1, -1, 0], [-1, 3, -2], [0, -2, 2]])
        """
        return sum(self._near()[self._vertices.place(vertex)])

    def neighbors(self, vertex: Vertex) -> dict[V, int]:
        """The neighbours of a vertex, with the number of edges to each; `help(Table.valence)` has an example."""
        row = self._near()[self._vertices.place(vertex)]
        return {other: count for other, count in zip(self.vertices, row) if count}

    def laplacian(self) -> list[list[int]]:
        """The Laplacian L of the graph, in the order of the vertices: a script s leads from D to D - L s. `help(Table.valence)` has an
        example."""
        return [[sum(row) if u == v else -count for v, count in enumerate(row)] for u, row in enumerate(self._near())]

    def support(self) -> tuple[V, ...]:
        """The vertices whose amount is not 0.

        >>> table = Table([[0, 1, 0], [1, 0, 1], [0, 1, 0]], [2, 0, -1])
        >>> table.support(), table.is_effective()
        ((0, 2), False)
        """
        return tuple(vertex for vertex, amount in zip(self.vertices, self._amounts) if amount)

    def is_effective(self) -> bool:
        """Whether nobody is in debt; `help(Table.support)` has an example."""
        return min(self._amounts) >= 0

    def fire(self, script: AbstractSet[Any] | Dollars) -> Table[V]:
        """The table after each vertex has lent as often as a script says, which may be a list or a dict. Of a set each vertex lends once.

        >>> path = Table([[0, 1, 0], [1, 0, 1], [0, 1, 0]], [2, 0, -1])
        >>> path.fire({0: 2}).amounts, path.fire([2, 0, -1]).amounts, path.fire({0, 1}).amounts
        ((0, 2, -1), (0, 1, 0), (2, -1, 0))
        """
        times = dict.fromkeys(script, 1) if isinstance(script, AbstractSet) else script
        return self._with(self._fired(self._vertices.amounts(times, "lending")))

    def lend(self, vertex: Vertex, times: int = 1) -> Table[V]:
        """The table after a vertex has lent, once or so many times.

        >>> Table([[0, 1], [1, 0]], [2, -1]).lend(0).amounts
        (1, 0)
        """
        return self.fire({vertex: times})

    def borrow(self, vertex: Vertex, times: int = 1) -> Table[V]:
        """The table after a vertex has borrowed, once or so many times.

        >>> Table([[0, 1], [1, 0]], [2, -1]).borrow(1).amounts
        (1, 0)
        """
        return self.fire({vertex: -whole(times, "how often a vertex borrows")})

    def _near(self) -> list[list[int]]:
        """How many edges join each two vertices, by their places."""
        if "near" not in self._kept:
            places, size = self._vertices.places, len(self._amounts)
            found = self._kept["near"] = [[0] * size for _ in range(size)]
            for u, v, count in self._edges:
                found[places[u]][places[v]] += count
                found[places[v]][places[u]] += count
        near: list[list[int]] = self._kept["near"]
        return near

    def _fired(self, script: Sequence[int]) -> tuple[int, ...]:
        """The amounts after a script, in the order of the vertices."""
        return tuple(held + sum(count * (script[u] - script[v]) for u, count in enumerate(row) if count)
                     for v, (held, row) in enumerate(zip(self._amounts, self._near())))

    def _verdict(self, program: Place | None) -> tuple[list[int], list[int]]:
        """The script and the reduced divisor, in the order of the vertices. Past the limits the program is asked about an equivalent
        divisor, with other dollars at q, since these change neither the script nor what is off q."""
        from dollar._commands import judge
        from dollar._divisors import level

        amounts, more = list(self._amounts), 0
        if any(abs(amount) > MOST_AMOUNT for amount in amounts):
            amounts[self._q], more = amounts[self._q] - self.degree, self.degree
        within, first = level(self._with(tuple(amounts)))
        verdict = judge(within, program=program)
        script, reduced = [one + other for one, other in zip(first, verdict.script.values())], [*verdict.reduced.values()]
        reduced[self._q] += more
        return [times - script[self._q] for times in script], reduced

    def reduced(self, q: Vertex | None = None, *, program: Place | None = None) -> Table[V]:
        """The divisor that is equivalent to this one and reduced at q, which is the table's if no other is given.

        >>> Table([[0, 1], [1, 0]], [2, -1]).reduced(1).amounts
        (0, 1)
        """
        table = self._with(self._amounts, self._q if q is None else self._vertices.place(q))
        return table._with(tuple(table._verdict(program)[1]))

    def is_reduced(self) -> bool:
        """Whether the divisor is reduced at q: nobody off q owes, and all burns.

        >>> Table([[0, 1], [1, 0]], [2, -1]).is_reduced(), Table([[0, 1], [1, 0]], [1, 0]).is_reduced()
        (False, True)
        """
        off_q = self._amounts[:self._q] + self._amounts[self._q + 1:]
        return min(off_q, default=0) >= 0 and len(self.burning_order()) == len(self._amounts)

    def burning_order(self) -> list[Any]:
        """The vertices in the order in which they burn from q: each the first of those that more edges join to burnt ones than they have
        dollars. All burn if the divisor is reduced; those that don't can fire together.

        >>> ring = Table([[0, 1, 0, 1], [1, 0, 1, 0], [0, 1, 0, 1], [1, 0, 1, 0]], [-2, 0, 3, 0])
        >>> ring.burning_order()
        [0, 1, 3]
        """
        return checks.burnt(self, self._amounts)

    def is_equivalent(self, other: Dollars, *, program: Place | None = None) -> bool:
        """Whether some script leads from this divisor to the other, which is a table on the same graph, or amounts.

        >>> Table([[0, 1], [1, 0]], [2, -1]).is_equivalent([0, 1]), Table([[0, 1], [1, 0]], [2, -1]).is_equivalent([0, 0])
        (True, False)
        """
        return self._script_to(other, program) is not None

    def script_to(self, other: Dollars, *, program: Place | None = None) -> Pairs:
        """The script that leads from this divisor to the other and is 0 at q. A ValueError if they are not equivalent.

        >>> table = Table([[0, 1], [1, 0]], [2, -1])
        >>> table.script_to([0, 1]), table.fire(table.script_to([0, 1])).amounts
        ({0: 0, 1: -2}, (0, 1))
        """
        script = self._script_to(other, program)
        if script is None:
            raise ValueError("the divisors are not equivalent, so no script leads to %r" % (other,))
        return self._vertices.keyed(script)

    def _script_to(self, other: Dollars, program: Place | None) -> list[int] | None:
        """The script, in the order of the vertices, which is that of the difference; None if that is not equivalent to 0."""
        difference = self - other
        if difference.degree:
            return None
        script, reduced = difference._verdict(program)
        return None if any(reduced) else script

    def judge(self, *, program: Place | None = None) -> Verdict:
        """Whether all debts can be cleared, and how, as `dollar.judge` says.

        >>> table = Table([[0, 1], [1, 0]], [2, -1])
        >>> table.judge().winnable, table.is_winnable(), table.rank_test(1).holds, table.rr()
        (True, True, True, RiemannRoch(degree=1, genus=0, rank=1, dual=-1))
        """
        from dollar._commands import judge

        return judge(self, program=program)

    def is_winnable(self, *, program: Place | None = None) -> bool:
        """Whether all debts can be cleared; `help(Table.judge)` has an example."""
        return self.judge(program=program).winnable

    def rank_test(self, degree: int, *, workers: int | None = None, patience: float | None = None,
                  program: Place | None = None) -> RankTest:
        """Whether so many dollars can be lost, as `dollar.rank_test` says; `help(Table.judge)` has an example."""
        from dollar._commands import rank_test

        return rank_test(self, degree, workers=workers, patience=patience, program=program)

    def rr(self, *, patience: float | None = None, program: Place | None = None) -> RiemannRoch:
        """The four numbers of Riemann-Roch, as `dollar.rr` has them; `help(Table.judge)` has an example."""
        from dollar._commands import rr

        return rr(self, patience=patience, program=program)

    def greedy(self, turns: int, *, program: Place | None = None) -> History:
        """A game in which the first vertex in debt borrows, as `dollar.greedy` plays it.

        >>> print(Table([[0, 1], [1, 0]], [2, -1]).greedy(5))
        0 moved 0=1 1=0
        1 won
        """
        from dollar._commands import greedy

        return greedy(self, turns, program=program)

    def rehearse(self, steps: Iterable[str], *, program: Place | None = None) -> History:
        """The history of these steps, as `dollar.rehearse` has it.

        >>> print(Table([[0, 1], [1, 0]], [2, -1]).rehearse(["1 lend 0"]))
        0 moved 0=1 1=0
        """
        from dollar._commands import rehearse

        return rehearse(self, steps, program=program)

    def gonality(self, *, program: Place | None = None) -> int:
        """The gonality of the graph: the least degree of a divisor of rank 1 or more. What the vertices hold does not matter. On graphs with
        many spanning trees it may take minutes or more.

        >>> from dollar import example
        >>> Table.of_edges([(0, 1), (1, 2), (2, 0)]).gonality(), example("cube").gonality()
        (2, 4)
        """
        from dollar._divisors import gonality

        return gonality(self, program)

    def rank(self, *, patience: float | None = None, program: Place | None = None) -> int:
        """The rank of the divisor; -1 if it can't be won. On graphs of many edges that may take long: with `patience` it is a
        TimeoutError after so many seconds. For many divisors `rr_all` has their ranks at a small part of the cost.

        >>> Table([[0, 3], [3, 0]], [2, 2]).rank()
        2
        """
        from dollar._commands import rr
        from dollar._divisors import level

        within = level(self)[0]
        # An error is about the amounts that are the caller's.
        asked = self if any(abs(amount) > MOST_AMOUNT for amount in within._amounts) else within
        return rr(asked, patience=patience, program=program).rank

    def asker(self) -> Asker:
        """What answers about one divisor of the graph after another, for a search that chooses each by the answers before. It has `rank`
        and `winnable`, and serves one thread at a time. With the library for C a question takes some microseconds.

        >>> ask = Table([[0, 3], [3, 0]]).asker()
        >>> ask.rank([2, 2]), ask.winnable([1, -1]), next(n for n in range(9) if ask.rank([n, n]) == 4)
        (2, False, 3)
        """
        from dollar._library import Asker

        return Asker(self)

    def effective_divisors(self, degree: int) -> EffectiveDivisors[V]:
        """The effective divisors of a degree on the graph, as tables, in the order of lists; `len` and `count` are their number.

        >>> found = Table([[0, 1], [1, 0]]).effective_divisors(2)
        >>> found, len(found), [table.amounts for table in found]
        (<EffectiveDivisors: degree 2 on 2 vertices>, 3, [(0, 2), (1, 1), (2, 0)])
        """
        from dollar._divisors import EffectiveDivisors

        return EffectiveDivisors(self, whole(degree, "the degree"))

    def reduced_divisors(self, degree: int, *, winnable: bool = False) -> ReducedDivisors[V]:
        """The divisors of a degree that are reduced at q, as tables one by one: one of each class. With `winnable` only those that can be
        won. The number of classes is known before: `len` is the number of spanning trees.

        >>> triangle = Table([[0, 1, 1], [1, 0, 1], [1, 1, 0]])
        >>> found = triangle.reduced_divisors(0)
        >>> len(found), [table.amounts for table in found]
        (3, [(0, 0, 0), (-1, 0, 1), (-1, 1, 0)])
        >>> [table.amounts for table in triangle.reduced_divisors(0, winnable=True)]
        [(0, 0, 0)]
        """
        from dollar._divisors import ReducedDivisors

        return ReducedDivisors(self, whole(degree, "the degree"), winnable)

    def linear_system(self, *, program: Place | None = None) -> LinearSystem[V]:
        """The effective divisors that are equivalent to this one, as tables, by one sweep over all effective divisors of the degree, whose
        number is `candidates`; `len` makes that sweep too, once.

        >>> found = Table([[0, 1, 1], [1, 0, 1], [1, 1, 0]], [2, 0, 0]).linear_system()
        >>> found.candidates, len(found), [table.amounts for table in found]
        (6, 2, [(0, 1, 1), (2, 0, 0)])
        """
        from dollar._divisors import LinearSystem

        return LinearSystem(self, program)

    def _like(self, other: Dollars) -> tuple[int, ...]:
        """The amounts of a divisor on the same graph: a table, or amounts as a table takes them."""
        if isinstance(other, Table):
            if other._kept is not self._kept and other._graph() != self._graph():
                raise ValueError("the two divisors are on different graphs")
            return other._amounts
        return self._vertices.amounts(other)

    def __add__(self, other: Dollars | Literal[0]) -> Table[V]:
        """The sum of two divisors on the graph; with q as here.

        >>> table = Table([[0, 1], [1, 0]], [2, -1])
        >>> (table + [1, 1]).amounts, (table - {0: 2}).amounts, (3 * table).amounts, (-table).amounts
        ((3, 0), (0, -1), (6, -3), (-2, 1))
        >>> sum([table, table]).amounts
        (4, -2)
        """
        # `sum` begins with 0, which is the divisor without dollars.
        if isinstance(other, int) and other == 0:
            return self
        return self._with(tuple(map(operator.add, self._amounts, self._like(other))))

    __radd__ = __add__

    def __sub__(self, other: Dollars | Literal[0]) -> Table[V]:
        if isinstance(other, int) and other == 0:
            return self
        return self._with(tuple(map(operator.sub, self._amounts, self._like(other))))

    def __rsub__(self, other: Dollars) -> Table[V]:
        return -self + other

    def __mul__(self, times: int) -> Table[V]:
        number = whole(times, "how often a divisor is taken")
        return self._with(tuple(number * amount for amount in self._amounts))

    __rmul__ = __mul__

    # numpy leaves sums and multiples of tables to tables, also from the left.
    __array_ufunc__ = None

    def __neg__(self) -> Table[V]:
        return self * -1

    def __iter__(self) -> Iterator[V]:
        return iter(self.vertices)

    def __len__(self) -> int:
        return len(self._amounts)

    def __getitem__(self, vertex: object) -> int:
        """The dollars at a vertex."""
        try:
            return self._amounts[self._vertices.place(vertex)]
        except ValueError as error:
            more = "; t.to_dict() has the members of a table file" if vertex in MEMBERS else ""
            raise KeyError("%s%s" % (error, more)) from None

    if not TYPE_CHECKING:
        def __getattr__(self, name: str) -> Any:
            raise AttributeError("a table has no attribute %r%s" % (name, hints.of_name(name)), name=name, obj=self)

    def to_dict(self) -> dict[str, Any]:
        """The members of a table file.

        >>> table = Table([[0, 1], [1, 0]], [2, -1])
        >>> table.to_dict()
        {'vertices': ['0', '1'], 'edges': [['0', '1', 1]], 'amounts': [2, -1], 'q': '0'}
        >>> table.to_json()
        '{"vertices": ["0", "1"], "edges": [["0", "1", 1]], "amounts": [2, -1], "q": "0"}'
        """
        places, name = self._vertices.places, self._vertices.names
        edges = [[name[places[u]], name[places[v]], count] for u, v, count in self._edges]
        return {"vertices": list(name), "edges": edges, "amounts": list(self._amounts), "q": name[self._q]}

    def to_json(self) -> str:
        """The table as a table file has it, in one line without its end; `help(Table.to_dict)` has an example."""
        # A sweep over many tables of a few graphs writes each graph once.
        if self._q not in self._kept:
            made = self.to_dict()
            graph = json.dumps({"vertices": made["vertices"], "edges": made["edges"]})
            self._kept[self._q] = graph[:-1] + ', "amounts": ', ', "q": %s}' % json.dumps(made["q"])
        before, after = self._kept[self._q]
        return "%s%s%s" % (before, list(self._amounts), after)

    def write(self, file: Place) -> None:
        """Writes a table file; `help(Table.read)` has an example."""
        with open(file, "w", encoding="utf-8") as text:
            text.write(self.to_json() + "\n")

    def to_networkx(self) -> Any:
        """The graph as a MultiGraph of networkx, whose nodes are the vertices, each with its `amount`; the graph has `q`. So the same
        table can be made of it, with the same `names`.

        >>> table = Table([[0, 2], [2, 0]], [3, -1], 1)
        >>> table.to_networkx().number_of_edges(), Table(table.to_networkx()) == table  # doctest: +SKIP
        (2, True)
        """
        graph = importlib.import_module("networkx").MultiGraph(q=self.q)
        for vertex, amount in self.divisor.items():
            graph.add_node(vertex, amount=amount)
        graph.add_edges_from((u, v) for u, v, count in self._edges for _ in range(count))
        return graph

    def to_sage(self) -> Any:
        """The amounts as a SandpileDivisor of Sage, on the Sandpile of the graph, whose sink is q.

        >>> Table([[0, 2], [2, 0]], [3, -1], 1).to_sage().rank()  # doctest: +SKIP
        1
        """
        sandpiles = importlib.import_module("sage.sandpiles.all")
        return sandpiles.SandpileDivisor(sandpiles.Sandpile(checks.edges(self), self.q), dict(self.divisor))

    def serve(self, *, seats: int | None = None, cap: int | None = None, workers: int | None = None,
              patience: float | None = 20.0, program: Place | None = None, keep: Place | None = None) -> Session:
        """A session on the table, or with `seats` one for many people; `help(dollar.Session)` explains the rest.

        >>> with Table([[0, 1], [1, 0]], [2, -1]).serve(seats=2) as session:
        ...     print(session.ask_seat(2, "lend 0"))
        0 moved 0=1 1=0
        """
        from dollar._session import Session

        return Session(self, seats=seats, cap=cap, workers=workers, patience=patience, program=program, keep=keep)

    def _with(self, amounts: tuple[int, ...], q: int | None = None) -> Table[V]:
        """The table with other amounts, and with the vertex at another place as q."""
        other: Table[V] = object.__new__(Table)
        other._vertices, other._edges, other._kept, other._amounts = self._vertices, self._edges, self._kept, amounts
        other._q = self._q if q is None else q
        return other

    def _joined(self, joins: Sequence[tuple[Vertex, Vertex]], amounts: Dollars | None) -> Table[V]:
        """The table with more edges, each between two vertices, and other amounts, if they are given."""
        other = self._with(self._amounts if amounts is None else self._vertices.amounts(amounts))
        if joins:
            given, place = self._vertices.given, self._vertices.place
            more = [(given[place(u)], given[place(v)], 1) for u, v in joins]
            other._edges, other._kept = tuple(merged(given, [*self._edges, *more])), {}
        return other

    def _graph(self) -> tuple[tuple[str, ...], list[Any]]:
        """The multigraph: its names, and its edges as places, each pair once."""
        places = self._vertices.places
        return self._vertices.names, sorted(merged(range(len(places)), ((places[u], places[v], n) for u, v, n in self._edges)))

    def __eq__(self, other: object) -> bool:
        if not isinstance(other, Table):
            return NotImplemented
        return (self._amounts, self._q, self._graph()) == (other._amounts, other._q, other._graph())

    def __hash__(self) -> int:
        return hash((self._vertices.names, self._amounts, self._q))

    def __repr__(self) -> str:
        vertices, edges = len(self._amounts), sum(count for _, _, count in self._edges)
        return "Table(<%d vert%s, %d edge%s>, %s, q=%r)" % (
            vertices, "ex" if vertices == 1 else "ices", edges, "" if edges == 1 else "s", list(self._amounts), self.q)

    def _repr_svg_(self) -> str:
        return drawing.picture(self)


def members(thing: Asked) -> bytes:
    """The bytes of a table file for whatever a command takes as a table: a Table, the members of one as a dict, a SandpileDivisor of
    Sage, or the place of a file."""
    return file_and_table(thing)[0]


def file_and_table(thing: Asked) -> tuple[bytes, Table[Any] | bytes]:
    """The same, and what the table is made of later, if it is needed: itself, or these bytes."""
    if isinstance(thing, (str, os.PathLike)):
        with open(thing, "rb") as file:
            text = file.read(MOST_BYTES + 1)
        return text, text
    return one_line(thing)


def clipped(amounts: tuple[int, ...]) -> tuple[int, ...]:
    """The amounts as the program is told them. Those past 64 bits, which it refuses alike, may have more digits than it reads, or than
    Python writes; so they stand just past them."""
    if -1 << 63 <= min(amounts) and max(amounts) < 1 << 63:
        return amounts
    return tuple(min(max(amount, (-1 << 63) - 1), 1 << 63) for amount in amounts)


def json_number(number: object) -> int:
    """A number that is none of Python's, as numpy has them, for a table file."""
    return whole(number, "a number of the table")


def one_line(thing: Any) -> tuple[bytes, Table[Any] | bytes]:
    """The same in one line, of what is no file."""
    if not isinstance(thing, Table) and hasattr(thing, "sandpile"):
        thing = Table(thing)
    if isinstance(thing, Table):
        amounts = clipped(thing._amounts)
        told = thing if amounts is thing._amounts else thing._with(amounts)
        return told.to_json().encode(), thing
    if isinstance(thing, Mapping):
        line = json.dumps(dict(thing), default=json_number).encode()
        return line, line
    raise TypeError("a table is a Table, a dict or a SandpileDivisor, and not of the type %s: Table(graph, amounts) makes one"
                    % type(thing).__name__)


def vertices_kept(kept: Any) -> Vertices:
    """The vertices of a table, by what was kept of it, which may be its line."""
    found: Vertices | None = getattr(kept[0] if isinstance(kept, tuple) else kept, "_vertices", None)
    return Vertices(json.loads(kept)["vertices"]) if found is None else found


def made_of(kept: Any) -> Table[Any] | None:
    """The table of an answer, of what was kept of it: the table, or its line, or a table and other amounts on its graph."""
    if isinstance(kept, bytes):
        return Table(json.loads(kept))
    if isinstance(kept, tuple):
        table: Table[Any] = kept[0]
        return table._with(kept[1])
    found: Table[Any] | None = kept
    return found


def text_of(file: Place) -> str:
    """The text of a file. What is no UTF-8, or longer than any file of ours, is a ValueError."""
    with open(file, encoding="utf-8", newline="") as opened:
        text = opened.read(MOST_TEXT + 1)
    if len(text) > MOST_TEXT:
        raise ValueError("the file is too long")
    return text


def shown_name(file: Place) -> str:
    """The name of a file, as it is shown; for bytes that are no letters there is a sign."""
    return os.fsencode(os.path.basename(file)).decode(errors="replace")


def example(name: str) -> Table[str]:
    """The table of an example, by the name of its file in the folder `examples`.

    >>> example("triangle").amounts
    (2, -1, -1)
    """
    file = EXAMPLES / (name + ".json")
    if not file.is_file():
        raise FileNotFoundError("there is no example %s beside this package: %s" % (name, file))
    return Table.read(file)
