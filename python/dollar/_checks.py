"""The game itself, in a few lines: firing, burning, and the check of a verdict by its definition, without the program."""

from __future__ import annotations

from collections.abc import Hashable, Iterable, Mapping, Sequence
from typing import TYPE_CHECKING, Any

from dollar._vertices import Dollars, Pairs, Vertex

if TYPE_CHECKING:
    from dollar._table import Members, Table


def table_of(table: Members) -> Table[Any]:
    """The table itself, or that of the members of a table file."""
    from dollar._table import Table

    if not isinstance(table, Mapping):
        raise TypeError("a table is a Table or a dict, and not %r" % (table,))
    return table if isinstance(table, Table) else Table(table)


def joined(table: Members, u: Vertex, v: Vertex) -> dict[str, Any]:
    """The table with one more edge between two vertices, as `join` makes it, as a dict; the amounts are unchanged.

    >>> from dollar import Table
    >>> joined(Table([[0, 1], [1, 0]]), 0, 1)["edges"]
    [['0', '1', 1], ['0', '1', 1]]
    """
    from dollar._table import Table

    place = table_of(table).place
    members: Mapping[str, Any] = table.to_dict() if isinstance(table, Table) else table
    return dict(members, edges=[*members["edges"], [*(members["vertices"][place(each)] for each in (u, v)), 1]])


def edges(table: Members) -> dict[Hashable, dict[Hashable, int]]:
    """For each vertex its neighbours, with the number of edges to each.

    >>> from dollar import Table
    >>> edges(Table([[0, 2], [2, 0]]))
    {0: {1: 2}, 1: {0: 2}}
    """
    its = table_of(table)
    return {v: {u: count for u, count in zip(its.vertices, row) if count} for v, row in zip(its.vertices, its._near())}


def fired(table: Members, script: Dollars) -> Pairs:
    """The amounts after each vertex has lent as often as the script says, as `Table.fire` has them.

    >>> from dollar import Table
    >>> fired(Table([[0, 1], [1, 0]], [2, -1]), {0: 1})
    {0: 1, 1: 0}
    """
    return table_of(table).fire(script).divisor


def burnt(table: Members, amounts: Dollars) -> list[Any]:
    """The vertices in the order in which they burn from q: each the first of those that more edges join to burnt ones than they have
    dollars.

    >>> from dollar import Table
    >>> ring = Table([[0, 1, 0, 1], [1, 0, 1, 0], [0, 1, 0, 1], [1, 0, 1, 0]])
    >>> burnt(ring, {0: -2, 1: 0, 2: 3, 3: 0})
    [0, 1, 3]
    """
    its = table_of(table)
    near, held, order = its._near(), its._like(amounts), [its._q]
    while True:
        burning = [v for v, row in enumerate(near) if v not in order and sum(row[w] for w in order) > held[v]]
        if not burning:
            return [its.vertices[v] for v in order]
        order.append(burning[0])


def misplaced(table: Members, amounts: Dollars, order: Sequence[Vertex]) -> Vertex | None:
    """The first vertex of an order that may not burn after those before it, or None: q comes first, and more edges join each other
    vertex to those before it than it has dollars.

    >>> from dollar import Table
    >>> ring = Table([[0, 1, 0, 1], [1, 0, 1, 0], [0, 1, 0, 1], [1, 0, 1, 0]])
    >>> misplaced(ring, {0: -2, 1: 0, 2: 1, 3: 0}, [0, 1, 3, 2])
    >>> misplaced(ring, {0: -2, 1: 0, 2: 1, 3: 0}, [0, 1, 2, 3])
    2
    """
    its = table_of(table)
    near, held, places = its._near(), its._like(amounts), [its.place(v) for v in order]
    for count, v in enumerate(places):
        if v != its._q if count == 0 else sum(near[v][w] for w in places[:count]) <= held[v]:
            return order[count]
    return None


def flaw(table: Members, verdict: Iterable[Any]) -> str | None:
    """The flaw of a verdict, or None if it is right. The program need not be trusted.

    >>> from dollar import Table, judge
    >>> table = Table([[0, 1], [1, 0]], [2, -1])
    >>> flaw(table, judge(table))
    >>> flaw(table, ("winnable", {0: 0, 1: 0}, {0: 1, 1: 0}))
    'the script leads elsewhere'
    """
    word, script, reduced = verdict
    its = table_of(table)
    try:
        is_whole = len(script) == len(reduced) == len(its.vertices)
        lent, held = its._vertices.amounts(script, "lending"), its._vertices.amounts(reduced)
    except (TypeError, ValueError):
        is_whole = False
    if not is_whole or lent[its._q] != 0:
        return "the vertices are others, or the script is not 0 at q"
    if its._fired(lent) != held:
        return "the script leads elsewhere"
    poor = [v for v, amount in zip(its.vertices, held) if v != its.q and amount < 0]
    if poor:
        return "in debt off q: " + ", ".join(map(str, poor))
    order = getattr(verdict, "burning", None) or burnt(its, held)
    left = [v for v in its.vertices if v not in order]
    if left:
        return "not all burns: %s is left" % ", ".join(map(str, left))
    early = misplaced(its, held, order)
    if early is not None:
        return "%s burns too early" % (early,)
    if word != ("winnable" if held[its._q] >= 0 else "unwinnable"):
        return "the word does not fit the debt of q"
    return None
