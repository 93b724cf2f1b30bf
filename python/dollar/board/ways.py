"""Shortest ways to a table without debts, and hints that are steps of them."""
from __future__ import annotations

import functools
import heapq
import json
import statistics
from typing import Any, Iterator, Mapping

from dollar._answers import verdict_of
from dollar._program import PATIENCE, printed

# How many tables, and how many sets of vertices, are looked at for a shortest way.
SEARCHED, LOOKED = 20000, 200000


class Graph:
    """The graph of a table, with sets of vertices as numbers in binary."""

    def __init__(self, table: dict[str, Any]) -> None:
        self.names = list(table["vertices"])
        self.beside: list[dict[int, int]] = [{} for _ in self.names]
        for u, v, count in table["edges"]:
            for one, other in (u, v), (v, u):
                found = self.beside[self.names.index(one)]
                found[self.names.index(other)] = found.get(self.names.index(other), 0) + count
        self.looks = 0

    def out(self, vertex: int, inside: int) -> int:
        """How many edges lead from a vertex out of a set."""
        return sum(count for other, count in self.beside[vertex].items() if not inside >> other & 1)

    def stays(self, amounts: tuple[int, ...], candidates: int) -> int:
        """The largest set of these vertices that can lend at once without a debt: all others burn."""
        left = candidates
        while True:
            self.looks += 1
            burns = [v for v in range(len(amounts)) if left >> v & 1 and self.out(v, left) > amounts[v]]
            if not burns:
                return left
            for v in burns:
                left &= ~(1 << v)

    def lenders(self, amounts: tuple[int, ...], inside: int, outside: int) -> Iterator[int]:
        """Sets with some vertices and without others that can lend at once without a debt, among them all that hold no smaller one."""
        largest = self.stays(amounts, ~outside)
        if inside & ~largest or self.looks > LOOKED:
            return
        if all(self.out(v, inside) <= amounts[v] for v in range(len(amounts)) if inside >> v & 1):
            yield inside
            return
        near = next(other for v in range(len(amounts)) if inside >> v & 1 for other in self.beside[v]
                    if (largest & ~inside) >> other & 1)
        yield from self.lenders(amounts, inside | 1 << near, outside)
        yield from self.lenders(amounts, inside, outside | 1 << near)

    def after(self, amounts: tuple[int, ...], counts: list[int]) -> tuple[int, ...]:
        """The amounts after each vertex has lent so often."""
        return tuple(amount + sum(count * (counts[other] - counts[v]) for other, count in self.beside[v].items())
                     for v, amount in enumerate(amounts))


def fewest(table: dict[str, Any], script: Mapping[str, int]) -> dict[str, int] | None:
    """The script of fewest moves that leaves nobody in debt, from one that does; None if there are too many to look at. From any amounts
    without debts all others that moves lead to are reached by sets that lend at once, one after another, with no debt in between; a set is
    split where a part of it can lend alone. The order of moves does not matter, so nothing else has to be tried."""
    graph, script_of = Graph(table), [script[name] for name in table["vertices"]]
    start = graph.after(tuple(table["amounts"]), script_of)
    found, left = {start: centred(script_of)}, [start]
    while left:
        amounts = left.pop()
        for root in range(len(amounts)):
            for inside in graph.lenders(amounts, 1 << root, (1 << root) - 1):
                lend = [inside >> v & 1 for v in range(len(amounts))]
                there = graph.after(amounts, lend)
                if there not in found:
                    found[there] = centred([*map(int.__add__, found[amounts], lend)])
                    left.append(there)
        if len(found) > SEARCHED or graph.looks > LOOKED:
            return None
    return dict(zip(graph.names, min(found.values(), key=lambda counts: sum(abs(count) for count in counts))))


def centred(counts: list[int]) -> list[int]:
    """A script with the same effect and the fewest moves: as all lend together nothing changes."""
    middle = statistics.median_low(counts)
    return [count - middle for count in counts]


def moves_of(script: Mapping[str, int]) -> list[tuple[str, int]]:
    """The moves of a script, each a vertex and 1 if it lends or -1 if it borrows."""
    return [(name, 1 if count > 0 else -1) for name, count in script.items() for _ in range(abs(count))]


def way(text: str) -> list[tuple[str, int]] | None:
    """The moves of a shortest way to a table without debts, each a vertex and 1 if it lends or -1 if it borrows; None if none is found."""
    table = json.loads(text)
    names, start = table["vertices"], tuple(table["amounts"])
    rows = {name: [0] * len(names) for name in names}
    for u, v, count in table["edges"]:
        for one, other in (u, v), (v, u):
            rows[one][names.index(one)] -= count
            rows[one][names.index(other)] += count
    moves = [(name, sign, [sign * count for count in rows[name]]) for name in names for sign in (1, -1)]
    most = max(1, *(-min(row) for row in rows.values()))

    def due(now: tuple[int, ...], length: int) -> tuple[int, int, tuple[int, ...]]:
        """A table with the fewest moves through it that there can be: of the debts a move clears at most as many as a vertex has edges."""
        return length - sum(amount for amount in now if amount < 0) // most, -length, now

    # How many moves led to a table, and the last of them.
    came: dict[tuple[int, ...], tuple[int, Any]] = {start: (0, None)}
    heap = [due(start, 0)]
    while heap and len(came) < SEARCHED:
        _, length, now = heapq.heappop(heap)
        if min(now) >= 0:
            back: list[tuple[str, int]] = []
            while came[now][1]:
                now, name, sign = came[now][1]
                back.append((name, sign))
            return back
        for name, sign, row in moves:
            there = tuple(map(int.__add__, now, row))
            if came.get(there, (SEARCHED, None))[0] > 1 - length:
                came[there] = 1 - length, (now, name, sign)
                heapq.heappush(heap, due(there, 1 - length))
    return None


@functools.lru_cache(maxsize=4096)
def hint(text: str) -> dict[str, Any]:
    """One move of a shortest way to a table without debts, or else of the program's script: its vertex, 1 if that lends or -1 if it borrows,
    and how many moves are left, or 0 if that is not known. The count is 0 if nobody has to move, and None if no move helps."""
    table, verdict = json.loads(text), verdict_of(printed("judge", text.encode(), patience=PATIENCE).rstrip("\n"))
    if not verdict or min(table["amounts"]) >= 0:
        return {"name": "", "count": 0 if verdict else None, "left": 0}
    script = fewest(table, {str(name): count for name, count in verdict.script.items()})
    found = moves_of(script) if script else way(text)
    if found:
        # In any order they lead there. Whoever has most lends first, so that there is no new debt if there need be none.
        amounts = dict(zip(table["vertices"], table["amounts"]))
        name, sign = max(found, key=lambda move: (move[1], move[1] * amounts[move[0]]))
        return {"name": name, "count": sign, "left": len(found)}
    counts = dict(zip(verdict.script, centred(list(verdict.script.values()))))
    first, count = max(counts.items(), key=lambda pair: abs(pair[1]))
    return {"name": first, "count": 1 if count > 0 else -1, "left": 0}


def least(text: str) -> int:
    """In how few moves a table can be won, or 0 if that is not known."""
    return int(hint(text)["left"])
