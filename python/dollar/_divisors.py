"""Questions about divisors of one graph: effective ones, reduced ones, equivalent ones, and the check of a rank test."""

from __future__ import annotations

import itertools
import math
from collections.abc import Iterator, Sequence
from fractions import Fraction
from typing import Any, Generic

from dollar._answers import RankTest
from dollar._program import Place
from dollar._sweeps import judge_all, rank_test_all
from dollar._table import MOST_AMOUNT, Table, V


def losses(size: int, degree: int) -> Iterator[tuple[int, ...]]:
    """All ways to spread so many dollars over so many vertices, in the order of lists.

    >>> list(losses(3, 2))
    [(0, 0, 2), (0, 1, 1), (0, 2, 0), (1, 0, 1), (1, 1, 0), (2, 0, 0)]
    """
    if size == 1:
        yield (degree,)
        return
    for first in range(degree + 1):
        for rest in losses(size - 1, degree - first):
            yield (first, *rest)


class Divisors(Generic[V]):
    """Divisors of one degree on one graph, as tables one by one. `len` and `count` are how many there are; `count` also where that is more
    than Python's `len` can tell."""

    def __init__(self, table: Table[V], degree: int) -> None:
        self.table, self.degree = table, degree

    def amounts(self) -> Iterator[tuple[int, ...]]:
        """The amounts of each."""
        raise NotImplementedError

    @property
    def count(self) -> int:
        """How many there are."""
        raise NotImplementedError

    def __len__(self) -> int:
        return self.count

    def __bool__(self) -> bool:
        return next(self.amounts(), None) is not None

    def __iter__(self) -> Iterator[Table[V]]:
        return map(self.table._with, self.amounts())

    def __repr__(self) -> str:
        return "<%s: degree %d on %d vertices>" % (type(self).__name__, self.degree, len(self.table))


class EffectiveDivisors(Divisors[V]):
    """The effective divisors of a degree, in the order of lists, as tables on one graph."""

    @property
    def count(self) -> int:
        return math.comb(self.degree + len(self.table) - 1, self.degree) if self.degree >= 0 else 0

    def amounts(self) -> Iterator[tuple[int, ...]]:
        return losses(len(self.table), self.degree) if self.degree >= 0 else iter(())


class Listed(Divisors[V]):
    """Divisors whose number is known once all are found: then they are kept."""

    _found: list[tuple[int, ...]] | None = None

    def _find(self) -> Iterator[tuple[int, ...]]:
        raise NotImplementedError

    @property
    def count(self) -> int:
        if self._found is None:
            self._found = list(self._find())
        return len(self._found)

    def amounts(self) -> Iterator[tuple[int, ...]]:
        return self._find() if self._found is None else iter(self._found)


def solved(near: Sequence[Sequence[int]], q: int, amounts: Sequence[Any]) -> tuple[int, list[Fraction]]:
    """The number of spanning trees, which is the determinant of the Laplacian without q, and the script, 0 at q, that leaves no amount off
    q, in fractions. If the graph is not connected, that is 0 and nothing.

    >>> solved([[0, 1, 1], [1, 0, 1], [1, 1, 0]], 0, [0, 1, 0])
    (3, [Fraction(0, 1), Fraction(2, 3), Fraction(1, 3)])
    """
    others = [v for v in range(len(near)) if v != q]
    rows = [[Fraction(sum(near[v]) if u == v else -near[v][u]) for u in others] + [Fraction(amounts[v])] for v in others]
    trees = Fraction(1)
    for at, row in enumerate(rows):
        trees *= row[at]
        if not trees:
            return 0, []
        for other in rows:
            if other is not row and other[at]:
                times = other[at] / row[at]
                other[:] = [one - times * two for one, two in zip(other, row)]
    script = [row[-1] / row[at] for at, row in enumerate(rows)]
    return int(trees), script[:q] + [Fraction(0)] + script[q:]


def level(table: Table[Any]) -> tuple[Table[Any], Sequence[int]]:
    """The table itself if its amounts are within the limits, or else an equivalent one that has at each vertex about as many dollars, and
    the script that leads there."""
    amounts, script = table.amounts, [0] * len(table.amounts)
    if any(abs(amount) > MOST_AMOUNT for amount in amounts):
        mean = Fraction(table.degree, len(amounts))
        exact = solved(table._near(), table._q, [amount - mean for amount in amounts])[1]
        script = [round(times) for times in exact] or script
    return table._with(table._fired(script)) if any(script) else table, script


def superstable(near: Sequence[Sequence[int]], q: int, most: float) -> Iterator[list[int]]:
    """The reduced divisors with 0 dollars at q and at most so many off q, in the order of lists. The list is the same each time.

    If some vertices hold dollars and all burns, a vertex off these may have at most so many that it burns from those that burn before it:
    less than edges join it to all that burns while it does not. So each beginning of a list goes on, and each vertex needs one fire.
    The fire is in one number, which has a lane of bits for each vertex, whose highest is set if it burns."""
    size = len(near)
    wide = max(sum(row) for row in near).bit_length() + 2
    high, others = [1 << wide * v + wide - 1 for v in range(size)], [v for v in range(size) if v != q]
    rows = {high[v]: sum(count << wide * u for u, count in enumerate(near[v])) for v in range(size)}
    held, lane, everything = [0] * size, (1 << wide - 1) - 1, sum(high[v] for v in others)

    def walk(at: int, fire: int, left: float) -> Iterator[list[int]]:
        v, is_last = others[at], at == len(others) - 1
        hot, cold = fire, everything ^ high[v]
        while hot & cold:
            burns = hot & cold & -(hot & cold)
            hot, cold = hot + rows[burns], cold ^ burns
        edges = (hot >> wide * v) + 1 & lane
        for amount in range(int(min(edges, left + 1))):
            held[v] = amount
            if is_last:
                yield held
            else:
                yield from walk(at + 1, fire - (amount << wide * v), left - amount)
        held[v] = 0

    if not others and most >= 0:
        yield held
    elif most >= 0:
        # Each lane is one short of its highest bit, and a vertex without dollars burns by its first edge to q.
        yield from walk(0, rows[high[q]] + sum(lane << wide * v for v in range(size)), most)


class ReducedDivisors(Listed[V]):
    """The divisors of a degree that are reduced at q, one of each class, as tables on one graph, in the order of lists off q. How many there
    are is known before: as many as spanning trees. Those that can be won, which are fewer, are found without the others."""

    def __init__(self, table: Table[V], degree: int, winnable: bool = False) -> None:
        super().__init__(table, degree)
        self.winnable = winnable

    @property
    def count(self) -> int:
        return super().count if self.winnable else solved(self.table._near(), self.table._q, [0] * len(self.table))[0]

    def _find(self) -> Iterator[tuple[int, ...]]:
        q = self.table._q
        for held in superstable(self.table._near(), q, self.degree if self.winnable else math.inf):
            amounts = held[:]
            amounts[q] = self.degree - sum(held)
            yield tuple(amounts)


class LinearSystem(Listed[V]):
    """The complete linear system of a divisor: the effective divisors that are equivalent to it, as tables on its graph. `candidates` is
    the number of effective divisors of its degree: so many verdicts are taken, once."""

    def __init__(self, table: Table[V], program: Place | None = None) -> None:
        super().__init__(table, table.degree)
        self.effective, self.program = EffectiveDivisors(table, table.degree), program
        self.candidates = self.effective.count

    def _find(self) -> Iterator[tuple[int, ...]]:
        differences = (level(each - self.table)[0] for each in self.effective)
        verdicts = judge_all(self.table, program=self.program, divisors=differences, errors="raise")
        for amounts, verdict in zip(self.effective.amounts(), verdicts):
            if not any(verdict.reduced.values()):
                yield amounts


def has_rank_one(table: Table[Any], degree: int, program: Place | None) -> bool:
    """Whether some divisor of a degree has rank 1 or more. Of each class only the reduced divisor is tried, and only if it has a dollar at
    q: otherwise none can be lost there."""
    q = table._q
    rest = ReducedDivisors(table, degree - 1, winnable=True).amounts()
    tried = ((*amounts[:q], amounts[q] + 1, *amounts[q + 1:]) for amounts in rest)
    return any(rank_test_all(table, 1, divisors=tried, errors="raise", program=program))


def gonality(table: Table[Any], program: Place | None = None) -> int:
    """The least degree of a divisor of rank 1 or more."""
    return next(degree for degree in itertools.count(1) if has_rank_one(table, degree, program))


def flaw_of_rank_test(table: Table[Any], test: RankTest, program: Place | None) -> str | None:
    """The flaw of a rank test, or None if it is right."""
    size = len(table.vertices)
    if test.loss is None and not test.holds:
        return "no loss is given, so nothing can be checked"
    told = None if test.loss is None else table._vertices.amounts(test.loss)
    if told is not None and (min(told) < 0 or sum(told) != test.degree):
        return "the loss is not one of %d dollars" % test.degree
    verdicts = judge_all(table, program=program, errors="raise", divisors=(
        [amount - lost for amount, lost in zip(table.amounts, loss)] for loss in losses(size, test.degree)))
    for loss, verdict in zip(losses(size, test.degree), verdicts):
        verdict.check()
        if not verdict.winnable:
            return None if loss == told else "the rest after a loss of %r can't be won" % (dict(table._vertices.keyed(loss)),)
        if loss == told:
            return "the rest after the loss can be won"
    return None
