"""Answers as columns, for sweeps of millions: arrays of numpy if it is here, and else of the module `array`."""

from __future__ import annotations

import importlib
from array import array
from collections.abc import Hashable, Iterable, Mapping
from typing import TYPE_CHECKING, Any

from dollar._readers import Question
from dollar._vertices import Vertices

# To whom numpy is not known, a column is of any type: then it is an array of the module `array`.
if TYPE_CHECKING:
    from numpy import bool_, int64
    from numpy.typing import NDArray
    from typing_extensions import TypeAlias

    Ints: TypeAlias = NDArray[int64]
    Truths: TypeAlias = NDArray[bool_]
else:
    Ints = Truths = Any


def numpy_or_none() -> Any:
    """The module numpy, if it is here."""
    try:
        return importlib.import_module("numpy")
    except ImportError:
        return None


def gathered(batches: Iterable[list[Any]], size: int) -> list[array[int]]:
    """The numbers of all batches, each of so many columns, in one array for each column."""
    columns = [array("q") for _ in range(size)]
    for batch in batches:
        for column, found in zip(columns, batch):
            column.extend(found if isinstance(found, array) and found.typecode == "q" else array("q", found))
    return columns


class Columns(dict[str, Any]):
    """What columns of all kinds do: they are a dict of columns by names, as pandas takes it, and each is an attribute too. `count` is how
    many answers there are."""

    def __init__(self, question: Question, vertices: Vertices, columns: list[array[int]]) -> None:
        numpy, size = numpy_or_none(), len(vertices.names)
        self.count = len(columns[0])
        found: list[Any] = columns if numpy is None else [numpy.asarray(each).view(numpy.int64) for each in columns]
        if question.truth:
            found[0] = array("b", columns[0]) if numpy is None else found[0].astype(bool)
        super().__init__(zip(question.names(vertices), found))
        plain = bool(question.truth) + len(question.numbers)
        vars(self).update(zip([question.truth] if question.truth else question.numbers, found))
        vars(self).update((vector, vertices.keyed(found[plain + at * size:][:size])) for at, vector in enumerate(question.vectors))

    def __repr__(self) -> str:
        return "<%s: %d answers, with %s>" % (type(self).__name__, self.count, ", ".join(self))


class VerdictColumns(Columns):
    """The verdicts on many divisors of one graph: `winnable` is a column, and `script` and `reduced` have one for each vertex. By their names
    they are `winnable`, and `script_a`, `reduced_a` and so on.

    >>> from dollar import Table, judge_all
    >>> found = judge_all(Table([[0, 2], [2, 0]]), divisors=[[3, -1], [0, -1]]).columns()
    >>> found
    <VerdictColumns: 2 answers, with winnable, script_0, script_1, reduced_0, reduced_1>
    >>> list(map(bool, found.winnable)), list(map(int, found.script[1])), list(map(int, found["reduced_0"]))
    ([True, False], [-1, -1], [1, -2])
    """

    winnable: Truths
    script: Mapping[Hashable, Ints]
    reduced: Mapping[Hashable, Ints]


class RankTestColumns(Columns):
    """The rank tests of many divisors of one graph: `holds` is a column, and `loss` has one for each vertex, with 0 if the test holds. By
    their names they are `holds`, and `loss_a` and so on. `help(dollar.VerdictColumns)` has an example of columns."""

    holds: Truths
    loss: Mapping[Hashable, Ints]


class RiemannRochColumns(Columns):
    """The four numbers of many tables, each a column: `degree`, `genus`, `rank` and `dual`. `help(dollar.VerdictColumns)` has an example
    of columns."""

    degree: Ints
    genus: Ints
    rank: Ints
    dual: Ints
