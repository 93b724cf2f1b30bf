"""The library for C, where it is: what it tells of a table, and of many divisors on one graph, in this process. What it refuses of a table,
and ranks that may take long, which nothing could interrupt, are for the program."""

from __future__ import annotations

import contextlib
import ctypes
import functools
import os
import sys
import threading
import time
from array import array
from collections.abc import Callable, Iterable, Iterator, Sequence
from itertools import chain, islice
from pathlib import Path
from typing import Any

from dollar._program import CLONE, HOME, IS_IN_CLONE, Place, ProgramNotFound, built
from dollar._readers import TOO_MANY, Batch, is_array
from dollar._table import Table
from dollar._vertices import Dollars

FILE, ABI = "libdollar.so.1", 1
# What each function is lent: a size, a pointer, or a degree.
KINDS = {"n": ctypes.c_size_t, "p": ctypes.c_void_p, "k": ctypes.c_uint32}
FUNCTIONS = {"dollar_graph": "npn", "dollar_judge": "npnn" + 5 * "pn", "dollar_rank": "npn" + 4 * "pn", "dollar_rank_test": "npnk" + 3 * "pn"}
# Up to this genus a rank and a rank test are quick; and the stack that a thread needs.
MOST_GENUS, STACK = 64, 1 << 20
# How many rows one call takes at most, and how many seconds: nothing can interrupt it.
MOST_ROWS, QUICK = 1 << 14, 0.02
# Rows are asked about once one has taken so long to come, or all of them so long.
SLOW, PATIENCE = 0.001, 0.05
# What is told of a row beside 1 and 0: a rank test fails, and its first loss is not named; an amount is none of 64 bits.
UNNAMED, SHAPE = 2, -128
# A graph as a function takes it.
OnGraph = tuple[int, bytes, int]


def places(named: str | None, program: str | None) -> Iterator[Path]:
    """Where the library may be. Who names a program wants that one to answer."""
    if named is not None:
        yield from [Path(named)] if named else []
    elif program:
        return
    elif IS_IN_CLONE and (CLONE / "crates.txt").is_file():
        with contextlib.suppress(ProgramNotFound):
            # It is made with the program, which is older than no source.
            built()
            yield CLONE / "out" / "build" / "dg_abi" / FILE
    else:
        yield HOME / "dollar" / FILE
        if HOME.parts[-3:] == ("share", "dollar", "python"):
            yield HOME.parents[2] / "lib" / FILE
        yield Path(FILE)


@functools.lru_cache(maxsize=None)
def loaded(named: str | None, program: str | None) -> Any:
    """The library, or None."""
    for place in places(named, program):
        try:
            found = ctypes.CDLL(str(place))
            if found.dollar_abi() == ABI:
                for name, words in FUNCTIONS.items():
                    function = getattr(found, name)
                    function.argtypes, function.restype = [KINDS[word] for word in words], ctypes.c_int64
                return found
        except (OSError, AttributeError):
            pass
    return None


def on_graph(library: Any, table: Table[Any]) -> OnGraph | None:
    """The graph of a table, or None if the library refuses it."""
    places = table._vertices.places
    try:
        edges = bytes(chain.from_iterable((places[u], places[v], count) for u, v, count in table.edges))
    except ValueError:
        return None
    found = len(table.vertices), edges, len(table.edges)
    return None if library.dollar_graph(*found) else found


def refused(what: int) -> str:
    """Why a row is refused of which this is told, as the program says it; nothing if it is not."""
    return "" if what >= 0 else "shape of amounts" if what == SHAPE else "amount of vertex %d" % (-1 - what)


class Asking:
    """A question about divisors on one graph: `judge`, `rank`, the test of a degree, or `rr`, the ranks."""

    def __init__(self, library: Any, graph: OnGraph, table: Table[Any], command: str, degree: int) -> None:
        size = graph[0]
        name, words, wide = {"judge": ("dollar_judge", (table._q,), (size, size, size)), "rr": ("dollar_rank", (), (1, 1)),
                             "rank": ("dollar_rank_test", (degree,), (size,))}[command]
        self.call, self.words, self.command, self.size, self.genus = getattr(library, name), (*graph, *words), command, size, table.genus
        # How many numbers there are of a row: what is told of it, in 8 bits; others in 64; and a burning order in 8.
        self.wide = tuple(zip("bqqb", (1, *wide)))
        self.at_once = 1

    def made(self, rows: int) -> list[array[int]]:
        """The arrays for the answers about so many rows: what is told of each, and its numbers."""
        return [array(kind, bytes(rows * each * (8 if kind == "q" else 1))) for kind, each in self.wide]

    def arrays(self, amounts: tuple[int, int]) -> list[array[int]]:
        """These arrays, filled for the rows of an array, which is given by its address and its length."""
        made, began = self.made(amounts[1] // self.size), time.monotonic()
        if self.call(*self.words, *amounts, *chain.from_iterable(each.buffer_info() for each in made)):
            raise AssertionError("the library for C refuses what it has taken before")
        self.at_once = min(2 * self.at_once, MOST_ROWS) if time.monotonic() - began < QUICK else max(self.at_once // 2, 1)
        return made

    def batch(self, kept: Any, amounts: Any, degrees: Iterable[int]) -> Batch:
        """What is told of the rows of an array, with the numbers that the program prints."""
        held = amounts.buffer_info() if isinstance(amounts, array) else (amounts.ctypes.data, amounts.size)
        told, *found = self.arrays(held)
        faults = {} if set(told) <= {0, 1} else {at: refused(what) or TOO_MANY for at, what in enumerate(told) if what not in (0, 1)}
        if self.command == "rr":
            return Batch(kept, [list(degrees), [self.genus] * len(told), *found], faults)
        for at in faults:
            told[at] = 0
        return Batch(kept, [told, *(each[v::self.size] for each in found[:2] for v in range(self.size))], faults)

    def of_rows(self, rows: Sequence[tuple[int, ...]]) -> Batch:
        """What is told of rows of any whole numbers."""
        try:
            return self.batch(rows, array("q", [*chain.from_iterable(rows)]), map(sum, rows))
        except OverflowError:
            wrong = [at for at, row in enumerate(rows) if min(row) < -1 << 63 or max(row) >= 1 << 63]
        _, columns, faults = self.of_rows([(0,) * self.size if at in wrong else row for at, row in enumerate(rows)])
        return Batch(rows, columns, {**faults, **dict.fromkeys(wrong, refused(SHAPE))})

    def taken(self, rows: Iterator[Any], most: int) -> Iterator[list[Any]]:
        """The rows as they come, some at a time. What goes wrong is raised after what came before it."""
        broken: Exception | None = None
        taken: list[Any] = [None]
        while taken and not broken:
            taken, began = [], time.monotonic()
            now = began
            try:
                for row in islice(rows, min(self.at_once, most)):
                    taken.append(row)
                    before, now = now, time.monotonic()
                    if now - before > SLOW or now - began > PATIENCE:
                        break
            except Exception as error:
                broken = error
            if taken:
                yield taken
        if broken:
            raise broken

    def batches(self, divisors: Any, rows: Iterator[tuple[int, ...]], most: int = MOST_ROWS) -> Iterator[Batch]:
        """What is told of all divisors, some at a time. An array of numpy is not copied if it has numbers of 64 bits, row by row."""
        numpy: Any = sys.modules.get("numpy")
        if not (is_array(divisors) and divisors.shape[1] == self.size and numpy.can_cast(divisors.dtype, numpy.int64)):
            yield from map(self.of_rows, self.taken(rows, most))
            return
        values, at = numpy.ascontiguousarray(divisors, dtype=numpy.int64), 0
        while at < len(values):
            taken = values[at:at + min(self.at_once, most)]
            yield self.batch(taken, taken, taken.sum(axis=1).tolist())
            at += len(taken)


def asking(command: str, table: Table[Any], program: Place | None, degree: int = 0) -> Asking | None:
    """A question of the library, or None if the program is to be asked."""
    if program is not None or 0 < threading.stack_size() < STACK:
        return None
    library = loaded(os.environ.get("DOLLAR_LIBRARY"), os.environ.get("DOLLAR"))
    if library is None or command != "judge" and table.genus > MOST_GENUS:
        return None
    kept: dict[Any, Any] = table._kept
    if "library" not in kept:
        kept["library"] = on_graph(library, table)
    return kept["library"] and Asking(library, kept["library"], table, command, degree)


def told(command: str, table: Any, program: Place | None, degree: int = 0) -> list[array[int]] | None:
    """What the library tells of a Table, and its numbers; None if the program is to be asked."""
    asked = asking(command, table, program, degree) if isinstance(table, Table) else None
    try:
        amounts = array("q", table.amounts) if asked else None
    except OverflowError:
        return None
    found = asked and amounts and asked.arrays(amounts.buffer_info())
    return found if found and found[0][0] >= 0 else None


class Asker:
    """What answers about one divisor after another on the graph of a table; `help(dollar.Table.asker)` has an example. It serves one thread
    at a time."""

    def __init__(self, table: Table[Any]) -> None:
        self.table, self._held = table, array("q", bytes(8 * len(table.vertices)))
        self._calls = {command: self._call(command) for command in ("judge", "rr")}

    def _call(self, command: str) -> tuple[Callable[[], int], list[array[int]]] | None:
        """A call about the divisor that is held, and the arrays that it fills."""
        asked = asking(command, self.table, None)
        if asked is None:
            return None
        made = asked.made(1)
        return functools.partial(asked.call, *asked.words, *chain.from_iterable(each.buffer_info() for each in (self._held, *made))), made

    def _told(self, command: str, amounts: Sequence[int]) -> list[array[int]] | None:
        """What the library tells of these amounts, and its numbers; None if the program is to be asked."""
        call, made = self._calls[command] or (None, [])
        try:
            self._held[:] = array("q", amounts)
        except OverflowError:
            return None
        return made if call and not call() and made[0][0] >= 0 else None

    def _amounts(self, divisor: Any) -> Sequence[int]:
        is_plain = type(divisor) in (list, tuple) and len(divisor) == len(self._held) and set(map(type, divisor)) == {int}
        amounts: Sequence[int] = divisor if is_plain else self.table._like(divisor)
        return amounts

    def rank(self, divisor: Table[Any] | Dollars) -> int:
        """The rank of a divisor."""
        amounts = self._amounts(divisor)
        found = self._told("rr", amounts)
        return found[1][0] if found else self.table._with(tuple(amounts)).rank()

    def winnable(self, divisor: Table[Any] | Dollars) -> bool:
        """Whether a divisor can be won."""
        from dollar._commands import judge

        amounts = self._amounts(divisor)
        found = self._told("judge", amounts)
        return found[0][0] == 1 if found else judge(self.table._with(tuple(amounts))).winnable
