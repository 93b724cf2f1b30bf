"""What is asked in a sweep, what reads the numbers of its answers, and what takes its divisors."""

from __future__ import annotations

import functools
from array import array
from collections.abc import Callable, Iterable, Iterator, Sequence
from typing import Any, NamedTuple

from dollar._answers import RankTest, Refused, RefusedRankTest, RefusedRiemannRoch, RefusedVerdict, RiemannRoch, Verdict, no_answer
from dollar._table import Table
from dollar._vertices import Dollars, Vertices

# What stands where there is no number, and what comes before the reason of a refused line; why no loss is named; and how many rows of an
# array of numpy are taken at once.
MARK, REFUSED, TOO_MANY, BATCH = b"NA", b" # refused ", "too many trials", 1_000
# What makes an answer of its numbers, and of what was kept of the table.
Maker = Callable[[Sequence[int], Any], Any]


def made(kind: Any, kept: Any, **parts: Any) -> Any:
    """An answer with these parts, on what was kept of a table."""
    answer = object.__new__(kind)
    parts["_table"] = kept
    object.__setattr__(answer, "__dict__", parts)
    return answer


@functools.lru_cache(maxsize=1024)
def verdicts(vertices: Vertices, _: int) -> Maker:
    """What makes verdicts on tables with these vertices."""
    keyed, last = vertices.keyed, len(vertices.names) + 1
    return lambda numbers, kept: made(Verdict, kept, winnable=numbers[0] == 1, script=keyed(numbers[1:last]), reduced=keyed(numbers[last:]))


@functools.lru_cache(maxsize=1024)
def rank_tests(vertices: Vertices, degree: int) -> Maker:
    """What makes rank tests. If there is one number alone, the test does not hold, and no loss is named."""
    keyed = vertices.keyed
    return lambda numbers, kept: made(
        RankTest, kept, holds=numbers[0] == 1, degree=degree, loss=keyed(numbers[1:]) if numbers[0] == 0 and numbers[1:] else None)


def riemann_rochs(*_: Any) -> Maker:
    """What makes the four numbers of tables."""
    return lambda numbers, _: RiemannRoch(*numbers)


class Question(NamedTuple):
    """What a command asks about each table. An answer has first a number that is 1 or 0, if `truth` is its name; then numbers with the names
    `numbers`; and for each name of `vectors` one for each vertex."""

    command: str
    truth: str
    numbers: tuple[str, ...]
    vectors: tuple[str, ...]
    refused: type[Refused]
    maker: Callable[[Any, int], Maker]

    def size(self, vertices: Vertices | None) -> int:
        """How many numbers an answer has."""
        return bool(self.truth) + len(self.numbers) + (len(self.vectors) * len(vertices.names) if vertices else 0)

    def names(self, vertices: Vertices) -> list[str]:
        """The names of these numbers."""
        vectors = ["%s_%s" % (vector, name) for vector in self.vectors for name in vertices.names]
        return [*([self.truth] if self.truth else []), *self.numbers, *vectors]


JUDGE = Question("judge", "winnable", (), ("script", "reduced"), RefusedVerdict, verdicts)
RANK = Question("rank", "holds", (), ("loss",), RefusedRankTest, rank_tests)
RR = Question("rr", "", ("degree", "genus", "rank", "dual"), (), RefusedRiemannRoch, riemann_rochs)


class Batch(NamedTuple):
    """Some answers: what was kept of their tables; their numbers, in columns; and why some have none, by their places."""

    kept: Any
    columns: list[Any]
    faults: dict[int, str]

    def before(self, place: int) -> Batch:
        """Those before a place."""
        return Batch(self.kept[:place], [column[:place] for column in self.columns], {at: why for at, why in self.faults.items() if at < place})


def line_form(size: int) -> bytes:
    """What a line of so many numbers is made by.

    >>> line_form(2) % (1, -20)
    b'1 -20\\n'
    """
    return b" ".join([b"%d"] * size) + b"\n"


def numbers_of(piece: bytes, size: int, is_told: bool) -> list[array[int]] | None:
    """The numbers of lines in columns; or None if they are no lines of so many numbers, with one space between two, of which the first is
    0 or 1 if `is_told`.

    >>> numbers_of(b"1 0 -1\\n0 20 0\\n", 3, True)
    [array('q', [1, 0]), array('q', [0, 20]), array('q', [-1, 0])]
    >>> numbers_of(b"1 0 -01\\n", 3, True), numbers_of(b"2 0 0\\n", 3, True), numbers_of(b"1 0\\n", 3, True)
    (None, None, None)
    """
    try:
        numbers = array("q", map(int, piece.split()))
    except (ValueError, OverflowError):
        return None
    # Only numbers as the program writes them are the same again.
    if len(numbers) % size or line_form(size) * (len(numbers) // size) % tuple(numbers) != piece:
        return None
    found = [numbers[place::size] for place in range(size)]
    return None if is_told and not set(found[0]) <= {0, 1} else found


def batch_of(piece: bytes, kept: Sequence[Any], question: Question, size: int) -> Batch:
    """The answers that some lines of the program are, each with so many numbers. A loss that is not needed, or not named, is 0.

    >>> batch_of(b"0 0 2\\n1 NA NA\\nNA NA NA # refused not JSON\\n0 NA NA\\n", "abcd", RANK, 3)  # doctest: +NORMALIZE_WHITESPACE
    Batch(kept='abcd', columns=[array('q', [0, 1, 0, 0]), array('q', [0, 0, 0, 0]), array('q', [2, 0, 0, 0])],
          faults={2: 'not JSON', 3: 'too many trials'})
    """
    zeros, marks = b" 0" * (size - 1) + b"\n", (b" " + MARK) * (size - 1) + b"\n"
    refused = b" ".join([MARK] * size) + REFUSED
    is_test, is_told = question is RANK and size > 1, bool(question.truth)
    # A test that holds has marks in the place of a loss.
    holds = piece.count(b"1" + marks) if is_test else 0
    if is_test:
        piece = piece.replace(b"1" + marks, b"1" + zeros)
    found = numbers_of(piece, size, is_told)
    if found is not None and (not is_test or sum(found[0]) == holds):
        return Batch(kept, found, {})
    *lines, rest = [line + b"\n" for line in piece.split(b"\n")]
    faults = {}
    for at, line in enumerate(lines):
        if line.startswith(refused):
            faults[at], lines[at] = line[len(refused):-1].decode(errors="replace"), b"0" + zeros
        elif is_test and line == b"0" + marks:
            # The rank is below the degree, and no loss is named.
            faults[at], lines[at] = TOO_MANY, b"0" + zeros
    found = numbers_of(b"".join(lines), size, is_told)
    if found is None or rest != b"\n" or (is_test and sum(found[0]) != holds):
        wrong = next((line for line in lines if numbers_of(line, size, is_told) is None), piece)
        raise no_answer(wrong.decode(errors="replace").rstrip("\n"))
    return Batch(kept, found, faults)


def ordered(table: Table[Any], divisors: Any) -> Any:
    """The divisors, those of a frame of pandas as an array: its columns are vertices, and are put in their order."""
    if not (hasattr(divisors, "to_numpy") and hasattr(divisors, "columns")):
        return divisors
    places = [table.place(label) for label in divisors.columns]
    if sorted(places) != list(range(len(table.vertices))):
        raise ValueError("a frame of divisors has a column for each vertex, and not %s" % ", ".join(map(str, divisors.columns)))
    return divisors.to_numpy()[:, [places.index(place) for place in range(len(places))]]


def is_array(divisors: Any) -> bool:
    """Whether divisors are an array of numpy with whole numbers and two axes."""
    return getattr(getattr(divisors, "dtype", None), "kind", " ") in "iu" and getattr(divisors, "ndim", 0) == 2


def rows_of(divisors: Any) -> Iterator[Any]:
    """The divisors one by one."""
    if not is_array(divisors):
        yield from divisors
        return
    for start in range(0, len(divisors), BATCH):
        yield from divisors[start:start + BATCH].tolist()


def divisors_one_by_one(table: Table[Any], rows: Iterable[Dollars]) -> Iterator[tuple[int, ...]]:
    """The amounts of each divisor. A dict has 0 dollars where it has no vertex."""
    size, ints = len(table.names), {int}
    for number, row in enumerate(rows):
        # A list of so many ints needs no more looking at.
        is_plain = type(row) in (list, tuple) and len(row) == size and set(map(type, row)) == ints  # type: ignore[arg-type]
        yield tuple(row) if is_plain else row_of(table, row, number)  # type: ignore[arg-type]


def row_of(table: Table[Any], row: Any, number: int) -> tuple[int, ...]:
    """The amounts of the divisor with this number."""
    try:
        return table._like(row)
    except (TypeError, ValueError) as error:
        raise type(error)("divisor %d: %s" % (number, error)) from None
