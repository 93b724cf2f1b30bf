"""The commands for one table."""

from __future__ import annotations

import json
import os
import re
from collections.abc import Callable, Iterable, Mapping
from typing import Any, TypeVar

from dollar._answers import (
    Entry, History, Party, RankTest, RiemannRoch, Verdict, history, pairs_of, rank_test_of, riemann_roch_of, verdict_of, vertices_of)
from dollar._grammar import GRAMMAR, limit
from dollar._library import UNNAMED, told
from dollar._program import Fault, Place, call, fault_of, find_program, printed
from dollar._readers import TOO_MANY, rank_tests, verdicts
from dollar._table import MOST_AMOUNT, MOST_BYTES, Asked, Table, file_and_table, made_of, members
from dollar._vertices import is_whole, shown, within

Lines = Iterable[str]
Got = TypeVar("Got")
MOST_DEGREE, MOST_SEATS, MOST_ENTRIES = (1 << 32) - 1, limit("dg_rules::MAX_SEATS"), limit("dg_rules::MAX_ENTRIES")


def lines_text(lines: Lines) -> bytes:
    """The bytes of a file with these lines."""
    if isinstance(lines, (str, bytes)):
        raise TypeError("lines are a list of texts, and not one text: %r" % (lines,))
    texts = list(lines)
    for number, line in enumerate(texts):
        if not isinstance(line, str):
            raise TypeError("line %d is a text, and not %r" % (number, line))
        if "\n" in line:
            raise ValueError("line %d has a newline in it: %r" % (number, line))
    return "".join(line + "\n" for line in texts).encode()


def word_of(thing: object) -> str | bytes:
    """A word of a command line, or the bytes of the file that stands for it: a table, or a list of lines."""
    if isinstance(thing, (Table, Mapping)) or hasattr(thing, "sandpile"):
        return members(thing)  # type: ignore[arg-type]
    if isinstance(thing, (list, tuple)):
        return lines_text(thing)
    if isinstance(thing, (str, os.PathLike)):
        return os.fspath(thing)
    if is_whole(thing):
        return str(thing)
    raise TypeError("a word is a text, a number, a place, a list of lines or a Table, and not of the type %s" % type(thing).__name__)


def run(command: str, *given: object, program: Place | None = None) -> list[str]:
    """The lines that a command prints, given tables, lists of lines, numbers, options and places of files. It is a Fault if the program
    refuses them.

    >>> from dollar import Table
    >>> run("rank", Table([[0, 1], [1, 0]], [2, -1]), 1, "--workers", 2)
    ['rank at least 1']
    """
    try:
        return printed(command, *map(word_of, given), program=program).splitlines()
    except Fault as fault:
        first = given[0] if given else None
        raise Fault(fault.text, fault.status, None, more_of(fault.text, first, first)) from None


def first_past_64_bits(table: Any) -> str:
    """The first amount that has more than 64 bits; a LookupError if there is none."""
    name, amount = next(((name, amount) for name, amount in zip(table["vertices"], table["amounts"])
                         if isinstance(amount, int) and not -1 << 63 <= amount < 1 << 63), (None, 0))
    if name is None:
        raise LookupError
    return "%s at vertex %s" % (shown(amount), name)


# What can be said of a fault: its text, the value by the members of the table and the number in the text, and the limit.
BESIDE: list[tuple[str, Callable[[Any, int], Any], str]] = [
    ("number of vertices", lambda table, _: len(table["vertices"]), "1 to %d is" % limit("dg_graph::MAX_VERTICES")),
    ("shape of amounts", lambda table, _: first_past_64_bits(table), "%d to %d is" % (-MOST_AMOUNT, MOST_AMOUNT)),
    ("amount of vertex", lambda table, place: table["amounts"][place], "%d to %d is" % (-MOST_AMOUNT, MOST_AMOUNT)),
    ("valence of vertex", lambda table, place: "%d edges" % sum(edge[2] for edge in table["edges"] if table["vertices"][place] in edge[:2]),
     "0 to %d is" % limit("dg_graph::MAX_VALENCE")),
    ("name of vertex", lambda table, place: repr(table["vertices"][place]), "1 to %d letters, digits and _ are" % limit("dg_tokens::MAX_NAME")),
    ("vertex # named twice", lambda table, place: repr(table["vertices"][place]), "one vertex with a name is"),
    ("shape of edge", lambda table, place: repr(table["edges"][place]), "two names and a number are"),
    ("edge #", lambda table, place: repr(table["edges"][place]), ""),
    ("number of amounts", lambda table, _: len(table["amounts"]), "one for each vertex is"),
    ("no vertex q", lambda table, _: repr(table["q"]), "one of the vertices is"),
    ("file too long", lambda *_: "", "%d bytes are" % MOST_BYTES),
    (TOO_MANY, lambda *_: "", "the degree %d and %d trials are" % (limit("dg_rank::MAX_DEGREE"), limit("dg_rank::MAX_TRIALS")))]


def members_kept(kept: Any) -> Any:
    """The members of a table, by what was kept of it."""
    if isinstance(kept, bytes):
        return json.loads(kept)
    table = made_of(kept) if isinstance(kept, tuple) else kept
    return table.to_dict() if isinstance(table, Table) else table


def beside(text: str, kept: Any) -> str:
    """What is said beside a fault: the value, by what was kept of the table, and the limit."""
    found = re.search(r"\d+", text)
    for begins, value_of, most in BESIDE:
        if text.replace(found[0] if found else "#", "#").startswith(begins):
            try:
                value = str(value_of(members_kept(kept), int(found[0]) if found else 0))
            except (LookupError, TypeError, ValueError, RecursionError):
                value = ""
                if begins == "shape of amounts":
                    # It has other causes, and they have nothing to do with a limit.
                    return ""
            return ", and ".join(filter(None, [value, most and "only %s possible" % most]))
    return ""


def more_of(text: str, table: Any, kept: Any) -> str:
    """The same, and the file, if the table is one and the fault is about it."""
    is_of_file = re.sub(r"\d+", "#", text) in (*GRAMMAR["tables"], "read fault", "file too long", TOO_MANY)
    place = "in %s" % os.fspath(table) if isinstance(table, (str, os.PathLike)) and is_of_file else ""
    return ", ".join(filter(None, [beside(text, kept), place]))


def asked(table: Asked, ask: Callable[[bytes], str], read: Callable[[str, Any], Got], program: Place | None, lines: bytes = b"") -> Got:
    """What is read of an answer about a table. A Fault has the file, the value and the limit beside it, and what is no answer has the
    program."""
    file, kept = file_and_table(table)
    try:
        out = ask(file)
    except Fault as fault:
        line = re.match(r"(?:line|step) (\d+): ", fault.text)
        more = repr(lines.split(b"\n")[int(line[1]) - 1].decode()) if line else more_of(fault.text, table, kept)
        raise Fault(fault.text, fault.status, None, more) from None
    try:
        return read(out, kept)
    except ValueError as flaw:
        raise ValueError("%s: %s" % (find_program(program), flaw)) from None


def line_of(command: str, file: bytes, *words: str, patience: float | None = None, program: Place | None = None) -> str:
    """The answer to one table by a line of a sweep, which the program gives also past the limits of one rank test."""
    # A newline in a table file is a space, and so is a tab; neither may be in a name.
    out = printed(command, "--lines", file.replace(b"\n", b"\t") or b"\t", *words, program=program, patience=patience)
    line, end, more = out.partition("\n")
    if not end or more:
        raise ValueError("no answer of the program: %r" % out)
    if line.startswith("refused "):
        raise Fault(line[len("refused "):], 3)
    return line


def judge(table: Asked, *, program: Place | None = None) -> Verdict:
    """Whether all debts of the table can be cleared, and how.

    >>> from dollar import Table
    >>> print(judge(Table([[0, 1], [1, 0]], [2, -1])))
    winnable by 0=0 1=-1 to 0=1 1=0
    """
    found = told("judge", table, program)
    if found and isinstance(table, Table):
        winnable, script, reduced, order = found
        verdict: Verdict = verdicts(table._vertices, 0)([winnable[0], *script, *reduced], table)
        vars(verdict)["_burning"] = [table.vertices[place] for place in order]
        return verdict
    return asked(table, lambda file: printed("judge", "--order", file, program=program).rstrip("\n"),
                 lambda text, kept: verdict_of(text, kept, vertices_of(kept)), program)


def rank(table: Asked, *, patience: float | None = None, program: Place | None = None) -> int:
    """The rank of the table: how many dollars can be lost, no matter where, and the table still be won; -1 if it can't be won now. On
    graphs of many edges that may take long: with `patience` it is a TimeoutError after so many seconds. `rr_all` has the ranks of
    many tables.

    >>> from dollar import Table
    >>> rank(Table([[0, 3], [3, 0]], [2, 2]))
    2
    """
    return table.rank(patience=patience, program=program) if isinstance(table, Table) else rr(table, patience=patience, program=program).rank


def rank_test(table: Asked, degree: int, *, workers: int | None = None, patience: float | None = None,
              program: Place | None = None) -> RankTest:
    """Whether so many dollars can be lost, no matter where, and the table still be won. A test past the limits has an answer
    too, but no first loss; it may take as long as `rank`, and `patience` is the same. `workers` is the number of threads that share
    the test.

    >>> from dollar import Table
    >>> rank_test(Table([[0, 1], [1, 0]], [2, -1]), 2)
    RankTest(holds=False, degree=2, loss={0: 0, 1: 2})
    """
    degree, more = within(degree, "the degree", 0, MOST_DEGREE), option("workers", workers)
    found = told("rank", table, program, degree) if workers is None else None
    if found and isinstance(table, Table):
        test: RankTest = rank_tests(table._vertices, degree)([found[0][0], *found[1]] if found[0][0] < UNNAMED else [0], table)
        return test
    word = str(degree)

    def ask(file: bytes) -> str:
        try:
            return printed("rank", file, word, *more, program=program, patience=patience).rstrip("\n")
        except Fault as fault:
            if fault.text != TOO_MANY:
                raise
        return line_of("rank", file, word, program=program, patience=patience)

    return asked(table, ask, lambda text, kept: rank_test_of(text, kept, vertices_of(kept)), program)


def rr(table: Asked, *, patience: float | None = None, program: Place | None = None) -> RiemannRoch:
    """The four numbers of Riemann-Roch. They may take as long as `rank`, and `patience` is the same.

    >>> from dollar import Table
    >>> rr(Table([[0, 1], [1, 0]], [2, -1]))
    RiemannRoch(degree=1, genus=0, rank=1, dual=-1)
    """
    found = told("rr", table, program)
    if found and isinstance(table, Table):
        return RiemannRoch(table.degree, table.genus, found[1][0], found[2][0])
    return asked(table, lambda file: line_of("rr", file, program=program, patience=patience), lambda text, kept: riemann_roch_of(text),
                 program)


def rehearse(table: Asked, steps: Lines, *, program: Place | None = None) -> History:
    """The history of these steps, each a seat and a command.

    >>> from dollar import Table
    >>> print(rehearse(Table([[0, 1], [1, 0]], [2, -1]), ["1 look", "2 lend 0", "1 commit"]))
    0 looked 0 0=2 1=-1
    1 moved 0=1 1=0
    2 winnable by 0=0 1=0 to 0=1 1=0
    """
    played = lines_text(steps)

    def read(text: str, kept: Any) -> History:
        found = history(text.splitlines(), table=kept)
        if len(found) != played.count(b"\n"):
            raise ValueError("no history of the program: it has %d entries for %d steps" % (len(found), played.count(b"\n")))
        return found

    return asked(table, lambda file: printed("rehearse", file, played, program=program), read, program, played)


def greedy(table: Asked, turns: int, *, program: Place | None = None) -> History:
    """The history of a game in which the first vertex in debt borrows; the last is `won`, or `turns` if its turns were used up.

    >>> from dollar import Table
    >>> print(greedy(Table([[0, 1], [1, 0]], [2, -1]), 1))
    0 moved 0=1 1=0
    turns
    """
    word = str(within(turns, "the number of turns", 0, MOST_ENTRIES))

    def read(text: str, kept: Any) -> History:
        lines = text.splitlines()
        used_up = lines[-1:] == ["turns"]
        played = history(lines[:-1] if used_up else lines, table=kept)
        if not used_up and not played:
            raise ValueError("no history of the program: it has no end")
        return History([*played, Entry("turns")]) if used_up else played

    return asked(table, lambda file: printed("greedy", file, word, program=program), read, program)


def party(table: Asked, *scripts: Lines, cap: int | None = None, program: Place | None = None) -> Party:
    """Plays scripts at the same time: lists of lines, each for a seat and without seats in the lines. `faults` has the sessions that
    ended early; a Fault is raised if nothing was played.

    >>> from dollar import Table
    >>> party(Table([[0, 1], [1, 0]], [2, -1]), ["lend 0"], ["jump"]).calls
    [1, 0]
    """
    within(len(scripts), "the number of scripts", 1, MOST_SEATS)
    texts, said = list(map(lines_text, scripts)), b""

    def ask(file: bytes) -> str:
        nonlocal said
        out, said, status = call(["party", file, *texts, *option("cap", cap)], program)
        if not out:
            raise fault_of(said, status, "it has no answer")
        return out.decode()

    def read(text: str, kept: Any) -> Party:
        lines = text.splitlines()
        first = next((at for at, line in enumerate(lines) if line.startswith("entries ")), None)
        if first is None:
            raise ValueError("no answer of the program: %r" % lines[-1])
        gifts, position, *calls = lines[first + 1:]
        return Party(history(lines[:first], with_seat=True, table=kept), int(gifts.split(" ")[1]),
                     pairs_of(position.partition(" ")[2], vertices_of(kept)), [int(line.split(" ")[3]) for line in calls],
                     dict(map(seat_fault, said.decode().splitlines())))

    return asked(table, ask, read, program)


def seat_fault(line: str) -> tuple[int, str]:
    """The seat and the text of `dollar: seat I: ..`."""
    _, seat, text = line.split(": ", 2)
    return int(seat.split(" ")[1]), text


# The options with numbers, and their greatest.
MOST = {"workers": limit("dg_invocation::MAX_WORKERS"), "cap": limit("dg_invocation::MAX_CAPACITY"), "seats": MOST_SEATS}


def option(name: str, number: int | None) -> list[str]:
    """The words of an option, none where it is not given."""
    return [] if number is None else ["--" + name, str(within(number, name, 1, MOST[name]))]
