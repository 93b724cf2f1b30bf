"""The program's answers, as small typed values."""

from __future__ import annotations

import re
from collections import defaultdict
from collections.abc import Callable, Iterable, Iterator, Mapping
from dataclasses import dataclass
from html import escape
from typing import TYPE_CHECKING, Any, TypeVar

from dollar import _checks as checks, _drawing as drawing
from dollar._grammar import GRAMMAR
from dollar._program import Fault, Place
from dollar._vertices import Fixed, Pairs, Vertices, by_name

if TYPE_CHECKING:
    from dollar._table import Members, Table

Row = TypeVar("Row", bound="Refused")


def pairs_text(amounts: Mapping[Any, int]) -> str:
    """The amounts as the program prints them.

    >>> pairs_text({"a": 2, "b": -1})
    'a=2 b=-1'
    """
    return " ".join("%s=%d" % pair for pair in by_name(amounts).items())


def pairs_of(text: str, vertices: Vertices | None = None) -> Pairs:
    """The amounts that the program has printed so, by the vertices of a table, or by their names if there is none."""
    found = Fixed((name, int(amount)) for name, amount in (pair.split("=") for pair in text.split(" ")))
    return found if vertices is None else vertices.read(found)


def vertices_of(kept: Any) -> Vertices | None:
    """The vertices of a Table, by what was kept of it; those of a dict or a file are their names."""
    return getattr(kept[0] if isinstance(kept, tuple) else kept, "_vertices", None)


class Answer:
    """All answers print as the program prints them, are equal to the tuple of their parts, and can be taken apart like it."""

    def parts(self) -> tuple[Any, ...]:
        """The answer as a tuple: its word, its numbers, and its amounts as dicts."""
        raise NotImplementedError

    def __iter__(self) -> Iterator[Any]:
        return iter(self.parts())

    def __len__(self) -> int:
        return len(self.parts())

    def __getitem__(self, place: Any) -> Any:
        return self.parts()[place]

    def __eq__(self, other: object) -> bool:
        if isinstance(other, Answer):
            return self.parts() == other.parts()
        if isinstance(other, tuple):
            return self.parts() == other
        return NotImplemented

    def __hash__(self) -> int:
        return hash(tuple(frozenset(part.items()) if isinstance(part, dict) else part for part in self.parts()))

    def as_dict(self) -> dict[str, object]:
        """The answer as a dict for `json.dumps`, amounts by the names of the vertices.

        >>> from dollar import Table, judge, rank_test
        >>> judge(Table([[0, 1], [1, 0]], [2, -1])).as_dict()
        {'winnable': True, 'script': {'0': 0, '1': -1}, 'reduced': {'0': 1, '1': 0}, 'burning': ['0', '1']}
        >>> rank_test(Table([[0, 1], [1, 0]], [2, -1]), 1).as_dict()
        {'holds': True, 'degree': 1}
        """
        return {name: plain(value) for name, value in vars(self).items() if not name.startswith("_") and value is not None}


def plain(value: Any) -> object:
    """A part of an answer for JSON."""
    if isinstance(value, Answer):
        return value.as_dict()
    return by_name(value) if isinstance(value, dict) else value


class OfTable(Answer):
    """An answer about a table, which it knows if the table was given. What the table is made of is kept, and made when it is asked for."""

    @property
    def table(self) -> Table[Any] | None:
        """The table that was asked about; None for an answer from a history."""
        from dollar._table import made_of

        found = made_of(vars(self).get("_table"))
        vars(self)["_table"] = found
        return found

    def judged(self, table: Members | None = None) -> Table[Any]:
        """The table that is given, or else the one that was asked about."""
        judged = self.table if table is None else table
        if judged is None:
            raise ValueError("an answer from a history knows no table: say which one it is about")
        return checks.table_of(judged)


@dataclass(frozen=True, eq=False)
class Verdict(OfTable):
    """Whether all debts can be cleared; how often each vertex lends; the reduced divisor to which that leads; and the order in which
    all vertices burn in it, if `judge` gave the verdict, or else None. Its keys are the vertices of the table.

    >>> from dollar import Table, judge
    >>> table = Table({"vertices": ["a", "b"], "edges": [["a", "b", 1]], "amounts": [2, -1], "q": "a"})
    >>> verdict = judge(table)
    >>> verdict
    Verdict(winnable=True, script={'a': 0, 'b': -1}, reduced={'a': 1, 'b': 0})
    >>> print(verdict)
    winnable by a=0 b=-1 to a=1 b=0
    >>> verdict.burning
    ['a', 'b']
    >>> verdict == ("winnable", {"a": 0, "b": -1}, {"a": 1, "b": 0})
    True
    >>> "can be won" if verdict else "can't be won"
    'can be won'
    """

    winnable: bool
    script: Pairs
    reduced: Pairs

    @property
    def burning(self) -> list[Any] | None:
        """The vertices in the order in which they burn in the reduced divisor."""
        found = vars(self).get("_burning")
        return None if found is None else list(found)

    def __bool__(self) -> bool:
        return self.winnable

    def __str__(self) -> str:
        return "%s by %s to %s" % (self.parts()[0], pairs_text(self.script), pairs_text(self.reduced))

    def parts(self) -> tuple[Any, ...]:
        return "winnable" if self.winnable else "unwinnable", self.script, self.reduced

    def check(self, table: Members | None = None) -> None:
        """Checks the verdict by its definition, without any trust in the program. A ValueError says why it is wrong. A verdict of
        `judge` and `judge_all` knows its table.

        >>> from dollar import Table, judge
        >>> table = Table([[0, 1], [1, 0]], [2, -1])
        >>> judge(table).check()
        >>> Verdict(False, {0: 0, 1: -1}, {0: 1, 1: 0}).check(table)
        Traceback (most recent call last):
            ...
        ValueError: the word does not fit the debt of q
        """
        found = checks.flaw(self.judged(table), self)
        if found is not None:
            raise ValueError(found)

    def as_dict(self) -> dict[str, object]:
        found = super().as_dict()
        if self.burning is not None:
            names = getattr(self.script, "vertices", None)
            found["burning"] = [str(v) if names is None else names.names[names.places[v]] for v in self.burning]
        return found

    def _repr_svg_(self) -> str | None:
        table = self.table
        return None if table is None else drawing.picture(table, script=self.script)


@dataclass(frozen=True, eq=False)
class RankTest(OfTable):
    """Whether so many dollars can be lost, no matter where; if not, the first way to lose them after which the table can't be won.
    `loss` is also None if there are too many trials to name the first.

    >>> from dollar import Table, rank_test
    >>> table = Table([[0, 3], [3, 0]], [1, 1])
    >>> print(rank_test(table, 1))
    rank at least 1
    >>> rank_test(table, 2)
    RankTest(holds=False, degree=2, loss={0: 0, 1: 2})
    """

    holds: bool
    degree: int
    loss: Pairs | None = None

    def __bool__(self) -> bool:
        return self.holds

    def __str__(self) -> str:
        if self.holds:
            return "rank at least %d" % self.degree
        return "rank below %d at %s" % (self.degree, "?" if self.loss is None else pairs_text(self.loss))

    def parts(self) -> tuple[Any, ...]:
        word = "rank at least" if self.holds else "rank below"
        return (word, self.degree) if self.loss is None else (word, self.degree, self.loss)

    def check(self, table: Members | None = None, *, program: Place | None = None) -> None:
        """Checks the test by its definition. A ValueError says why it is wrong. Each loss in the order of lists, up to `loss`, is taken
        from the table, and the verdict on the rest is checked as `Verdict.check` does; so a long test takes long.

        >>> from dollar import Table, rank_test
        >>> table = Table([[0, 3], [3, 0]], [1, 1])
        >>> rank_test(table, 1).check()
        >>> RankTest(True, 2).check(table)
        Traceback (most recent call last):
            ...
        ValueError: the rest after a loss of {0: 0, 1: 2} can't be won
        """
        from dollar._divisors import flaw_of_rank_test

        found = flaw_of_rank_test(self.judged(table), self, program)
        if found is not None:
            raise ValueError(found)


@dataclass(frozen=True, eq=False)
class RiemannRoch(Mapping[str, int]):
    """The degree, the genus, the rank, and the rank of the dual.

    It prints as the program does, and is equal to the dict of its numbers:

    >>> from dollar import Table, rr
    >>> numbers = rr(Table([[0, 3], [3, 0]], [1, 1]))
    >>> numbers
    RiemannRoch(degree=2, genus=2, rank=1, dual=0)
    >>> numbers.rank == numbers["rank"] == 1, numbers == {"degree": 2, "genus": 2, "rank": 1, "dual": 0}
    (True, True)
    >>> print(numbers)
    degree 2
    genus 2
    rank 1
    dual 0
    """

    degree: int
    genus: int
    rank: int
    dual: int

    def __getitem__(self, word: str) -> int:
        number: int = vars(self)[word]
        return number

    def __iter__(self) -> Iterator[str]:
        return iter(vars(self))

    def __len__(self) -> int:
        return len(vars(self))

    def __hash__(self) -> int:
        return hash(tuple(self.values()))

    def as_dict(self) -> dict[str, object]:
        """The numbers as a dict for `json.dumps`."""
        return dict(self)

    def __str__(self) -> str:
        return "\n".join("%s %d" % pair for pair in self.items())

    def _repr_html_(self) -> str:
        return table_html(self, [self.values()])


@dataclass(frozen=True, eq=False, repr=False)
class Entry(Answer):
    """An answer in a history or a session: its word, and what belongs to it. Each kind has a class of its own, with its fields.

    `word` is the first word of a reply, as `moved` or `stale`, or `not won`, `rank at least`, `rank below`, `turns`, or `refused` or
    `bad` and why. `gifts` is the count of gifts, levies and joins, `amounts` what the vertices hold,
    `found` the verdict or the rank test that was entered. An entry that begins with `bad` has no number, and changed
    nothing. In a session `seat` and `line` are the question, and `step` is the number of lines answered so far, with this one.

    >>> from dollar import Table, rehearse
    >>> looked, moved, verdict = rehearse(Table([[0, 1], [1, 0]], [2, -1]), ["1 look", "2 lend 0", "1 commit"])
    >>> print(moved)
    1 moved 0=1 1=0
    >>> moved.word, moved.amounts, verdict.found.winnable
    ('moved', {0: 1, 1: 0}, True)
    >>> moved == ("moved", {0: 1, 1: 0}), moved
    (True, Moved(word='moved', amounts={0: 1, 1: 0}, number=1))
    >>> type(looked).__name__, type(verdict).__name__
    ('Looked', 'Judged')
    >>> from dollar import answer
    >>> [type(answer(text)).__name__ for text in ("given 1 a=2", "joined 1 a=2")]
    ['Given', 'Joined']
    >>> [type(answer(text)).__name__ for text in ("stale 1", "not won", "refused gift", "bad name", "turns")]
    ['Stale', 'Claimed', 'Declined', 'Bad', 'Turns']
    """

    word: str = ""
    gifts: int | None = None
    amounts: Pairs | None = None
    found: Verdict | RankTest | None = None
    number: int | None = None
    seat: int | None = None
    line: str | None = None
    step: int | None = None

    def __new__(cls, word: str = "", *parts: Any, **more: Any) -> Entry:
        """An entry of the kind that its word tells."""
        kind = ENTRIES.get(word.partition(" ")[0], Entry) if cls is Entry else cls
        made: Entry = object.__new__(kind)
        return made

    def text(self) -> str:
        """The text of the answer, without number and seat."""
        if self.found is not None:
            return str(self.found)
        return " ".join(pairs_text(part) if isinstance(part, dict) else str(part) for part in self.parts())

    def __str__(self) -> str:
        numbers = (self.number, self.seat if self.step is None else None)
        return "".join("%d " % number for number in numbers if number is not None) + self.text()

    def __repr__(self) -> str:
        return "%s(%s)" % (type(self).__name__, ", ".join("%s=%r" % pair for pair in vars(self).items() if pair[1] is not None))

    def parts(self) -> tuple[Any, ...]:
        if self.found is not None:
            return self.found.parts()
        return tuple(part for part in (self.word, self.gifts, self.amounts) if part is not None)


class Moved(Entry):
    """A move was made, and led to these amounts. `help(dollar.Entry)` has an example."""

    amounts: Pairs


class Given(Entry):
    """A gift or a levy was made. `help(dollar.Entry)` has an example."""

    gifts: int
    amounts: Pairs


class Joined(Entry):
    """An edge was added. `help(dollar.Entry)` has an example."""

    gifts: int
    amounts: Pairs


class Looked(Entry):
    """A seat has looked. `help(dollar.Entry)` has an example."""

    gifts: int
    amounts: Pairs


class Judged(Entry):
    """The verdict on a look was entered. `help(dollar.Entry)` has an example."""

    found: Verdict


class Tested(Entry):
    """The rank test on a look was entered. `help(dollar.Entry)` has an example."""

    found: RankTest


class Stale(Entry):
    """A gift, a levy or a join was made since the look. `help(dollar.Entry)` has an example."""

    gifts: int


class Claimed(Entry):
    """A seat has claimed that nobody is in debt: `won`, or `not won`. `help(dollar.Entry)` has an example."""


class Declined(Entry):
    """A call that the game refused: `refused` and why. `help(dollar.Entry)` has an example."""


class Bad(Entry):
    """A line that made no entry: `bad` and why. `help(dollar.Entry)` has an example."""


class Turns(Entry):
    """The end of a greedy game whose turns were used up. `help(dollar.Entry)` has an example."""


ENTRIES: dict[str, type[Entry]] = {
    "moved": Moved, "given": Given, "joined": Joined, "looked": Looked, "winnable": Judged, "unwinnable": Judged, "rank": Tested,
    "stale": Stale, "won": Claimed, "not": Claimed, "refused": Declined, "bad": Bad, "turns": Turns}


class History(list[Entry]):
    """The entries of a game, in order, which print as the program prints them.

    >>> from dollar import Table, greedy
    >>> print(greedy(Table([[0, 1], [1, 0]], [2, -1]), 5))
    0 moved 0=1 1=0
    1 won
    """

    def __str__(self) -> str:
        return "\n".join(map(str, self))

    def as_dicts(self) -> list[dict[str, object]]:
        """The entries as dicts for `json.dumps`."""
        return [each.as_dict() for each in self]

    def _repr_html_(self) -> str:
        return table_html(("number", "seat", "answer"), ((each.number, each.seat, each.text()) for each in self))


@dataclass(frozen=True)
class Party:
    """A party's history, its totals, and for each seat whose session ended early the text of its fault.

    >>> from dollar import Table, party
    >>> played = party(Table([[0, 1], [1, 0]], [2, -1]), ["lend 0"], ["jump"])
    >>> played.history == [("moved", {0: 1, 1: 0})], played.calls, played.faults
    (True, [1, 0], {})
    >>> print(played)
    0 1 moved 0=1 1=0
    entries 1
    gifts 0
    position 0=1 1=0
    seat 1 calls 1
    seat 2 calls 0
    """

    history: History
    gifts: int
    position: Pairs
    calls: list[int]
    faults: dict[int, str]

    def __str__(self) -> str:
        seats = ("seat %d calls %d" % (seat, calls) for seat, calls in enumerate(self.calls, 1))
        return "\n".join([*map(str, self.history), "entries %d" % len(self.history), "gifts %d" % self.gifts,
                          "position " + pairs_text(self.position), *seats])

    def as_dict(self) -> dict[str, object]:
        """The party as a dict for `json.dumps`."""
        return {"history": self.history.as_dicts(), "gifts": self.gifts, "position": by_name(self.position), "calls": self.calls,
                "faults": {str(seat): text for seat, text in self.faults.items()}}

    def _repr_html_(self) -> str:
        return self.history._repr_html_()


class Refused(Fault):
    """A table of a sweep that was refused: a row that has None for each number that is not known, and in `refused` why.

    It is a Fault that can be raised, and false, as is a verdict of what can't be won.

    >>> from dollar import rr_all
    >>> row, = rr_all([{"vertices": ["a"]}])
    >>> row
    RefusedRiemannRoch(degree=None, genus=None, rank=None, dual=None, refused='shape of top')
    >>> row.rank is None, row.table, bool(row), row.as_dict()
    (True, 0, False, {'refused': 'shape of top'})
    """

    refused: str

    def __str__(self) -> str:
        return "refused %s%s" % (self.text, self.more and ": " + self.more)

    def __bool__(self) -> bool:
        return False

    def as_dict(self) -> dict[str, object]:
        """The row as a dict for `json.dumps`."""
        return {name: value for name, value in vars(self).items() if value is not None and name not in vars(Fault("", 3))}

    def __reduce__(self) -> tuple[Any, ...]:
        return refusal, (type(self), self.text, self.table), dict(vars(self))


@dataclass(eq=False)
class RefusedVerdict(Refused):
    """A table that was refused a verdict. `help(dollar.Refused)` has an example."""

    winnable: None = None
    script: None = None
    reduced: None = None
    refused: str = ""


@dataclass(eq=False)
class RefusedRankTest(Refused):
    """A table that was refused a rank test. `help(dollar.Refused)` has an example."""

    holds: None = None
    degree: None = None
    loss: None = None
    refused: str = ""


@dataclass(eq=False)
class RefusedRiemannRoch(Refused):
    """A table that was refused its four numbers. `help(dollar.Refused)` has an example."""

    degree: None = None
    genus: None = None
    rank: None = None
    dual: None = None
    refused: str = ""


def refusal(kind: Callable[..., Row], text: str, table: int | None, more: str = "") -> Row:
    """The row of such a kind for a table that was refused."""
    row = kind(refused=text)
    Fault.__init__(row, text, 3, table, more)
    return row


AMOUNTS, NATURAL = r"(\w+={0}(?: \w+={0})*)".format(r"(?:0|-?[1-9]\d*)"), r"(0|[1-9]\d*)"
# How each part of a form is read; the amounts that a rank test lacks past the limits are a question mark.
PARTS = {"P": AMOUNTS, "N": r"(\w+(?: \w+)*)", "g": NATURAL, "k": NATURAL, "?": r"\?"}


def form_of(text: str) -> re.Pattern[str]:
    """What reads the texts of a form: its word, and then what stands for its numbers and amounts."""
    found = re.fullmatch(r"(.*?)((?: by)?(?: [Pgk]\b.*)?)", text)
    assert found is not None
    return re.compile("(%s)%s" % (found[1], " ".join(PARTS.get(part, part) for part in found[2].split(" "))), re.ASCII)


# What reads each answer of the program, by the first word.
FORMS: defaultdict[str, list[re.Pattern[str]]] = defaultdict(list)
for reply in [*GRAMMAR["replies"], *GRAMMAR["ordered"], "rank below k at ?", *GRAMMAR["bad"], "turns"]:
    FORMS[reply.split(" ")[0]].append(form_of(reply))


def no_answer(text: str) -> ValueError:
    return ValueError("no answer of the program: %r" % text)


def parts_of(text: str) -> tuple[str, ...]:
    """The word of an answer, and the texts of its numbers and amounts."""
    for form in FORMS.get(text.partition(" ")[0], ()):
        found = form.fullmatch(text)
        if found:
            return found.groups()
    raise no_answer(text)


def entry(text: str, vertices: Vertices | None = None, **more: Any) -> Entry:
    """The entry with this text, which has no number and no seat before it; and what else is known of it.

    >>> entry("given 1 a=2 b=0 c=-1")
    Given(word='given', gifts=1, amounts={'a': 2, 'b': 0, 'c': -1})
    >>> entry("lent a")
    Traceback (most recent call last):
        ...
    ValueError: no answer of the program: 'lent a'
    """
    word, *rest = parts_of(text)
    if word in ("winnable", "unwinnable"):
        return Entry(word, found=verdict_of(text, None, vertices), **more)
    if word in ("rank at least", "rank below"):
        return Entry(word, found=rank_test_of(text, None, vertices), **more)
    gifts = next((int(part) for part in rest if part.isdigit()), None)
    amounts = next((pairs_of(part, vertices) for part in rest if "=" in part), None)
    return Entry(word, gifts, amounts, **more)


def answer(text: str) -> Verdict | RankTest | Entry:
    """The answer with this text, which has no number before it.

    >>> answer("rank below 2 at a=0 b=2"), answer("stale 1")
    (RankTest(holds=False, degree=2, loss={'a': 0, 'b': 2}), Stale(word='stale', gifts=1))
    """
    read = entry(text)
    return read if read.found is None else read.found


def numbered(text: str, with_seat: bool = False, vertices: Vertices | None = None, **more: Any) -> Entry:
    """The entry of a text that has its number before it, and its seat after that where it has one. An answer that begins with
    `bad` has neither."""
    form = re.fullmatch(r"(\d+) (\d+) (.+)" if with_seat else r"(\d+)() (.+)", text, re.ASCII)
    if not form:
        return entry(text, vertices, **more)
    if with_seat:
        more["seat"] = int(form[2])
    found = entry(form[3], vertices, number=int(form[1]), **more)
    if isinstance(found, (Bad, Turns)):
        raise no_answer(text)
    return found


def history(lines: Iterable[str], *, with_seat: bool = False, table: Members | None = None) -> History:
    """The entries of these lines, or of a file with them, which have their numbers before them, from 0 on. Amounts are by the vertices of
    the table.

    >>> [entry.word for entry in history(["0 looked 0 a=2 b=-1", "1 not won"])]
    ['looked', 'not won']
    """
    entries = History(numbered(line.rstrip("\n"), with_seat, vertices_of(table)) for line in lines)
    if [each.number for each in entries] != list(range(len(entries))):
        raise ValueError("no history: %r" % [str(each) for each in entries])
    return entries


def verdict_of(text: str, table: Any = None, vertices: Vertices | None = None) -> Verdict:
    """The verdict with this text, on a table, or on what one is made of."""
    word, *rest = parts_of(text)
    if word not in ("winnable", "unwinnable"):
        raise no_answer(text)
    verdict = Verdict(word == "winnable", pairs_of(rest[0], vertices), pairs_of(rest[1], vertices))
    order: list[Any] | None = rest[2].split(" ") if rest[2:] else None
    if order and vertices is not None:
        order = [vertices.given[vertices.names.index(name)] for name in order]
    vars(verdict).update(_table=table, _burning=order)
    return verdict


def rank_test_of(text: str, table: Any = None, vertices: Vertices | None = None) -> RankTest:
    """The rank test with this text, of a table, or of what one is made of."""
    word, *rest = parts_of(text)
    if word not in ("rank at least", "rank below"):
        raise no_answer(text)
    test = RankTest(word == "rank at least", int(rest[0]), pairs_of(rest[1], vertices) if rest[1:] else None)
    vars(test).update(_table=table)
    return test


RIEMANN_ROCH = re.compile(r"degree (-?\d+) genus (-?\d+) rank (-?\d+) dual (-?\d+)", re.ASCII)


def riemann_roch_of(text: str) -> RiemannRoch:
    """The four numbers, of which each stands after its word."""
    found = RIEMANN_ROCH.fullmatch(text)
    if not found:
        raise no_answer(text)
    return RiemannRoch(*map(int, found.groups()))


def table_html(names: Iterable[object], rows: Iterable[Iterable[object]]) -> str:
    """A table for a notebook; the cell of a None is empty."""
    def row(tag: str, cells: Iterable[object]) -> str:
        return "<tr>%s</tr>" % "".join("<%s>%s</%s>" % (tag, "" if each is None else escape(str(each)), tag) for each in cells)

    return "<table>%s%s</table>" % (row("th", names), "".join(row("td", cells) for cells in rows))
