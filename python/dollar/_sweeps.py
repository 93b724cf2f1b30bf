"""The commands for many tables, in one run of the program; or for many divisors of one, by the library for C where it is."""

from __future__ import annotations

import functools
import itertools
import os
import select
import sys
import tempfile
import time
from collections import deque
from collections.abc import Callable, Generator, Iterable, Iterator, Mapping, Sequence
from typing import Any, Literal, TypeVar, overload

from dollar._answers import RankTest, RefusedRankTest, RefusedRiemannRoch, RefusedVerdict, RiemannRoch, Verdict, refusal
from dollar._columns import Columns, RankTestColumns, RiemannRochColumns, VerdictColumns, gathered
from dollar._commands import MOST_DEGREE, beside, option
from dollar._library import Asking, asking
from dollar._program import Fault, Place, command_line, ended_by, fault_of, talk
from dollar._readers import (
    JUDGE, MARK, RANK, REFUSED, RR, TOO_MANY, Batch, Maker, Question, batch_of, divisors_one_by_one, is_array, line_form, ordered, rows_of)
from dollar._table import Graph, Table, clipped, one_line, vertices_kept
from dollar._vertices import Dollars, Vertices, seconds, within

AT_ONCE, PIECE, PATIENCE, SLOW = 1 << 16, 1 << 16, 0.05, 0.001
Found = TypeVar("Found", covariant=True)
Told = TypeVar("Told", bound=Columns)
# What is kept of a table until its answer comes, and its line.
Kept = tuple[Any, bytes]
# Tables; or, with `divisors`, one; and these.
Tables = Iterable[Mapping[str, object]] | Graph
Divisors = Iterable[Dollars]


class Sweep:
    """One run of a command over lines. All is done in the thread of the caller: the tables are taken there, and sent as far as the
    pipe takes their lines, and the answers are read as they come. A word as bytes stands for a file with these bytes. At most `ahead`
    tables are taken before their answers are read, and `patience` is how many seconds there may be no answer."""

    def __init__(self, words: Sequence[str | bytes], tables: Iterator[Kept], program: Place | None, patience: float | None,
                 ahead: int | None = None) -> None:
        self.said, self.patience = tempfile.TemporaryFile(), patience
        self.tables, self.ahead = tables, sys.maxsize if ahead is None else ahead
        self.is_shared = any(isinstance(word, str) and word == "--workers" for word in words)
        self.waiting: deque[Any] = deque()
        self.unsent, self.unread = b"", b""
        self.are_all_taken = self.is_slow = False
        self.broken: BaseException | None = None
        with command_line(words, program) as (line, descriptors):
            self.child = talk(line, descriptors, self.said, 0)
        assert self.child.stdin is not None and self.child.stdout is not None
        self.input, self.output = self.child.stdin, self.child.stdout
        try:
            os.set_blocking(self.input.fileno(), False)
        except BaseException:
            self.close()
            raise

    def take(self) -> None:
        """Takes tables: as many as are sent at once, or as come in a short time."""
        lines: list[bytes] = []
        size, now = 0, time.monotonic()
        until = now + PATIENCE
        while size < AT_ONCE and len(self.waiting) < self.ahead and now < until:
            try:
                table, line = next(self.tables)
            except StopIteration:
                self.are_all_taken = True
                break
            except Exception as error:
                # What came before it is answered first.
                self.are_all_taken, self.broken = True, error
                break
            self.waiting.append(table)
            lines.append(line)
            size += len(line)
            before, now = now, time.monotonic()
            if now - before > SLOW:
                # A source that takes its time: what it gave is sent. One that takes long is asked for more when that is answered.
                self.is_slow = now - before > PATIENCE and not self.is_shared
                break
        self.unsent = b"".join(lines)

    def send(self) -> None:
        """Sends as much as the pipe takes now."""
        try:
            sent = self.input.write(self.unsent)
        except BrokenPipeError:
            # The program has ended; what it said tells why.
            self.input.close()
            return
        self.unsent = self.unsent[sent or 0:]
        if self.are_all_taken and not self.unsent:
            self.input.close()

    def ready(self, seconds: float | None) -> tuple[bool, bool]:
        """Waits at most so long. Whether there are answers to be read, and whether the pipe takes more of what is unsent."""
        poll = select.poll()
        poll.register(self.output, select.POLLIN)
        if self.unsent and not self.input.closed:
            poll.register(self.input, select.POLLOUT)
        found = {descriptor for descriptor, _ in poll.poll(None if seconds is None else seconds * 1000)}
        return self.output.fileno() in found, not self.input.closed and self.input.fileno() in found

    def pieces(self) -> Iterator[bytes]:
        """What the program prints, in whole lines, as it comes. Tables are taken when no answer is there to be read."""
        while True:
            is_idle = not self.unsent and not self.input.closed
            if is_idle and self.waiting and (self.is_slow or len(self.waiting) >= self.ahead):
                is_idle = False
            readable, writable = self.ready(0 if is_idle else self.patience)
            if not (is_idle or readable or writable):
                raise TimeoutError("no answer for %s seconds" % self.patience)
            if is_idle and not readable:
                self.is_slow = False
                self.take()
            if writable or (is_idle and not readable):
                self.send()
            if readable:
                piece = os.read(self.output.fileno(), PIECE)
                if not piece:
                    return
                whole_lines, end, rest = piece.rpartition(b"\n")
                if end:
                    yield self.unread + whole_lines + end
                    self.unread = rest
                else:
                    self.unread += piece

    def end(self, answers: int) -> None:
        """Raises what went wrong, if anything did, after so many answers."""
        status = self.child.wait()
        self.said.seek(0)
        if status or self.waiting or self.unsent or self.unread or not self.are_all_taken:
            raise fault_of(self.said.read(), status, ended_by(status, answers) + ", before all tables were answered")
        if self.broken is not None:
            raise self.broken

    def close(self) -> None:
        """Ends the program, whatever it is doing."""
        self.child.kill()
        self.child.wait()
        for stream in (self.input, self.output, self.said):
            stream.close()


class Progress:
    """A line on standard error that tells how many answers there are, where it is asked for."""

    def __init__(self, is_shown: bool, unit: str = "answers", count: int = 0) -> None:
        self.is_shown, self.unit, self.count, self.at = is_shown, unit, count, time.monotonic()

    def add(self, count: int) -> None:
        self.count += count
        if time.monotonic() - self.at > 0.2:
            self.tell("")

    def tell(self, end: str) -> None:
        self.at = time.monotonic()
        if self.is_shown:
            print("\r%d %s" % (self.count, self.unit), end=end, file=sys.stderr, flush=True)

    def close(self) -> None:
        self.tell("\n")


class Job:
    """A sweep that is to be made: what is asked, the tables as they are kept until they are answered, the line that stands for each, and
    the words of the command. If they are divisors of one table, that and these. `asking` is the question of the library, if that answers."""

    def __init__(self, question: Question, kept: Iterator[Any], line: Callable[[Any], bytes], words: list[str | bytes],
                 program: Place | None = None, table: Table[Any] | None = None, divisors: Any = None) -> None:
        self.question, self.kept, self.line, self.words, self.program = question, kept, line, words, program
        self.table, self.divisors, self.degree = table, divisors, 0
        self.asking: Asking | None = None
        self.ahead: int | None = None
        self.patience: float | None = None
        self.errors, self.progress = "row", Progress(False)
        # What gives the lines that the program prints, each with what was kept of its table.
        self.pieces: Callable[[Job], Iterator[tuple[bytes, list[Any]]]] = by_program

    @property
    def vertices(self) -> Vertices | None:
        """The vertices of all tables, if they are divisors of one."""
        return None if self.table is None else self.table._vertices

    @functools.cached_property
    def asked(self) -> bytes:
        """What is asked about each line: the command, the degree of a rank test, and for divisors the table, as the program is given it."""
        table = next((word for word in self.words if isinstance(word, bytes)), b"")
        return b"%s %d\n%s\n" % (self.question.command.encode(), self.degree, table)

    def left_out(self, count: int) -> Iterator[Any]:
        """The first so many tables, which are not asked about. The numbers of the others stay the same."""
        if is_array(self.divisors):
            self.divisors = self.divisors[count:]
        return itertools.islice(self.kept, count)

    def batches(self, number: int = 0) -> Generator[tuple[int, Batch], None, None]:
        """The answers, some at a time, each time with the number of the first, which is given for all."""
        try:
            if self.asking is not None:
                found = self.asking.batches(self.divisors, self.kept, self.ahead or sys.maxsize)
            else:
                found = itertools.chain.from_iterable(itertools.starmap(self.read, self.pieces(self)))
            for batch in found:
                wrong = sorted(at for at, reason in batch.faults.items() if not self.is_unnamed(reason)) if self.errors == "raise" else []
                if wrong:
                    if wrong[0] > 0:
                        yield number, batch.before(wrong[0])
                    raise self.fault(batch, wrong[0], number)
                yield number, batch
                number += len(batch.kept)
                self.progress.add(len(batch.kept))
        finally:
            self.progress.close()

    def read(self, piece: bytes, kept: list[Any]) -> Iterator[Batch]:
        """The answers that some lines of the program are. Tables may have different vertices, and then each line is read for itself."""
        if self.table is not None or not self.question.vectors:
            yield batch_of(piece, kept, self.question, self.question.size(self.vertices))
            return
        for line, its in zip(piece.split(b"\n"), kept):
            # Of a refused table no vertices are known.
            size = 1 if line.startswith(MARK + REFUSED) else self.question.size(vertices_kept(its))
            yield batch_of(line + b"\n", [its], self.question, size)

    def rows(self, batch: Batch) -> Iterator[Any]:
        """What is kept of each table of a batch: itself, or its line, or one table and the amounts of another."""
        if self.table is None:
            return iter(batch.kept)
        return zip(itertools.repeat(self.table), map(tuple, batch.kept.tolist()) if is_array(batch.kept) else batch.kept)

    def is_unnamed(self, reason: str | None) -> bool:
        """Whether there is an answer, but for a first loss that is not named."""
        return reason == TOO_MANY and self.question is RANK

    def fault(self, batch: Batch, at: int, number: int) -> Fault:
        """The error for what has no answer at a place of a batch, the first of which has a number."""
        reason = batch.faults[at]
        return Fault(reason, 3, number + at, beside(reason, next(itertools.islice(self.rows(batch), at, None))))

    def answers(self) -> Iterator[Any]:
        """The answers one by one."""
        for number, batch in self.batches():
            rows = self.rows(batch)
            if not batch.faults:
                yield from map(self.maker(batch.kept[0]), zip(*batch.columns), rows)
            else:
                yield from map(self.answer, zip(*batch.columns), rows, itertools.count(number), map(batch.faults.get, itertools.count()))

    def maker(self, kept: Any) -> Maker:
        """What makes the answer about a table of its numbers."""
        vertices = self.vertices
        if vertices is None and self.question.vectors:
            vertices = vertices_kept(kept)
        return self.question.maker(vertices, self.degree)

    def answer(self, numbers: Sequence[int], kept: Any, number: int, reason: str | None) -> Any:
        """The answer about one table, or the row of one that was refused."""
        if reason is None or self.is_unnamed(reason):
            # Without a loss there is but one number.
            return self.maker(kept)(numbers if reason is None else numbers[:1], kept)
        return refusal(self.question.refused, reason, number, beside(reason, kept))

    def columns(self) -> Iterator[list[Any]]:
        """The numbers of all answers, in columns, some at a time. What has no place in them is raised."""
        for number, batch in self.batches():
            if batch.faults:
                raise self.fault(batch, min(batch.faults), number)
            yield batch.columns


def by_program(job: Job) -> Iterator[tuple[bytes, list[Any]]]:
    """What a run of the program prints, in whole lines, and what was kept of their tables."""
    tables = ((kept, job.line(kept)) for kept in job.kept)
    sweep, answers = Sweep(job.words, tables, job.program, job.patience, job.ahead), 0
    try:
        for piece in sweep.pieces():
            count = piece.count(b"\n")
            if count > len(sweep.waiting):
                raise Fault("more answers came than tables were sent", 0)
            yield piece, [sweep.waiting.popleft() for _ in range(count)]
            answers += count
        sweep.end(answers)
    finally:
        sweep.close()


def to_the_end(answers: Iterator[Any], over: list[bool]) -> Iterator[Any]:
    """The answers. It is noted that they have come to their end."""
    yield from answers
    over.append(True)


class Answers(Iterator[Found]):
    """The answers of a sweep, in order, as they come. The sweep begins when the first is asked for, and they can be taken once."""

    def __init__(self, job: Job) -> None:
        self._job = job
        # Shared with what gives the answers, which must not know this object: then both would live until Python looks for such circles.
        self._over: list[bool] = []
        self._found: Iterator[Found] | None = None

    def __iter__(self) -> Iterator[Found]:
        if self._over:
            raise ValueError("the answers were taken already: ask again for more")
        return self

    def __next__(self) -> Found:
        if self._found is None:
            self._found = to_the_end(self._job.answers(), self._over)
        try:
            return next(self._found)
        except StopIteration:
            if self._over:
                raise
            raise ValueError("the sweep was interrupted, and has no more answers") from None

    def _taken(self, what: str) -> Job:
        """The sweep that is to be made, for what takes its answers in another way."""
        if self._found is not None:
            raise ValueError("the sweep has begun: ask again for %s" % what)
        self.close()
        return self._job

    def close(self) -> None:
        """Ends the sweep, no matter what it is doing."""
        self._over.append(True)
        if self._found is None:
            self._found = iter(())
        getattr(self._found, "close", int)()

    def _columns(self, kind: Callable[[Question, Any, list[Any]], Told]) -> Told:
        """All answers at once, as columns of a kind."""
        job = self._job
        if job.table is None and job.question.vectors:
            raise ValueError("columns by vertices are for `divisors` of one table")
        vertices = job.vertices or Vertices(())
        return kind(job.question, vertices, gathered(self._taken("columns").columns(), job.question.size(vertices)))


class Verdicts(Answers[Found]):
    """The verdicts of a sweep, as they come. `help(dollar.judge_all)` has an example."""

    def columns(self) -> VerdictColumns:
        """All verdicts at once, as columns: arrays of numpy if it is installed, and else of the module `array`. Columns have no place for a
        missing answer: a divisor that is refused is raised as a Fault, whose `table` is its number. `help(dollar.VerdictColumns)` has an
        example."""
        return self._columns(VerdictColumns)


class RankTests(Answers[Found]):
    """The rank tests of a sweep, as they come. `help(dollar.rank_test_all)` has an example."""

    def columns(self) -> RankTestColumns:
        """All rank tests at once, as columns; a first loss that is not named is raised as a Fault too. `help(dollar.VerdictColumns)` has an
        example of columns."""
        return self._columns(RankTestColumns)


class RiemannRochs(Answers[Found]):
    """The four numbers of the tables of a sweep, as they come. `help(dollar.rr_all)` has an example."""

    def columns(self) -> RiemannRochColumns:
        """All numbers at once, as columns. `help(dollar.VerdictColumns)` has an example of columns."""
        return self._columns(RiemannRochColumns)


def tables_one_by_one(tables: Any) -> Iterator[Table[Any] | bytes]:
    """What is kept of each table: itself, or its line."""
    if isinstance(tables, (Mapping, str, bytes, os.PathLike)) or hasattr(tables, "edges") or not hasattr(tables, "__iter__"):
        raise TypeError("many tables are asked about, as a list of them, or as `divisors` of one table; and not %.80r" % (tables,))

    def kept(number: int, table: Any) -> Table[Any] | bytes:
        try:
            return table if isinstance(table, Table) else one_line(table)[1]
        except (TypeError, ValueError) as error:
            raise type(error)("table %d: %s" % (number, error)) from None

    return itertools.starmap(kept, enumerate(tables))


def line_of_table(kept: Table[Any] | bytes) -> bytes:
    return one_line(kept)[0] + b"\n" if isinstance(kept, Table) else kept + b"\n"


def asked(question: Question, tables: Any, divisors: Divisors | None, workers: int | None, program: Place | None, errors: str,
          ahead: int | None, patience: float | None, progress: bool, *degree: int) -> Job:
    """A sweep over tables, or over divisors of one. Threads are the program's."""
    if errors not in ("row", "raise"):
        raise ValueError("errors are either 'row' or 'raise', and not %r" % (errors,))
    seconds(patience)
    if ahead is not None:
        within(ahead, "ahead", 1, sys.maxsize)
    rest = [*map(str, degree), "--numbers", *option("workers", workers)]
    if divisors is None:
        job = Job(question, tables_one_by_one(tables), line_of_table, [question.command, "--lines", "/dev/stdin", *rest], program)
    else:
        job = of_divisors(question, tables, divisors, program, rest)
        if job.table is not None and workers is None:
            job.asking = asking(question.command, job.table, program, *degree)
    job.ahead, job.patience, job.errors, job.progress, job.degree = ahead, patience, errors, Progress(progress), sum(degree)
    return job


def of_divisors(question: Question, tables: Any, divisors: Divisors, program: Place | None, rest: list[str]) -> Job:
    """A sweep over divisors of one table."""
    if isinstance(tables, (list, tuple)) and any(isinstance(each, Mapping) for each in tables):
        raise TypeError("with `divisors` one table is asked about, and not a list of %d" % len(tables))
    table = tables if isinstance(tables, Table) else Table(tables)
    file, form, divisors = one_line(table)[0], line_form(len(table)), ordered(table, divisors)

    def line(amounts: tuple[int, ...]) -> bytes:
        try:
            return form % amounts
        except ValueError:
            # Python writes no number of so many digits.
            return form % clipped(amounts)

    words: list[str | bytes] = [question.command, file, "--divisors", "/dev/stdin", *rest]
    return Job(question, divisors_one_by_one(table, rows_of(divisors)), line, words, program, table, divisors)


Errors = Literal["row", "raise"]


@overload
def judge_all(tables: Tables, *, workers: int | None = ..., errors: Literal["raise"], divisors: Divisors | None = ...,
              ahead: int | None = ..., progress: bool = ..., program: Place | None = ...) -> Verdicts[Verdict]: ...


@overload
def judge_all(tables: Tables, *, workers: int | None = ..., errors: Errors = ..., divisors: Divisors | None = ...,
              ahead: int | None = ..., progress: bool = ...,
              program: Place | None = ...) -> Verdicts[Verdict | RefusedVerdict]: ...


def judge_all(tables: Tables, *, workers: int | None = None, errors: Errors = "row", divisors: Divisors | None = None,
              ahead: int | None = None, progress: bool = False, program: Place | None = None) -> Verdicts[Any]:
    """The verdicts on the tables, in order, as they come.

    There may be any number of tables, from any source. They are taken in the thread of the caller, some ahead of their answers, or at
    most `ahead`: with `ahead=1` each is answered before the next is taken. A table that is refused has a `RefusedVerdict` in the place
    of its answer, or with `errors="raise"` is raised as a Fault, whose `table` is its number, from 0. `workers` is the number of threads
    that share the tables, up to 16, which changes no answer, and helps if the program takes longer than Python. With `progress` a line
    on standard error counts the answers.

    >>> from dollar import Table
    >>> pair = Table([[0, 2], [2, 0]])
    >>> [verdict.winnable for verdict in judge_all(Table(pair, [amount, -1]) for amount in range(4))]
    [False, False, True, True]

    With `divisors` the first parameter is one table, and each of them has amounts for it: a list in the order of the vertices, a dict, or
    a table on the same graph. They may also be an array of numpy or a frame of pandas, a row each. The answers are the same as for the
    table with these amounts, at a small part of the cost. `columns()` of the result has them as arrays. Where there is no library for C,
    a call of `judge` starts the program, which takes as long as some hundred tables of a sweep, or thousands of divisors.

    >>> [verdict.winnable for verdict in judge_all(pair, divisors=([amount, -1] for amount in range(4)))]
    [False, False, True, True]
    """
    return Verdicts(asked(JUDGE, tables, divisors, workers, program, errors, ahead, None, progress))


@overload
def rank_test_all(tables: Tables, degree: int, *, workers: int | None = ..., errors: Literal["raise"], divisors: Divisors | None = ...,
                  ahead: int | None = ..., patience: float | None = ..., progress: bool = ...,
                  program: Place | None = ...) -> RankTests[RankTest]: ...


@overload
def rank_test_all(tables: Tables, degree: int, *, workers: int | None = ..., errors: Errors = ..., divisors: Divisors | None = ...,
                  ahead: int | None = ..., patience: float | None = ..., progress: bool = ...,
                  program: Place | None = ...) -> RankTests[RankTest | RefusedRankTest]: ...


def rank_test_all(tables: Tables, degree: int, *, workers: int | None = None, errors: Errors = "row", divisors: Divisors | None = None,
                  ahead: int | None = None, patience: float | None = None, progress: bool = False,
                  program: Place | None = None) -> RankTests[Any]:
    """The rank tests of a degree, as `judge_all` has verdicts. A test past the limits has no first loss. `patience` is as for `rr_all`.

    >>> from dollar import Table
    >>> pair = Table([[0, 1], [1, 0]])
    >>> [str(test) for test in rank_test_all([Table(pair, [2, 0]), Table(pair, [0, 1])], 2)]
    ['rank at least 2', 'rank below 2 at 0=0 1=2']
    >>> [str(test) for test in rank_test_all(pair, 2, divisors=[[2, 0], {1: 1}])]
    ['rank at least 2', 'rank below 2 at 0=0 1=2']
    """
    degree = within(degree, "the degree", 0, MOST_DEGREE)
    return RankTests(asked(RANK, tables, divisors, workers, program, errors, ahead, patience, progress, degree))


@overload
def rr_all(tables: Tables, *, workers: int | None = ..., errors: Literal["raise"], divisors: Divisors | None = ...,
           ahead: int | None = ..., patience: float | None = ..., progress: bool = ...,
           program: Place | None = ...) -> RiemannRochs[RiemannRoch]: ...


@overload
def rr_all(tables: Tables, *, workers: int | None = ..., errors: Errors = ..., divisors: Divisors | None = ...,
           ahead: int | None = ..., patience: float | None = ..., progress: bool = ...,
           program: Place | None = ...) -> RiemannRochs[RiemannRoch | RefusedRiemannRoch]: ...


def rr_all(tables: Tables, *, workers: int | None = None, errors: Errors = "row", divisors: Divisors | None = None,
           ahead: int | None = None, patience: float | None = None, progress: bool = False,
           program: Place | None = None) -> RiemannRochs[Any]:
    """The four numbers of the tables, as `judge_all` has verdicts. On graphs of many edges some ranks may take long: with `patience` it is a
    TimeoutError if no answer comes for so many seconds, and with `ahead=1` the table is the one whose answer is next.

    >>> from dollar import Table
    >>> pair = Table([[0, 3], [3, 0]])
    >>> [numbers.rank for numbers in rr_all(Table(pair, [amount, 1]) for amount in range(4))]
    [0, 1, 1, 2]
    >>> [numbers.rank for numbers in rr_all(pair, divisors=([amount, 1] for amount in range(4)))]
    [0, 1, 1, 2]
    """
    return RiemannRochs(asked(RR, tables, divisors, workers, program, errors, ahead, patience, progress))
