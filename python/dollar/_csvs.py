"""CSV files of the answers of a sweep, which can be continued after an interrupt; `python3 -m dollar sweep` writes them too."""

from __future__ import annotations

import contextlib
import csv
import functools
import itertools
import os
import re
import zlib
from collections.abc import Callable, Iterable, Iterator, Sequence
from typing import IO, Any

from dollar._answers import pairs_text
from dollar._columns import Columns
from dollar._commands import members_kept
from dollar._program import Place
from dollar._readers import RANK, Batch, is_array
from dollar._sweeps import Answers, Job, Progress
from dollar._table import vertices_kept

TRUTHS = "false", "true"
Row = Sequence[Any]


class Layout:
    """What a CSV file has of a sweep: the number of a row, from 0; a checksum of what was asked; the divisor; the answer; and why there is
    none. Divisors of one table, and what their answers tell of each vertex, have a column for each vertex, as `divisor_a`. Tables may have
    different vertices; so these have one text, as the program prints it."""

    def __init__(self, job: Job) -> None:
        self.job, self.start = job, zlib.crc32(job.asked)
        question, vertices = job.question, job.vertices
        # How many numbers stand before those of the vertices, and what stands beside them.
        self.plain, self.degree = bool(question.truth) + len(question.numbers), [job.degree] if question is RANK else []
        first = [*([question.truth] if question.truth else []), *(["degree"] if self.degree else []), *question.numbers]
        asked, vectors = ["divisor"], list(question.vectors)
        if vertices is not None:
            asked, vectors = [["%s_%s" % (each, name) for each in kinds for name in vertices.names] for kinds in (asked, vectors)]
        self.header = ["number", "crc32", *asked, *first, *vectors, "refused"]
        self.nothing, self.no_vectors = [""] * len(first + vectors), [""] * len(vectors)

    def checksum(self, kept: Any) -> str:
        """The checksum of the command, the table and the line that were asked."""
        return "%08x" % zlib.crc32(self.job.line(kept), self.start)

    def rows(self, batch: Batch, number: int) -> Iterator[Row]:
        """The rows of some answers, of which the first has this number."""
        kept = map(tuple, batch.kept.tolist()) if is_array(batch.kept) else batch.kept
        asked: Callable[[Any], Row] = divisor_text
        if self.job.table is not None:
            asked = functools.partial(amounts_of, len(self.job.table))
        for at, (its, numbers) in enumerate(zip(kept, zip(*batch.columns))):
            reason = batch.faults.get(at)
            if reason is None or self.job.is_unnamed(reason):
                yield [number + at, self.checksum(its), *asked(its), *self.answer(numbers, its, reason), ""]
            else:
                yield [number + at, self.checksum(its), *asked(its), *self.nothing, reason]

    def answer(self, numbers: Row, kept: Any, reason: str | None) -> Row:
        """What is told of a table; without a first loss if that is not named."""
        first, rest = numbers[:self.plain], numbers[self.plain:]
        if self.job.question.truth:
            first = [TRUTHS[first[0]], *self.degree]
        if reason is not None:
            return [*first, *self.no_vectors]
        if self.job.table is None and rest:
            names = vertices_kept(kept).names
            rest = [pairs_text(dict(zip(names, rest[at:]))) for at in range(0, len(rest), len(names))]
        return [*first, *rest]


def divisor_text(kept: Any) -> Row:
    """The amounts of a table, as the program prints them; nothing if it is none."""
    try:
        members = members_kept(kept)
        return [pairs_text(dict(zip(members["vertices"], members["amounts"])))]
    except (LookupError, TypeError, ValueError, RecursionError):
        return [""]


def amounts_of(size: int, kept: Any) -> Row:
    """The amounts of a divisor; if it is a line of a file, and has other words or not so many, nothings."""
    if not isinstance(kept, bytes):
        row: Row = kept
        return row
    words = kept.decode(errors="replace").rstrip("\n").split(" ")
    return words if len(words) == size and all(re.fullmatch(r"-?\d+", word, re.ASCII) for word in words) else [""] * size


def rows_of_columns(columns: Columns) -> Iterator[Row]:
    """The rows of columns."""
    found = [column.tolist() for column in columns.values()]
    return zip(*([TRUTHS[number] for number in column] if at in ("winnable", "holds") else column for at, column in zip(columns, found)))


def rows_there(place: Place, layout: Layout) -> tuple[int, int]:
    """How many whole rows a file has, and how many bytes these are with the header. For each a table is left out, which must be the one that
    the row is about."""
    other = "%s has the rows of another sweep: %%s; nothing was changed" % os.fspath(place)
    count = size = 0
    with open(place, "rb") as file:
        for line in file:
            text = line.decode("utf-8", "replace")
            if size == 0 and not (",".join(layout.header) + "\n").startswith(text):
                raise ValueError(other % "its header is not %s" % ",".join(layout.header))
            if not line.endswith(b"\n"):
                break
            if size > 0:
                kept = list(layout.job.left_out(1))
                if not kept:
                    raise ValueError(other % "it has more than the %d of this one" % count)
                if not text.startswith("%d,%s," % (count, layout.checksum(kept[0]))):
                    raise ValueError(other % "row %d is about something else" % count)
                count += 1
            size += len(line)
    return count, size


def to_csv(answers: Answers[Any] | Columns, file: Place | IO[str], *, go_on: bool = False, progress: bool = False) -> int:
    """Writes a CSV file of the answers of a sweep, or of columns. `file` is its place, or a file that is open for writing. Returns the number
    of rows.

    A row of a sweep has its number, from 0, a checksum of what was asked, the divisor, the answer, and in the last column why a table was
    refused. With `go_on` an existing file is continued after its last whole row, as after an interrupt, by the same sweep from its start;
    what it has is not asked again, and rows of another sweep are a ValueError. With `progress` a line on standard error counts the rows.

    Nothing is written before there is an answer: so a program that is not found, or a wrong call, leaves a file as it was.

    >>> import sys
    >>> from dollar import Table, judge_all, rr_all
    >>> to_csv(rr_all([Table([[0, 3], [3, 0]], [1, 1]), {"vertices": []}]), sys.stdout)
    number,crc32,divisor,degree,genus,rank,dual,refused
    0,4fad34b2,0=1 1=1,2,2,1,0,
    1,d5aef361,,,,,,shape of top
    2
    >>> to_csv(judge_all(Table([[0, 2], [2, 0]]), divisors=[[3, -1], [0, -1]]).columns(), sys.stdout)
    winnable,script_0,script_1,reduced_0,reduced_1
    true,0,-1,1,1
    false,0,-1,-2,1
    2
    """
    if isinstance(answers, Columns):
        if go_on:
            raise ValueError("columns are written as a whole: only the answers of a sweep can be gone on with")
        with opened(file, 0) as out:
            write(out, list(answers), [rows_of_columns(answers)])
        return answers.count
    if not isinstance(answers, Answers):
        raise TypeError("a CSV file has what judge_all, rank_test_all or rr_all give, or columns of that, and not a thing of the type %s"
                        % type(answers).__name__)
    job = answers._taken("a CSV file")
    layout, count, size = Layout(job), 0, 0
    if go_on and isinstance(file, (str, os.PathLike)) and os.path.exists(file):
        count, size = rows_there(file, layout)
    job.progress = Progress(progress, "rows", count)
    with contextlib.closing(job.batches(count)) as batches:
        first = next(batches, None)
        with opened(file, size) as out:
            found = batches if first is None else itertools.chain([first], batches)
            write(out, [] if size else layout.header, (layout.rows(batch, number) for number, batch in found))
    return job.progress.count


@contextlib.contextmanager
def opened(file: Place | IO[str], size: int) -> Iterator[IO[str]]:
    """A file that is written, or gone on with after so many bytes."""
    if not isinstance(file, (str, os.PathLike)):
        yield file
        return
    if size:
        os.truncate(file, size)
    with open(file, "a" if size else "w", newline="", encoding="utf-8") as out:
        yield out


def write(out: IO[str], header: list[str], pieces: Iterable[Iterable[Row]]) -> None:
    """Writes the header, if there is one, and the rows; each piece of them is in the file before the next is asked for."""
    writer = csv.writer(out, lineterminator="\n")
    if header:
        writer.writerow(header)
    for rows in pieces:
        writer.writerows(rows)
        out.flush()
