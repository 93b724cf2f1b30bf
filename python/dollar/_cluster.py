"""Asks a command about each line of a file, on the processors of this machine or on a Dask cluster, and writes a CSV file.

    python3 -m dollar sweep [--scheduler ADDRESS | --processes N] [--program PROGRAM] judge|rr FILE CSV
    python3 -m dollar sweep [..] rank FILE K CSV
    python3 -m dollar sweep [..] judge|rr TABLE --divisors LINES CSV
    python3 -m dollar sweep [..] rank TABLE K --divisors LINES CSV

The lines of FILE are tables, as for the program's --lines; the lines of LINES are divisors of the table TABLE, as for its --divisors. N
runs of the program go on at once, by default one for each processor of this machine. With --scheduler the workers of the Dask cluster
at ADDRESS run it instead, and PROGRAM is its path there, by default the one that is found here. Dask is the Python module
`distributed`, in Debian the package python3-distributed. Each run takes as many lines as last about half a second.

The CSV file is that of `dollar.to_csv`: a row for each line, in order, with its number from 0, a checksum of what was asked, the divisor,
the answer, and in the last column why it was refused. If the file exists, the sweep goes on after its last whole row, so the same command
resumes an interrupted sweep. A file with the rows of another sweep is refused, and not changed. If a run or a worker dies, its lines are
done again. On a terminal the number of rows is shown as it grows, and after ten seconds without a row that the next take long."""

from __future__ import annotations

import argparse
import asyncio
import collections
import concurrent.futures
import functools
import importlib
import json
import logging
import os
import subprocess
import sys
import time
from collections.abc import Callable, Iterator, Sequence
from concurrent.futures import Future, ThreadPoolExecutor
from typing import Any

from dollar._csvs import to_csv
from dollar._program import command_line, find_program, typed
from dollar._readers import JUDGE, RANK, RR
from dollar._sweeps import Answers, Job, Progress
from dollar._table import Table, members

# How long a run is to need for its lines; how many bytes they have at most; how many lines the first runs have; and how often a run that
# is killed is tried.
SECONDS, MOST_BYTES, FIRST, TRIES = 0.5, 1 << 19, 8, 4
# How long no worker may be there before that is told; what the program takes for all lines, in seconds, below which a cluster is of no use;
# and how long Python takes to begin, and for a row.
PATIENCE, SMALL, BEGIN, ROW = 10.0, 10.0, 0.3, 1e-5
GONE = "the scheduler is gone; the same command goes on after the last row"


def answered(words: Sequence[str | bytes], lines: bytes, program: str) -> tuple[bytes, float]:
    """The answers to some lines, by a run of the program, and how many seconds it took. If a run is killed, there is another."""
    began = time.monotonic()
    with command_line(words, program) as (line, descriptors):
        for _ in range(TRIES):
            # An interrupt at the terminal is for Python.
            done = subprocess.run(line, input=lines, stdout=subprocess.PIPE, stderr=subprocess.PIPE, pass_fds=descriptors, start_new_session=True)
            if done.returncode >= 0:
                break
    if done.returncode:
        raise ChildProcessError("%s ended with status %d: %s" % (program, done.returncode, done.stderr.decode(errors="replace").strip()))
    return done.stdout, time.monotonic() - began


class Runs:
    """So many runs of the program at once on this machine, for which one asks as one asks a client of Dask. A thread waits for each."""

    def __init__(self, count: int) -> None:
        self.count, self.pool = count, ThreadPoolExecutor(count)

    def __enter__(self) -> Runs:
        return self

    def __exit__(self, *_: object) -> None:
        self.pool.shutdown(cancel_futures=True)

    def nthreads(self) -> dict[str, int]:
        return {"here": self.count}

    def submit(self, do: Callable[..., Any], *given: Any, **_: Any) -> Future[Any]:
        return self.pool.submit(do, *given)


class Pace:
    """How many lines are taken at once, by what those before took."""

    def __init__(self) -> None:
        self.count, self.seconds, self.lines = FIRST, 0.0, 0

    def took(self, count: int, seconds: float) -> None:
        self.seconds, self.lines = self.seconds + seconds, self.lines + count
        wanted = int(count * SECONDS / max(seconds, 0.001))
        self.count = max(min(wanted, 4 * self.count), self.count // 4, 1)


def chunks(lines: Iterator[bytes], pace: Pace) -> Iterator[list[bytes]]:
    """The lines, some at once."""
    chunk: list[bytes] = []
    size = 0
    for line in lines:
        chunk.append(line)
        size += len(line)
        if len(chunk) >= pace.count or size >= MOST_BYTES:
            yield chunk
            chunk, size = [], 0
    if chunk:
        yield chunk


def threads_of(client: Any) -> int:
    """How many threads the workers have. A scheduler that can't be asked any more is gone."""
    try:
        return sum(client.nthreads().values())
    except OSError:
        raise ValueError(GONE) from None


def result_of(client: Any, future: Any, count: int, progress: Progress) -> Any:
    """What comes of a run for so many lines. If it takes long, that is told, and if there is no worker, that one is waited for."""
    told: set[bool] = set()
    while True:
        try:
            return future.result(timeout=PATIENCE)
        except (TimeoutError, asyncio.TimeoutError, concurrent.futures.TimeoutError):
            has_worker = threads_of(client) > 0
            if has_worker in told:
                continue
            told.add(has_worker)
            if has_worker:
                progress.tell(", and no answer yet to the next %d\n" % count)
            else:
                print("%s: the scheduler has no worker, and one is waited for: `dask worker ADDRESS` begins one" % typed("sweep"), file=sys.stderr)
        except (concurrent.futures.CancelledError, asyncio.CancelledError):
            raise ValueError(GONE) from None
        except ModuleNotFoundError as error:
            raise ValueError("a worker has %s: install it on each machine, and the same command goes on" % str(error).lower()) from None


def pieces_of(client: Any, pace: Pace, job: Job) -> Iterator[tuple[bytes, list[bytes]]]:
    """What the program prints to the lines of a sweep, in order, and these. A few chunks for each thread of the cluster are under way at
    once."""
    under_way: collections.deque[Any] = collections.deque()
    program = find_program() if job.program is None else os.fspath(job.program)

    def first() -> tuple[bytes, list[bytes]]:
        chunk, future = under_way.popleft()
        out, seconds = result_of(client, future, len(chunk), job.progress)
        pace.took(len(chunk), seconds)
        if out.count(b"\n") != len(chunk):
            raise ValueError("%s gave %d answers to %d lines" % (program, out.count(b"\n"), len(chunk)))
        return out, chunk

    for chunk in chunks(job.kept, pace):
        under_way.append((chunk, client.submit(answered, job.words, b"".join(chunk), program, pure=False, retries=3)))
        while under_way and (len(under_way) >= 4 * max(threads_of(client), 1) or under_way[0][1].done()):
            yield first()
    while under_way:
        yield first()


def swept(client: Any, job: Job, place: str) -> Pace:
    """Writes the rows that the CSV file does not have yet. Tells how long the program took for them."""
    pace = Pace()
    job.pieces = functools.partial(pieces_of, client, pace)
    to_csv(Answers(job), place, go_on=True, progress=sys.stderr.isatty())
    return pace


def number_from(least: int) -> Callable[[str], int]:
    """What reads a number of processes, or the degree of a rank test."""
    def read(word: str) -> int:
        if not word.isdecimal() or int(word) < least:
            raise argparse.ArgumentTypeError("%r, and only a whole number from %d on is possible" % (word, least))
        return int(word)

    return read


def words_of(arguments: list[str]) -> argparse.Namespace:
    text = (__doc__ or "").split("\n\n", 2)
    usage = text[1].strip().replace("python3 -m dollar sweep", typed("sweep")).replace("\n", "\n   ")
    parser = argparse.ArgumentParser(prog=typed("sweep"), description=text[0], epilog=text[2], usage=usage,
                                     formatter_class=argparse.RawDescriptionHelpFormatter)
    where = parser.add_mutually_exclusive_group()
    where.add_argument("--scheduler", metavar="ADDRESS", help="the cluster to use")
    where.add_argument("--processes", metavar="N", type=number_from(1), default=os.cpu_count(), help="the number of runs at once on this machine")
    parser.add_argument("--program", help="the path of the program")
    commands = parser.add_subparsers(dest="command", required=True, metavar="judge|rank|rr")
    for question in (JUDGE, RANK, RR):
        of = commands.add_parser(question.command, prog=typed("sweep") + " " + question.command)
        of.add_argument("file", metavar="FILE", help="the tables, one on each line; or with --divisors one table")
        if question is RANK:
            of.add_argument("degree", metavar="K", type=number_from(0), help="how many dollars are lost")
        of.add_argument("--divisors", metavar="LINES", help="a file with amounts for the table on each line")
        of.add_argument("csv", metavar="CSV", help="the file that is written, or gone on with")
    return parser.parse_args(arguments)


def lines_of(place: str) -> Iterator[bytes]:
    """Each line of a file, with a newline at its end."""
    with open(place, "rb") as file:
        for line in file:
            yield line if line.endswith(b"\n") else line + b"\n"


def job_of(given: argparse.Namespace, program: str | None) -> Job:
    """The sweep that some words ask for."""
    question = {"judge": JUDGE, "rank": RANK, "rr": RR}[given.command]
    degree = given.degree if question is RANK else 0
    more = [str(degree)] if question is RANK else []
    if given.divisors is None:
        job = Job(question, lines_of(given.file), bytes, [question.command, "--lines", "/dev/stdin", *more, "--numbers"], program)
    else:
        table = members(given.file)
        words: list[str | bytes] = [question.command, table, *more, "--divisors", "/dev/stdin", "--numbers"]
        job = Job(question, lines_of(given.divisors), bytes, words, program, Table(json.loads(table)))
    job.degree = degree
    return job


def small(job: Job, pace: Pace) -> str | None:
    """What is said of a sweep that was too small for a cluster: runs at once on this machine are sooner done, or one run is."""
    if pace.seconds >= SMALL:
        return None
    runs = os.cpu_count() or 1
    sooner = "`--processes %d` without a cluster" % runs
    if BEGIN + ROW * pace.lines + pace.seconds / runs >= pace.seconds:
        sooner = "one run of `dollar %s` with %s" % (job.question.command, "--lines" if job.table is None else "--divisors")
    return "the program took %.1f s for these lines: that is too little for a cluster, and %s does it sooner" % (pace.seconds, sooner)


def main(arguments: list[str]) -> int:
    given = words_of(arguments)
    with open(given.divisors or given.file, "rb"):
        pass
    if given.scheduler:
        try:
            dask = importlib.import_module("distributed")
        except ModuleNotFoundError as error:
            raise ValueError("this Python, %s, has %s" % (sys.executable, str(error).lower())) from error
        logging.disable()
        job = job_of(given, given.program or find_program())
        try:
            with dask.Client(given.scheduler) as client:
                said = small(job, swept(client, job, given.csv))
        except dask.comm.CommClosedError:
            raise ValueError(GONE) from None
        if said is not None:
            print("%s: %s" % (typed("sweep"), said), file=sys.stderr)
    else:
        job = job_of(given, find_program(given.program))
        with Runs(given.processes) as runs:
            swept(runs, job, given.csv)
    return 0
