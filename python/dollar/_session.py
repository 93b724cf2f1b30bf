"""A program at the other end of a pipe, which answers line by line."""

from __future__ import annotations

import fcntl
import functools
import json
import os
import queue
import re
import subprocess
import threading
import weakref
from collections.abc import Callable, Mapping, Set as AbstractSet
from types import TracebackType
from typing import Any, Generic, NamedTuple, TypeVar

from dollar._answers import Entry, History, numbered, pairs_of, vertices_of
from dollar._commands import more_of, option
from dollar._grammar import limit
from dollar._program import Fault, Place, command_line, ended_by, fault_of, talk
from dollar._table import Asked, Table, file_and_table, made_of, vertices_kept
from dollar._vertices import Vertex, Vertices, seconds, whole

LONGEST_LINE = limit("dg_session::MAX_LINE")
# How many kept lines are played at once: their answers fit a pipe.
AT_ONCE = 32
# The answers that have the position in them.
POSITION = re.compile(r"\d+ (?:moved|given \d+|joined \d+|looked \d+) (.*)", re.ASCII)
Got = TypeVar("Got")


class End(NamedTuple):
    """How a session has ended: its status, which is less than 0 if a signal ended it, and what the program said on standard error, or why
    it was killed. `help(dollar.Session)` has an example."""

    status: int
    fault: str


class Ended(Fault):
    """The session has ended instead of giving an answer, or had ended before. `text` says why, `fault` is the whole line that the program
    said, and `answers` the number of lines that were answered. `help(dollar.Session)` has an example."""

    def __init__(self, end: End, answers: int = 0, more: str = "") -> None:
        super().__init__(fault_of(end.fault.encode(), end.status, ended_by(end.status, answers)).text, end.status, None, more)
        self.args, self.fault, self.answers = (end, answers, more), end.fault, answers

    def __str__(self) -> str:
        return "the session has ended with status %d: %s%s" % (self.status, self.text, self.more and ": " + self.more)


def one_line(line: str) -> bytes:
    """The bytes of a line, which is given without its newline. A ValueError if that is not a line of a session."""
    if not isinstance(line, str):
        raise TypeError("a line is a text, and not %r" % (line,))
    if "\n" in line:
        raise ValueError("a line has a newline in it: %r" % line)
    try:
        sent = line.encode()
    except UnicodeEncodeError:
        raise ValueError("a line has half a character in it") from None
    if len(sent) > LONGEST_LINE:
        raise ValueError("a line has %d bytes, and only %d are possible" % (len(sent), LONGEST_LINE))
    return sent


class Work(NamedTuple):
    """What a thread is to do as a whole; who takes what comes of it, or the error; and whether it is still wanted when its turn comes."""

    what: Callable[[], Any]
    then: Callable[[tuple[Any, BaseException | None]], object]
    is_wanted: Callable[[], bool] = lambda: True

    def do(self) -> None:
        if self.is_wanted():
            try:
                found = self.what(), None
            except BaseException as error:
                self.then((None, error))
            else:
                self.then(found)


def work_on(works: queue.SimpleQueue[Work | None], child: subprocess.Popen[bytes]) -> None:
    """Does one piece of work after another. A None is the last: the session is over, and if it was given up without being closed, the
    program is ended."""
    while True:
        work = works.get()
        if work is None:
            child.communicate()
            return
        work.do()
        # What was done knows its session, which may be given up meanwhile.
        del work


class Worker:
    """A thread that talks with a program: each piece of work is done as a whole, whatever happens in the thread that waits for it."""

    def __init__(self, child: subprocess.Popen[bytes]) -> None:
        self.works: queue.SimpleQueue[Work | None] = queue.SimpleQueue()
        self.turn, self.is_over = threading.Lock(), False
        threading.Thread(target=work_on, args=(self.works, child), daemon=True).start()

    def start(self, work: Work) -> None:
        """Has the thread do a piece of work after those before it. Once the thread has ended, there is nothing to wait for."""
        with self.turn:
            is_over = self.is_over
            if not is_over:
                self.works.put(work)
        if is_over:
            work.do()

    def end(self) -> None:
        """Ends the thread after all that it was given to do."""
        with self.turn:
            if not self.is_over:
                self.is_over = True
                self.works.put(None)


class Keeping:
    """A file that keeps a game: the table in its first line, and then each line that made an entry, and the entry below it."""

    def __init__(self, place: Place, table: bytes) -> None:
        self.place = place
        first = json.dumps(json.loads(table)).encode() + b"\n"
        self.file = open(place, "a+b", buffering=0)
        try:
            fcntl.flock(self.file, fcntl.LOCK_EX | fcntl.LOCK_NB)
            self.file.seek(0)
            text = self.file.read()
            if not (text.startswith(first) or first.startswith(text)):
                raise ValueError("%s keeps a game on another table" % os.fspath(place))
            *lines, _ = text[len(first):].split(b"\n")
            # What has no answer was not told.
            self.pairs = list(zip(lines[::2], lines[1::2]))
            self.size = len(first) + sum(len(line) + len(answer) + 2 for line, answer in self.pairs)
            self.file.truncate(self.size if text.startswith(first) else 0)
            if not text.startswith(first):
                self.file.write(first)
        except BlockingIOError:
            self.file.close()
            raise ValueError("%s keeps the game of a session that still runs" % os.fspath(place)) from None
        except BaseException:
            self.file.close()
            raise

    def add(self, line: bytes, answer: bytes) -> None:
        """Keeps an entry: wholly, or else not at all."""
        pair = line + b"\n" + answer
        try:
            if self.file.write(pair) != len(pair):
                raise OSError("the disk is full")
        except OSError:
            self.file.truncate(self.size)
            raise
        self.size += len(pair)

    def close(self) -> None:
        self.file.close()


def words_of(seats: int | None, cap: int | None, workers: int | None, patience: float | None) -> list[str]:
    """The words for the options of a session, if they are within the limits."""
    seconds(patience)
    return [*option("seats", seats), *option("cap", cap), *option("workers", workers)]


class Calls(Generic[Got]):
    """The calls of a game by its vertices, for which a session makes the lines. Where lines have seats, `seat` is the one that calls."""

    def ask(self, line: str) -> Got:
        raise NotImplementedError

    def ask_seat(self, seat: int, line: str) -> Got:
        raise NotImplementedError

    def _vertices(self) -> Vertices:
        raise NotImplementedError

    def _call(self, seat: int | None, command: str, *words: object) -> Got:
        line = " ".join([command, *map(str, words)])
        return self.ask(line) if seat is None else self.ask_seat(seat, line)

    def _name(self, vertex: Vertex) -> str:
        found = self._vertices()
        return found.names[found.place(vertex)]

    def lend(self, vertex: Vertex, *, seat: int | None = None) -> Got:
        """The answer to `lend`, by any vertex of the table.

        >>> with Session(Table.of_edges([((0, 0), (0, 1))], {(0, 0): 2, (0, 1): -1})) as session:
        ...     print(session.lend((0, 0)), "|", session.gift((0, 1), 3), "|", session.fire({(0, 0), (0, 1)}))
        ...     session.now().divisor
        0 moved v0=1 v1=0 | 1 given 1 v0=1 v1=3 | 2 moved v0=1 v1=3
        {(0, 0): 1, (0, 1): 3}
        """
        return self._call(seat, "lend", self._name(vertex))

    def borrow(self, vertex: Vertex, *, seat: int | None = None) -> Got:
        """The answer to `borrow`, by any vertex of the table; `help(dollar.Session.lend)` has an example."""
        return self._call(seat, "borrow", self._name(vertex))

    def fire(self, script: AbstractSet[Any] | Mapping[Any, int], *, seat: int | None = None) -> Got:
        """The answer to `fire` with a set of vertices, each of which lends once, or to `script` with a dict of how often each lends;
        `help(dollar.Session.lend)` has an example."""
        if isinstance(script, Mapping):
            pairs = ["%s=%d" % (self._name(vertex), whole(times, "how often a vertex lends")) for vertex, times in script.items()]
            return self._call(seat, "script", ",".join(pairs))
        if not isinstance(script, AbstractSet):
            raise TypeError("what fires is a set of vertices, or a dict of how often each lends, and not %r" % (script,))
        found = self._vertices()
        return self._call(seat, "fire", ",".join(found.names[place] for place in sorted(map(found.place, script))))

    def gift(self, vertex: Vertex, dollars: int, *, seat: int | None = None) -> Got:
        """The answer to `gift`, by any vertex of the table; `help(dollar.Session.lend)` has an example."""
        return self._call(seat, "gift", self._name(vertex), whole(dollars, "the gift"))

    def join(self, u: Vertex, v: Vertex, *, seat: int | None = None) -> Got:
        """The answer to `join`, by any two vertices of the table; `help(dollar.Session.now)` has an example."""
        return self._call(seat, "join", self._name(u), self._name(v))


class Session(Calls[Entry]):
    """A session on a table: a line is asked, and answered before the next. With `seats` it is one for many people, where each line
    has the number of a seat before it, and each seat keeps a look of its own.

    It may be used with `with` and without; any thread may ask. A line and its answer belong together, even if an interrupt comes in
    between: each exchange is made as a whole, so that nothing is left unread.

    >>> from dollar import Table
    >>> with Session(Table([[0, 1], [1, 0]], [2, -1])) as session:
    ...     for line in "look", "lend 0", "jump", "claim":
    ...         print(session.ask(line))
    0 looked 0 0=2 1=-1
    1 moved 0=1 1=0
    bad word
    2 won

    A line of a stranger that is not a line is a ValueError, and is not sent:

    >>> session = Session(Table([[0, 1], [1, 0]], [2, -1]), cap=1)
    >>> session.ask("look\\nclaim")
    Traceback (most recent call last):
        ...
    ValueError: a line has a newline in it: 'look\\nclaim'

    If the session ends instead of giving an answer, that is an `Ended`, and so is each later line:

    >>> session.ask("claim").word
    'not won'
    >>> session.ask("claim")
    Traceback (most recent call last):
        ...
    dollar.Ended: the session has ended with status 3: the history is full
    >>> session.close()
    End(status=3, fault='dollar: the history is full')

    `cap` is the most entries that the history may have, and `workers` the number of threads that share a rank test. A program that says
    nothing for `patience` seconds is killed, and `TimeoutError` raised; with None there is no such limit.

    With `keep` each entry is written to a file before you get it, and a session on the same table goes on from that file: `kept` are the
    entries in it. The file has the table in its first line, and then each line that made an entry, and the entry below it.
    """

    def __init__(self, table: Asked, *, seats: int | None = None, cap: int | None = None, workers: int | None = None,
                 patience: float | None = 20.0, program: Place | None = None, keep: Place | None = None) -> None:
        self.patience, self.turn, self.table, self.answers, self.process = patience, threading.RLock(), table, 0, os.getpid()
        self.ended: End | None = None
        # Why this process has killed the program, if it has.
        self.why: str | None = None
        self.reads_seats = seats is not None
        words = words_of(seats, cap, workers, patience)
        file, kept = file_and_table(table)
        self.kept_table, self.vertices = kept, vertices_of(kept)
        # The last amounts that were told, and the edges that were added.
        self._amounts: str | None = None
        self._joins: list[tuple[str, str]] = []
        with command_line(["serve", file, *words], program) as (line, descriptors):
            self.child = talk(line, descriptors, subprocess.PIPE)
        try:
            self.worker = Worker(self.child)
        except BaseException:
            # There may be no more threads.
            self.child.kill()
            self.child.communicate()
            raise
        weakref.finalize(self, self.worker.end)
        self.keeping: Keeping | None = None
        self.kept = History()
        if keep is not None:
            try:
                self._go_on(keep, file)
            except BaseException:
                self.kill()
                raise

    def _go_on(self, place: Place, file: bytes) -> None:
        """Has the program give the entries that a file keeps, and adds to them from now on."""
        keeping = Keeping(place, file)
        try:
            for at in range(0, len(keeping.pairs), AT_ONCE):
                pairs = keeping.pairs[at:at + AT_ONCE]
                found = self._in_time(functools.partial(self._exchange_all, [line for line, _ in pairs]))
                for (line, text), answer in zip(pairs, found):
                    if answer != text + b"\n":
                        raise ValueError("%s keeps a game that this program and table do not have: %s" % (
                            os.fspath(place), self._differs(self.answers + 1, text, answer)))
                    self._note(line, answer)
                    self.kept.append(self._entry(line.decode(), text.decode(), self.answers))
        except BaseException:
            keeping.close()
            raise
        self.keeping = keeping

    def _differs(self, number: int, text: bytes, answer: bytes) -> str:
        """How the answer with a number differs from the one that is kept."""
        if answer.endswith(b"\n"):
            return "its answer %d is %r, and the program's %r" % (number, text.decode(), answer.decode().rstrip("\n"))
        ended = self._ended(self._in_time(self._end))
        return "its answer %d is %r, and there the session has ended: %s" % (number, text.decode(), ended.text)

    def _entry(self, line: str, text: str, step: int) -> Entry:
        """The entry that answers a line of the session, as the so-manyth."""
        found = re.fullmatch("([1-9][0-9]?) (.*)", line, re.DOTALL) if self.reads_seats else None
        seat, own = (int(found[1]), found[2]) if found else (None, line)
        return numbered(text, vertices=self.vertices, seat=seat, line=own, step=step)

    def _vertices(self) -> Vertices:
        return vertices_kept(self.kept_table)

    def __enter__(self) -> Session:
        return self

    def __exit__(self, kind: type[BaseException] | None, error: BaseException | None, trace: TracebackType | None) -> None:
        was_over = self.ended is not None
        end = self.close()
        if end.status and kind is None and not was_over:
            raise self._ended(end)

    def ask(self, line: str) -> Entry:
        """The answer to a line, which is given without its newline. A ValueError if it is not a line, or has more than 1,024 bytes; then
        nothing is sent. `Ended` if the session ends instead. `help(Session)` has an example."""
        sent = one_line(line)
        return self._entry(line, *self._answer(sent))

    def ask_seat(self, seat: int, line: str) -> Entry:
        """The answer to a line of the seat, a number from 1 on. `help(Table.serve)` has an example."""
        return self.ask("%d %s" % (whole(seat, "a seat"), line))

    def ask_bytes(self, line: bytes) -> str:
        """The text of the answer to a line as bytes, any but a newline. `help(Session)` has an example of `ask`."""
        if b"\n" in line:
            raise ValueError("a line has a newline in it: %r" % line)
        return self._answer(line)[0]

    def now(self) -> Table[Any]:
        """The table as it stands, with the edges that were joined: so a game can go on from here in another session.

        >>> with Session(Table([[0, 1], [1, 0]], [2, -1])) as session:
        ...     session.join(0, 1).word, session.lend(0).word
        ...     session.now().edges, session.now().amounts
        ('joined', 'moved')
        (((0, 1, 2),), (0, 1))
        """
        with self.turn:
            amounts, joins = self._amounts, list(self._joins)
        table = made_of(self.kept_table)
        assert table is not None
        return table._joined(joins, None if amounts is None else pairs_of(amounts, table._vertices))

    def kill(self) -> None:
        """Ends the program at once, whatever it is doing. A line that waits for its answer is an `Ended`.

        >>> session = Session(Table([[0, 1], [1, 0]], [2, -1]))
        >>> session.kill()
        >>> session.close().fault
        'it was killed by `kill`'
        """
        self._belongs_here()
        self._kill("it was killed by `kill`")

    def _kill(self, why: str) -> None:
        """Ends the program for a reason, and then the thread."""
        if self.ended is None:
            self.why = self.why or why
            self.child.kill()
            self.worker.start(Work(self._end, id))

    def _answer(self, line: bytes) -> tuple[str, int]:
        """The text of the answer to a line, and how many lines were answered with it."""
        self._belongs_here()
        with self.turn:
            found = self._in_time(lambda: self._exchange(line))
            if found is not None:
                return found
            end = self.close()
        raise self._ended(end)

    def _belongs_here(self) -> None:
        if os.getpid() != self.process:
            raise ValueError("the session belongs to the process %d, which began it" % self.process)

    def _ended(self, end: End) -> Ended:
        """The error for a line that has no answer any more, with the value and the limit."""
        ended = Ended(end, self.answers)
        return Ended(end, self.answers, more_of(ended.text, self.table, self.kept_table))

    def close(self) -> End:
        """Ends the input, which ends the session. Returns how it has ended, the same at each call. `help(Session)` has an example."""
        with self.turn:
            return self.ended or self._in_time(self._end)

    def _exchange(self, line: bytes) -> tuple[str, int] | None:
        """The text of the answer to a line, and how many were answered with it; None if the session has ended instead."""
        if self.ended is not None:
            return None
        answer, = self._exchange_all([line])
        if not answer.endswith(b"\n"):
            return None
        if self.keeping is not None and answer[:1].isdigit():
            try:
                self.keeping.add(line, answer)
            except OSError as error:
                # What is not kept is not told, and ends the game, so that it can be gone on with from what is kept.
                self.why = "%s: %s" % (os.fspath(self.keeping.place), error.strerror or error)
                self.child.kill()
                return None
        return self._note(line, answer), self.answers

    def _note(self, line: bytes, answer: bytes) -> str:
        """Counts an answer, and notes what it tells of the table. Gives its text."""
        self.answers += 1
        text = answer[:-1].decode()
        found = POSITION.fullmatch(text)
        if found:
            self._amounts = found[1]
            if " joined " in text:
                *_, u, v = line.decode().split(" ")
                self._joins.append((u, v))
        return text

    def _exchange_all(self, lines: list[bytes]) -> list[bytes]:
        """The answers to some lines, which fit a pipe, each with its end."""
        assert self.child.stdin is not None and self.child.stdout is not None
        try:
            self.child.stdin.write(b"".join(line + b"\n" for line in lines))
            self.child.stdin.flush()
        except OSError:
            pass  # It has ended: there is no answer to be read, and standard error says why.
        return [self.child.stdout.readline() for _ in lines]

    def _end(self) -> End:
        if self.ended is None:
            said = self.child.communicate()[1].decode(errors="replace").rstrip("\n")
            self.ended = End(self.child.returncode, said if self.why is None else self.why)
            if self.keeping is not None:
                self.keeping.close()
            self.worker.end()
        return self.ended

    def _in_time(self, what: Callable[[], Got]) -> Got:
        """What comes of a piece of work. Another thread does each as a whole, so that an interrupt in this one cuts none in two."""
        # A queue, since an interrupt may come at any moment, and leaves no lock of Python's own in its hands.
        done: queue.SimpleQueue[tuple[Got, BaseException | None]] = queue.SimpleQueue()
        self.worker.start(Work(what, done.put))
        try:
            found, error = done.get(timeout=self.patience)
        except queue.Empty:
            raise self._silent() from None
        if error is not None:
            raise error
        return found

    def _silent(self) -> TimeoutError:
        """Kills a program that said nothing for too long. Gives the error for that."""
        self._kill("nothing for %s seconds, after which it was killed" % self.patience)
        return TimeoutError("the program said nothing for %s seconds, and was killed" % self.patience)
