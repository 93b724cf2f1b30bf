"""Sessions for programs that use asyncio."""

from __future__ import annotations

import asyncio
import contextlib
import functools
import threading
from collections.abc import Awaitable, Callable
from types import TracebackType
from typing import TypeVar

from dollar._answers import Entry
from dollar._program import Place
from dollar._session import Calls, End, Session, Work, one_line, words_of
from dollar._table import Asked, file_and_table, vertices_kept
from dollar._vertices import Vertices, whole

Got = TypeVar("Got")


async def done_by(start: Callable[[Work], object], what: Callable[[], Got], patience: float | None = None) -> Got:
    """What comes of a piece of work that a thread does, in time. It is not begun if this task is cancelled before."""
    loop = asyncio.get_running_loop()
    future: asyncio.Future[Got] = loop.create_future()

    def settle(found: Got, error: BaseException | None) -> None:
        if not future.done():
            if error is None:
                future.set_result(found)
            else:
                future.set_exception(error)

    def then(come: tuple[Got, BaseException | None]) -> None:
        # A loop that is closed waits for nothing.
        with contextlib.suppress(RuntimeError):
            loop.call_soon_threadsafe(settle, *come)

    start(Work(what, then, lambda: not future.cancelled()))
    return await asyncio.wait_for(future, patience)


def in_a_thread(work: Work) -> None:
    """Does a piece of work in a thread, which ends with it."""
    threading.Thread(target=work.do, daemon=True).start()


class AsyncSession(Calls[Awaitable[Entry]]):
    """A session for programs that use asyncio: it has the calls of `Session`, which are awaited. It begins with `async with` or by
    `await AsyncSession.open(..)`; waiting ones hold up nothing else. A task that is cancelled while it waits leaves the session in step.

    >>> import asyncio
    >>> from dollar import Table
    >>> async def play():
    ...     async with AsyncSession(Table([[0, 1], [1, 0]], [2, -1])) as one:
    ...         other = await AsyncSession.open(Table([[0, 1], [1, 0]], [2, -1]), seats=2)
    ...         return str(await one.ask("look")), str(await other.lend(0, seat=2)), await other.close()
    >>> asyncio.run(play())
    ('0 looked 0 0=2 1=-1', '0 moved 0=1 1=0', End(status=0, fault=''))
    """

    def __init__(self, table: Asked, *, seats: int | None = None, cap: int | None = None, workers: int | None = None,
                 patience: float | None = 20.0, program: Place | None = None, keep: Place | None = None) -> None:
        words_of(seats, cap, workers, patience)
        self._make = functools.partial(Session, table, seats=seats, cap=cap, workers=workers, patience=patience, program=program, keep=keep)
        self._made: Session | None = None
        self._table = table
        self._known: Vertices | None = None
        # Who begins it, whose line is played, and what stands for the work on the last one until that is done.
        self._opening, self._turn = asyncio.Lock(), asyncio.Lock()
        self._working: object = None

    async def _begun(self) -> Session:
        """The session. To begin it may take a while, if a long game was kept."""
        async with self._opening:
            if self._made is None:
                self._made = await done_by(in_a_thread, self._make)
        return self._made

    @property
    def session(self) -> Session:
        """The session that is played; its `kept` are the entries that it began with, and `now()` is the table as it stands.
        `help(Session)` has an example."""
        if self._made is None:
            self._made = self._make()
        return self._made

    def _vertices(self) -> Vertices:
        if self._known is None:
            self._known = vertices_kept(file_and_table(self._table)[1])
        return self._known

    @classmethod
    async def open(cls, table: Asked, *, seats: int | None = None, cap: int | None = None, workers: int | None = None,
                   patience: float | None = 20.0, program: Place | None = None, keep: Place | None = None) -> AsyncSession:
        """A session that has begun, with the options of the class; `help(AsyncSession)` has an example."""
        return await cls(table, seats=seats, cap=cap, workers=workers, patience=patience, program=program, keep=keep).__aenter__()

    async def _in_time(self, session: Session, what: Callable[[], Got]) -> Got:
        """What comes of a piece of work, which the thread of the session does as a whole."""
        def work() -> Got:
            try:
                return what()
            finally:
                # Another line may be played by now, if the one that waited for this was cancelled.
                if self._working is mark:
                    self._working = None

        self._working = mark = object()
        try:
            return await done_by(session.worker.start, work, session.patience)
        except asyncio.TimeoutError:
            raise session._silent() from None

    async def __aenter__(self) -> AsyncSession:
        await self._begun()
        return self

    async def __aexit__(self, kind: type[BaseException] | None, error: BaseException | None, trace: TracebackType | None) -> None:
        if kind is not None and self._working is not None:
            # Nobody waits for the answer any more, and it may never come.
            self.kill()
        was_over = self.session.ended is not None
        end = await self.close()
        if end.status and kind is None and not was_over:
            raise self.session._ended(end)

    async def ask(self, line: str) -> Entry:
        """The answer to a line. `help(AsyncSession)` has an example."""
        sent, session = one_line(line), await self._begun()
        session._belongs_here()
        async with self._turn:
            found = await self._in_time(session, lambda: session._exchange(sent))
            if found is None:
                raise session._ended(await self._in_time(session, session._end))
        return session._entry(line, *found)

    async def ask_seat(self, seat: int, line: str) -> Entry:
        """The answer to a line of the seat, a number from 1 on. `help(Table.serve)` has an example."""
        return await self.ask("%d %s" % (whole(seat, "a seat"), line))

    async def close(self) -> End:
        """Ends the session, and returns how it has ended. `help(AsyncSession)` has an example."""
        session = await self._begun()
        async with self._turn:
            return await self._in_time(session, session._end)

    def kill(self) -> None:
        """Ends the program at once, whatever it is doing; `help(dollar.Session.kill)` has an example."""
        if self._made is not None:
            self._made.kill()
