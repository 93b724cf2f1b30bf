"""A game on a live program, which the pages of one player and of a class share."""
from __future__ import annotations

import asyncio
import contextlib
import json
from typing import Any, Callable, Sequence

from dollar.board.texts import t
from dollar._drawing import USUAL, layout
from dollar._grammar import limit
from dollar._program import PATIENCE, command_line, fault_of

MOST_SEATS, MOST_LINE = limit("dg_rules::MAX_SEATS"), limit("dg_session::MAX_LINE")
PIECE = 1 << 16


class Table:
    """A table to play on: its name, its text, and where its vertices stand; if it is a puzzle, also its level, which players are not told."""

    def __init__(self, name: str, text: str, own: str | None = None, laid: Any = None, level: str = "") -> None:
        made = json.loads(text)
        self.name, self.text, self.own, self.layout = name, text, own, laid or layout(made, made["amounts"] + USUAL, own)
        self.level = level

    @property
    def title(self) -> str:
        """The name, with the level if there is one."""
        return t("puzzles.name", self.name, t("puzzles." + self.level)) if self.level else self.name


def tables_of(name: str, texts: list[str], level: str = "") -> list[Table]:
    """Tables of these texts, which are on the same graph."""
    first = Table(name, texts[0], level=level)
    return [first, *(Table(name, text, laid=first.layout, level=level) for text in texts[1:])]


class Game:
    """A `dollar serve` with all seats at the other end of a pipe. `end` says how it has ended, if it has."""

    def __init__(self, text: str) -> None:
        self.text = text
        # There once it was started.
        self.child: Any = None
        self.watching: Any = None
        self.end: Any = None

    async def start(self, lines: Sequence[str] = (), ended: Callable[[], None] = lambda: None) -> list[str]:
        """Starts the program, again if it was started before, and gives its answers to some lines, all of which are written at once. If it
        ends before that, there are fewer. `ended` is called when it ends later."""
        await self.close()
        with command_line(["serve", self.text.encode(), "--seats", str(MOST_SEATS)], None) as (line, descriptors):
            self.child = await asyncio.create_subprocess_exec(
                *line, stdin=asyncio.subprocess.PIPE, stdout=asyncio.subprocess.PIPE, stderr=asyncio.subprocess.PIPE,
                start_new_session=True, pass_fds=descriptors)
        self.end = None
        self.watching = asyncio.ensure_future(self.watch(self.child, ended))
        return await self.answers(lines)

    async def watch(self, child: Any, ended: Callable[[], None]) -> None:
        """Waits for the end of the program."""
        said = await child.stderr.read()
        status = await child.wait()
        if child is self.child:
            self.end = {"status": status, "text": fault_of(said, status).text}
            ended()

    async def answers(self, lines: Sequence[str]) -> list[str]:
        """The answers to some lines. They are read while the lines are written, since a pipe holds only so much."""
        writing = asyncio.ensure_future(self.write("".join(line + "\n" for line in lines).encode()))
        pieces, left = [], len(lines)
        try:
            while left > 0:
                piece = await asyncio.wait_for(self.child.stdout.read(PIECE), PATIENCE)
                if not piece:
                    break
                pieces.append(piece)
                left -= piece.count(b"\n")
        except asyncio.TimeoutError:
            self.child.kill()
        finally:
            await writing
        # What has no newline is no whole answer.
        return b"".join(pieces).decode().split("\n")[:-1]

    async def write(self, data: bytes) -> None:
        with contextlib.suppress(ConnectionError):
            self.child.stdin.write(data)
            await self.child.stdin.drain()

    async def answer(self, line: str) -> str | None:
        """The answer to a line of one of the seats, or None at the end of the game."""
        return next(iter(await self.answers([line])), None)

    async def close(self) -> None:
        """Ends the input of the program, and with it the game."""
        if self.child is None:
            return
        with contextlib.suppress(ConnectionError):
            self.child.stdin.close()
        try:
            await asyncio.wait_for(self.child.wait(), PATIENCE)
        except asyncio.TimeoutError:
            self.child.kill()
            await self.child.wait()
        await self.watching
