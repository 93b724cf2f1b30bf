"""Playing alone: the page keeps the table and the steps, and each of its questions goes to the program."""
from __future__ import annotations

import asyncio
import json
from typing import Any, Callable, Iterable

from dollar._commands import beside
from dollar.board.game import MOST_LINE, Game, Table
from dollar.board.pages import asset, forward, page
from dollar.board.puzzles import CHAPTERS, CHAPTER_GRAPHS, EACH_CHAPTER, GRAPHS, after, chapter, puzzles
from dollar.board.replay import page as replay_page
from dollar.board.server import Answer, Nothing, Refused, Request, as_json, new_secret, same, text_in
from dollar.board.texts import t
from dollar.board.ways import hint
from dollar._drawing import USUAL, layout
from dollar._program import PATIENCE, Fault, call, fault_of
from dollar._table import EXAMPLES, text_of

MOST_BODY, AT_ONCE, MOST_GAMES = 1 << 24, 3, 8
# How many seconds a rank may take, which on some tables is minutes.
FOR_A_RANK = 5.0
# The most letters of each text of a question.
MOST = {"command": 16, "table": 1 << 21, "places": 1 << 21, "steps": 1 << 22, "degree": 12, "name": 200, "graph": 40, "level": 20,
        "key": 64, "line": MOST_BODY}
# What the program is asked: the words of its command line, and the texts after them, each in a file but for a number.
ASKED = {"judge": (["judge", "--order", "--"], ["table"]), "rehearse": (["rehearse", "--"], ["table", "steps"])}
# What it is asked for the table as a line, whose answer reaches past the limits of one test: with the texts after the table.
BY_LINE: dict[str, list[str]] = {"rr": [], "rank": ["degree"]}


class OwnGame(Game):
    """The game of one page: the lines that were entries, each with its seat."""

    def __init__(self, text: str) -> None:
        super().__init__(text)
        self.turn = asyncio.Lock()
        self.lines: list[str] = []

    async def begin(self, lines: Iterable[str]) -> dict[str, Any]:
        """What the program says to these lines, from the start of the game."""
        self.lines = list(lines)
        answers = await self.start(self.lines)
        wrong = next((answer for answer in answers if not answer[:1].isdigit()), None)
        if wrong is None and len(answers) == len(self.lines):
            return {"status": 0, "out": "".join(answer + "\n" for answer in answers), "err": ""}
        return {"status": 3, "out": "", "err": wrong} if wrong else await self.ended()

    async def play(self, count: int, line: str) -> dict[str, Any]:
        """What the program says to a line after the first so many entries. Those that follow are dropped, and the game begins again."""
        async with self.turn:
            if count < len(self.lines) or self.end:
                said = await self.begin(self.lines[:count])
                if said["status"] != 0:
                    return said
            answer = await self.answer(line)
            if answer is None:
                return await self.ended()
            if not answer[:1].isdigit():
                return {"status": 3, "out": "", "err": answer}
            self.lines.append(line)
            return {"status": 0, "out": answer + "\n", "err": ""}

    async def ended(self) -> dict[str, Any]:
        """What the program has said at its end. If it was ended here, the page begins the game again."""
        await self.close()
        status, text = self.end["status"], self.end["text"]
        return {"status": status or None, "out": "", "err": text or t("requests.ended"), "gone": status == 0}


class Alone:
    """Answers the requests of the page for one player. The program judges each table and each step."""

    def __init__(self, secret: str, table: Table) -> None:
        self.secret, self.table = secret, table
        self.turns = asyncio.Semaphore(AT_ONCE)
        self.games: dict[str, OwnGame] = {}

    async def answer(self, request: Request) -> Answer:
        """What the server says to a request."""
        if not same(request.parts[0], self.secret) or len(request.parts) > 2:
            raise Nothing
        if len(request.parts) == 1:
            return forward(request, self.secret)
        request.known()
        asked = request.method, request.parts[1]
        if asked == ("GET", ""):
            return page("alone.html")
        if asked == ("GET", "start"):
            examples = {file.name: text_of(file) for file in sorted(EXAMPLES.glob("*.json"))}
            return as_json({"name": self.table.name, "table": self.table.text, "examples": examples, "layout": self.table.layout,
                            "graphs": list(GRAPHS),
                            "chapters": [[chapter(i + 1), i * len(EACH_CHAPTER)] for i in range(len(CHAPTER_GRAPHS))]})
        if asked == ("POST", "ask"):
            async with self.turns:
                return as_json(await self.asked(await request.json(MOST_BODY)))
        if request.method == "GET":
            return asset(request.parts[1])
        raise Nothing

    async def asked(self, given: dict[str, Any]) -> dict[str, Any]:
        """What the program says to a question of the page, or a thing that is made of a table that it takes for one."""
        def text(name: str) -> str:
            return text_in(given, name, MOST[name])

        command = text("command")
        if command == "play":
            return await self.play(text("key"), given.get("count"), text("line"))
        if command in ASKED or command in BY_LINE:
            return await question(text)
        table = text("table")
        if command == "begin":
            return await self.begin(table, [line for line in text("steps").split("\n") if line])
        if command == "layout":
            return await self.layout(table, text("places") if "places" in given else None)
        if command == "replay":
            return await self.replay(table, text("steps"), text("name"))
        if command == "puzzle":
            return await self.puzzle(text("graph"), text("level"), table)
        if command == "hint":
            return await made(lambda: {"out": json.dumps(hint(table))})
        raise Refused(400, t("requests.question"))

    async def begin(self, table: str, steps: list[str]) -> dict[str, Any]:
        """Begins a game of a page with some steps. It is known by a key; of too many games the oldest ends."""
        game = OwnGame(table)
        try:
            said = await game.begin(steps)
        except OSError as error:
            return {"status": None, "out": "", "err": str(error)}
        if said["status"] != 0:
            await game.close()
            return said
        said["key"] = new_secret()
        self.games[said["key"]] = game
        if len(self.games) > MOST_GAMES:
            await self.games.pop(next(iter(self.games))).close()
        return said

    async def play(self, key: str, count: Any, line: str) -> dict[str, Any]:
        """What the program says to a line of a page, or None for the status if the game is not there any more."""
        game = self.games.get(key)
        if "\n" in line or not isinstance(count, int) or count < 0:
            raise Refused(400, t("requests.line"))
        if len(line.encode()) > MOST_LINE:
            return {"status": 3, "out": "", "err": "long line"}
        if game is None or count > len(game.lines):
            return {"status": None, "out": "", "err": t("requests.gone"), "gone": True}
        return await asyncio.shield(game.play(count, line))

    async def stop(self) -> None:
        """Ends all games."""
        for game in self.games.values():
            await game.close()

    async def layout(self, table: str, own: str | None) -> dict[str, Any]:
        """The verdict on a table, and if there is one, the places of its vertices."""
        said = await run("judge", table.encode())
        said["err"] = with_value(said["err"], table)
        if said["status"] == 0:
            try:
                made = json.loads(table)
                said["layout"] = await asyncio.to_thread(layout, made, made["amounts"] + USUAL, own)
            except ValueError as error:
                raise Refused(400, str(error)) from None
        return said

    async def puzzle(self, graph: str, level: str, now: str) -> dict[str, Any]:
        """A puzzle, as its name and its table; or that at a step of the way through the chapters."""
        def make() -> dict[str, Any]:
            if graph == CHAPTERS:
                name, table = after(int(level) if level.isdigit() else 0)
                return {"name": name, "table": table}
            name, (table,) = puzzles(graph, level, now)
            return {"name": Table(name, table, level=level).title, "table": table}

        return await made(make)

    async def replay(self, table: str, steps: str, name: str) -> dict[str, Any]:
        """The page that shows the game again."""
        said = await run("rehearse", table.encode(), steps.encode())
        if said["status"] == 0:
            said["page"] = await asyncio.to_thread(replay_page, name, table, steps, said["out"])
        return said


async def question(text: Callable[[str], str]) -> dict[str, Any]:
    """What the program says to a question about a table, whose texts are asked for by their names."""
    command, table = text("command"), text("table")
    if command in ASKED:
        words, names = ASKED[command]
        return await run(*words, *(text(name).encode() for name in names))
    if command not in BY_LINE:
        raise Nothing
    line = table.replace("\n", " ").encode() + b"\n"
    said = await run(command, "--lines", "--", line, *map(text, BY_LINE[command]), patience=FOR_A_RANK)
    # What is refused in a line is a fault, as for one table.
    return {"status": 3, "out": "", "err": said["out"][len("refused "):].rstrip("\n")} if said["out"].startswith("refused ") else said


def with_value(fault: str, table: str) -> str:
    """A fault with the value in the table, and with the limit."""
    return ": ".join(filter(None, [fault, beside(fault, table.encode())]))


async def made(make: Callable[[], dict[str, Any]]) -> dict[str, Any]:
    """What is made by runs of the program, or its fault."""
    try:
        return {"status": 0, "out": "", "err": "", **await asyncio.to_thread(make)}
    except Fault as fault:
        return {"status": fault.status, "out": "", "err": fault.text}
    except ValueError as error:
        raise Refused(409, str(error)) from None


async def run(*words: str | bytes, patience: float = PATIENCE) -> dict[str, Any]:
    """The program's status, its answer and its fault, or that it was too late. A word as bytes stands for a file."""
    try:
        out, said, status = await asyncio.to_thread(call, words, None, patience)
    except TimeoutError as error:
        return {"status": None, "out": "", "err": str(error), "late": True}
    except (OSError, ValueError) as error:
        return {"status": None, "out": "", "err": str(error)}
    return {"status": status, "out": out.decode(), "err": fault_of(said, status).text if status else ""}
