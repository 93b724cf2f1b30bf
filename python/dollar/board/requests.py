"""What the pages of a class ask: pupils, who know one secret, and the teacher, who knows another."""
from __future__ import annotations

import asyncio
import re
from typing import Any, Awaitable, Callable

from dollar.board.alone import question, with_value
from dollar.board.classroom import SWITCHES, Classroom
from dollar.board.game import MOST_LINE, MOST_SEATS, Table, tables_of
from dollar.board.pages import asset, forward, page
from dollar.board.puzzles import CHAPTERS, graphs, in_chapters, in_rising, puzzles
from dollar.board.qr import code
from dollar.board.replay import page as replay_page
from dollar.board.results import sheet
from dollar.board.room import Room
from dollar.board.seats import Seat, clean
from dollar.board.server import LETTERS, Answer, Nothing, Refused, Request, as_json, new_secret, same, text_in
from dollar.board.texts import t
from dollar._program import PATIENCE, Fault, printed

MOST_BODY, MOST_TABLE = 1 << 14, 1 << 22
# What may be meant as a short code, and what is counted as a wrong one.
MEANT, COUNTED = re.compile(r"[A-Za-z0-9-]{1,12}\Z"), re.compile("[%s]{6}\\Z" % LETTERS, re.I)
FILES = {"table.json": "application/json", "steps.txt": "text/plain", "history.txt": "text/plain"}


class Requests:
    """Answers the requests for a class. The teacher may be heard from this machine alone."""

    def __init__(self, room: Classroom, teacher_here: bool = False) -> None:
        self.room, self.teacher_here = room, teacher_here

    async def answer(self, request: Request) -> Answer:
        """What the server says to a request."""
        room = self.room
        teaches = same(request.parts[0], room.teacher) and (request.is_local or not self.teacher_here)
        knows = teaches or same(request.parts[0], room.secret)
        if len(request.parts) == 1 and knows:
            return forward(request, request.parts[0])
        if len(request.parts) == 1 and room.seats.is_open and request.method == "GET":
            return self.at_the_door(request)
        if not knows or len(request.parts) != 2:
            raise Nothing
        asked = request.parts[1]
        request.known() if teaches else request.is_guest()
        if request.method == "GET":
            return self.given(asked, request, teaches)
        given = await request.json(MOST_TABLE if teaches else MOST_BODY)
        return await (self.teachers(asked, given) if teaches else self.pupils(asked, given, request))

    def at_the_door(self, request: Request) -> Answer:
        """What is said to an address of one part while the door is open: the short code leads to the pupils' address, and what may have been
        meant for it to a page with a field. Few wrong codes are looked at."""
        word, tries = request.query.get("code", request.parts[0]), self.room.seats.tries
        if word == "page.css":
            return asset(word)
        is_code = COUNTED.match(word.replace("-", "")) and tries.takes(request.peer, 0)
        if is_code and same(word, self.room.short):
            return forward(request, self.room.secret)
        if is_code:
            tries.takes(request.peer)
        if not MEANT.match(word):
            raise Nothing
        return page("wrong.html", 404)

    def given(self, asked: str, request: Request, teaches: bool) -> Answer:
        """What a page gets that plays nothing."""
        room = self.room
        if asked == "start":
            room.settle()
            own = {"places": room.places(), "named": [table.name for table in room.tables], "graphs": graphs()} if teaches else {}
            return as_json({"role": "teacher" if teaches else "pupil", "address": room.address, "short": room.short,
                            "code": code("http://%s/%s" % (room.place, room.short)), "size": room.size,
                            "kept": room.keeper is not None, **own, **room.told_first(room.feed, teaches)})
        if asked == "events":
            mark, seat = begin_at(request), None
            if "key" in request.query and not teaches:
                seat = room.seats.of(request.query["key"])
                request.known()
            return 200, "text/event-stream", lambda gone: room.events(gone, mark, seat, teaches)
        if teaches and asked == "results.csv":
            return 200, "text/csv", sheet(room.results())
        if teaches and asked in FILES:
            return 200, FILES[asked], self.file(asked, room_in(request.query.get("room", "1"))).encode()
        return asset(asked) if asked else page("class.html")

    # Pupils.

    async def pupils(self, asked: str, given: dict[str, Any], request: Request) -> Answer:
        if asked == "join":
            return self.join(given, request.peer)
        if asked not in ("line", "undo", "redo", "hint", "cant", "next", "rename", "leave"):
            raise Nothing
        seat = self.room.seats.of(text_in(given, "key", 64))
        if asked == "rename":
            self.room.seats.rename(seat, text_in(given, "name", 200))
            self.room.changed()
            return as_json({"name": seat.name})
        if asked == "leave":
            await self.room.leave(self.room.seats.free(seat.number, False))
            return as_json({})
        room = self.room.room_of(seat)
        stage = given.get("stage", room.stage)
        if given.get("feed", room.feed.key) != room.feed.key or type(stage) is not int or stage != room.stage:
            raise Refused(409, t("class.new-table"))
        if asked == "line":
            return await self.line(seat, room, text_in(given, "line", MOST_BODY), request)
        self.permits({"hint": "hints", "undo": "undo", "redo": "undo"}.get(asked))
        acts: dict[str, Callable[[str], Awaitable[Any]]] = {
            "undo": room.undo, "redo": room.redo, "hint": lambda _: self.hint(seat, room), "cant": room.judge,
            "next": lambda name: room.onward(name, stage, lambda: self.room.remember(self.room.lines_of(room)))}
        return await self.done(asked, seat, room, request, lambda: acts[asked](seat.name))

    def join(self, given: dict[str, Any], peer: str) -> Answer:
        """Gives a seat: a new one, or the one whose word is said. With an empty word it is only told whether somebody of this name
        is away, who may be the same."""
        seats, name = self.room.seats, text_in(given, "name", 200)
        browser = text_in(given, "browser", 64) if "browser" in given else None
        word = text_in(given, "word", 64) if "word" in given else None
        if word:
            return as_json(seats.back(name, word, peer).told())
        away = seats.away(name) if word == "" else None
        if away and not (browser and away.browser == browser):
            return as_json({"away": away.name})
        seat, is_new = seats.join(name, browser, peer, self.room.used())
        if is_new:
            self.room.changed()
        return as_json(seat.told())

    async def hint(self, seat: Seat, room: Room) -> Any:
        """A move that helps, one at a time for each seat."""
        if seat.asks:
            raise Refused(429, t("class.fast"))
        seat.asks = True
        try:
            return await room.hint(seat.name)
        finally:
            seat.asks = False

    def permits(self, switch: str | None) -> None:
        """Refuses what the teacher does not permit."""
        if switch and not self.room.may[switch]:
            raise Refused(409, t("class.off", t("may." + switch, houses=self.room.may["houses"])))

    async def line(self, seat: Seat, room: Room, line: str, request: Request) -> Answer:
        """Plays a line of a seat, and gives the answer."""
        if "\n" in line:
            raise Refused(400, t("class.newline"))
        if len(("%d %s" % (seat.number, line)).encode()) > MOST_LINE:
            raise Refused(400, t("class.long", MOST_LINE))
        for switch, words in SWITCHES.items():
            if line.split(" ")[0] in words:
                self.permits(switch)
        stage = room.stage
        return await self.done("answer", seat, room, request, lambda: self.play(seat, room, line, stage))

    async def done(self, called: str, seat: Seat, room: Room, request: Request, act: Callable[[], Awaitable[Any]]) -> Answer:
        """What comes of an act of a seat in its room, if it may act now, with how many items its page has to draw until it shows that. It
        goes on also if who asked has gone meanwhile."""
        if self.room.paused:
            raise Refused(409, t("class.stopped"))
        if not seat.takes():
            raise Refused(429, t("class.fast"))
        request.known()
        seat.waiting += 1
        stage = room.stage
        try:
            came = None if self.room.over else await asyncio.shield(asyncio.ensure_future(act()))
        except (OSError, ValueError, Fault) as error:
            raise Refused(503, t("class.no-start", error)) from None
        finally:
            seat.waiting -= 1
        if came is None and (self.room.rooms.get(room.number) is not room or stage != room.stage):
            raise Refused(409, t("class.new-table"))
        if came is None:
            raise Refused(503, t("class.ended"))
        return as_json({called: came, "items": len(room.feed.items)})

    async def play(self, seat: Seat, room: Room, line: str, stage: int) -> str | None:
        answer = await room.ask(seat.number, line, seat.name, stage)
        if answer is not None and answer[:1].isdigit():
            seat.played += 1
        return answer

    # The teacher.

    async def teachers(self, asked: str, given: dict[str, Any]) -> Answer:
        room = self.room
        if asked == "free":
            await room.leave(room.seats.free(given.get("seat"), given.get("bar") is True))
        elif asked == "pause":
            room.paused = given.get("paused") is True
        elif asked == "door":
            room.seats.is_open = given.get("open") is True
        elif asked == "seats":
            self.more_seats(given.get("count"))
        elif asked == "may":
            room.may = {switch: given.get(switch, now) is True for switch, now in room.may.items()}
        elif asked == "show":
            room.shown, room.picture = text_in(given, "what", 8), None
        elif asked == "ask":
            return as_json(await question(lambda name: text_in(given, name, MOST_TABLE)))
        elif asked == "picture":
            # What the teacher has asked about a board is shown on the wall, and the board is large there.
            room.picture, room.shown = given, str(room_in(given.get("room", 1))) if room.size else "all"
        elif asked == "place":
            if given.get("place") not in room.places():
                raise Refused(409, t("teacher.no-address"))
            room.place = room.chosen = given["place"]
        elif asked == "end":
            room.over = True
            await room.stop()
        elif asked == "again":
            await self.again()
        elif asked == "table":
            await self.hand_out(given)
        elif asked == "move":
            room.teacher = new_secret()
            room.changed()
            return as_json({"secret": room.teacher})
        elif asked == "replay":
            return await self.replay(room_in(given.get("room", 1)))
        else:
            raise Nothing
        room.changed()
        return as_json({})

    def more_seats(self, count: Any) -> None:
        seats = self.room.seats
        if type(count) is not int or not seats.most <= count <= MOST_SEATS:
            raise Refused(409, t("teacher.few-seats", seats.most, MOST_SEATS))
        seats.most = count

    async def again(self) -> None:
        """Starts the programs that have ended again, with all entries that there were."""
        if not self.room.over and not any(room.end for room in self.room.rooms.values()):
            raise Refused(409, t("teacher.goes-on"))
        try:
            for room in list(self.room.rooms.values()):
                await room.again()
        except (OSError, ValueError, Fault) as error:
            raise Refused(503, t("teacher.no-restart", error)) from None
        self.room.over = False

    async def hand_out(self, given: dict[str, Any]) -> None:
        """Hands out another table: one that was named, a puzzle, one that is given, or the same again."""
        size = given.get("size", self.room.size)
        if type(size) is not int or not 0 <= size <= self.room.seats.most:
            raise Refused(400, t("teacher.no-room"))
        try:
            handed = await asyncio.to_thread(self.wanted, given, size)
        except (Fault, ValueError) as fault:
            raise Refused(409, with_value(fault.text, given.get("table", "")) if isinstance(fault, Fault) else str(fault)) from None
        await self.room.hand_out(handed, size)

    def wanted(self, given: dict[str, Any], size: int) -> list[list[Table]]:
        """The tables that are wanted, of each stage, for rooms of a size. Raises a Fault where one is none."""
        room = self.room
        if "graph" in given:
            count = -(-room.seats.most // size) if given.get("each") is True and size else 1
            graph, level = text_in(given, "graph", 40), text_in(given, "level", 20)
            now = room.handed[0][0].text
            if graph == CHAPTERS:
                return [tables_of(*stage) for stage in in_chapters(count)]
            if level == "rising":
                return [tables_of(*stage) for stage in in_rising(graph, now, count)]
            return [tables_of(*puzzles(graph, level, now, count), level)]
        if "table" in given:
            text = text_in(given, "table", MOST_TABLE)
            printed("judge", text.encode(), patience=PATIENCE)
            places = text_in(given, "places", MOST_TABLE) if "places" in given else None
            return [[Table(clean(text_in(given, "name", 200)) or t("tables.unnamed"), text, places)]]
        if given.get("all") is True:
            return [[table] for table in room.tables]
        return [[table] for table in room.tables if table.name == given.get("named")][:1] or room.handed

    async def replay(self, number: int) -> Answer:
        """The page that shows the game of a room."""
        rooms, steps, history = self.room.rooms, self.file("steps.txt", number), self.file("history.txt", number)
        try:
            table = self.room.table(number)
            lines = await asyncio.to_thread(printed, "rehearse", table.text.encode(), steps.encode(), patience=PATIENCE)
            names = [entry.name for entry in rooms[number].entries] if number in rooms else []
            made = await asyncio.to_thread(replay_page, table.title, table.text, steps, lines, history, table.own, names)
        except (Fault, TimeoutError) as fault:
            raise Refused(409, t("teacher.no-replay", fault)) from None
        return as_json({"page": made})

    def file(self, name: str, number: int) -> str:
        """The text of a file that is taken along, of a room."""
        if name == "table.json":
            return self.room.table(number).text
        if number not in self.room.rooms:
            return ""
        room = self.room.rooms[number]
        room.saved = len(room.entries)
        return room.steps() if name == "steps.txt" else room.history()


def begin_at(request: Request) -> tuple[str | None, int]:
    """The mark from which on a page wants to be told: after a break the one after the last that it had."""
    mark = request.headers.get("last-event-id") or str(request.query.get("from", "0"))
    found = re.match(r"(?:([a-z0-9-]{1,12})\.)?([0-9]{1,6})\Z", mark)
    if not found:
        raise Nothing
    return found[1], int(found[2])


def room_in(word: Any) -> int:
    """The number of a room."""
    if not re.match(r"[0-9]{1,2}\Z", str(word)):
        raise Nothing
    return int(word)
