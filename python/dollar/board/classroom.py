"""A class: pupils with seats, and the tables that the teacher hands out to them one after another. All share one, or so many are in a
room, perhaps one alone. A click is a line, and what is drawn is what came back; the lines of a room are put to its program one
after another, and its pages see each entry as it comes. The pages of the teacher and of those who only watch see all rooms."""
from __future__ import annotations

import asyncio
import time
from collections import Counter
from typing import Any, AsyncIterator, Callable, Iterable

from dollar.board.game import Table, tables_of
from dollar.board.keeping import Keeper
from dollar.board.reckoning import Reckoner
from dollar.board.results import line_of
from dollar.board.room import Feed, Room, event
from dollar.board.seats import Follower, Seat, Seats
from dollar.board.server import new_secret

HEARTBEAT, SHORT = 5.0, 6
# Pages are told together what comes within so many seconds.
TOGETHER = 0.03
BEAT = event("beat", {})
# What the teacher permits, and the first words of the lines that fall under it.
SWITCHES: dict[str, list[str]] = {"gifts": ["gift"], "edges": ["join"], "questions": ["look", "commit", "rank", "script"], "undo": [],
                                  "hints": [], "houses": []}
# What is permitted at first on boards that not all share.
IN_ROOMS = "undo", "hints"


class Classroom:
    """`tables` are those that were named, and the first of them is handed out. A room is for so many seats; if that is 0, one is for all.
    `handed` has what rooms play on one after another: the tables of each stage, one for all rooms or one for each. `past` has what was
    reached on the tables before, and by those who have left."""

    def __init__(self, tables: list[Table], seats: int, size: int = 0, keeper: Keeper | None = None) -> None:
        kept = keeper.found if keeper else {}
        self.tables, self.keeper, self.seats = tables, keeper, Seats(seats, kept)
        self.secret, self.teacher = kept.get("secret") or new_secret(), kept.get("teacher") or new_secret()
        self.short = kept.get("short") or new_secret().replace("-", "")[:SHORT]
        self.paused, self.over, self.shown = False, False, kept.get("shown", "all")
        self.followers: set[Follower] = set()
        self.told_state: dict[bool, tuple[int, bytes]] = {}
        self.soon: asyncio.TimerHandle | None = None
        self.last, self.changes = 0.0, 0
        self.reckoner, self.past = Reckoner(), keeper.results() if keeper else []
        # Where others find this: by a place, and by more from which the teacher chooses.
        self.place, self.chosen, self.port = "", "", 0
        self.places: Callable[[], list[str]] = list
        self.set_tables([tables[:1]], kept.get("size", size), 1)
        self.may = {**dict.fromkeys(SWITCHES, False), "houses": True, **usual(self.size), **kept.get("may", {})}
        if keeper:
            keeper.failed = self.alter
            self.find(keeper, kept)

    def set_tables(self, handed: list[list[Table]], size: int, turn: int) -> None:
        self.handed, self.size, self.turn, self.feed = handed, size, turn, Feed()
        self.rooms: dict[int, Room] = {}
        self.picture: dict[str, Any] | None = None

    def table(self, number: int) -> Table:
        """The table on which a room is."""
        return self.tables_of(number)[self.rooms[number].stage if number in self.rooms else 0]

    def tables_of(self, number: int) -> list[Table]:
        """The tables of a room, one after another."""
        return [tables[(number - 1) % len(tables)] for tables in self.handed]

    def find(self, keeper: Keeper, kept: dict[str, Any]) -> None:
        """Goes on with what was kept. Raises ValueError if that was another table, or has been changed."""
        first, turn = keeper.stages(1), kept.get("turn", 1)
        if first and first[0][1] != [self.tables[0].text]:
            raise ValueError("%s keeps a class on another table" % keeper.folder)
        if turn > 1:
            stages = keeper.stages(turn)
            if not stages:
                raise ValueError("%s has lost its table %d" % (keeper.folder, turn))
            self.set_tables([tables_of(*stage) for stage in stages], self.size, turn)
        for number in keeper.rooms(turn):
            self.room(number)

    async def start(self) -> None:
        """Begins, with all that was kept."""
        self.beat()
        for room in list(self.rooms.values()):
            if room.entries:
                await room.begin()
        if self.keeper and not self.keeper.stages(self.turn):
            self.keep_tables(self.keeper)

    def keep_tables(self, keeper: Keeper) -> None:
        keeper.hand_out(self.turn, [[tables[0].name, [table.text for table in tables], tables[0].level] for tables in self.handed])

    async def stop(self) -> None:
        for room in list(self.rooms.values()):
            await room.finish()
        await self.reckoner.end()

    def last_words(self) -> str:
        """What is to be said before the games are lost."""
        lost = sum(len(room.entries) - room.saved for room in self.rooms.values() if not (room.kept and room.kept.is_kept))
        return "" if not lost else "Entries that were not saved from the teacher's page: %d. Once more ends the game, and drops them." % lost

    # Rooms.

    def room(self, number: int) -> Room:
        """The room of a number. It is made when it is asked for first."""
        if number not in self.rooms:
            kept = self.keeper and self.keeper.room(self.turn, number, self.seats.most)
            texts = [table.text for table in self.tables_of(number)]
            self.rooms[number] = Room(number, texts, self.feed, self.told, self.changed, self.reckoner, kept)
        return self.rooms[number]

    def number_of(self, seat: Seat) -> int:
        """The number of the room of a seat."""
        return (seat.number - 1) // self.size + 1 if self.size else 1

    def room_of(self, seat: Seat) -> Room:
        return self.room(self.number_of(seat))

    def names_in(self, number: int) -> list[str]:
        """Who plays in a room."""
        return [seat.name for seat in self.seats.taken.values() if self.number_of(seat) == number]

    def used(self) -> Counter[int]:
        """How many entries each seat has, also of those who sat there before."""
        return Counter(entry[0] for room in self.rooms.values() for entry in room.entries)

    async def hand_out(self, handed: list[list[Table]], size: int) -> None:
        """Hands out other tables. The games on those before end."""
        old = list(self.rooms.values())
        self.remember(line for room in old for line in self.lines_of(room))
        if (size > 0) != (self.size > 0):
            self.may.update(usual(size))
        self.set_tables(handed, size, self.turn + 1)
        self.over, self.shown = False, "all" if self.shown.isdigit() else self.shown
        if self.keeper:
            self.keep_tables(self.keeper)
        self.changed()
        for room in old:
            await room.finish()

    async def leave(self, seat: Seat) -> None:
        """Somebody has left a seat, whose line stays. If nobody else is in the room, it begins afresh for the next."""
        number = self.number_of(seat)
        if number in self.rooms:
            room = self.rooms[number]
            self.remember(self.lines_of(room, [seat.name]))
            if self.size and not self.names_in(number):
                await room.afresh()
        self.changed()

    # What was reached.

    def lines_of(self, room: Room, names: list[str] | None = None) -> list[list[Any]]:
        """What those in a room have reached on its table."""
        return [line_of(name, room, self.table(room.number)) for name in (self.names_in(room.number) if names is None else names)]

    def remember(self, lines: Iterable[list[Any]]) -> None:
        """Keeps lines that will not change any more."""
        for line in lines:
            self.past.append(line)
            if self.keeper:
                self.keeper.past.add(line)

    def results(self) -> list[list[Any]]:
        """What all have reached, on the tables before and on those of now."""
        return [*self.past, *(line for number in sorted(self.rooms) for line in self.lines_of(self.rooms[number]))]

    # What all are told.

    def told_first(self, feed: Feed, teaches: bool) -> dict[str, Any]:
        """What a page needs to draw the games of a feed from their beginning: the tables of the rooms, or that of its own. The level of a
        puzzle, which may say that it can't be won, is for the teacher alone."""
        stages = [[table] for table in self.tables_of(feed.room)] if feed.room else self.handed
        told, *later = [{"name": tables[0].title if teaches else tables[0].name, "tables": [table.text for table in tables],
                         "layout": tables[0].layout} for tables in stages]
        return {"feed": feed.key, "room": feed.room, "turn": self.turn, **told, "later": later}

    @property
    def address(self) -> str:
        """The pupils' address."""
        return "http://%s/%s/" % (self.place, self.secret)

    def changed(self) -> None:
        """There is something new beside entries."""
        self.alter()
        if self.keeper:
            self.keeper.save({"secret": self.secret, "teacher": self.teacher, "short": self.short, "port": self.port, "turn": self.turn,
                              "size": self.size, "may": self.may, "shown": self.shown, **self.seats.kept()})

    def alter(self) -> None:
        """The pages are to be told the state again."""
        self.changes += 1
        self.told()

    def told(self) -> None:
        """Wakes the pages: at once, or a little later if they were just told something, so that many entries are told together."""
        if self.soon is None:
            self.soon = asyncio.get_running_loop().call_later(max(0, self.last + TOGETHER - time.monotonic()), self.tell)

    def tell(self) -> None:
        self.soon, self.last = None, time.monotonic()
        for follower in self.followers:
            follower.woken.set()

    def settle(self) -> None:
        """If this machine is in another network now, goes on at an address that it has, and back at the chosen one when it has that again."""
        places = self.places()
        self.chosen = self.chosen or self.place
        place = next((each for each in (self.chosen, self.place, *places) if each in places), self.place)
        if place != self.place:
            self.place = place
            self.changed()

    def beat(self) -> None:
        """Has something be sent to all pages now and then, so that a connection that is gone is noticed."""
        self.settle()
        for follower in self.followers:
            follower.is_due = True
            follower.woken.set()
        asyncio.get_running_loop().call_later(HEARTBEAT, self.beat)

    def state(self, teaches: bool) -> bytes:
        """Who is there, and what goes on, as an event, whose bytes pages share. The words of the seats, and what the disk has not taken, are
        for the teacher alone."""
        if self.told_state.get(teaches, (-1, b""))[0] != self.changes:
            seats = self.seats.taken.values()
            names = {seat.number: {"name": seat.name, "here": seat.page is not None, "room": self.number_of(seat),
                                   **({"word": seat.word} if teaches else {})} for seat in seats}
            self.told_state[teaches] = self.changes, event("state", {
                "names": names, "paused": self.paused, "open": self.seats.is_open, "may": self.may, "size": self.size, "shown": self.shown,
                "address": self.address, "over": self.over, "picture": self.picture, "seats": self.seats.most,
                "fault": self.keeper.fault if teaches and self.keeper else "",
                "ends": {room.number: room.end for room in self.rooms.values() if room.end}})
        return self.told_state[teaches][1]

    async def events(self, gone: asyncio.Future[Any], mark: tuple[str | None, int], seat: Seat | None, teaches: bool) -> AsyncIterator[bytes]:
        """The table, the state and the entries, from a mark on, as they come, until the page has gone, or its seat was freed or is open
        in a newer one. A mark is the key of a feed and a number; of another feed all is told."""
        follower, seen = Follower(gone), -1
        key, number = mark
        self.followers.add(follower)
        if seat:
            if seat.page:
                seat.page.end("asleep")
            seat.page, seat.opened = follower, True
            self.changed()
        try:
            while follower.goes_on():
                feed = self.room_of(seat).feed if seat else self.feed
                if key != feed.key:
                    key, number = feed.key, 0
                    yield event("table", self.told_first(feed, teaches), "%s.0" % key)
                elif seen != self.changes:
                    seen = self.changes
                    yield self.state(teaches)
                elif number < len(feed.items):
                    number, said = feed.event(number)
                    yield said
                elif follower.is_due:
                    follower.is_due = False
                    yield BEAT
                else:
                    await follower.sleep()
            if not gone.done():
                yield event(follower.word, {})
        finally:
            self.followers.discard(follower)
            if seat and seat.page is follower:
                seat.page, seat.seen = None, time.monotonic()
                self.changed()


def usual(size: int) -> dict[str, bool]:
    """What is permitted at first: on boards that not all share, what helps a pupil alone, and no words that show how it is done."""
    return {**dict.fromkeys(IN_ROOMS, size > 0), "questions": size == 0}
