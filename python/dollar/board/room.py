"""The rooms of a class: each has a game on a program of its own, which is started when it is needed, and what was reached in it."""
from __future__ import annotations

import asyncio
import contextlib
import json
import time
from typing import Any, Callable, NamedTuple, Sequence, Union

from dollar._answers import numbered, verdict_of
from dollar.board.game import Game
from dollar.board.reckoning import Reckoner
from dollar.board.server import Refused, new_secret
from dollar.board.texts import t
from dollar._program import PATIENCE, Fault, printed

BATCH, LETTERS = 400, 9
# How many moves a wrong answer costs.
WRONG = 3
# The replies to what has changed the board.
CHANGES = "moved", "given", "joined"


def event(kind: str, thing: Any, number: Any = None) -> bytes:
    """An event for a page, with the mark at which it goes on after a break."""
    name = "" if number is None else "id: %s\n" % number
    return ("%sevent: %s\ndata: %s\n\n" % (name, kind, json.dumps(thing))).encode()


class Played(NamedTuple):
    """An entry, with the name of the pupil who sat there."""

    seat: int
    line: str
    answer: str
    name: str


class Rewound(NamedTuple):
    """Somebody took entries back, or played again what was taken back last; so many entries are left."""

    left: int
    name: str


class Noted(NamedTuple):
    """Somebody was `helped` by a hint, `judged` that it can't be done, which is right if the number is 1, or went `onward` to a table, where
    the room begins afresh; or the number is the `least` of moves by which the table can be won."""

    number: int
    kind: str
    name: str


Item = Union[Played, Rewound, Noted]


def as_thing(item: Item) -> dict[str, Any]:
    """An item as it is in JSON."""
    return {"kind": "played" if isinstance(item, Played) else "rewound", **item._asdict()}


class Feed:
    """What has come, in its order, for the pages that follow it: items, each with the number of its room, and what changed with it there."""

    def __init__(self, room: int | None = None) -> None:
        self.room, self.key = room, new_secret()[:LETTERS]
        self.items: list[tuple[int, Item, dict[str, Any]]] = []
        self.said: tuple[Any, bytes] = None, b""

    def event(self, number: int) -> tuple[int, bytes]:
        """The next items from a number on as an event, and the number after them. Pages that are equally far share its bytes."""
        end = min(len(self.items), number + BATCH)
        if self.said[0] != (number, end):
            things = [{"room": room, **as_thing(item), "now": now} for room, item, now in self.items[number:end]]
            self.said = (number, end), event("entries", [number, things], "%s.%d" % (self.key, end))
        return end, self.said[1]


class Standing:
    """What was reached on one table of a room: whether it is done, and in how few moves without help, or by saying that it can't be done;
    the fewest moves that there can be, once that is known; and hints, wrong answers, and moves that were taken back."""

    def __init__(self, stage: int = 0) -> None:
        self.stage, self.is_done, self.is_right = stage, False, False
        self.best: int | None = None
        self.least: int | None = None
        self.hints, self.wrongs, self.backs = 0, 0, 0

    def changes(self, before: dict[str, Any]) -> dict[str, Any]:
        """What is otherwise than before."""
        return {name: value for name, value in vars(self).items() if name not in before or before[name] != value}


class Room(Game):
    """A game of some pupils with its entries, on the first of some tables, and then on the next ones. What was taken back can be played
    again until there is another entry. `told` is called when there is something new, and `changed` when the game has ended."""

    def __init__(self, number: int, texts: list[str], whole: Feed, told: Callable[[], None], changed: Callable[[], None],
                 reckoner: Reckoner, kept: Any = None) -> None:
        super().__init__(texts[0])
        self.texts, self.standing, self.reckoner = texts, Standing(), reckoner
        # So many moves are to be made until somebody may say again that it can't be done.
        self.due = 0
        self.number, self.feeds, self.told, self.changed, self.kept = number, [Feed(number), whole], told, changed, kept
        self.turn, self.saved, self.restarts = asyncio.Lock(), 0, False
        self.entries: list[Played] = []
        self.undone: list[list[Played]] = []
        # How many moves were made until each entry, and whether dollars or edges came from outside.
        self.made: list[tuple[int, bool]] = [(0, False)]
        # When something was last reached, and what is being measured.
        self.when: float | None = None
        self.measuring: Any = None
        try:
            for item in kept.items if kept else []:
                self.take(item)
        except IndexError:
            raise ValueError("%s is not a record of a game" % kept.place) from None
        self.when = kept.when if kept else None

    @property
    def feed(self) -> Feed:
        return self.feeds[0]

    @property
    def stage(self) -> int:
        return self.standing.stage

    @property
    def is_done(self) -> bool:
        return self.standing.is_done

    def take(self, item: Item) -> None:
        """Takes an item of a feed."""
        before = dict(vars(self.standing))
        if isinstance(item, Played):
            self.undone.clear()
            self.due -= min(self.due, has_changed(item))
            self.add(item)
        elif isinstance(item, Noted):
            self.take_note(item)
        elif item.left < len(self.entries):
            self.undone.append(self.entries[item.left:])
            del self.entries[item.left:], self.made[item.left + 1:]
            self.standing.backs += 1
        else:
            for entry in self.undone.pop():
                self.add(entry)
        for feed in self.feeds:
            feed.items.append((self.number, item, self.standing.changes(before)))

    def add(self, entry: Played) -> None:
        """Adds an entry to the game, and reckons what it has reached."""
        (moves, helped), standing = self.made[-1], self.standing
        self.entries.append(entry)
        self.made.append((moves + moves_in(entry), helped or (has_changed(entry) and " moved " not in entry.answer)))
        if is_won(self.text, entry):
            (moves, helped), standing.is_done = self.made[-1], True
            if not helped and not standing.hints:
                standing.best = min(moves, moves if standing.best is None else standing.best)

    def take_note(self, item: Noted) -> None:
        """Takes what came to the room beside entries."""
        standing = self.standing
        if item.kind == "helped":
            standing.hints += 1
        elif item.kind == "least":
            standing.least = item.number
        elif item.kind == "judged" and item.number:
            standing.is_done = standing.is_right = True
        elif item.kind == "judged":
            standing.wrongs, self.due = standing.wrongs + 1, WRONG
        else:
            self.standing, self.due, self.text = Standing(item.number), 0, self.texts[item.number]
            self.entries, self.undone, self.made = [], [], [(0, False)]

    def comes(self, item: Item) -> None:
        """Takes an item, keeps it, and tells it."""
        was_done = self.is_done
        self.take(item)
        if not was_done or not self.is_done:
            self.when = time.time()
        if self.is_done and not was_done and not self.standing.is_right:
            self.measuring = asyncio.ensure_future(self.measure(self.standing))
        if self.kept:
            self.kept.add(as_thing(item))
        self.told()

    async def measure(self, standing: Standing) -> None:
        """Tells in how few moves the table could be done, if that is found."""
        with contextlib.suppress(Fault, OSError, ValueError):
            least = (await self.reckoner.hint(self.text))["left"]
            if least and standing is self.standing:
                self.comes(Noted(least, "least", ""))

    async def begin(self, entries: list[Played] | None = None) -> None:
        """Starts the program with all entries that there were, or with some. Raises ValueError if it answers them otherwise."""
        entries = self.entries if entries is None else entries
        self.restarts = True
        try:
            answers = await self.start(lines_of(entries), self.has_ended)
        finally:
            self.restarts = False
            if self.end:
                self.changed()
        await self.agrees(answers, entries)

    async def agrees(self, answers: list[str], entries: list[Played]) -> None:
        """Ends the program and raises ValueError if its answers are not those of the entries."""
        if answers != [entry.answer for entry in entries]:
            await self.close()
            raise ValueError(t("teacher.other-answers"))

    def has_ended(self) -> None:
        if not self.restarts:
            self.changed()

    async def goes_on(self) -> bool:
        """Starts the program if it has not been needed before, and says whether it has not ended."""
        if self.child is None:
            await self.begin()
        return not self.end

    async def ask(self, seat: int, line: str, name: str, stage: int) -> str | None:
        """The answer to a line of a seat, which is kept if it is an entry; None if the game ended instead, or is on another table."""
        async with self.turn:
            if stage != self.stage or not await self.goes_on():
                return None
            answer = await self.answer("%d %s" % (seat, line))
            if answer is not None and answer[:1].isdigit():
                self.comes(Played(seat, line, answer, name))
            return answer

    async def undo(self, name: str) -> bool | None:
        """Takes back the last entry that changed the board, and those after it: the game begins again. Says whether there was one."""
        async with self.turn:
            changes = [index for index, entry in enumerate(self.entries) if has_changed(entry)]
            if self.end:
                return None
            if changes:
                await self.begin(self.entries[:changes[-1]])
                self.comes(Rewound(changes[-1], name))
            return bool(changes)

    async def redo(self, name: str) -> bool | None:
        """Plays again what was taken back last. Says whether there was something."""
        async with self.turn:
            if not await self.goes_on():
                return None
            again = self.undone[-1] if self.undone else []
            if again:
                await self.agrees(await self.answers(lines_of(again)), again)
                self.comes(Rewound(len(self.entries) + len(again), name))
            return bool(again)

    async def hint(self, name: str) -> dict[str, Any] | None:
        """A move that helps on the table as it stands when it is asked; None if the room has gone on meanwhile."""
        stage, found = self.stage, await self.reckoner.hint(self.now())
        if stage != self.stage:
            return None
        # That no move helps is a hint too.
        if found["count"] != 0:
            self.comes(Noted(found["left"], "helped", name))
        return found

    async def judge(self, name: str) -> bool:
        """Says whether it is right that it can't be done as it stands. Who was wrong has to make some moves first."""
        async with self.turn:
            if self.due:
                raise Refused(409, t("class.try-first", self.due))
            said = await asyncio.to_thread(printed, "judge", self.now().encode(), patience=PATIENCE)
            self.comes(Noted(int(not verdict_of(said.rstrip("\n"))), "judged", name))
            return self.is_done

    async def onward(self, name: str, stage: int, leaves: Callable[[], None]) -> bool:
        """Goes on to the next table, if this one is done and there is one. Before that `leaves` is called."""
        async with self.turn:
            if stage != self.stage or not self.is_done or stage + 1 == len(self.texts):
                return False
            leaves()
            await self.begin_at(stage + 1, name)
            return True

    async def begin_at(self, stage: int, name: str = "") -> None:
        """Begins afresh on one of the tables."""
        self.restarts = True
        await self.close()
        self.child, self.end, self.restarts = None, None, False
        self.comes(Noted(stage, "onward", name))

    async def afresh(self) -> None:
        """Begins with the first table, as if nobody had played."""
        async with self.turn:
            if self.entries or self.stage or self.standing.changes(vars(Standing())):
                await self.begin_at(0)

    async def again(self) -> None:
        """Starts the program again, if it has ended, with all entries that there were."""
        async with self.turn:
            if self.end:
                await self.begin()

    async def finish(self) -> None:
        """Ends the game after the line that is being answered."""
        async with self.turn:
            with contextlib.suppress(OSError):
                await self.close()

    def now(self) -> str:
        """The text of the table as it stands."""
        made, changes = json.loads(self.text), [entry for entry in self.entries if has_changed(entry)]
        made["edges"] += [[*entry.line.split(" ")[1:], 1] for entry in changes if entry.line.startswith("join ")]
        if changes:
            amounts = numbered(changes[-1].answer).amounts or {}
            made["amounts"] = [amounts[name] for name in made["vertices"]]
        return json.dumps(made)

    def steps(self) -> str:
        return "".join("%s\n" % line for line in lines_of(self.entries))

    def history(self) -> str:
        return "".join("%s\n" % entry.answer for entry in self.entries)


def lines_of(entries: Sequence[Played]) -> list[str]:
    """The lines that the program is given for entries."""
    return ["%d %s" % (entry.seat, entry.line) for entry in entries]


def moves_in(entry: Played) -> int:
    """How many moves an entry is: one for each time that a vertex lends or borrows in it."""
    if " moved " not in entry.answer:
        return 0
    word, _, given = entry.line.partition(" ")
    return sum(abs(int(pair.partition("=")[2])) if word == "script" else 1 for pair in given.split(","))


def is_won(text: str, entry: Played) -> bool:
    """Whether nobody owes after an entry that has changed the board, and somebody did at the start."""
    return has_changed(entry) and min(json.loads(text)["amounts"]) < 0 <= min((numbered(entry.answer).amounts or {}).values())


def has_changed(entry: Played) -> bool:
    """Whether an entry has changed the board."""
    return entry.answer.split(" ")[1] in CHANGES
