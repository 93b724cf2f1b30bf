"""Keeps a class in a folder while it goes on, so that it outlasts the end of the board's server: who sits where, and the games.

Its owner alone can read the files. A folder has `class.json`, and for each turn, in which something was handed out, a folder with the tables
of its rooms, and a record of each room."""
from __future__ import annotations

import fcntl
import json
import os
import re
import sys
from typing import Any, Callable, TextIO

from dollar.board.room import Item, Noted, Played, Rewound
from dollar._program import typed
from dollar._table import text_of

CLASS, TABLES, RESULTS, RECORD = "class.json", "tables.json", "results.jsonl", re.compile(r"room([0-9]{1,2})\.jsonl\Z")
KINDS = {"played": Played, "rewound": Rewound}


def read(place: str) -> str:
    """The text of a file; nothing if there is none."""
    return text_of(place) if os.path.exists(place) else ""


def thing_in(place: str, otherwise: Any) -> Any:
    """The thing in a file of JSON, or another if there is no such file. Raises ValueError if it is not of the kind of the other."""
    try:
        thing = json.loads(text_of(place)) if os.path.exists(place) else otherwise
    except ValueError:
        thing = None
    if type(thing) is not type(otherwise):
        raise ValueError("%s is damaged, so the class can't go on: restore it, or keep a new class in another folder" % place)
    return thing


def own_file(place: str, flags: int) -> int:
    """Opens a file to write, which its owner alone can read, as the folders that are made for it."""
    os.makedirs(os.path.dirname(place), mode=0o700, exist_ok=True)
    opened = os.open(place, flags | os.O_WRONLY | os.O_CREAT | os.O_CLOEXEC, 0o600)
    # It may have been there.
    os.fchmod(opened, 0o600)
    return opened


class Lines:
    """A file of lines of JSON, to which some are added. `fails` is called where the disk does not take them."""

    def __init__(self, place: str, fails: Callable[[str, OSError], None]) -> None:
        self.place, self.fails, self.is_kept = place, fails, True
        self.file: TextIO | None = None
        # When it was last written.
        self.when = os.path.getmtime(place) if os.path.exists(place) else None
        # Nobody was told what was not written to its end.
        whole, end, _ = read(place).rpartition("\n")
        self.whole, self.size = whole, len((whole + end).encode())

    def add(self, thing: Any) -> None:
        """Adds a line. If the disk does not take it, the game goes on, and this is told once."""
        if not self.is_kept:
            return
        try:
            if self.file is None:
                self.file = open(own_file(self.place, os.O_APPEND), "a", encoding="utf-8", newline="")
                self.file.truncate(self.size)
            self.file.write(json.dumps(thing) + "\n")
            self.file.flush()
        except OSError as error:
            self.is_kept = False
            self.fails(self.place, error)


class Kept(Lines):
    """The record of a room: a line for each item of its feed, also for what was taken back and played again."""

    def __init__(self, place: str, seats: int, fails: Callable[[str, OSError], None]) -> None:
        super().__init__(place, fails)
        self.items = items_in(place, self.whole, seats)


def item_of(thing: Any) -> Any:
    """The item that something in JSON is."""
    return Noted(**thing) if "number" in thing else KINDS[thing.pop("kind")](**thing)


def items_in(place: str, lines: str, seats: int) -> list[Item]:
    """The items of the lines of a record. Raises ValueError if it is none, or has a seat that there is not."""
    try:
        items = [item_of(thing) for thing in json.loads("[%s]" % lines.replace("\n", ","))]
        fine = all(isinstance(item[0], int) for item in items)
    except (AttributeError, KeyError, TypeError, ValueError):
        fine = False
    if not fine:
        raise ValueError("%s is not a record of a game" % place)
    if not {item.seat for item in items if isinstance(item, Played)} <= set(range(1, seats + 1)):
        raise ValueError("%s has a step whose seat is not from 1 to %d" % (place, seats))
    return items


class Keeper:
    """A folder in which a class is kept. No other command may use it meanwhile; else a ValueError says so."""

    def __init__(self, folder: str) -> None:
        self.folder = folder
        os.makedirs(folder, mode=0o700, exist_ok=True)
        self.lock = os.open(self.place("lock"), os.O_RDWR | os.O_CREAT | os.O_CLOEXEC, 0o600)
        try:
            fcntl.flock(self.lock, fcntl.LOCK_EX | fcntl.LOCK_NB)
        except OSError:
            raise ValueError("%s is in use by a command that still runs" % folder) from None
        self.found = thing_in(self.place(CLASS), {})
        self.saved = ""
        # What the disk has not taken, and what is called then.
        self.fault = ""
        self.failed: Callable[[], None] = lambda: None
        self.past = Lines(self.place(RESULTS), self.fails)

    def place(self, *names: str) -> str:
        return os.path.join(self.folder, *names)

    def save(self, thing: Any) -> None:
        """Keeps what is not a game, unless it was kept last."""
        text = json.dumps(thing)
        if text != self.saved and self.put(text, CLASS):
            self.saved = text

    def put(self, text: str, *names: str) -> bool:
        """Writes a file anew, so that an interruption leaves the old one, also if the power fails. If the disk does not take it, this is
        told, and it gives False."""
        place = self.place(*names)
        try:
            with open(own_file(place + ".new", os.O_TRUNC), "w", encoding="utf-8") as file:
                file.write(text)
                file.flush()
                os.fsync(file.fileno())
            os.replace(place + ".new", place)
        except OSError as error:
            self.fails(place, error)
            return False
        return True

    def fails(self, place: str, error: OSError) -> None:
        """The disk has not taken a file, which the terminal and the teacher are told."""
        print("%s: %s: %s: the class is kept no more" % (typed("board"), place, error.strerror), file=sys.stderr)
        self.fault = "%s: %s" % (os.path.relpath(place, self.folder), error.strerror)
        self.failed()

    def results(self) -> list[Any]:
        """What was reached before, a list of each line. Raises ValueError if the file is damaged."""
        try:
            return [[*json.loads(line)] for line in self.past.whole.split("\n") if line]
        except (TypeError, ValueError):
            raise ValueError("%s is damaged: restore it, or take it away" % self.past.place) from None

    def stages(self, turn: int) -> Any:
        """What was handed out at a turn, one after another, each as its name, the texts of its tables, and its level."""
        stages = thing_in(self.place("table%d" % turn, TABLES), [])
        if stages and isinstance(stages[0], str):
            raise ValueError("%s keeps a class in an older form, which is not read any more" % self.folder)
        return stages

    def hand_out(self, turn: int, stages: Any) -> None:
        """Keeps what was handed out at a turn."""
        self.put(json.dumps(stages), "table%d" % turn, TABLES)

    def room(self, turn: int, number: int, seats: int) -> Kept:
        return Kept(self.place("table%d" % turn, "room%d.jsonl" % number), seats, self.fails)

    def rooms(self, turn: int) -> list[int]:
        """The numbers of the rooms that have a game at a turn."""
        folder = self.place("table%d" % turn)
        found = map(RECORD.match, os.listdir(folder) if os.path.isdir(folder) else [])
        return sorted(int(record[1]) for record in found if record)
