"""Who has done what in a class, a line for each pupil and table, and as a file for spreadsheets."""
from __future__ import annotations

import csv
import io
import time
from typing import Any, Sequence

from dollar.board.game import Table
from dollar.board.room import Room
from dollar.board.texts import t

# What spreadsheets need to read other letters than those of ASCII, and what begins a formula there.
MARK, FORMULA = "\ufeff", ("=", "+", "-", "@")


def line_of(name: str, room: Room, table: Table) -> list[Any]:
    """What a pupil has reached in a room on a table: when, who, where, whether and in how few moves it is done, in how few it could be, and
    hints, wrong answers, what was taken back, and entries."""
    standing = room.standing
    when = time.strftime("%Y-%m-%d %H:%M:%S", time.localtime(room.when)) if room.when else ""
    moves = None if standing.best is None or standing.is_right else standing.best
    return [when, name, room.number, table.title, standing.is_done, standing.is_right, moves, standing.least, standing.hints, standing.wrongs,
            standing.backs, len(room.entries)]


def shown(line: Sequence[Any]) -> list[Any]:
    """A line as people read it."""
    when, name, number, table, is_done, is_right, moves, *rest = line
    done = t("results.yes" if is_done else "results.no")
    return [when, name, number, table, done, t("results.cant") if is_right else moves, *rest]


def sheet(lines: Sequence[Sequence[Any]]) -> bytes:
    """All lines as a file, each with what separates its cells in the language that is asked for. No cell is a formula."""
    file = io.StringIO()
    writer = csv.writer(file, delimiter=t("results.separator"), quoting=csv.QUOTE_ALL, lineterminator="\r\n")
    for line in [t("results.head").split(","), *map(shown, lines)]:
        cells = ["" if value is None else str(value) for value in line]
        writer.writerow(["'" + cell if cell.startswith(FORMULA) else cell for cell in cells])
    return (MARK + file.getvalue()).encode()
