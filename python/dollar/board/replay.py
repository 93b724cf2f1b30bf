"""Makes a page that shows a game: the board, and a slider over the history of its steps.

The page is one file for a browser, and asks no network for anything. The table, the steps and the history are in it unchanged, and the
page draws them. It computes only how many dollars a move sends along which edges; all amounts are the program's."""
from __future__ import annotations

import argparse
import base64
import hashlib
import html
import json
import re
import sys
from typing import Any, Iterable, Mapping, cast

from dollar._answers import numbered
from dollar.board.pages import filled, one_script, part
from dollar._drawing import held, layout
from dollar._program import printed, typed
from dollar._table import shown_name, text_of

USAGE = """%(prog)s FILE STEPS > GAME.html            the history is what `dollar rehearse FILE STEPS` prints
       %(prog)s FILE STEPS HISTORY > GAME.html    the history is that of a file; the page says where the program prints another
       %(prog)s FILE --greedy TURNS > GAME.html   a game of `dollar greedy FILE TURNS`; its steps are those of the rule"""

# What its page may do, and how it looks.
LOOK = """<meta http-equiv="Content-Security-Policy" content="default-src 'none'; script-src %s; style-src %s; img-src data:; \
base-uri 'none'; form-action 'none'">
<style>%s</style>"""


def in_page(text: str) -> str:
    """A text as it stands within an element <script> that is no script: JSON, in which an escape stands for what would end it."""
    return text.replace("<", "\\u003c")


def digest(text: str) -> str:
    """What a page's policy calls a script or a style of this text."""
    return "'sha256-%s'" % base64.b64encode(hashlib.sha256(text.encode()).digest()).decode()


def greedy_game(text: str, turns: str) -> Any:
    """The steps of a greedy game, as its rule has them, and what is printed of its history."""
    lines = printed("greedy", text.encode(), turns).splitlines(keepends=True)
    lines = lines[:-1] if lines[-1:] == ["turns\n"] else lines
    steps, amounts = [], cast(Mapping[Any, int], held(json.loads(text)))
    for line in lines:
        poor = next((name for name, amount in amounts.items() if amount < 0), None)
        steps.append("1 borrow %s\n" % poor if poor else "1 claim\n")
        amounts = numbered(line.rstrip("\n")).amounts or amounts
    return "".join(steps), "".join(lines)


def differences(lines: Any, given: Any) -> Any:
    """For each line, counted from 1, in which a given history is another than what the program prints, what is printed."""
    lines, given = lines.splitlines(), given.splitlines()
    if len(lines) != len(given):
        raise ValueError("%d answers to %d steps" % (len(given), len(lines)))
    return {number: line for number, (line, other) in enumerate(zip(lines, given), 1) if line != other}


def page(title: str, text: str, steps: Any, lines: Any, history: Any = None, own: str | None = None, names: Iterable[str] = ()) -> str:
    """The page for a table, steps, and what the program prints of them, or another history. `names` has the player of each step."""
    shown = lines if history is None else history
    flaws = differences(lines, shown)
    if any("<" in word for word in (steps, shown)):
        raise ValueError("no steps and no history have '<' in them")
    table = json.loads(text)
    amounts = [*table["amounts"], *(set(re.findall(r"=(-?\d+)", shown)))]
    code, style = one_script("replay.js"), "\n" + part("page.css")
    return filled("replay.html", {
        "title": html.escape(title), "look": LOOK % (digest(code), digest(style), style), "table": in_page(text), "steps": steps,
        "printed": shown, "layout": in_page(json.dumps(layout(table, amounts, own))), "flaws": in_page(json.dumps(flaws)),
        "names": in_page(json.dumps(names)), "script": code})


def main(words: list[str]) -> int:
    """Prints the page that the words of a command line ask for."""
    reader = argparse.ArgumentParser(prog=typed("replay"), usage=USAGE, description=__doc__.partition("\n\n")[0], epilog=__doc__.partition("\n\n")[2])
    reader.add_argument("--greedy", metavar="TURNS", help=argparse.SUPPRESS)
    reader.add_argument("--places", metavar="PLACES",
                        help="a file with a line 'name x y' for the place of each vertex; x goes to the right, and y down")
    reader.add_argument("files", nargs="+", metavar="FILE", help=argparse.SUPPRESS)
    given = reader.parse_args(words)
    if len(given.files) not in ((1,) if given.greedy else (2, 3)):
        reader.error("a table is needed, and either steps or --greedy")
    file, *others = given.files
    own = None if given.places is None else text_of(given.places)
    text = text_of(file)
    printed("judge", text.encode())
    if given.greedy:
        title, (steps, history) = "greedy", greedy_game(text, given.greedy)
    else:
        title, steps, history = shown_name(others[0]), text_of(others[0]), text_of(others[1]) if others[1:] else None
    lines = printed("rehearse", text.encode(), steps.encode())
    sys.stdout.write(page("%s, %s" % (shown_name(file), title), text, steps, lines, history, own))
    return 0
