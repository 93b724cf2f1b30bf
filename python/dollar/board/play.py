"""A board to play on, in a browser.

    board/play [FILE]
    board/play FILE .. --class N [--rooms K] [--host ADDRESS] [--keep FOLDER]

opens the table of FILE, or the triangle of the examples: a click lends, shift-click borrows, and the program says whether it can be
won. Ctrl-D or Ctrl-C ends it. Unless --host is given, only this machine can reach the server, and only with the address that is
printed.

With --class N it is for a class of N pupils, at most 64: everybody who opens the pupils' address gets a seat. All share one table, or
with --rooms K there is one for each K pupils. The teacher's page hands out the next table: one of the files, a graph, a puzzle. To
resume a class that --keep has kept, run the same command again, even after a crash."""
from __future__ import annotations

import argparse
import asyncio
import errno
import os
import re
import signal
import socket
import sys
import threading
import webbrowser
from typing import Any, Callable

from dollar.board.alone import Alone
from dollar.board.classroom import Classroom
from dollar.board.game import MOST_SEATS, Table
from dollar.board.keeping import Keeper
from dollar.board.pages import forward
from dollar.board.requests import Requests
from dollar.board.server import ANY, Answer, Request, Server, addresses_of, is_loopback, new_secret
from dollar._program import Fault, printed, typed
from dollar._table import EXAMPLES, shown_name, text_of

# The port of a class in a network, if it is free, since pupils type it.
LOOPBACK, USUAL_PORT = "127.0.0.1", 8000


def arguments(words: list[str]) -> argparse.Namespace:
    """The command line."""
    usage, _, more = __doc__.replace("board/play", typed("board")).partition("\n\n")
    parser = argparse.ArgumentParser(prog=typed("board"), description=usage, epilog=more, formatter_class=argparse.RawDescriptionHelpFormatter)
    parser.add_argument("files", nargs="*", metavar="FILE", default=[EXAMPLES / "triangle.json"], help="table files; a class may have several")
    parser.add_argument("--class", type=number_to(MOST_SEATS), dest="seats", metavar="N", help="serve a class of N pupils")
    parser.add_argument("--rooms", type=number_to(MOST_SEATS), default=0, metavar="K", help="give each K pupils a table of their own")
    parser.add_argument("--host", metavar="ADDRESS", help="listen on ADDRESS, of this machine, or on 0.0.0.0 for all of them: others can open it")
    parser.add_argument("--name", action="append", default=[], type=name_of_host, metavar="NAME",
                        help="answer to NAME too, of this machine or of a tunnel, which may end with a port; may be repeated")
    parser.add_argument("--teacher-here", action="store_true", help="open the teacher's page on this machine alone")
    parser.add_argument("--keep", metavar="FOLDER", help="keep the class in FOLDER, its addresses, names and games, and go on with it")
    parser.add_argument("--places", metavar="PLACES", help="a file with a line 'name x y' for each vertex; x goes to the right, and y down")
    parser.add_argument("--port", type=number_to(65535), default=0, metavar="PORT", help="the port of the address; any free one if not given")
    parser.add_argument("--no-browser", action="store_true", help="open no browser")
    given = parser.parse_args(words)
    if given.teacher_here and given.host not in ANY:
        parser.error("--teacher-here needs --host %s or %s" % ANY)
    for option in "host", "name", "keep", "rooms":
        if getattr(given, option) and not given.seats:
            parser.error("--%s is for a class, and needs --class" % option)
    if given.files[1:] and not given.seats:
        parser.error("several files are for a class, and need --class")
    return given


def number_to(most: int) -> Callable[[str], int]:
    """A number from 1 to the most, for the command line."""
    def number(word: str) -> int:
        if not (word.isascii() and word.isdigit() and 1 <= int(word) <= most):
            raise argparse.ArgumentTypeError("%r is not a number from 1 to %d" % (word, most))
        return int(word)
    return number


def name_of_host(word: str) -> str:
    """A name of a host, maybe with a port, for the command line."""
    if not re.match(r"[A-Za-z0-9.-]{1,253}(:[0-9]{1,5})?\Z", word):
        raise argparse.ArgumentTypeError("%r is not the name of a host" % word)
    return word.lower()


def open_browser(server: Server, host: str, secret: str) -> None:
    """Opens the browser at a page. Others can read its command line, so the address there leads only once, and only this user, to the page."""
    once, answer = new_secret(), server.answer

    async def leading(request: Request) -> Answer:
        if request.parts != [once] or not request.is_own():
            return await answer(request)
        server.answer = answer
        return forward(request, secret)

    server.answer = leading
    threading.Thread(target=webbrowser.open, args=("%s%s" % (base_of(host, server), once),), daemon=True).start()


def base_of(host: str, server: Server) -> str:
    """Where this machine finds a server that listens on a host."""
    host = {"0.0.0.0": LOOPBACK, "::": "::1"}.get(host, host)
    return "http://%s:%d/" % ("[%s]" % host if ":" in host else host, server.port)


def told_once() -> Callable[[Any, dict[str, Any]], None]:
    """Tells each thing once that goes wrong in the loop, as when a flood leaves no room, but not that a page or a program has gone."""
    said = set()

    def tell(_: Any, context: dict[str, Any]) -> None:
        words = context.get("message", "something went wrong")
        if words not in said and not isinstance(context.get("exception"), ConnectionError):
            said.add(words)
            print("%s: %s: %s" % (typed("board"), words, context.get("exception", "")), file=sys.stderr, flush=True)
    return tell


class Ending:
    """Ctrl-C, SIGTERM and the end of what is typed. If there are last words, they are told first, and it has to be ended once more."""

    def __init__(self, last_words: Callable[[], Any] = lambda: "") -> None:
        loop, self.ended, self.last_words, self.warned = asyncio.get_running_loop(), asyncio.Event(), last_words, False
        loop.set_exception_handler(told_once())
        loop.add_signal_handler(signal.SIGTERM, self.ended.set)
        loop.add_signal_handler(signal.SIGINT, self.end)
        if sys.stdin is not None and sys.stdin.isatty():
            loop.add_reader(sys.stdin, lambda: None if os.read(sys.stdin.fileno(), 4096) else self.end())

    def end(self) -> None:
        words = "" if self.warned else self.last_words()
        self.warned = True
        if words:
            print(words, flush=True)
        else:
            self.ended.set()


async def serve_alone(given: argparse.Namespace, tables: list[Table]) -> None:
    """Serves one player until it is ended."""
    ending, secret, (table,) = Ending(), new_secret(), tables
    alone = Alone(secret, table)
    server = Server(alone.answer, LOOPBACK, given.port)
    await begun(server, [])
    print("The board is at %s%s/\nCtrl-D or Ctrl-C ends it." % (base_of(LOOPBACK, server), secret), flush=True)
    try:
        await until_ended(given, server, LOOPBACK, secret, ending)
    finally:
        await alone.stop()


async def serve_class(given: argparse.Namespace, tables: list[Table]) -> None:
    """Serves a class until it is ended."""
    keeper = Keeper(given.keep) if given.keep else None
    room = Classroom(tables, given.seats, given.rooms, keeper)
    host, ending = given.host or LOOPBACK, Ending(room.last_words)
    server = Server(Requests(room, given.teacher_here).answer, host, given.port, [] if host in ANY else [host], given.name)
    await room.start()
    try:
        await begun(server, [keeper.found.get("port", 0) if keeper else 0, 0 if is_here_alone(host) else USUAL_PORT])
        room.places, room.port = lambda: places_of(given.name, host, server), server.port
        room.place, *others = room.places()
        room.changed()
        alone = is_here_alone(host) or not given.name and not addresses_of(host)
        told = "can be opened %s" % ("on this machine alone" if alone else "from other machines of this network")
        desk = base_of(host, server) if given.teacher_here else "http://%s/" % room.place
        more = "Other addresses:   %s. The teacher's page can choose.\n" % ", ".join(others) if others else ""
        print("The table %s.\n\nFor the pupils:    %s\nFor the teacher:   %s%s/\n%s\nCtrl-D or Ctrl-C ends it."
              % (told, room.address, desk, room.teacher, more), flush=True)
        await until_ended(given, server, host, room.teacher, ending)
    finally:
        await room.stop()


def places_of(names: list[str], host: str, server: Server) -> list[str]:
    """Where others may find the server, the likeliest first: by given names, and by this machine's addresses, or else from here alone."""
    own = [] if names and is_here_alone(host) else addresses_of(host)
    places = [*names, *("[%s]" % each if ":" in each else each for each in own)]
    return [each if re.search(":[0-9]+$", each) else "%s:%d" % (each, server.port) for each in places] or [base_of(host, server)[7:-1]]


def is_here_alone(host: str) -> bool:
    """Whether an address that the server listens on, or a name of one, leads to this machine alone."""
    return all(is_loopback(place) for *_, place in socket.getaddrinfo(host, None))


async def begun(server: Server, ports: list[int]) -> None:
    """Starts a server, at the first of these ports that is free: that which it had before, so that open pages find it again."""
    for port in [port for port in ports if port and not server.port]:
        server.port = port
        try:
            return await server.start()
        except OSError:
            server.port = 0
    try:
        return await server.start()
    except OSError as error:
        if error.errno == errno.EADDRINUSE:
            raise ValueError("port %d is in use: choose another with --port" % server.port) from None
        raise


async def until_ended(given: argparse.Namespace, server: Server, host: str, secret: str, ending: Ending) -> None:
    """Opens the browser, and waits until the server is ended."""
    if not given.no_browser:
        open_browser(server, host, secret)
    try:
        await ending.ended.wait()
    finally:
        await server.stop()


def main(words: list[str]) -> int:
    given = arguments(words)
    own = None if given.places is None else text_of(given.places)
    names = [shown_name(file) for file in given.files]
    for name in names:
        if names.count(name) > 1:
            raise ValueError("several files are called %s, and the teacher could not tell them apart" % name)
    texts = {shown_name(file): text_of(file) for file in given.files}
    for name, text in texts.items():
        try:
            printed("judge", text.encode())
        except Fault as fault:
            raise ValueError("%s: %s" % (name, fault)) from None
    tables = [Table(name, text, None if number else own) for number, (name, text) in enumerate(texts.items())]
    asyncio.run((serve_class if given.seats else serve_alone)(given, tables))
    return 0
