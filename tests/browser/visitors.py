"""Clients of the server behind the pages: honest ones, such as send what no browser would, and pupils on pages in a browser."""
import contextlib
import http.client
import itertools
import json
import re
import socket
import threading
import time
import urllib.parse

from browser import Page
from common import PATIENCE, asked, played, text_of, waited, written
from helpers import equal, expect

TABLE = {
    "vertices": ["ann", "bob", "cem", "dot", "eve"],
    "edges": [["ann", "bob", 1], ["bob", "cem", 2], ["cem", "dot", 1], ["dot", "ann", 1], ["dot", "eve", 3]],
    "amounts": [6, -3, 1, -2, -1], "q": "ann"}
SEND = """(async () => {
  const told = [];
  for (const line of %s) {
    const got = await link.post("line", { key: me.key, line });
    told.push(got.refused ? [line, got.status, got.refused] : [line, 200, got.answer]);
  }
  return told;
})()"""
# Each pupil has an address of the network.
NUMBERS = itertools.count(251)
ENTRIES = "viewer.game.steps.map((step, i) => [step.seat, step.line.slice(step.seat.length + 1), viewer.game.replies[i].line])"


class Place:
    """An address of a page, and requests to it as its page makes them."""

    def __init__(self, address):
        parts = urllib.parse.urlsplit(address)
        self.address, self.host, self.port, self.path = address, parts.hostname, parts.port, parts.path
        self.origin, self.secret, self.source = f"http://{parts.netloc}", parts.path.strip("/"), None

    @contextlib.contextmanager
    def answer(self, method, path, thing=None, headers=(), raw=None):
        """The answer to a request. A path with a slash before it is taken as it stands, and a header that is None is not sent."""
        body = raw if raw is not None or thing is None else json.dumps(thing).encode()
        given = {"Content-Type": "application/json", "Origin": self.origin} if body is not None else {}
        given = {name: value for name, value in {**given, **dict(headers)}.items() if value is not None}
        link = http.client.HTTPConnection(self.host, self.port, PATIENCE, self.source)
        try:
            link.request(method, path if path.startswith("/") else self.path + path, body, given)
            yield link.getresponse()
        finally:
            link.close()

    def ask(self, *given, **more):
        """The status of an answer, and what it says."""
        with self.answer(*given, **more) as answer:
            return answer.status, answer.read().decode()

    def get(self, path, **given):
        return self.ask("GET", path, **given)

    def post(self, path, thing, **given):
        status, text = self.ask("POST", path, thing, **given)
        # How much a page has to draw first is left out.
        return status, {key: value for key, value in json.loads(text).items() if key != "items"} if status == 200 else text

    def sent(self, request, *headers, body=""):
        """A connection on which a request was sent, whose answer is not read."""
        link = socket.create_connection((self.host, self.port), PATIENCE)
        lines = [f"{request} HTTP/1.1", f"Host: {self.host}:{self.port}", *headers, "", body]
        link.sendall("\r\n".join(lines).encode())
        return link

    def events(self, key, number=0):
        """A connection on which the events of a seat come from an entry on."""
        return self.sent(f"GET {self.path}events?key={key}&from={number}")


class Listener:
    """What comes to a page: the table, the entries, and what else goes on."""

    def __init__(self, place):
        self.place, self.rooms, self.states, self.tables, self.items = place, {}, [], [], 0
        self.link, self.ended = None, threading.Event()

    def listen(self, path):
        self.link = self.place.sent(f"GET {self.place.path}{path}")
        threading.Thread(target=self.read, args=[self.link.makefile("rb")], daemon=True).start()
        return self

    def read(self, stream):
        """Takes the events as they come."""
        kind = None
        with contextlib.suppress(OSError, ValueError, AttributeError):
            for line in stream:
                word, _, rest = line.decode().rstrip("\n").partition(": ")
                if word == "event":
                    kind = rest
                elif word == "data":
                    self.take(kind, json.loads(rest))
        self.ended.set()

    def take(self, kind, thing):
        if kind == "entries":
            start, items = thing
            equal(start, self.items, "where the entries go on")
            self.items += len(items)
            for item in items:
                self.take_item(item)
        elif kind == "table":
            self.tables.append(thing)
            self.rooms, self.items = {}, 0
        elif kind != "beat":
            self.states.append(thing if kind == "state" else kind)

    def take_item(self, item):
        """An entry, or how many entries a game has since some were taken back, or played again."""
        entries, undone = self.rooms.setdefault(item["room"], ([], []))
        if item["kind"] == "played":
            entries.append([item["seat"], item["line"], item["answer"]])
        elif item["kind"] == "onward":
            del entries[:], undone[:]
        elif item["kind"] == "rewound" and item["left"] < len(entries):
            undone.append(entries[item["left"]:])
            del entries[item["left"]:]
        elif item["kind"] == "rewound":
            entries += undone.pop()

    @property
    def entries(self):
        """Those of the one room of which it is told."""
        return next(iter(self.rooms.values()), [[]])[0]

    def until(self, wanted, what):
        """Waits until something is so of what has come."""
        expect(waited(lambda: wanted(self)), f"{what}: {self.states[-1:]}")

    def leave(self):
        if self.link:
            with contextlib.suppress(OSError):
                self.link.shutdown(socket.SHUT_RDWR)
            self.link.close()


def watcher(place):
    """A page without a seat, to which the entries of all rooms come."""
    return Listener(place).listen("events?from=0")


class Pupil(Listener):
    """Somebody with a seat, and the events that come to his page."""

    def __init__(self, address, name, events=True, **given):
        super().__init__(Place(address))
        self.name, self.lines = name, []
        if self.place.host == "127.0.0.1":
            self.place.source = "127.1.%d.%d" % divmod(next(NUMBERS), 250), 0
        status, got = self.place.post("join", {"name": name, **given})
        if status != 200:
            raise ValueError(got)
        self.seat, self.key = got["seat"], got["key"]
        if events:
            self.listen(f"events?key={self.key}&from=0")

    def play(self, line):
        """The status and the answer to a line; it is asked again while it is told to be too fast."""
        while True:
            status, got = self.place.post("line", {"key": self.key, "line": line})
            if status != 429:
                break
            time.sleep(0.1)
        self.lines.append((line, status, got["answer"] if status == 200 else got))
        return self.lines[-1][1:]

    def attend(self, lines):
        """Plays lines, one after the other, until the game has ended."""
        for line in lines:
            if self.play(line)[0] == 503:
                return


class PagePupil(Page):
    """A pupil whose lines a page in Chromium plays."""

    def __init__(self, browser, address, name, folder):
        super().__init__(browser, address, folder)
        self.value("localStorage.clear()")
        self.visit(address)
        self.lines = []
        self.join(name, "Enter")
        self.key = self.value("me.key")
        self.value("$$('details').forEach((at) => { at.open = true; })")

    def join(self, name, key):
        """Takes a seat."""
        self.write(name, into="#your-name")
        self.press(key) if key else self.click("#join button")
        self.until("me !== null && state !== null && state.names[me.seat]")
        self.seat = self.value("me.seat")

    def attend(self, lines):
        for start in range(0, len(lines), 25):
            self.lines += self.value(SEND % json.dumps(lines[start:start + 25]))

    @property
    def entries(self):
        return self.value(ENTRIES)

    def until(self, wanted, what=""):
        """Waits until an expression is true in the page, or something is so of this pupil."""
        if isinstance(wanted, str):
            self.browser.until(wanted)
        else:
            Pupil.until(self, wanted, what)

    @property
    def states(self):
        return [self.value("state")]

    def leave(self):
        self.value("link.close()")

    def told(self, words):
        self.until(f"$('#notice').textContent.includes({json.dumps(words)})")


@contextlib.contextmanager
def a_class(folder, seats, *names, options=(), may=("gifts", "edges", "questions")):
    """A class where some things are permitted: the server's process, its places for pupils and the teacher, and a pupil of each name."""
    table = written(folder, "table.json", json.dumps(TABLE))
    with played(table, "--class", str(seats), *options) as (child, (pupils, teacher)):
        Place(teacher).post("may", dict.fromkeys(may, True))
        room = [Pupil(pupils, name) for name in names]
        try:
            yield (child, Place(pupils), Place(teacher), *room)
        finally:
            for pupil in room:
                pupil.leave()


def taken(teacher, folder, room=1):
    """The steps and the history of a room that the teacher takes along, after it was seen that the program plays the one to the other."""
    table, steps, history = (teacher.get(f"{name}?room={room}")[1] for name in ("table.json", "steps.txt", "history.txt"))
    printed, said, status = asked("rehearse", written(folder, "t", table), written(folder, "s", steps))
    equal((said, status), ("", 0), "rehearse of the steps of a class")
    equal(printed.splitlines(), history.splitlines(), "the history of a class, played again")
    return steps.splitlines(), history.splitlines()


def program_of(child):
    """The process of the program behind board/play."""
    return int(re.match(r"\d+", text_of(f"/proc/{child.pid}/task/{child.pid}/children"))[0])
