"""Damaged requests, each answered or dropped in time while another plays on. And what a player's server and board/play are given."""
import asyncio
import fcntl
import json
import os
import pty
import random
import signal
import socket
import subprocess
import sys
import tempfile
import termios
import threading
import time
from pathlib import Path

from common import EXAMPLES, PACKAGE, PATIENCE, PLAY, TRIANGLE, addresses, asked, is_modest, played, started, text_of, together, waited, written
from helpers import equal, expect, tests_of
from visitors import TABLE, Place, Pupil, a_class, taken

REQUESTS, TOGETHER, SEED = 3000, 250, 20260
SILENT, MOST_KEPT = 700, 350
MOST_MEMORY = 120_000
NOT_CONNECTED = '{"vertices":["a","b"],"edges":[],"amounts":[0,0],"q":"a"}'


def honest(place, key, draw):
    """A request of a page, with the secret or without it, as its head and its body."""
    path = draw.choice([place.path, f"/{'x' * 32}/", "/"]) + draw.choice(
        ["", "start", "line", "join", "undo", "table", "tables", "events", "page.css", f"events?from=0&key={key}"])
    thing = draw.choice([{"key": key, "line": "look"}, {"key": "x", "line": "claim"}, {"name": "n"}])
    method = draw.choice(["GET", "POST"])
    body = json.dumps(thing).encode() if method == "POST" else b""
    lines = [f"{method} {path} HTTP/1.1", f"Host: {place.host}:{place.port}", f"Origin: {place.origin}",
             "Content-Type: application/json", *([f"Content-Length: {len(body)}"] if body else []), "", ""]
    return "\r\n".join(lines).encode(), body


def flipped(whole, draw):
    data = bytearray(whole)
    for _ in range(draw.randint(1, 8)):
        data[draw.randrange(len(data))] = draw.randrange(256)
    return bytes(data)


def with_header(*lines):
    """A damage by one of these lines among the headers."""
    return lambda head, body, draw: head[:-2] + draw.choice(lines) + b"\r\n\r\n" + body


def replaced(old, *news):
    """A damage by one of these texts in place of another."""
    return lambda head, body, draw: head.replace(old, draw.choice(news), 1) + body


DAMAGES = {
    "half": lambda head, body, draw: (head + body)[:draw.randrange(len(head + body))],
    "silence": lambda head, body, draw: b"",
    "flipped": lambda head, body, draw: flipped(head + body, draw),
    "random": lambda head, body, draw: draw.randbytes(draw.randint(1, 3000)),
    "line feeds": lambda head, body, draw: (head + body).replace(b"\r\n", b"\n"),
    "returns": lambda head, body, draw: (head + body).replace(b"\r\n", b"\r"),
    "long head": with_header(*(b"X: " + b"x" * size for size in (8000, 9000, 70000, 300000))),
    "many headers": with_header(*(b"\r\n".join(b"X-%d: y" % i for i in range(count)) for count in (60, 70, 500))),
    "headers twice": with_header(b"Host: x", b"Origin: x", b"Content-Length: 3", b"content-length: 4"),
    "folded": with_header(b"X: y\r\n z"),
    "chunked": lambda head, body, draw: with_header(b"Transfer-Encoding: chunked")(head, b"5\r\nhello\r\n0\r\n\r\n", draw),
    "no header": with_header(b": x", b"x", b" x: y", b"X Y: z", b"\xc3\xa4: x", b"X: \x00", b"X: \x7f\xff"),
    "long path": replaced(b" HTTP", *(b"/" * count + b" HTTP" for count in (10, 3000, 20000))),
    "strange path": replaced(b" /", b" /../", b" //", b" /%00", b" /\xff", b" http://evil/", b" *", b" ?", b"  /"),
    "other method": lambda head, body, draw: (
        draw.choice([b"PUT", b"get", b"CONNECT", b"OPTIONS", b"", b"TRACE", b"PRI"]) + head[head.index(b" "):] + body),
    "other version": replaced(b"HTTP/1.1", b"HTTP/2.0", b"HTTP/0.9", b"HTTP/11", b"", b"HTTP/1.1 x", b"SSH-2.0"),
    "length": replaced(b"Content-Length: ", *(b"Content-Length: " + text for text in (
        b"-", b"9999999999999", b"0x", b"+", b"1", b"99", b" ", b"\x00", b"1,", b"1_"))),
    "more than its length": lambda head, body, draw: head + body + b"GET / HTTP/1.1\r\n\r\n" * draw.choice([1, 100, 10000]),
    "body": lambda head, body, draw: head + (flipped(body, draw) if body else b"x"),
    "deep": lambda head, body, draw: head.replace(b"Content-Length: ", b"Content-Length: 16000\r\nX: ", 1) + b"[" * 16000,
    "nothing more": lambda head, body, draw: head + body[:-1],
    "as it is": lambda head, body, draw: head + body,
    "tls": lambda head, body, draw: b"\x16\x03\x01\x02\x00\x01\x00\x01\xfc\x03\x03" + draw.randbytes(200),
}


async def send(place, data, slowly):
    """Sends bytes, at once or by and by, and waits for the end. Gives what came, or None if there was no end."""
    got = b""
    try:
        reader, writer = await asyncio.wait_for(asyncio.open_connection(place.host, place.port), PATIENCE)
    except OSError:
        return got
    size = 40 if slowly else max(1, len(data))
    try:
        for i in range(0, len(data), size):
            writer.write(data[i:i + size])
            await writer.drain()
            if slowly:
                await asyncio.sleep(0.3)
        while True:
            piece = await asyncio.wait_for(reader.read(1 << 16), PATIENCE)
            got = (got + piece)[:4096]
            # A stream goes on, and is left here.
            if not piece or b"event-stream" in got:
                break
    except asyncio.TimeoutError:
        return None
    except OSError:
        pass
    finally:
        writer.close()
    return got


async def send_all(place, key):
    """Sends all damaged requests, some of them at once. Gives of which kind each was, and what came."""
    draw, gate = random.Random(SEED), asyncio.Semaphore(TOGETHER)

    async def one(kind, data, slowly):
        async with gate:
            return kind, await send(place, data, slowly)

    kinds = [list(DAMAGES)[number % len(DAMAGES)] for number in range(REQUESTS)]
    return await asyncio.gather(*(
        one(kind, DAMAGES[kind](*honest(place, key, draw), draw), kind == "flipped" and number % 5 == 0) for number, kind in enumerate(kinds)))


def damaged_requests(folder):
    """3,000 damaged requests to a class in rooms."""
    with a_class(folder, 40, "ann", "bob", options=("--rooms", "1")) as (child, place, desk, ann, bob):
        played_on, over = [], threading.Event()

        def play_on():
            while not over.is_set():
                played_on.append(ann.play("gift ann 1" if len(played_on) % 2 else "gift ann -1")[0])
                time.sleep(0.12)

        def send_them():
            try:
                return asyncio.run(send_all(place, bob.key))
            finally:
                over.set()

        results, _ = together(send_them, play_on)
        equal(len(results), REQUESTS, "damaged requests")
        equal([kind for kind, got in results if got is None], [], "damaged requests that were not dropped")
        firsts = {got.split(b"\r\n")[0][:12] for _, got in results}
        equal(firsts - {b"HTTP/1.1 %d" % status for status in (200, 400, 404, 409, 413, 429)}, {b""}, "answers to damaged requests")
        equal(set(played_on), {200}, "who plays on among damaged requests")
        is_modest(child, MOST_MEMORY)
        steps, _ = taken(desk, folder)
        equal(sum(step.startswith(f"{ann.seat} ") for step in steps), len(played_on), "the lines of who played on")
        equal(place.get("start")[0], 200, "the server after it")


def silence(folder):
    """More connections that say nothing than the server keeps: the oldest make room, and who plays is answered."""
    with a_class(folder, 2, "ann") as (child, place, _, ann):
        links = []
        for number in range(SILENT):
            if number == SILENT - MOST_KEPT:
                slow = socket.create_connection((place.host, place.port), PATIENCE)
            links.append(socket.create_connection((place.host, place.port), PATIENCE, ("127.0.0.66", 0)))
            # Who plays takes time on a busy machine, and the server drops the slow one once that has said nothing for five seconds.
            if number % 20 == 0 and number < SILENT - MOST_KEPT:
                equal(ann.play("gift ann 1")[0], 200, f"who plays among {number} silent connections")
        slow.sendall(f"GET {place.path}start HTTP/1.1\r\nHost: {place.host}:{place.port}\r\n\r\n".encode())
        with slow:
            equal(slow.recv(12), b"HTTP/1.1 200", "a connection from another address that was there before")
        equal(ann.play("gift ann 1")[0], 200, f"who plays among {SILENT} silent connections")
        expect(waited(lambda: len(os.listdir(f"/proc/{child.pid}/fd")) < MOST_KEPT), "so many connections are kept")
        expect(all(ended(link) for link in links), "a silent connection is not dropped")


def ended(link):
    """Waits for the other side to end a connection."""
    with link:
        try:
            return link.recv(1) == b""
        except socket.timeout:
            return False
        except OSError:
            return True


def questions(ask, folder, table):
    """What the page asks goes to the program, ranks as a line of a sweep."""
    steps, line = "1 look\n2 lend a\n1 commit\n", written(folder, "line", table.replace("\n", " "))
    for given, words in (
            ({"command": "judge"}, ("judge", TRIANGLE, "--order")), ({"command": "rr"}, ("rr", "--lines", line)),
            ({"command": "rank", "degree": "1"}, ("rank", "--lines", line, "1")),
            ({"command": "rank", "degree": "-1"}, ("rank", "--lines", "--", line, "-1")),
            ({"command": "rank", "degree": "--help"}, ("rank", "--lines", "--", line, "--help")),
            ({"command": "rehearse", "steps": steps}, ("rehearse", TRIANGLE, written(folder, "s", steps))),
            ({"command": "rehearse", "steps": "1 lend z\n"}, ("rehearse", TRIANGLE, written(folder, "s2", "1 lend z\n")))):
        status, got = ask(table=table, **given)
        printed, said, end = asked(*words)
        fault = said.replace("dollar: ", "", 1).partition("\n")[0]
        equal((status, got["out"], got["status"], got["err"]), (200, printed, end, fault), f"{given}")


def live_games(ask, folder, table):
    """A game on a live program: one that is gone back in, a line that is none, and a game that is not there."""
    steps = "1 look\n2 lend a\n"
    _, begun = ask(command="begin", table=table, steps=steps)
    key, printed = begun["key"], asked("rehearse", TRIANGLE, written(folder, "s3", steps))[0]
    equal((begun["status"], begun["out"]), (0, printed), "begin")
    for count, line, wanted in (
            (2, "1 commit", (0, "2 winnable by a=0 b=0 c=0 to a=0 b=0 c=0\n", "")), (3, "1 commit", (3, "", "bad look")),
            (3, "65 look", (3, "", "bad seat")), (3, "1 " + "x" * 1024, (3, "", "long line")),
            (0, "3 claim", (0, "0 not won\n", "")), (1, "3 lend a", (0, "1 moved a=0 b=0 c=0\n", ""))):
        _, got = ask(command="play", key=key, count=count, line=line)
        equal((got["status"], got["out"], got["err"]), wanted, f"play {count} {line:.20}")
    for other, count in ("x", 0), (key, 9):
        equal(ask(command="play", key=other, count=count, line="1 look")[1].get("gone"), True, "a game that is gone")
    equal(ask(command="begin", table=table, steps="1 lend z\n")[1]["err"], "bad name", "begin with a bad line")
    keys = [ask(command="begin", table=table, steps="")[1]["key"] for _ in range(8)]
    told = [ask(command="play", key=each, count=0, line="1 claim")[1]["out"] for each in (key, keys[0], keys[-1])]
    equal(told, ["", "0 not won\n", "0 not won\n"], "the oldest of nine games")
    equal(ask(command="begin", table="{}", steps="")[1]["status"], 0, "a game on what is no table")
    return key


def no_questions(place, ask, table, key):
    """What is no question, or has no table."""
    for given in (
            {}, {"command": "play", "key": key, "count": 0, "line": "1 look\n1 look"},
            {"command": "play", "key": key, "count": "0", "line": "1 look"}, {"command": "party", "table": table},
            {"command": "judge"}, {"command": "judge", "table": 7}, {"command": "rank", "table": table},
            {"command": "judge", "table": "x" * ((1 << 21) + 1)}, {"command": "judge", "table": "\ud800"},
            {"command": "layout", "table": table, "places": "a x y"}):
        equal(place.post("ask", given)[0], 400, f"the question {given!r:.60}")
    equal(ask(command="rank", table=table, degree="1\0")[1]["status"], None, "a degree that is no word")
    for command, text, fault in (
            ("judge", "\u00e4", "not JSON"), ("judge", " " * ((1 << 20) + 1), "file too long"), ("layout", "[" * 5000, "not JSON")):
        equal(ask(command=command, table=text)[1]["err"], fault, f"{command} of {text:.5}")
    equal(place.ask("POST", "ask", raw=b"{}", headers={"Content-Length": str(1 << 27)})[0], 413, "a request that is too long")
    status, got = ask(command="replay", table=table, steps="1 lend a\n", name="</title><script>x</script>")
    fine = status == 200 and "<script>x" not in got["page"] and "&lt;script&gt;x" in got["page"]
    expect(fine, "a hostile name in a page that is saved")


def server_of_one_player(folder):
    """The server of one player: nobody gets in without the secret, and what the page asks goes to the program."""
    with played(TRIANGLE) as (child, (address,)):
        place, table, rich = Place(address), text_of(TRIANGLE), text_of(EXAMPLES / "rich_sixteen.json")

        def ask(**given):
            return place.post("ask", given)

        question = {"command": "judge", "table": table}
        for request in (("GET", "/"), ("GET", f"/{place.secret}/alone.py"), ("POST", "/ask", question), ("POST", "start", {}),
                        ("POST", "ask", question, {"Origin": "http://evil.example"})):
            equal(place.ask(*request), (404, "there is nothing here"), f"the request {request}")
        questions(ask, folder, table)
        no_questions(place, ask, table, live_games(ask, folder, table))
        together(*[lambda: ask(command="rr", table=rich)] * 40)
        equal(ask(command="judge", table=table)[1]["status"], 0, "the server after many questions")
        is_modest(child, MOST_MEMORY)
    places = written(folder, "places", "a 0 0\nb 10 0\nc 10 5\n")
    for words in [], ["--class", "2"]:
        with played(TRIANGLE, "--places", places, *words) as (_, found):
            at = json.loads(Place(found[0]).get("start")[1])["layout"]["places"]
            expect(at["a"][1] == at["b"][1] < at["c"][1] and at["b"][0] == at["c"][0] > at["a"][0], f"other places: {at}")


def command_line(folder):
    """What board/play is given is refused in one line, and a reader that goes away is no fault."""
    bad, cube = written(folder, "bad.json", NOT_CONNECTED), EXAMPLES / "cube.json"
    for words in ([bad], ["/nowhere"], [folder], [bad, "--class", "3"], [cube, "--places", bad],
                  [cube, "--class", "3", "--host", "198.51.100.7"], [written(folder, "bytes", "\0")]):
        done = subprocess.run([*PLAY, *words], capture_output=True, text=True, stdin=subprocess.DEVNULL, timeout=PATIENCE)
        fine = (done.returncode, done.stdout, done.stderr.count("\n")) == (1, "", 1) and done.stderr.startswith("board/play: ")
        expect(fine, f"board/play {words}: {done}")
    for words in (["--class", "0"], ["--class", "65"], ["--class", "x"], ["--port", "70000"], ["--host", "127.0.0.1"], ["a", "b"],
                  ["--class", "2", "--name", "a/b"], ["--rooms", "1"], ["--class", "2", "--teacher-here"]):
        done = subprocess.run([*PLAY, *words], capture_output=True, text=True, stdin=subprocess.DEVNULL, timeout=PATIENCE)
        equal((done.returncode, done.stdout), (2, ""), f"board/play {words}")
    for words in ["draw", cube], ["replay", EXAMPLES / "village.json", EXAMPLES / "village_story.txt"]:
        one, other = os.pipe()
        os.close(one)
        done = subprocess.run([sys.executable, "-B", PACKAGE / "dollar", *words], stdout=other, stderr=subprocess.PIPE, timeout=PATIENCE)
        os.close(other)
        equal((done.returncode, done.stderr), (1, b""), f"{words[0]} whose reader has gone")


def as_nobody(act):
    """Whether something holds for another user; also if this one can't be another."""
    if os.getuid():
        return True
    child = os.fork()
    if child == 0:
        try:
            os.setuid(65534)
            os._exit(0 if act() else 1)
        finally:
            os._exit(2)
    return os.waitpid(child, 0)[1] == 0


def a_browser(folder):
    """The address that a browser is called with leads to the page once, and programs of other users to nothing."""
    told = Path(folder, "told")
    browser = written(folder, "browser", f'#!/bin/sh\necho "$1" > {told}.new\nmv {told}.new {told}\n')
    browser.chmod(0o755)
    for words in [], ["--class", "2"], ["--class", "2", "--host", "0.0.0.0", "--name", "vm"]:
        with played(TRIANGLE, *words, browser=browser) as (_, found):
            expect(waited(told.exists), f"no browser is opened with {words}")
            once, secret = Place(told.read_text().strip()), Place(found[-1]).secret
            told.unlink()
            equal((once.host, once.secret == secret, once.path.count("/")), ("127.0.0.1", False, 1), "the address for a browser")
            equal(once.get("/")[0], 404, "an address without a secret")
            expect(as_nobody(lambda: once.get(once.path)[0] == 404), "another user comes to the page")
            equal([(status, secret in said) for status, said in (once.get(once.path), once.get(once.path), once.get(f"/{secret}/"))],
                  [(200, True), (404, False), (200, False)], f"the address for a browser, twice, and the page itself, with {words}")


def ends_of_play(folder):
    """A terminal's Ctrl-D and Ctrl-C end board/play; in a game that was not taken along, the second Ctrl-C."""
    for end in b"\x04", b"\x03":
        one, other = pty.openpty()
        child = subprocess.Popen(PLAY, stdin=other, stdout=subprocess.PIPE, stderr=subprocess.PIPE, start_new_session=True,
                                 preexec_fn=lambda: fcntl.ioctl(0, termios.TIOCSCTTY, 0))
        os.close(other)
        while b"ends it" not in child.stdout.readline():
            pass
        os.write(one, end)
        expect(child.wait(PATIENCE) == 0 and child.stderr.read() == b"", f"Ctrl-{chr(end[0] + 64)} does not end it well")
        os.close(one)
    child = started(written(folder, "table.json", json.dumps(TABLE)), "--class", "2")
    pupils, _ = addresses(child)
    ann = Pupil(pupils, "ann", events=False)
    ann.play("look")
    child.send_signal(signal.SIGINT)
    said = "Entries that were not saved from the teacher's page: 1. Once more ends the game, and drops them.\n"
    equal(child.stdout.readline(), said, "Ctrl-C in a game")
    equal(ann.play("commit")[0], 200, "the game after the first Ctrl-C")
    child.send_signal(signal.SIGINT)
    expect(child.wait(PATIENCE) == 0 and child.stderr.read() == "", "the second Ctrl-C does not end it")


load_tests = tests_of(command_line, a_browser, ends_of_play, server_of_one_player, silence, damaged_requests, given=tempfile.TemporaryDirectory)
