"""The table of a class, without a browser: one legal history, whatever pupils, strangers and accidents do."""
import json
import os
import random
import re
import signal
import socket
import subprocess
import tempfile
import threading
import time
from pathlib import Path
from unittest.mock import patch

from browser import browsers
from common import EXAMPLES, PATIENCE, addresses, asked, is_modest, played, refused, started, swings, text_of, together, written
from dollar.board.keeping import Keeper
from dollar.board.server import addresses_of
from helpers import equal, expect, tests_of
from model import some_command
from visitors import TABLE, PagePupil, Place, Pupil, a_class, program_of, taken, watcher

LONG = 60_000
PUPILS, LINES = 30, 100
SEATS, BEHIND, CLICKS = 64, 1000, 200
HALVES = 400
MOST_MEMORY = 250_000
OVER = "The game has ended. This line was not played, unless the list has it."
ODD = ["rank 5000", "lend zoe", "lent ann", "look now", "", "2 look", "look\r", "\u00e4" * 500, "x" * 990]


def lines_of(seat, count):
    """Lines that a pupil may play, a few of them bad."""
    draw = random.Random(seat)
    return [some_command(draw, TABLE["vertices"]) if draw.random() < 0.6 else draw.choice(ODD) for _ in range(count)]


def in_order(room, steps, history):
    """Sees that the entries of each pupil are, in his order, just those that he was told."""
    for pupil in room:
        own = [(f"{pupil.seat} {line}", answer) for line, status, answer in pupil.lines if status == 200 and answer[:1].isdigit()]
        kept = [pair for pair in zip(steps, history) if pair[0].startswith(f"{pupil.seat} ")]
        expect(kept == own, f"the lines of seat {pupil.seat} are not in its order")


def many_pupils(folder):
    """Thirty pupils play three thousand lines at once, two of them on pages if there is a browser."""
    with a_class(folder, PUPILS) as (_, place, desk):
        pages = [PagePupil(browser, place.address, f"page {number}", folder) for number, browser in enumerate(browsers()[:2])]
        room = pages + [Pupil(place.address, f"pupil {number}") for number in range(PUPILS - len(pages))]
        equal(sorted(pupil.seat for pupil in room), list(range(1, PUPILS + 1)), "the seats")
        late = place.post("join", {"name": "late"})
        equal(late, (409, f"All {PUPILS} seats are taken. The teacher can free one."), "a seat too many")
        together(*(lambda pupil=pupil: pupil.attend(lines_of(pupil.seat, LINES)) for pupil in room))
        steps, history = taken(desk, folder)
        equal(sum(len(pupil.lines) for pupil in room), PUPILS * LINES, "the lines")
        equal({status for pupil in room for _, status, _ in pupil.lines}, {200}, "the statuses")
        expect(len(history) > PUPILS * LINES / 3, f"only {len(history)} entries")
        in_order(room, steps, history)
        for pupil in room:
            pupil.until(lambda pupil: len(pupil.entries) >= len(history), f"seat {pupil.seat} is not told all")
            told = [(f"{seat} {line}", answer) for seat, line, answer in pupil.entries]
            equal(told, list(zip(steps, history)), f"what seat {pupil.seat} is told")
            pupil.leave()


def refused_alike(place, what, *requests):
    """Sees that all of these requests are answered as if there were nothing."""
    for number, request in enumerate(requests):
        equal(place.ask(*request), (404, "there is nothing here"), f"{what}, request {number}, {request[0]} {request[1]}")


def strangers(folder):
    """Nobody gets in without the secret, speaks for another seat, or comes from another page or by another name."""
    with a_class(folder, 3, "ann", "bob") as (_, place, desk, ann, _):
        secret, port = place.secret, place.port
        line = {"key": ann.key, "line": "claim"}
        wrong = secret[:-1] + ("a" if secret[-1] != "a" else "b")
        without_secret(place, ann, line, wrong)
        from_elsewhere(place, line, f"{place.host}:{port}")
        equal(place.post("line", line)[0], 200, "the same line from its own page")
        equal(place.get("start", headers={"Host": f"localhost:{port}"})[0], 200, "localhost on loopback")
        typed = f"/{secret.replace('-', '').upper()}/start"
        equal(place.get(typed)[0], 200, "an address that is typed in capitals and without dashes")
        leads = f'<!doctype html><meta http-equiv="refresh" content="0; url={secret}/">\n'
        equal(place.get(f"/{secret}"), (200, leads), "an address without its last slash")
        of_another_form(place, ann, line)
        equal(ann.play("2 look"), (200, "bad word"), "a line with another seat in it")
        equal(desk.post("free", {"seat": ann.seat})[0], 200, "a seat is freed")
        refused_alike(place, "a seat that was freed", ("POST", "line", line))
        ann.until(lambda pupil: "freed" in pupil.states and pupil.ended.is_set(), "who had the seat is not told")
        statuses = [desk.post("free", {"seat": seat})[0] for seat in (1, 9, "2", None, [])]
        equal(statuses, [409] * 5, "a seat that nobody has is freed")
        late = Pupil(place.address, "  a \u202e\x00 b\n\n" + "c" * 150)
        late.until(lambda pupil: pupil.states, "who came late is told nothing")
        equal(late.states[-1]["names"]["3"]["name"], "a b " + "c" * 20, "a free seat that nobody had, and a name")
        equal(taken(desk, folder)[0], ["1 claim"], "the steps after strangers")
        with place.answer("GET", "") as answer:
            policy = answer.getheader("content-security-policy")
            expect("script-src 'self'" in policy and "unsafe" not in policy, f"the policy is {policy}")
            headers = [answer.getheader(name) for name in ("referrer-policy", "x-content-type-options", "cache-control")]
            equal(headers, ["no-referrer", "nosniff", "no-store"], "headers")
        late.leave()


def without_secret(place, ann, line, wrong):
    """Paths without the secret or with a wrong one, what is the teacher's, and keys of nobody."""
    secret = place.secret
    refused_alike(place, "without the secret", *(("GET", path) for path in (
        "/", f"/{wrong}/", f"/{wrong}/start", f"/{wrong}/events?from=0", f"/{wrong}/steps.txt", f"/{wrong}", f"//{secret}/", f"/{secret}/../",
        f"/{secret}/%2e", f"/{secret}/x/start", f"/{secret}/class.py", f"/{secret}/steps.txt", f"/{secret}/events?key=&from=0",
        f"/{secret}/events?key={wrong}&from=0", f"/{secret}/events?key={ann.key}&from=x", "/favicon.ico", "/robots.txt")))
    teachers = [("POST", path, {"seat": 1, "paused": True})
                for path in ("pause", "free", "end", "again", "replay", "move", "may", "door", "show", "place", "table", "tables", "start", "")]
    refused_alike(place, "a pupil", ("POST", f"/{wrong}/line", line), ("POST", "/line", line), *teachers)
    keys = "", "1", wrong, "x" * 64, ann.key[:-1]
    refused_alike(place, "another seat", *(("POST", "line", {"key": key, "line": "claim", "seat": 1}) for key in keys))


def from_elsewhere(place, line, host):
    """Requests by other names of the host, and from other pages."""
    hosts = (f"evil.example:{place.port}", place.host, f"{place.host}:1", "evil.example", "", f"{place.host}.evil.example:{place.port}",
             f"127.0.0.2:{place.port}", f"[::1]:{place.port}", f"0.0.0.0:{place.port}")
    refused_alike(place, "another host", *(("GET", "", None, {"Host": name}) for name in hosts),
                  *(("POST", "line", line, {"Host": name, "Origin": "http://" + name}) for name in hosts))
    origins = (None, "", "null", "http://evil.example", "http://127.0.0.1", f"https://{host}", f"http://{host}.evil.example", host)
    refused_alike(place, "another origin", *(("POST", "line", line, {"Origin": origin}) for origin in origins),
                  ("GET", "start", None, {"Origin": "http://evil.example"}), ("POST", "line", line, {"Sec-Fetch-Site": "cross-site"}),
                  ("GET", "start", None, {"Sec-Fetch-Site": "same-site"}), ("PUT", "line", line))


def of_another_form(place, ann, line):
    """What is no line, or no JSON."""
    text = place.ask("POST", "line", line, {"Content-Type": "text/plain"})
    equal(text, (400, "The request is not JSON."), "a form of another page")
    for text, words in (
            ("claim\nlook", "A line has no newline in it."), ("x" * 1023, "A line has at most 1024 bytes."),
            ("\u00e4" * 512, "A line has at most 1024 bytes."), ("x" * 20000, "The request is too long.")):
        status, said = place.post("line", {"key": ann.key, "line": text})
        expect(status in (400, 413) and said.startswith(words), f"the line {text!r:.9}: {status} {said}")
    things = [{"key": ann.key, "line": 7}, {"key": ann.key}, {"line": "look"}, [], "look", None, 7, {"key": ann.key, "line": "\ud800"}]
    for raw, wanted in [(json.dumps(thing).encode(), 400) for thing in things] + [
            (b"{", 400), (b"\xff", 400), (b"[" * 9000, 400), (b"{}" + b" " * 20000, 413)]:
        equal(place.ask("POST", "line", raw=raw)[0], wanted, f"a request of {raw!r:.40}")


def deaths(folder):
    """The program is killed in the middle, and the game is brought back with the looks that the seats had."""
    with a_class(folder, 5, *(f"pupil {number}" for number in range(5))) as (child, _, desk, *room):
        first, *others = room
        equal(first.play("look")[0], 200, "a look")

        def kill():
            time.sleep(0.5)
            os.kill(program_of(child), signal.SIGKILL)

        together(kill, *(lambda pupil=pupil: pupil.attend(lines_of(pupil.seat, 10000)) for pupil in others))
        for pupil in others:
            equal(pupil.lines[-1][1:], (503, OVER), "who plays is told")
        first.until(lambda pupil: pupil.states[-1]["ends"] == {"1": {"status": -9, "text": ""}}, "nobody is told that it was killed")
        before = len(taken(desk, folder)[0])
        equal([desk.post("again", {}) for _ in range(2)], [(200, {}), (409, "The game goes on.")], "it is begun again")
        status, answer = first.play("commit")
        expect(status == 200 and answer.split(" ")[1] in ("winnable", "unwinnable", "stale"), f"the look was not kept: {answer}")
        steps, history = taken(desk, folder)
        equal(len(history), before + 1, "the entries after it was begun again")
        in_order(room, steps, history)
        desk.post("end", {})
        equal(first.play("claim"), (503, OVER), "a line after the end")
        first.until(lambda pupil: pupil.states[-1]["ends"] == {"1": {"status": 0, "text": ""}}, "nobody is told of the end")
        equal([desk.post("again", {})[0], first.play("claim")[0]], [200, 200], "a line after the game was begun again")


def entry(seat, line, answer):
    """A line of a record, of an entry of ann's."""
    return json.dumps({"kind": "played", "seat": seat, "line": line, "answer": answer, "name": "ann"}) + "\n"


def keeping(folder):
    """A class that is kept outlasts board/play, with its addresses, its seats and their looks, also if it was killed while it wrote."""
    kept, table = Path(folder, "kept"), written(folder, "table.json", json.dumps(TABLE))
    record, command = kept / "table1" / "room1.jsonl", ["board", "--no-browser", table, "--class", "3", "--keep", kept]
    kept.mkdir(0o755)
    child = started(*command[2:])
    pupils, teacher = addresses(child)
    Place(teacher).post("may", {"gifts": True})
    ann = Pupil(pupils, "ann")
    statuses = [ann.play(line)[0] for line in ("look", "gift ann 1", "look", "lend zoe", "lend ann")]
    equal(statuses, [200] * 5, "lines that are kept")
    refused(command, "is in use by a command that still runs", stdin=subprocess.DEVNULL)
    modes = {path.name: path.stat().st_mode & 0o777 for path in kept.rglob("*")}
    equal(modes, {"table1": 0o700, **dict.fromkeys(("lock", "class.json", "tables.json", "room1.jsonl"), 0o600)}, "who can read what is kept")
    ann.leave()
    child.kill()
    child.communicate()
    with open(record, "a") as file:
        file.write(entry(1, "claim", "4 not won")[:-20])
    with played(*command[2:]) as (_, found):
        equal(found, [pupils, teacher], "the addresses of a class that was kept")
        desk, bob = Place(teacher), Pupil(pupils, "bob")
        bob.until(lambda pupil: len(pupil.entries) == 4, "entries that came back")
        bob.until(lambda pupil: pupil.states[-1]["names"]["1"]["name"] == "ann", "the names")
        equal(bob.seat, 2, "the seat of who came after the accident")
        expect("winnable" in ann.play("commit")[1], f"the look was not kept: {ann.lines}")
        steps = ["1 look", "1 gift ann 1", "1 look", "1 lend ann", "1 commit"]
        equal(taken(desk, folder)[0], steps, "the steps that were kept")
        before = text_of(record)
        equal(before, "".join(entry(1, step[2:], answer) for step, answer in zip(*taken(desk, folder))), "the record of a kept game")
        bob.leave()
    for text, word in (
            (entry(9, "look", "0 looked"), "seat is not from 1 to 3"), (entry(1, "claim", "0 won"), "as it did"),
            (entry("1", "claim", "0 not won"), "not a record"), ('{"kind": "rewound", "left": 7, "name": "ann"}\n', "not a record"),
            ('{"kind": "lost", "left": 0, "name": "ann"}\n', "not a record"), ('{"kind": "rewound"}\n', "not a record"),
            ('[7, "ann"]\n', "not a record"), ('[1, "claim", "ann"]\n', "not a record"), ("7\n", "not a record"), ("{\n", "not a record")):
        text += before
        written(folder, record, text)
        refused(command, word, stdin=subprocess.DEVNULL)
        equal(text_of(record), text, "a record of a game that is not gone on with")
    written(folder, record, before)
    for name in "class.json", "table1/tables.json":
        whole = text_of(kept / name)
        for text in "", "{\x01", "7", whole[:-1]:
            written(kept, name, text)
            refused(command, f"{name} is damaged", stdin=subprocess.DEVNULL)
            equal(text_of(kept / name), text, "a damaged file that is not gone on with")
        written(kept, name, whole)
    for stage, word in (["cube", [text_of(EXAMPLES / "cube.json")]], "another table"), (text_of(EXAMPLES / "cube.json"), "an older form"):
        written(record.parent, "tables.json", json.dumps([stage]))
        refused(command, word, stdin=subprocess.DEVNULL)


def on_the_disk(folder):
    """What is kept is on the disk before it takes the place of what was, and the same is not written twice."""
    acts, replace = [], os.replace
    with patch("os.fsync", lambda _: acts.append("sync")), patch("os.replace", lambda *places: acts.append("replace") or replace(*places)):
        keeper = Keeper(Path(folder, "kept"))
        for number in 1, 1, 2:
            keeper.save({"turn": number})
    equal([acts, text_of(Path(folder, "kept", "class.json"))], [["sync", "replace"] * 2, '{"turn": 2}'], "what is done with class.json")


def a_long_game(folder):
    """A kept game of 60,000 entries comes back."""
    table, kept = written(folder, "table.json", json.dumps(TABLE)), Path(folder, "kept", "table1")
    kept.mkdir(parents=True)
    steps = written(folder, "steps.txt", swings("ann", LONG))
    entries = zip(text_of(steps).splitlines(), asked("rehearse", table, steps)[0].splitlines())
    written(kept, "room1.jsonl", "".join(entry(1, step[2:], answer) for step, answer in entries))
    with played(table, "--class", "3", "--keep", Path(folder, "kept")) as (_, (_, teacher)):
        equal(Place(teacher).get("history.txt")[1].count("\n"), LONG, "the entries that came back")


def full_history(folder):
    """A full history, here of five entries, ends the game, and says so."""
    capped = 'if [ "$word" = serve ]; then set -- --cap 5 "$@"; fi'
    small = written(folder, "small", f'#!/bin/sh\nword=$1\nshift\n{capped}\nexec "{os.environ["DOLLAR"]}" "$word" "$@"\n')
    small.chmod(0o755)
    with patch.dict(os.environ, DOLLAR=str(small)), a_class(folder, 2, "ann") as (_, _, desk, ann):
        equal([ann.play("claim")[0] for _ in range(6)], [200] * 5 + [503], "lines past the capacity")
        end = {"status": 3, "text": "the history is full"}
        ann.until(lambda pupil: pupil.states[-1]["ends"] == {"1": end}, "nobody is told of it")
        equal(len(taken(desk, folder)[0]), 5, "the steps of a full history")


def floods(folder):
    """Floods, pages that read nothing, and many pages on one seat leave the others in peace, and no line is answered to another."""
    with a_class(folder, 4, "ann", "bob") as (child, place, desk, ann, bob):
        def half_a_line():
            return place.sent(f"POST {place.path}line", f"Origin: {place.origin}", "Content-Type: application/json", "Content-Length: 900", body="{")

        def flood(number):
            return place.post("line", {"key": ann.key, "line": f"gift ann {number % 2 * 2 - 1}"})

        def here():
            return ann.states[-1]["names"][str(bob.seat)]["here"]

        # His own page is older than the others only once the program has taken it.
        bob.until(lambda pupil: pupil.states, "a page that is told nothing")
        deaf = [place.events(bob.key) for _ in range(12)]
        equal({link.recv(12) for link in deaf}, {b"HTTP/1.1 200"}, "many pages on a seat")
        deaf += [half_a_line() for _ in range(HALVES)]
        others, *answers = together(lambda: [bob.play("look")[0] for _ in range(20)], *(lambda number=number: flood(number) for number in range(200)))
        equal(len(answers), 200, "each line of a flood is answered")
        equal({status for status, _ in answers}, {200, 429}, "the statuses of a flood, which is told to be too fast")
        told = sorted(answer["answer"] for status, answer in answers if status == 200)
        entries = zip(*taken(desk, folder))
        equal(told, sorted(line for step, line in entries if step.startswith("1 ")), "the answers to a flood")
        equal(others, [200] * 20, "another pupil in a flood")
        bob.until(lambda pupil: "asleep" in pupil.states and pupil.ended.is_set(), "the oldest of many pages on a seat is not told")
        ann.until(lambda _: here(), "a seat that has a page")
        is_modest(child, MOST_MEMORY)
        for link in deaf:
            link.close()
        ann.until(lambda _: not here(), "pages that vanished are still there")


def clicks(folder):
    """64 seats that all look on are told each click, with a thousand entries behind it."""
    with a_class(folder, SEATS, *(f"pupil {number}" for number in range(SEATS))) as (child, _, _, *room):
        together(*(lambda pupil=pupil: pupil.attend(["look"] * (BEHIND // SEATS + 1)) for pupil in room))
        for number in range(CLICKS):
            equal(room[number % SEATS].play("lend ann" if number % 2 else "borrow ann")[0], 200, "a click")
        room[-1].until(lambda pupil: len(pupil.entries) >= BEHIND + CLICKS, "the last seat is not told all")
        is_modest(child, MOST_MEMORY)


def hosts(folder):
    """With --host the table is open to other machines, by the address of this one and by the name that was given; with --teacher-here the
    teacher's address is answered on this machine alone, and through no tunnel."""
    table = written(folder, "table.json", json.dumps(TABLE))
    words = "--class", "2", "--host", "0.0.0.0", "--teacher-here", "--name", "class.example"
    with played(table, *words) as (_, (pupils, teacher)):
        desk, path = Place(teacher), re.sub("^http://[^/]*", "", pupils)
        host = (addresses_of("0.0.0.0") or [desk.host])[0]
        equal((desk.host, desk.get("start")[0], desk.post("pause", {"paused": False})[0]), ("127.0.0.1", 200, 200), "the teacher here")
        far, place, near = (Place(f"http://{at}:{desk.port}{of}") for at, of in ((host, desk.path), (host, path), (desk.host, path)))
        asked = [far.ask(*request)[0] for request in (("GET", ""), ("GET", "start"), ("GET", "steps.txt"), ("POST", "pause", {}))]
        expect(asked == [404] * 4 or host == desk.host, f"the teacher from elsewhere: {asked}")
        local = 200 if host == desk.host else 404
        for of, name, status in (
                (place, host, 200), (place, "localhost", local), (place, "evil.example", 404), (place, "0.0.0.0", 404),
                (place, "198.51.100.7", 404), (near, near.host, 200), (near, host, local)):
            equal(of.get("start", headers={"Host": f"{name}:{desk.port}"})[0], status, f"{name} asked at {of.host}")
        told = [each.get("start", headers={"Host": "class.example"})[0] for each in (desk, near)]
        equal(told, [404, 200], "the teacher and a pupil through a tunnel")
        equal(Pupil(place.address, "ann", events=False).play("claim")[1], "0 not won", "a line from the network")


def opened(place, begun):
    """Which files a browser far away gets whole: each request comes some time after its connection, and older ones are not used."""
    unused, found = [socket.create_connection((place.host, place.port)) for _ in range(5)], []
    begun.wait(PATIENCE)
    for path in "", "page.css", "class.js", "start":
        with socket.create_connection((place.host, place.port), PATIENCE) as link:
            time.sleep(0.05)
            link.sendall(f"GET {place.path}{path} HTTP/1.1\r\nHost: {place.host}:{place.port}\r\n\r\n".encode())
            head, _, body = link.makefile("rb").read().partition(b"\r\n\r\n")
        found.append(f"Content-Length: {len(body)}".encode() in head.split(b"\r\n"))
    for link in unused:
        link.close()
    return found


def opening(folder):
    """As many browsers as there are seats open the address at once: all files come whole, and who watched before goes on."""
    with a_class(folder, SEATS, "ann") as (_, place, _, ann):
        page = watcher(place)
        page.until(lambda page: page.states, "a page that watches is told nothing")
        begun = threading.Barrier(SEATS)
        equal(together(*[lambda: opened(place, begun)] * SEATS), [[True] * 4] * SEATS, "whole files")
        ann.play("lend ann")
        page.until(lambda page: len(page.entries) == 1, "who watched before is dropped")
        expect(not page.ended.is_set(), "who watched before is dropped")
        page.leave()


def other_names(folder):
    """With --name the class answers to other names, of this machine or of a tunnel, and to no more."""
    table = written(folder, "table.json", json.dumps(TABLE))
    with played(table, "--class", "2", "--name", "vm", "--name", "class.example:8080") as (_, (pupils, _)):
        port, path = re.match(r"http://vm:(\d+)(/.*/)", pupils).groups()
        place = Place(f"http://127.0.0.1:{port}{path}")
        for host, status in ((f"vm:{port}", 200), ("vm", 200), ("VM", 200), ("class.example:8080", 200), (f"127.0.0.1:{port}", 200),
                             ("class.example", 404), (f"class.example:{port}", 404), ("vm.example", 404), ("vm:1", 404)):
            equal(place.get("start", headers={"Host": host})[0], status, f"the name {host}")
        for host, origin, status in (("vm", "https://vm", 200), ("vm", "http://vm", 200), ("vm", "http://class.example:8080", 404),
                                     (f"127.0.0.1:{port}", f"https://127.0.0.1:{port}", 404), ("vm", None, 404)):
            given = {"Host": host, "Origin": origin}
            equal(place.post("join", {"name": "ann", "browser": "b" * 24}, headers=given)[0], status, f"{origin} at {host}")


load_tests = tests_of(many_pupils, strangers, deaths, keeping, on_the_disk, a_long_game, full_history, floods, clicks,
                      opening, other_names, hosts, given=tempfile.TemporaryDirectory)
