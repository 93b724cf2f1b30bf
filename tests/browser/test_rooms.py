"""A class in rooms, without a browser: each room has its game, and the teacher hands out tables and says what is permitted."""
import asyncio
import contextlib
import json
import random
import subprocess
import tempfile
import time
from pathlib import Path

from common import EXAMPLES, addresses, played, refused, started, text_of, together, waited, written
from dollar.board.classroom import Classroom
from dollar.board.game import Table
from dollar.board.server import LETTERS
from helpers import equal, expect, tests_of
from test_puzzles import confirmed
from visitors import TABLE, Place, Pupil, a_class, taken, watcher

EACH = "--rooms", "1"
GROUPS, PUPILS, LINES = 3, 12, 40
TRIANGLE = text_of(EXAMPLES / "triangle.json")


def told_all(listener, room, steps, history):
    """Sees that a listener is told just the entries of a room."""
    def told():
        return [(f"{seat} {line}", answer) for seat, line, answer in listener.rooms.get(room, [[]])[0]]

    wanted = list(zip(steps, history))
    waited(lambda: told() == wanted)
    equal(told(), wanted, f"what is told of room {room}")


def apart(folder):
    """Pupils in rooms of three play at once: each room has one legal history, its pupils are told no other, and the teacher all."""
    names = [f"pupil {number}" for number in range(PUPILS)]
    with a_class(folder, PUPILS, *names, options=("--rooms", str(GROUPS))) as (_, _, desk, *pupils):
        page = watcher(desk)
        draw = random.Random(3)

        def lines():
            return [draw.choice(["lend ann", "borrow bob", "look", "claim", "commit", "gift eve 1"]) for _ in range(LINES)]

        together(*(lambda pupil=pupil, own=lines(): pupil.attend(own) for pupil in pupils))
        for room in range(1, PUPILS // GROUPS + 1):
            steps, history = taken(desk, folder, room)
            members = [pupil for pupil in pupils if (pupil.seat - 1) // GROUPS + 1 == room]
            equal({step.split(" ")[0] for step in steps}, {str(pupil.seat) for pupil in members}, f"who played in room {room}")
            for listener in [page, *members]:
                told_all(listener, room, steps, history)
        equal(page.states[-1]["names"]["4"]["room"], 2, "the room of the fourth seat")
        page.leave()


def next_tables(folder):
    """Tables are handed out one after another; the pages go on with each, and a line for the one before is not played."""
    with a_class(folder, 3, "ann", "bob") as (_, _, desk, ann, bob):
        equal(ann.play("lend ann")[0], 200, "a line on the first table")
        bob.until(lambda pupil: pupil.tables, "the first table does not come")
        first = bob.tables[-1]["feed"]
        equal(desk.post("table", {"table": TRIANGLE, "name": "three", "size": 1})[0], 200, "a table that is given")
        bob.until(lambda pupil: len(pupil.tables) == 2, "the second table does not come")
        equal((bob.tables[-1]["tables"], bob.tables[-1]["name"], bob.tables[-1]["room"]), ([TRIANGLE], "three", 2), "the second table")
        for stage in 0.0, "0", None, 1, True:
            equal(ann.place.post("next", {"key": ann.key, "stage": stage})[0], 409, f"the stage {stage!r}")
        late = bob.place.post("line", {"key": bob.key, "line": "lend a", "feed": first})
        equal(late, (409, "There is a new table. This line was not played."), "a line for the table before")
        equal((ann.play("borrow b")[1], bob.play("claim")[1]), ("0 moved a=1 b=1 c=-2", "0 not won"), "lines on the second table")
        equal(taken(desk, folder, 1)[0], ["1 borrow b"], "the steps of the first room")
        for given, name in ({}, "three"), ({"named": "table.json", "size": 0}, "table.json"):
            equal(desk.post("table", given)[0], 200, f"the table {given}")
            ann.until(lambda pupil: pupil.tables[-1]["name"] == name and not pupil.entries, f"the table {given} does not come")
        equal((ann.play("claim")[1], bob.play("claim")[1]), ("0 not won", "1 not won"), "lines on a table that all share again")
        before = len(ann.tables)
        for given, said in (
                ({"table": "{}"}, "shape of top"), ({"size": 4}, "There is no such room."), ({"size": "1"}, "There is no such room."),
                ({"graph": "Cube", "level": "odd"}, "There is no such puzzle."), ({"graph": "Round", "level": "easy"}, "There is no such puzzle.")):
            status, text = desk.post("table", given)
            equal((status in (400, 409), text), (True, said), f"the table {given}")
        equal(len(ann.tables), before, "the tables after what is none")


def in_the_middle(folder):
    """Tables are handed out while all play and take back: each line is answered, and no game is spoiled."""
    with a_class(folder, 8, *(f"pupil {number}" for number in range(8)), options=("--rooms", "2")) as (_, place, desk, *pupils):
        page, over = watcher(place), []

        def hand_out():
            for number in range(12):
                size = (1, 2, 0)[number % 3]
                equal(desk.post("table", {"named": "table.json", "size": size})[0], 200, "a table in the middle")
                desk.post("may", {"undo": True})
                time.sleep(0.15)
            over.append(True)

        def play(pupil):
            statuses = set()
            while not over:
                feed = pupil.tables[-1]["feed"] if pupil.tables else None
                thing = {"key": pupil.key, **({"feed": feed} if feed else {})}
                statuses.add(place.post("line", {**thing, "line": random.choice(["lend ann", "look", "commit"])})[0])
                statuses.add(place.post("undo", thing)[0])
            return statuses

        _, *statuses = together(hand_out, *(lambda pupil=pupil: play(pupil) for pupil in pupils))
        expect(set().union(*statuses) <= {200, 409, 429}, f"the statuses {statuses}")
        page.until(lambda page: page.tables[-1]["turn"] == 13, "the last table does not come")
        equal({pupil.play("claim")[0] for pupil in pupils}, {200}, "lines after the last table")
        told_all(page, 1, *taken(desk, folder, 1))
        page.leave()


def taking_back(folder):
    """A room takes moves back, if the teacher permits it; what is told and kept is the game that is left."""
    kept = Path(folder, "kept")
    with a_class(folder, 2, "ann", "bob", options=(*EACH, "--keep", kept)) as (_, place, desk, ann, bob):
        page = watcher(place)

        def undo(act="undo"):
            return place.post(act, {"key": ann.key})

        for line in "lend ann", "look", "lend bob", "claim":
            equal(ann.play(line)[0], 200, f"the line {line}")
        bob.play("lend bob")
        equal(undo(), (200, {"undo": True}), "a move that is taken back")
        equal(taken(desk, folder)[0], ["1 lend ann", "1 look"], "the steps that are left")
        equal(ann.play("commit")[0], 200, "a commit on a look that is left")
        equal([undo()[1] for _ in range(2)], [{"undo": True}, {"undo": False}], "taken back to the start")
        equal([undo("redo")[1], taken(desk, folder)[0]], [{"redo": True}, ["1 lend ann", "1 look", "1 commit"]], "a move that is played again")
        ann.play("lend dot")
        equal([undo(act)[1][act] for act in ("redo", "undo", "undo", "redo", "redo", "redo")], [False, True, True, True, True, False],
              "two moves that are taken back and played again")
        equal(taken(desk, folder)[0], ["1 lend ann", "1 look", "1 commit", "1 lend dot"], "the steps after it")
        equal([undo()[1], undo()[1]], [{"undo": True}] * 2, "two moves that are taken back again")
        ann.play("borrow cem")
        equal(undo("redo")[1], {"redo": False}, "what was taken back before another move")
        steps, history = taken(desk, folder)
        equal((steps, history[0].split(" ")[0]), (["1 borrow cem"], "0"), "the steps after all was taken back")
        for listener in ann, page:
            told_all(listener, 1, steps, history)
        told_all(page, 2, *taken(desk, folder, 2))
        desk.post("may", {"undo": False})
        for act in "undo", "redo":
            equal(undo(act), (409, "The teacher has switched off undo and redo. Nothing was played."), f"an {act} that is not permitted")
        equal(taken(desk, folder)[0], steps, "the steps after it")
        page.leave()
    with a_class(folder, 2, "ann") as (_, place, _, ann):
        ann.play("lend ann")
        equal([place.post(act, {"key": ann.key})[0] for act in ("undo", "redo", "hint")], [409] * 3, "undo on a table that all share")


def hints(folder):
    """A hint is one move, and moves that only follow hints win; if none helps, this is told. They are the teacher's to permit."""
    with a_class(folder, 2, "ann", "bob", options=EACH) as (_, place, desk, ann, bob):
        def hint(pupil):
            return place.post("hint", {"key": pupil.key})[1]

        ann.play("join ann eve")
        ann.play("gift cem 5")
        for _ in range(30):
            found = hint(ann)["hint"]
            if found["count"] == 0:
                break
            ann.play(f"{'lend' if found['count'] > 0 else 'borrow'} {found['name']}")
        equal(ann.play("claim")[1].split(" ", 1)[1], "won", "a game of hints")
        expect(len(ann.entries) < 30, "so many hints")
        bob.play("gift ann -20")
        equal(hint(bob)["hint"]["count"], None, "a hint where nothing can be won")
        bob.until(lambda pupil: pupil.items == 2, "the hint that nothing can be won is not counted")
        equal(taken(desk, folder, 2)[0], ["2 gift ann -20"], "the steps after a hint")
        desk.post("may", {"hints": False})
        equal(hint(ann), "The teacher has switched off hints. Nothing was played.", "a hint that is not permitted")


def wrong_answers(folder):
    """Who says of a table that can be won that it can't makes three moves before saying so again, also after an accident."""
    words = [EXAMPLES / "houses.json", "--class", "2", *EACH, "--keep", Path(folder, "kept")]
    child = started(*words)
    ann = Pupil(addresses(child)[0], "ann")

    def cant():
        return ann.place.post("cant", {"key": ann.key})[1]

    equal(cant(), {"cant": False}, "a wrong answer")
    for left in 3, 2, 1:
        equal(cant(), f"It can be done. Moves to make before you say so again: {left}.", "an answer at once")
        equal(ann.play("lend ann")[0], 200, "a move")
        if left == 2:
            child.kill()
            child.communicate()
            child = started(*words)
            addresses(child)
    equal(cant(), {"cant": False}, "an answer after three moves")
    child.terminate()
    equal(child.communicate()[1], "", "what board/play said")


def a_puzzle_each(folder):
    """Each room gets its own puzzle, on one graph and with as many dollars, also in its files; the same again is so after an accident too."""
    table, kept = written(folder, "table.json", json.dumps(TABLE)), Path(folder, "kept")
    words = [table, "--class", "6", "--rooms", "1", "--keep", kept]
    child = started(*words)
    pupils, teacher = addresses(child)
    desk, room = Place(teacher), [Pupil(pupils, f"pupil {number}") for number in range(6)]
    for graph, level, size in ("random", "easy", 1), ("Cube", "hard", 2), ("Wheel of 5", "unwinnable", 1):
        equal(desk.post("table", {"graph": graph, "level": level, "size": size, "each": True})[0], 200, f"puzzles on {graph}")
        for pupil in room:
            named = "a random graph" if graph == "random" else graph
            pupil.until(lambda pupil: pupil.tables[-1]["name"] == named, "a puzzle of one's own, of an untold level, does not come")
        page = watcher(desk)
        page.until(lambda page: page.tables, "the puzzles do not come to the teacher")
        tables = page.tables[-1]["tables"]
        equal(len(set(tables)), 6 // size, f"different puzzles on {graph}")
        made = [json.loads(text) for text in tables]
        equal({(str(each["edges"]), sum(each["amounts"])) for each in made}, {(str(made[0]["edges"]), sum(made[0]["amounts"]))},
              "the graph and the dollars of each")
        for pupil in room:
            number = (pupil.seat - 1) // size
            equal(pupil.tables[-1]["tables"], [tables[number]], f"the puzzle of seat {pupil.seat}")
            equal(pupil.play("lend " + made[0]["vertices"][1])[0], 200, "a line on it")
            confirmed(folder, tables[number], level)
        for number, text in enumerate(tables, 1):
            equal(desk.get(f"table.json?room={number}")[1], text, f"the file of room {number}")
            taken(desk, folder, number)
        page.leave()
    for path, thing in ("may", {"gifts": True}), ("door", {"open": False}):
        desk.post(path, thing)
    undo = {"key": room[2].key}
    equal(room[2].place.post("undo", undo)[1], {"undo": True}, "a move that is taken back before an accident")
    child.kill()
    child.communicate()
    with played(*words) as (_, found):
        equal(found, [pupils, teacher], "the addresses after an accident")
        page = watcher(desk)
        page.until(lambda page: page.states and len(page.rooms) == 6, "the games do not come back")
        state, shown = page.states[-1], page.tables[-1]
        equal([state["names"]["3"]["name"], state["may"]["gifts"], state["open"], state["size"], shown["name"], shown["tables"]],
              ["pupil 2", True, False, 1, "Wheel of 5, unwinnable", tables], "what comes back")
        equal([room[2].place.post("redo", undo)[1], room[2].play("gift a 1")[0]], [{"redo": True}, 200], "the move is played again")
        for number in range(1, 7):
            told_all(page, number, *taken(desk, folder, number))
        desk.post("table", {"size": 1})
        equal([desk.get(f"table.json?room={number}")[1] for number in range(1, 7)], tables, "the puzzles after the same again")
        page.leave()
    (kept / "table5" / "tables.json").unlink()
    refused(["board", "--no-browser", *words], "has lost its table 5", stdin=subprocess.DEVNULL)


def permitted(folder):
    """At first nobody gives, takes or builds. The teacher says what is permitted, shuts the door, and bars a browser."""
    with a_class(folder, 3, may=()) as (_, place, desk):
        ann = Pupil(place.address, "ann", browser="b" * 24)
        refused = {"gift": "gifts and levies", "join": "new roads"}
        for line, called in ("gift ann 1000000", refused["gift"]), ("gift ann -1", refused["gift"]), ("join ann bob", refused["join"]):
            equal(ann.play(line), (409, f"The teacher has switched off {called}. Nothing was played."), f"the line {line}")
        equal(ann.play("look")[0], 200, "a look")
        desk.post("may", {"gifts": True, "edges": True, "questions": False})
        equal([ann.play(line)[0] for line in ("gift ann 1", "join ann bob", "look", "commit", "rank 1", "lend ann")],
              [200, 200, 409, 409, 409, 200], "what is permitted otherwise")
        equal(taken(desk, folder)[0], ["1 look", "1 gift ann 1", "1 join ann bob", "1 lend ann"], "the steps")
        again = place.post("join", {"name": "ann again", "browser": "b" * 24})
        equal([again[0], again[1]["seat"], again[1]["key"]], [200, 1, ann.key], "a browser that asks for a second seat")
        desk.post("door", {"open": False})
        equal(place.post("join", {"name": "late"}), (409, "The door is shut. The teacher can open it."), "a seat past a shut door")
        equal(place.post("join", {"name": "ann", "browser": "b" * 24})[1]["seat"], 1, "who has a seat comes in")
        desk.post("door", {"open": True})
        desk.post("free", {"seat": 1, "bar": True})
        ann.until(lambda pupil: "freed" in pupil.states, "who was barred is not told")
        equal(place.post("join", {"name": "ann", "browser": "b" * 24}),
              (409, "The teacher lets this browser take no seat."), "a browser that was barred")
        equal(place.post("join", {"name": "bob", "browser": "c" * 24})[0], 200, "another browser")


def by_a_short_code(folder):
    """A short code leads to the class while the door is open; somebody who tries many wrong ones is heard no more for a while."""
    with a_class(folder, 2) as (_, place, desk):
        short = json.loads(place.get("start")[1])["short"]
        leads, nothing = (200, f'<!doctype html><meta http-equiv="refresh" content="0; url={place.secret}/">\n'), (404, "there is nothing here")
        equal([len(short), place.get(f"/{short}"), place.get(f"/{short.upper()}")], [6, leads, leads], "the short code")
        equal([place.get(f"/{short}/"), place.get(f"/{short}/start"), place.post(f"/{short}", {})], [nothing] * 3, "the code is no secret")
        desk.post("door", {"open": False})
        equal([place.get(path) for path in (f"/{short}", "/start", "/events", "/page.css")], [nothing] * 4, "when the door is shut")
        desk.post("door", {"open": True})
        wrongs = [f"/{short[:-1]}{letter}" for letter in LETTERS if letter != short[-1]]
        half = together(*(lambda path=path: (place.get(path)[0], place.get("/favicon.ico"), place.get(f"/{short}")) for path in wrongs[:15]))
        equal([*half, *together(*[lambda: place.get(f"/{short}")] * 15)], [(404, nothing, leads)] * 15 + [leads] * 15,
              "a school behind one address, of which half mistype")
        pest = Place(place.address)
        pest.source = "127.0.0.66", 0
        heard = together(*[lambda: [pest.get(path)[0] for path in wrongs] and pest.get(f"/{short}")] * 4)
        expect(any("There is no such code." in said for _, said in heard), f"the right code after many wrong ones: {heard}")
        equal([place.get(f"/{short}"), place.get("/page.css")[0]], [leads, 200], "the right code from another address, and how the page looks")
        expect(waited(lambda: pest.get(f"/{short}") == leads), "the right code a while later")
        pests = [Place(place.address) for _ in range(12)]
        for number, each in enumerate(pests):
            each.source = f"127.0.1.{number + 1}", 0
        together(*[lambda each=each: [each.get(path) for path in wrongs[:25]] for each in pests])
        equal(place.get(f"/{short}"), leads, "the right code, while many addresses try wrong ones")


def two_of_a_name(folder):
    """Two files of one name would be one table to choose from, so they are refused."""
    words = [EXAMPLES / "houses.json", written(folder, "houses.json", TRIANGLE), "--class", "2"]
    refused(["board", "--no-browser", *words], "several files are called houses.json", stdin=subprocess.DEVNULL)


def in_another_network(_):
    """Where this machine has another address, that is shown; and again the chosen one, once it is there again."""
    async def shown(*places):
        room.places = lambda: places
        room.beat()
        return room.place

    async def shown_in_turn():
        return [await shown(*places) for places in (["one:1", "two:1"], ["two:1", "three:1"], ["three:1"], [], ["two:1", "one:1"])]

    room = Classroom([Table("triangle", TRIANGLE)], 2)
    room.place = "one:1"
    equal(asyncio.run(shown_in_turn()), ["one:1", "two:1", "three:1", "three:1", "one:1"], "the address that is shown")


def many_seats(folder):
    """A school behind one address has its seats at once. A script that takes all others keeps nobody out who opens the page of a seat."""
    with a_class(folder, 45) as (_, place, desk):
        place.source = "127.0.0.66", 0
        took = together(*(lambda number=number: place.post("join", {"name": "x", "browser": f"b{number}"})[0] for number in range(44)))
        expect(took.count(200) >= 40 and set(took) == {200, 429}, f"the seats of one address: {took}")
        honest = []

        def comes():
            with contextlib.suppress(ValueError):
                honest.append(Pupil(place.address, "honest"))
            return len(honest) == 12

        expect(waited(comes), "the seats of others, once those whose page was never opened are free again")
        equal([len({pupil.seat for pupil in honest}), honest[0].play("look")[0]], [12, 200], "who has a page keeps the seat")
        equal([desk.post("seats", {"count": count})[0] for count in (44, 65, "64", 64)], [409, 409, 409, 200], "other seats")
        *_, last = [Pupil(place.address, "late", events=False) for _ in range(19)]
        equal((last.seat > 45, last.play("look")[0]), (True, 200), "a seat of those that were added")
        for pupil in honest:
            pupil.leave()


def in_german(folder):
    """Pages, scripts and answers are in the language that is asked for, or else in the browser's."""
    with a_class(folder, 2, "Ann") as (_, place, desk, ann):
        german, other = {"Accept-Language": "de-AT,de;q=0.9,en;q=0.5"}, {"Accept-Language": "xx,fr;q=0.9"}
        pages = [place.get("", headers=german)[1], place.get("?lang=de")[1], place.get("", headers=other)[1]]
        equal(['<html lang="de">' in page and 'src="class.js?lang=de"' in page for page in pages], [True, True, False], "pages")
        expect('<html lang="en">' in pages[2] and "Take a seat" in pages[2], "a page for a browser of another language")
        scripts = [place.get(f"class.js?lang={name}")[1] for name in ("de", "en")]
        equal(["Niemand hat Schulden." in script for script in scripts], [True, False], "scripts")
        desk.post("pause", {"paused": True})
        equal([place.post(f"line{lang}", {"key": ann.key, "line": "lend ann"})[1][:14] for lang in ("?lang=de", "")],
              ["Die Lehrkraft ", "The teacher ha"], "answers")
        equal(place.get(f"/{place.secret}?lang=de")[1].count("/?lang=de"), 1, "an address without its last slash")


def names(folder):
    """A name can be seen, and is nobody else's; its owner changes it, and leaves."""
    with a_class(folder, 8, "Anna") as (_, place, _, anna):
        for name in "\u2800", "\u3164 \uffa0", "\u200d", "\ufe0f", "\u0301":
            equal(place.post("join", {"name": name}), (409, "Nobody can see this name. Choose another."), f"the name {name!r}")
        given = ["Anna", "ANNA\u200d", "\u0410nn\u0430", "A" + "\u0301" * 23 + "b", "\u0928\u093f", "\U0001f469\u200d\U0001f4bb", ""]
        came = [place.post("join", {"name": name})[1] for name in given]
        equal([got["name"] for got in came],
              ["Anna 2", "ANNA\u200d 3", "\u0410nn\u0430 4", "A\u0301\u0301\u0301b", *given[4:6], "Seat 8"], "the names")
        bob = {"key": came[0]["key"], "name": "Bob"}
        equal([place.post("rename", {**bob, "name": name})[1] for name in ("Bob", "anna", "\u2800")],
              [{"name": "Bob"}, {"name": "anna 2"}, "Nobody can see this name. Choose another."], "other names")
        equal([place.post("leave", bob)[0], place.post("line", {**bob, "line": "look"})[0], place.post("join", {"name": "Cem"})[1]["seat"]],
              [200, 404, 2], "who leaves")
        anna.until(lambda pupil: "Cem" in str(pupil.states[-1:]), "the names are not told")


load_tests = tests_of(apart, next_tables, in_the_middle, a_puzzle_each, taking_back, hints, wrong_answers, permitted,
                      by_a_short_code, two_of_a_name, in_another_network, many_seats, names, in_german, given=tempfile.TemporaryDirectory)
