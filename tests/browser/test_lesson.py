"""The lesson of docs/play.md with thirty pupils, by the page and the handout, in Chromium and in Firefox: one of them on a phone, the
teacher on a laptop, and the wall. The computer has two addresses, the network forgets connections without a word, five pupils mistype
the code, and the server has an accident. Nobody is left out, and no move is lost or unseen."""
import csv
import io
import json
import os
import re
import tempfile

from browser import CTRL, READY, Page, at
from common import EXAMPLES, PATIENCE, addresses, asked, started, written
from firefox import in_both
from helpers import equal, expect, tests_of
from test_network import Network
from visitors import PagePupil, Place, Pupil, taken

OTHERS = 29
HOW = "$$('.room').map((at) => at.querySelector('.how').textContent)"
# What a pupil sees without scrolling while the door is shut.
BELOW = """(scrollTo(0, 0), ['#board svg', '#undo', '#hint', '#cant', '#count', '#say', '#more summary'].filter((name) => {
  const { top, bottom, width, height } = $(name).getBoundingClientRect();
  return top < 0 || bottom > innerHeight || !width || !height;
}))"""
SIZES = {"phone": (360, 640), "side": (640, 320), "laptop": (1366, 768)}


def picture(browser, name):
    """A picture of a page, if somebody wants to look at it."""
    if os.environ.get("PICTURES"):
        browser.picture(f"{os.environ['PICTURES']}/lesson-{name}.png")


def handed(desk, table, level="easy"):
    """The teacher hands out the next table, or several."""
    desk.value(f"($('#next-table').value = {json.dumps(table)}, $('#next-table').dispatchEvent(new Event('change')),"
               f" $('#next-level').value = '{level}')")
    turn = desk.value("given.turn")
    desk.click("#hand-form button")
    desk.answered(True)
    desk.until(f"given.turn === {turn + 1} && [...rooms.values()].every(({{ game }}) => game.length === 0)")


def lines_for(folder, table):
    """Single moves that win a table, by the program's script, or none if it can't be won."""
    word, _, script = asked("judge", written(folder, "t.json", table))[0].split(" to ")[0].partition(" by ")
    pairs = [pair.split("=") for pair in script.split(" ")] if word == "winnable" else []
    return [f"{'borrow' if int(count) < 0 else 'lend'} {name}" for name, count in pairs for _ in range(abs(int(count)))]


def addresses_chosen(desk, wall, *places):
    """The teacher chooses which address is shown."""
    equal(desk.value("texts('#which option')"), [*places, "vm:8080"], "the addresses to choose from")
    for place in "vm:8080", places[1]:
        before = wall.value("$('#code').innerHTML")
        desk.value(f"($('#which').value = '{place}', $('#which').dispatchEvent(new Event('change')))")
        for page in desk, wall:
            page.until(f"$('#short').textContent.includes('//{place}/') && $('#address').textContent.includes('//{place}/')")
            equal(page.value("$('#here').hidden"), place == "vm:8080", "a word on an address of this computer alone")
        expect(wall.value("$('#code').innerHTML") != before, "the code of another address")
    evil = Place(desk.value("location.href")).post("place", {"place": "evil.example"})
    equal(evil, (409, "This machine does not have this address any more."), "an address that there is not")


def coming_in(folder, browsers, networks, pupils, teacher):
    """Thirty come in, five of whom mistype the code first; the wall shows a code of half its height until all are there."""
    one, two, three = browsers
    for browser, size in zip(browsers, ((360, 640), (1366, 768), (1920, 1080))):
        browser.size(*size)
    desk, wall = Page(two, teacher, os.path.join(folder, "desk")), Page(three, pupils, os.path.join(folder, "wall"))
    wall.click("#watch")
    desk.until("state !== null")
    addresses_chosen(desk, wall, *(f"127.0.0.1:{network.port}" for network in networks))
    picture(wall, "wall-empty")
    place, code = Place(f"http://127.0.0.1:{networks[0].to}{Place(pupils).path}"), wall.text("#short").rpartition("/")[2]
    wrong = code[::-1] if code != code[::-1] else code[1:] + "0"
    for _ in range(4):
        equal("There is no such code." in place.get("/" + wrong)[1], True, "what a mistyped code is told")
    one.go(f"http://127.0.0.1:{networks[1].port}/{wrong}")
    one.until("document.readyState === 'complete' && Boolean($('input[name=code]'))")
    one.write(code, into="input")
    one.click("button")
    one.until(f"location.pathname === '{place.path}' && {READY}")
    ann = PagePupil(one, one.value("location.href"), "Ann", folder)
    ann.value("$('#more').open = false")
    others = [Pupil(place.address, f"pupil {number}") for number in range(OTHERS - 1)]
    others[0].play("lend cyd")
    wall.until(f"Object.keys(state.names).length === {OTHERS} && document.body.classList.contains('begun')")
    expect(wall.value("$('#code').getBoundingClientRect().height > innerHeight / 3"), "the code on the wall while a seat is free")
    picture(wall, "wall-free")
    others.append(Pupil(place.address, "the last"))
    wall.until("$('#way').classList.contains('full')")
    return ann, others, desk, wall


def first_table(ann, others, desk, wall, networks):
    """The four houses: the first minute teaches, and what is played while connections die is played and drawn."""
    equal(ann.text("#note"), "Click any house: it sends a dollar along each of its roads.", "the first minute")
    for word in "edges", "roads":
        desk.value("$('#may-houses').click()")
        ann.until(f"$('#note').textContent.endsWith(' {word}.') && $('#legend').textContent.includes(' {word[:-1]} was')")
        desk.until(f"state.may.houses === {str(word == 'roads').lower()}")
    for name, size in SIZES.items():
        ann.size(*size)
        equal(ann.value(BELOW), [], f"what can't be seen on a {name}")
        picture(ann, name)
    ann.size(*SIZES["phone"])
    ann.touch(at("cyd"))
    ann.until("viewer.game.length === 1 && $('#note').textContent.startsWith('cyd lends. Go on until nobody owes.')")
    for network in networks:
        network.age += 1
    for name in "cyd", "bob":
        ann.touch(at(name))
    for pupil in others:
        for name in ("cyd", "cyd", "bob")[:pupil.seat % 4]:
            equal(pupil.play(f"lend {name}")[0], 200, "a move of another")
    ann.has(3)
    ann.until("$('#won').textContent === \"Solved in 3 moves: nobody owes a dollar. It can't be done in fewer.\"")
    picture(ann, "phone-won")
    done = 1 + sum(pupil.seat % 4 == 3 for pupil in others)
    for page in desk, wall:
        page.until(f"$('#done').textContent === 'Done: {done} of {OTHERS + 1}'")
    # One more move, out of joy.
    ann.touch(at("ann"))
    for page in desk, wall:
        page.until(f"{HOW}[{ann.seat - 1}] === '\u2605\u2605\u2605 3 moves' && rooms.get({ann.seat}).game.length === 4")
    equal(ann.text("#won"), "Solved before, in 3 moves. It can't be done in fewer.", "what was reached stays")
    equal(others[0].play("script cyd=2,bob=1"),
          (409, "The teacher has switched off looks, verdicts, rank tests and scripts. Nothing was played."), "a script of a pupil")
    picture(wall, "wall-rooms")


def kind_houses(ann, others, desk, wall):
    """What can't be won: to say so is an answer, which is right or wrong."""
    handed(desk, "named kind_houses.json")
    for page in ann, wall:
        page.until("given.name === 'kind_houses.json'")
    equal(ann.text("#note"), "", "the first minute, on a second table")
    others[0].play("lend ann")
    ann.touch("#cant")
    ann.until("$('#won').textContent === \"Right: it can't be done.\"")
    for page in desk, wall:
        page.until(f"$('#done').textContent === 'Done: 1 of {OTHERS + 1}' && {HOW}[{ann.seat - 1}] === \"\u2605\u2605\u2605 it can't be done\"")
    for selector in f".room[data-room='{ann.seat}']", "#ask-won", "#show-fire":
        desk.until(f"$({json.dumps(selector)}) && !$({json.dumps(selector)}).hidden")
        desk.click(selector)
    wall.until("names('#board .burnt').length === 4 && $('#note').textContent.startsWith(\"It can't be won\")")
    for page in desk, wall:
        equal(page.value("[shownRoom, texts('#board .amount'), texts('#board .badge'), $('#now').hidden]"),
              [ann.seat, ["-1", "0", "1", "1"], ["1", "2", "3", "4"], True], "the fire, and nothing else said beside it")
    picture(wall, "wall-fire")
    picture(desk, "teacher-fire")
    shown_by_hand(ann, desk, wall)
    desk.value("($('#show').value = 'all', $('#show').dispatchEvent(new Event('change')))")
    wall.until("document.body.dataset.rooms === 'all'")


def shown_by_hand(ann, desk, wall):
    """The teacher plays moves for show and points at a house; the wall shows it, and no game is changed."""
    for name, amounts in ("dan", ["1", "2", "3", "-5"]), ("cyd", ["1", "3", "1", "-4"]):
        desk.click(at(name))
        for page in desk, wall:
            page.until(f"texts('#board .amount').join() === '{','.join(amounts)}' && $$('#board .arrow').length")
    equal(wall.text("#note"), "cyd lends. In debt: dan owes 4.", "what is said of a move for show")
    desk.click(at("bob"), CTRL)
    for page in desk, wall:
        page.until("names('#board .chosen').join() === 'bob'")
    picture(wall, "wall-shown")
    equal(ann.value("[viewer.game.length, rooms.get(me.seat).items.length]"), [0, 0], "the game after it")
    ann.touch(at("ann"))
    desk.until("texts('#board .amount').join() === '-2,2,2,-1'")
    equal(wall.value("[texts('#board .amount').join(), names('#board .chosen').join()]"), ["1,3,1,-4", "bob"], "what is shown, while its pupil plays")
    desk.click("#unshow")
    wall.until("texts('#board .amount').join() === '-2,2,2,-1' && names('#board .chosen').length === 0")


def at_own_speed(folder, ann, others, desk, wall):
    """Puzzles from easy to hard: each board goes on by itself, and the wall shows where it is."""
    handed(desk, "graph Wheel of 5", "rising")
    ann.until("given.name === 'Wheel of 5' && given.later.length === 5 && $('#next').hidden")
    for page in ann, wall:
        equal(page.value("/easy|medium|hard|unwinnable/.test(document.title + JSON.stringify(given) + $('#title').textContent)"), False,
              "whether a page of pupils knows the level")
    tables = [[json.loads(text) for text in stage] for stage in desk.value("[given, ...given.later].map(({ tables }) => tables)")]
    ann.touch("#cant")
    ann.until("$('#note').textContent === 'It can be done. Keep trying!'")
    ann.touch("#cant")
    ann.until("$('#refused').textContent.includes('before you say so again: 3.')")
    ann.touch("#hint")
    ann.until("/^Let [a-e] (lend|borrow) once. It can be done in \\d+ moves? altogether.$/.test($('#note').textContent)")
    equal(ann.value(BELOW), [], "what can't be seen beside a hint")
    picture(ann, "phone-hint")
    wins = [lines_for(folder, json.dumps(stage[ann.seat - 1])) for stage in tables]
    can = [bool(lines) for lines in wins]
    equal([can[:2], sorted(can[2:5]), can[5:]], [[True, True], [False, True, True], [True]], "which puzzles can be won")
    for line in wins[0]:
        ann.value(f"play('{line}')")
    ann.until("$('#won').textContent.includes(', with help.') && !$('#next').hidden")
    ann.touch("#next")
    ann.until("rooms.get(me.seat).stage === 1 && viewer.game.length === 0"
              " && $('#title').textContent === '2 of 6, Wheel of 5: make everybody debt-free'")
    for pupil in others[:10]:
        for line in lines_for(folder, json.dumps(tables[0][pupil.seat - 1])):
            equal(pupil.play(line)[0], 200, "a move of another")
        equal(pupil.place.post("next", {"key": pupil.key, "stage": 0})[1], {"next": True}, "who goes on")
        equal(pupil.place.post("line", {"key": pupil.key, "line": "lend a", "stage": 0}),
              (409, "There is a new table. This line was not played."), "a line for the table before")
    for page in desk, wall:
        page.until(f"$('#done').textContent === 'Puzzles solved: 11' && {HOW}[{ann.seat - 1}] === '2/6 0 moves'")
    for line in wins[1]:
        ann.value(f"play('{line}')")
    ann.until(f"$('#won').textContent.startsWith('Solved in {len(wins[1])} move')")
    ann.until("/It can('t be done in fewer| be done in [0-9]+)[.]$/.test($('#won').textContent)")
    said = re.search(r"be done in (\d+)", ann.text("#won"))
    expect(not said or int(said[1]) < len(wins[1]), f"in how few moves it can be done, after {len(wins[1])}: {ann.text('#won')}")
    return 1 + next(i for i, line in enumerate(ann.value("viewer.game.replies.map(({ line }) => line)")) if "-" not in line)


def results(desk, moves):
    """Who did what, as a table to take along, also after the teacher's page was loaded again."""
    desk.visit(desk.value("location.href"), "state !== null && $('#done').textContent === 'Puzzles solved: 12'")
    text = desk.saved("#take-results", "results.csv")
    equal(text[0], "\ufeff", "what tells a spreadsheet of its letters")
    rows = list(csv.reader(io.StringIO(text[1:])))
    equal(rows[0][1:6], ["pupil", "board", "table", "done", "fewest moves"], "the head of the results")
    own = [row[3:] for row in rows if row[1] == "Ann"]
    equal([row[:3] + row[4:6] for row in own],
          [["houses.json", "yes", "3", "0", "0"], ["kind_houses.json", "yes", "can't be done", "0", "0"],
           ["Wheel of 5, easy", "yes", "", "1", "1"], ["Wheel of 5, easy", "yes", str(moves), "0", "0"]], "what Ann did")
    equal([own[0][3], own[1][3], 0 < int(own[3][3]) <= moves], ["3", "", True], "the fewest moves that there can be")
    equal(len(rows), 1 + 3 * (OTHERS + 1) + 11, "the rows of all")
    return rows


def lesson(folder, browsers):
    networks = Network(), Network()
    networks[1].to = networks[0].to
    named = [word for place in (*(f"127.0.0.1:{network.port}" for network in networks), "vm:8080") for word in ("--name", place)]
    words = [EXAMPLES / "houses.json", EXAMPLES / "kind_houses.json", "--class", str(OTHERS + 1), "--rooms", "1", "--port",
             str(networks[0].to), "--keep", os.path.join(folder, "kept"), *named]
    child = started(*words)
    pupils, teacher = addresses(child)
    try:
        ann, others, desk, wall = coming_in(folder, browsers, networks, pupils, teacher)
        first_table(ann, others, desk, wall, networks)
        kind_houses(ann, others, desk, wall)
        results(desk, at_own_speed(folder, ann, others, desk, wall))
        child.kill()
        child.communicate()
        ann.told("There is no connection to the game.")
        child = started(*words)
        equal(len(addresses(child)), 2, "the addresses after an accident")
        for page in ann, desk, wall:
            page.until(f"$('#notice').hidden && rooms.get({ann.seat}).stage === 1 && rooms.get({ann.seat}).is_done")
        ann.touch("#next")
        for page in ann, desk, wall:
            page.until(f"rooms.get({ann.seat}).stage === 2")
        ann.touch(at("b"))
        ann.has(1)
        steps, history = taken(Place(f"http://127.0.0.1:{networks[0].to}{Place(teacher).path}"), folder, ann.seat)
        equal([steps, ann.value("viewer.game.replies.map(({ line }) => line)")], [[f"{ann.seat} lend b"], history], "the steps after it")
        for browser in browsers:
            expect(browser.value("document.documentElement.scrollWidth <= innerWidth"), "a page of a lesson is too wide")
            equal(browser.thrown, [], "what pages have thrown")
    finally:
        child.terminate()
        _, said = child.communicate(timeout=PATIENCE)
        equal((child.returncode, said), (0, ""), "the end of board/play")


load_tests = tests_of(*in_both(lesson), given=tempfile.TemporaryDirectory)
