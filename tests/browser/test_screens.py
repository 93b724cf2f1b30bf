"""The pages of a class on their screens: nobody scrolls a wall, and the teacher sees what was clicked."""
import json
import os
import tempfile

from browser import READY
from common import EXAMPLES, played
from firefox import in_both
from helpers import equal, expect, tests_of
from visitors import Place, Pupil

WALLS = (1920, 1080), (1280, 720), (1024, 768)
SEATS, FREE, NARROW = 30, 5, 24
# What is not wholly on the screen of all that these selectors find, or is hardly to be seen.
UNSEEN = """%s.flatMap((name) => $$(name).length ? $$(name).filter((at) => {
  const { left, top, right, bottom, width, height } = at.getBoundingClientRect();
  return left < 0 || top < 0 || right > innerWidth + 1 || bottom > innerHeight + 1 || width < 4 || height < 4;
}).map((at) => name + ' ' + at.textContent) : ["no " + name])"""
# Boards on which others lie, as the way in.
COVERED = """$$('body:not([data-rooms=all]) #board .vertex .round').filter((at) => {
  const { x, y, width, height } = at.getBoundingClientRect(), found = document.elementFromPoint(x + width / 2, y + height / 2);
  return !found || !found.closest('#board');
}).length"""
ROOMS = [".room", ".room svg", ".room .who", ".room .how", "#done"]
BOARD = ["#board .vertex", "#note", "#title"]
SCROLLS = "[document.documentElement.scrollHeight > innerHeight, document.documentElement.scrollWidth > innerWidth]"


def picture(browser, name):
    if os.environ.get("PICTURES"):
        browser.picture(f"{os.environ['PICTURES']}/screen-{name}.png")


def on_walls(wall, name, *seen, until="true"):
    """A wall shows all of this on each screen, once something holds."""
    for wide, high in WALLS:
        wall.size(wide, high)
        wall.until(f"innerHeight === {high} && ({until})")
        picture(wall, f"{name}-{wide}")
        equal(wall.value(UNSEEN % json.dumps(seen)), [], f"what is not on a wall of {wide} x {high}: {name}")
        equal(wall.value(SCROLLS), [False, False], f"whether a wall of {wide} x {high} scrolls: {name}")
        equal(wall.value(COVERED), 0, f"vertices that something covers on {wide} x {high}: {name}")


def drawn(count):
    """So many boards are drawn, each as large as its place."""
    return (f"$$('.room').length === {count} && $$('.room svg').every((at) => at.querySelector('.vertex'))"
            f" && $$('.room svg')[0].getBoundingClientRect().height > {NARROW}")


def handed(teacher, wall, **thing):
    turn = wall.value("given.turn")
    equal(teacher.post("table", thing), (200, {}), "a table that is handed out")
    wall.until(f"given.turn === {turn + 1} && state !== null")


def shown(desk, wall, room):
    """The teacher asks of a board whether it can be won, and sets the fire."""
    for selector in f".room[data-room='{room}']", "#ask-won", "#show-fire":
        desk.until(f"$({json.dumps(selector)}) && !$({json.dumps(selector)}).hidden")
        desk.click(selector)
    # What was shown before may still be there, out of sight.
    wall.until("document.body.dataset.rooms !== 'all' && $$('#board .badge').length === 4 && $('#note').textContent.includes('All burn')")


def of_a_wall(folder, browsers):
    """One board, the fire with its words, thirty boards, and a list of puzzles, while seats are free and when all are taken."""
    wall, desk, _ = browsers
    with played(EXAMPLES / "kind_houses.json", "--class", str(SEATS), "--rooms", "1") as (_, (pupils, address)):
        teacher = Place(address)
        others = [Pupil(pupils, f"pupil {number}", events=False) for number in range(SEATS - FREE)]
        desk.size(1366, 768)
        desk.open(address)
        desk.until(f"{READY} && state !== null")
        wall.open(pupils)
        wall.until(READY)
        wall.click("#watch")
        wall.until("state !== null")
        on_walls(wall, "before", *ROOMS, "#code", "#short", "#address", until=drawn(SEATS - FREE))
        equal(others[0].play("lend ann")[0], 200, "a move")
        wall.until("document.body.classList.contains('begun')")
        for free in True, False:
            name, way = ("free", ["#code", "#short"]) if free else ("full", [])
            on_walls(wall, f"rooms-{name}", *ROOMS, *way, until=drawn(len(others)))
            shown(desk, wall, 3)
            on_walls(wall, f"fire-{name}", *BOARD, "#board .badge", *way)
            equal(teacher.post("show", {"what": "all"})[0], 200, "all boards again")
            if free:
                others += [Pupil(pupils, f"late {number}", events=False) for number in range(FREE)]
        handed(teacher, wall, graph="Triangle", level="rising", size=1)
        for pupil in others[:4]:
            equal(pupil.place.post("hint", {"key": pupil.key})[0], 200, "a hint")
            pupil.play("lend a")
        wall.until("texts('.room .how').filter((words) => words.includes('hints: 1')).length === 4")
        on_walls(wall, "list", *ROOMS, until=drawn(SEATS))
        handed(teacher, wall, size=0, named="kind_houses.json")
        others[0].play("lend ann")
        on_walls(wall, "one", "#board .vertex", "#title", until="viewer.game.length === 1")
        equal(wall.thrown + desk.thrown, [], "what pages have thrown")


def of_the_teacher(folder, browsers):
    """What is clicked comes into view: a board of a room, and what is under *More*; on a narrow screen too."""
    desk, *_ = browsers
    with played(EXAMPLES / "kind_houses.json", "--class", str(SEATS), "--rooms", "1") as (_, (pupils, address)):
        for number in range(SEATS - FREE):
            Pupil(pupils, f"pupil {number}", events=False)
        for size in (1366, 768), (1280, 720), (1920, 1080), (800, 1000):
            desk.size(*size)
            desk.open(address)
            desk.until(f"{READY} && state !== null && $$('.room').length === {SEATS - FREE}")
            desk.click(".room[data-room='3']")
            picture(desk, f"teacher-{size[0]}")
            equal(desk.value(UNSEEN % json.dumps(["#board .vertex"])), [], f"what is not seen of a board that was clicked on {size}")
            desk.click("#more > summary")
            desk.until("document.body.classList.contains('open')")
            picture(desk, f"more-{size[0]}")
            expect(desk.value("$('#more > summary').getBoundingClientRect().bottom < innerHeight - 60"), f"what was opened on {size}")
            if size[0] >= 992:
                desk.click("#ask-won")
                desk.until("$('#told-words').textContent !== ''")
                equal(desk.value(UNSEEN % json.dumps(["#board .vertex", "#ask-won", "#told-words"])), [], f"what is not seen of an answer on {size}")
            desk.value("$('#more').open = false")


load_tests = tests_of(*in_both(of_a_wall), *in_both(of_the_teacher), given=tempfile.TemporaryDirectory)
