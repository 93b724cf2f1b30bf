"""The table of a class in Chromium: pupils' pages and the teacher's, by clicks, keys and touches."""
import collections
import json
import os
import re
import signal
import tempfile

from browser import LISTED, READY, Page, at, needed
from common import EXAMPLES, played
from helpers import equal, expect, tests_of
from visitors import PagePupil, Place, Pupil, program_of, taken

# Two pupils' pages and the teacher's; the process of the server, and the teacher's address.
Lesson = collections.namedtuple("Lesson", "ann bob desk child place")
NO_LOOK = "Look first: this seat has no look to use."


def with_entries(lesson):
    """Two pupils and the teacher see each entry, by whatever it was made, and each is told what is his alone."""
    ann, bob, desk, *_ = lesson
    equal(ann.value("texts('#names li b')"), ["Zo\u00eb", "<img src=x onerror=p()>"], "the names that are shown")
    equal(ann.value("$$('#names img').length"), 0, "a name that is a script")
    kept = ann.value("$$('#board, #names li b').every((at) => at.getAttribute('translate') === 'no')")
    equal(kept, True, "names that a translator leaves alone")
    ann.click(at("cyd"))
    for page in ann, bob:
        page.has(1)
    bob.touch(at("dan"), "viewer.game.length > 1")
    ann.has(2)
    said = ann.text("#asked"), ann.text("#said")
    equal(said, ("2 borrow dan", "1 moved ann=-2 bob=1 cyd=0 dan=2"), "a long touch of another")
    expect(ann.text("#step").startswith("<img src=x onerror=p()>: dan borrows"), f"whose move it was: {ann.text('#step')}")
    ann.focus(at("bob"))
    ann.press("Enter")
    bob.has(3)
    equal(ann.value("document.activeElement.dataset.name"), "bob", "the focus after an entry came")
    equal(bob.value("$('#now [aria-live]').getAttribute('aria-live')"), "polite", "whether a small room hears what others do")
    ann.drag(at("ann"), at("cyd"))
    bob.has(4)
    equal(bob.text("#said"), "3 joined 1 ann=-1 bob=-2 cyd=1 dan=3", "an edge that another drew")
    bob.click("#commit")
    bob.until("!$('#refused').hidden")
    equal([bob.text("#refused span"), bob.text("#refused code")], [NO_LOOK, "bad look"], "a commit without a look")
    equal(ann.value("$('#refused').hidden"), True, "another is told of it")
    ann.value("viewer.go(1)")
    bob.click("#look")
    ann.has(5)
    equal(ann.value("viewer.now"), 1, "who walks in the history is left there")
    ann.click(at("bob"))
    ann.until("viewer.now === 5 && $('#note').textContent.startsWith('You were at an earlier step')")
    for text, words in (("x" * 1100, "at most 1024 bytes"), ("a\\nb", "no newline"), ("2 look", "There is no such command.")):
        ann.value(f"void play('{text}')")
        ann.until(f"$('#refused').textContent.includes({json.dumps(words)})")
    desk.has(5)


def confirmed(desk, button):
    """Clicks a button of the teacher's, and says yes."""
    desk.click(button)
    desk.answered(True)


def with_seats(lesson):
    """A seat is kept over a reload, has one page, the newest, and is freed by the teacher."""
    ann, _, desk, *_ = lesson
    seat, address = ann.seat, ann.value("location.href")
    ann.visit(address, "state !== null && viewer.game.length === 5")
    equal(ann.value("me.seat"), seat, "the seat after a reload")
    link = Place(address).events(ann.key)
    ann.told("Your seat is open in another page now.")
    ann.click(at("cyd"))
    ann.until("$('#refused').textContent.includes('was not played')")
    ann.click("#notice button")
    ann.until("state !== null && $('#notice').hidden && link.hears")
    link.close()
    confirmed(desk, "#names button")
    ann.told("Your seat was freed.")
    equal(ann.value("$('#entrance').hidden"), False, "a new seat is offered")
    ann.join("Zo\u00eb again", None)
    equal(ann.seat, 3, "the new seat is one that nobody had")


def with_commands(lesson):
    """The teacher stops the game for a while; the program is killed and begun again; the files are taken along."""
    ann, bob, desk, child, place = lesson
    desk.click("#pause")
    ann.told("The teacher has paused the game.")
    ann.click(at("cyd"))
    ann.until("$('#refused').textContent.includes('was not played')")
    desk.until("$('#pause').textContent === 'Resume the game'")
    desk.click("#pause")
    ann.until("$('#notice').hidden && $('#refused').hidden")
    os.kill(program_of(child), signal.SIGKILL)
    for page in ann, bob:
        page.told("The program has ended: it was killed.")
    desk.until("!$('#again').hidden")
    desk.click("#again")
    for page in ann, bob:
        page.until("$('#notice').hidden")
    bob.click("#commit")
    ann.has(6)
    expect("winnable" in ann.text("#said"), f"the look of before is not kept: {ann.text('#said')}")
    for name in "table.json", "steps.txt", "history.txt":
        equal(desk.saved(f"#take-{name.partition('.')[0]}", name), place.get(name)[1], f"the saved {name}")
    expect('id="names">["Zo\\u00eb", "<img' in desk.saved("#take-page", "game.html").replace("\\u003c", "<"), "the names in a saved page")
    entries = [list(pair) for pair in zip(*taken(place, desk.folder))]
    equal(ann.value(LISTED), entries, "the history on a pupil's page")
    ann.value("viewer.go(1)")
    expect(ann.text("#step").startswith("Zo\u00eb: cyd lends"), f"whose the first step was: {ann.text('#step')}")
    ann.click("#last")


def on_a_busy_table(lesson):
    """While others play, the board shows the amounts of now; while coins run, who lends has less already, and the others not yet more."""
    ann, *_ = lesson
    other = Pupil(ann.value("location.href"), "busy", events=False)
    ann.value("viewer.go(viewer.game.length)")
    ann.media(motion="no-preference")
    before = ann.value("texts('#board .amount')")
    for number in range(20):
        _, answer = other.play(f"lend {('ann', 'cyd')[number % 2]}")
        ann.until(f"viewer.game.replies.at(-1).line === {json.dumps(answer)}")
        now, shown, coins = re.findall(r"=(-?\d+)", answer), *ann.value("[texts('#board .amount'), $$('#board .coin').length]")
        lender = 0 if number % 2 == 0 else 2
        held = [now[i] if i == lender else before[i] for i in range(4)]
        expect(shown == now or (coins > 0 and shown == held), f"the amounts {shown}, after {before} and before {now}, with {coins} coins")
        before = now
    ann.until("$$('#board .coin').length === 0")
    equal(ann.value("texts('#board .amount')"), before, "the amounts when all coins have landed")
    ann.media()


def with_a_drawn_table(lesson):
    """The teacher draws a table while others play, and hands it out; what the program does not take is told in the editor."""
    ann, bob, desk, *_ = lesson
    desk.edit()
    desk.click("#edit-clear")
    for _ in "ab":
        desk.click("#add-vertex")
    before = ann.value("viewer.game.length")
    bob.click(at("dan"))
    ann.has(before + 1)
    equal(desk.value("names('#board .vertex')"), ["a", "b"], "what the teacher draws while others play")
    desk.click("#edit-done")
    desk.answered(False)
    equal(desk.value("[$('#editor').hidden, $('#edit-refused').hidden]"), [False, True], "the editor after 'no'")
    desk.click("#edit-done")
    desk.answered(True)
    desk.until("!$('#edit-refused').hidden")
    equal(desk.text("#edit-refused code"), "dollar: not connected", "a table that is none")
    desk.click("#add-edge")
    desk.types("#edit-vertices tr:nth-child(2) input[type=number]", "-1")
    desk.click("#edit-done")
    desk.answered(True)
    for page in ann, bob, desk:
        page.until("given.name === 'a table of the class' && viewer.game.length === 0")
        equal(page.value("viewer.game.table"), {"vertices": ["a", "b"], "edges": [["a", "b", 1]], "amounts": [0, -1], "q": "a"}, "the table")
    equal(desk.value("[$('#editor').hidden, $$('#board [tabindex]').length]"), [True, 2], "the teacher's page after it")
    ann.click(at("a"))
    bob.has(1)


def of_the_pages_of_a_class(folder):
    browsers = one, two, desk = needed()
    with played(EXAMPLES / "houses.json", "--class", "3") as (child, (pupils, teacher)):
        one.open(pupils)
        one.until(READY)
        one.in_sizes("entrance")
        one.click("#watch")
        one.until("state !== null")
        watching = one.text("#address"), one.value("getComputedStyle($('#tools')).display")
        equal(watching, (pupils, "none"), "a page that only watches")
        one.in_sizes("watching")
        ann, bob = (PagePupil(*given, folder) for given in ((one, pupils, "Zo\u00eb"), (two, pupils, "<img src=x onerror=p()>")))
        page = Page(desk, teacher, os.path.join(folder, "desk"))
        page.until("state !== null")
        for switch in "gifts", "edges":
            page.click(f"#may-{switch}")
            ann.until(f"state.may.{switch} && $('#draw-hint').hidden !== state.may.edges")
        for part in with_entries, with_seats, with_commands, on_a_busy_table, with_a_drawn_table:
            part(Lesson(ann, bob, page, child, Place(teacher)))
        one.in_sizes("pupil")
        desk.in_sizes("teacher")
        equal(desk.text("#address"), pupils, "the address on the teacher's page")
        page.value("$('#graphs').open = true")
        page.click("#graphs .gallery button")
        equal(page.value("[$('#next-table').value, $('#graphs').open]"), ["graph Path of 4", False], "a graph chosen by its picture")
        page.click("#move")
        page.until(f"{READY} && state !== null && location.href !== {json.dumps(teacher)}")
        equal(Place(teacher).get("start"), (404, "there is nothing here"), "the address of the teacher's page after it was changed")
        confirmed(page, "#end")
        ann.told("The teacher has ended the game.")
        for browser in browsers:
            browser.harmless(pupils, teacher, page.value("location.href"))
    ann.told("There is no connection to the game.")


load_tests = tests_of(of_the_pages_of_a_class, given=tempfile.TemporaryDirectory)
