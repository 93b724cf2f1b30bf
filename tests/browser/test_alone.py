"""The board for one player, by clicks, keys and touches. Each answer is compared with what the program prints for what the page saves."""
import json
import random
import re
import tempfile

from browser import CTRL, LISTED, READY, SHIFT, Page, at
from common import EXAMPLES, asked, by_line, played, swings, text_of, written
from firefox import Firefox, in_both
from helpers import equal, expect, tests_of

RANDOM_LINES, LONG = 80, 60_000
NO_LOOK, LEAST = "Look first: this seat has no look to use.", "It can't be done in fewer."
TOO_MANY = "The command has too many words or too few, or an extra space."
NO_NAME, NO_WORD = "It names a vertex that is not there, or one twice.", "There is no such command."
SMALL = """$$('button, select, input, summary').filter((at) =>
  at.offsetParent && Math.min(at.offsetWidth, at.offsetHeight) < 16).map((at) => at.id || at.textContent)"""
SAID = "$$('#board .vertex:has(.says)').map((at) => [at.dataset.name, at.querySelector('.says').textContent])"
BURNING = "viewer.board.picture.burnt.map((name, i) => [name, $$('#board .badge')[i].textContent])"
# Who has the focus, and whether that can be seen.
FOCUSED = """(() => {
  const at = document.activeElement;
  if (!at || at === document.body) return null;
  const look = getComputedStyle(at.classList.contains('vertex') ? at.querySelector('.reach') : at);
  return [at.dataset.name || at.id || at.textContent.trim(), look.outlineStyle !== 'none' || look.stroke !== 'none'];
})()"""


class Player(Page):
    """A page on which one player plays."""

    def length(self):
        return self.value("viewer.game.length")

    def longer(self):
        """What holds once one more step was played."""
        return f"viewer.game.length > {self.length()}"

    def does(self, wanted, act, *given):
        """Does what plays a line, waits for its answer, and compares the step, if one is given."""
        before = self.length()
        act(*given)
        self.has(before + 1)
        if wanted:
            equal(self.text("#asked"), wanted, f"the step by {act.__name__} {given}")

    def refused(self, act, *given):
        """Does what is refused. Gives what the page says, in words and in those of the program."""
        before = self.length()
        self.value("hands.tell('')")
        act(*given)
        self.until("!$('#refused').hidden")
        equal(self.length(), before, "the steps after one that was refused")
        return self.text("#refused span"), self.text("#refused code")

    def told(self, button):
        """Asks a question by its button. Gives the words and what was printed."""
        self.value("questions.clear()")
        self.click(button)
        self.until("$('#told-printed').textContent !== ''")
        return self.text("#told-words"), self.text("#told-printed")

    def open_example(self, name, asks=True):
        """Opens the table of an example; if a game is left for it, the page asks first."""
        self.value(f"(hands.tell(''), void openTable(examples['{name}.json'], '{name}.json'))")
        if asks:
            self.answered(True)
        self.until(f"viewer.game.length === 0 && fileName === '{name}.json'")

    def ends(self, words):
        """Waits until the page says what was reached."""
        self.until(f"$('#won').textContent === {json.dumps(words)}")

    def now(self):
        """A file of the table as it stands."""
        return written(self.folder, "now", self.saved("#take-now", "now.json"))

    def compare(self, where):
        """Compares the whole history on the page with what the program prints for the table and steps that the page saves."""
        table = written(self.folder, "t", self.saved("#take-table", "table.json"))
        steps = written(self.folder, "s", self.saved("#take-steps", "steps.txt"))
        printed, said, status = asked("rehearse", table, steps)
        equal((said, status), ("", 0), f"{where}: rehearse of what was saved")
        pairs = zip(text_of(steps).splitlines(), printed.splitlines())
        equal(self.value(LISTED), [list(pair) for pair in pairs], f"{where}: the history")
        return table, steps


def with_focus(player):
    """Whoever goes on by Tab sees where he is, and comes to each control."""
    player.open_example("houses", asks=False)
    player.value("$$('details').forEach((at) => { at.open = true; })")
    seen = {}
    for _ in range(60):
        player.press("Tab")
        focused = player.value(FOCUSED)
        if focused is None:
            break
        seen[focused[0]] = seen.get(focused[0], True) and focused[1]
    equal([name for name, is_shown in seen.items() if not is_shown], [], "where the focus can't be seen")
    controls = {"ann", "bob", "cyd", "dan", "ask-won", "claim", "line-in", "take-table"}
    equal(controls - set(seen), set(), "controls to which Tab does not come")
    player.value("localStorage.removeItem('dollar taught')")
    for one, many in ("house", "roads"), ("vertex", "edges"):
        player.click("#houses")
        equal(player.text("#note"), f"Click any {one}: it sends a dollar along each of its {many}.", "the words that are chosen")


def with_buttons_that_go(player):
    """A button that goes, since it was pressed, leaves the focus to the board; what is chosen is told as pressed. The houses are open."""
    for name in "cyd", "bob":
        player.focus(at(name))
        player.press(" ")
    equal(player.value("$$('#board .vertex').map((at) => at.getAttribute('aria-pressed'))"), ["false", "true", "true", "false"], "what is chosen")
    player.focus("#fire")
    player.does("1 fire bob,cyd", player.press, "Enter")
    player.until("document.activeElement.dataset.name === 'cyd' && $('#fire').hidden")
    equal(player.value("$$('#board [aria-pressed]').length"), 0, "what is chosen after it lent")
    player.focus("#undo")
    player.press("Enter")
    player.until("$('#undo').disabled && document.activeElement.closest('#board') !== null")


def made_larger(player):
    """At 400 and at 300 % the board of a laptop is no stamp."""
    for wide, high in (320, 256), (341, 192), (427, 256):
        player.size(wide, high)
        sides = player.value("(({ width, height }) => [width, height])($('#board svg').getBoundingClientRect())")
        expect(min(sides) >= 190 and player.value("document.documentElement.scrollWidth <= innerWidth"), f"a board of {sides} on {wide} x {high}")
    player.size()


def in_sizes(player):
    """At each size all can be reached, also beside a verdict."""
    def prepare():
        player.value("$$('details').forEach((at) => { at.open = true; })")
        player.told("#ask-won")
        equal(player.value(SMALL), [], "what is too small")

    player.in_sizes("alone", prepare=prepare)


def by_mouse(player):
    """Clicks lend, also of a voice without a pointer; shift-clicks and long presses borrow, chosen ones fire, a line to another joins."""
    edges, chosen = "$$('#board .edge').length", "names('#board .chosen')"
    player.does("1 lend cyd", player.click, at("cyd"))
    equal(player.text("#said"), "0 moved ann=-1 bob=2 cyd=1 dan=-1", "the answer to a click")
    player.does("1 borrow dan", player.click, at("dan"), SHIFT)
    player.does("1 borrow bob", player.click, at("bob"), 0, player.longer())
    player.click(at("bob"), CTRL)
    player.click(at("cyd"), CTRL)
    equal(player.value(chosen), ["bob", "cyd"], "the chosen ones")
    player.does("1 fire bob,cyd", player.click, "#fire")
    equal(player.value(chosen), [], "chosen ones after they fired")
    before = player.value(edges)
    player.does("1 join ann cyd", player.drag, at("ann"), at("cyd"))
    equal(player.value(f"[{edges}, $$('#board .added').length]"), [before + 1, 1], "the edge of a line")
    for selector in "#choosing", at("ann"), at("ann"):
        player.click(selector)
    equal(player.value(chosen), [], "chosen twice")
    player.click("#choosing")
    player.click("#borrowing")
    player.does("1 borrow cyd", player.click, at("cyd"))
    player.does("1 lend cyd", player.click, at("cyd"), SHIFT)
    player.click("#lending")
    (x, y) = player.middle(at("ann"))
    player.drag(at("ann"), [x + 130, y - 90])
    player.does("1 lend ann", player.click, at("ann"))
    player.does("1 lend bob", player.value, f"$({json.dumps(at('bob'))}).dispatchEvent(new MouseEvent('click', {{ bubbles: true }}))")


def by_touch(player):
    """A touch lends, also one that slips a little, and a long one borrows. A swipe builds nothing."""
    player.does("1 lend dan", player.touch, at("dan"))
    player.does("1 borrow dan", player.touch, at("dan"), player.longer())
    player.drag(at("ann"), at("bob"), finger=True)
    (x, y) = player.middle(at("dan"))
    player.does("1 lend dan", lambda: player.drag([x, y], [x + 11, y + 4], finger=True))


def by_keys(player):
    """All of it by keys alone."""
    def goes(key, name):
        player.press(key)
        equal(player.value("document.activeElement.dataset.name"), name, f"the focus after {key}")

    player.value("document.activeElement.blur()")
    player.focus(at("ann"))
    player.does("1 lend ann", player.press, "Enter")
    equal(player.value("document.activeElement.dataset.name"), "ann", "the focus after a line")
    goes("ArrowUp", "bob")
    goes("ArrowRight", "cyd")
    player.press("ArrowDown")
    player.does("1 borrow dan", player.press, "Enter", SHIFT)
    for key in " ", "ArrowLeft", " ":
        player.press(key)
    goes("Tab", "bob")
    player.focus("#fire")
    player.does("1 fire ann,dan", player.press, "Enter")
    player.value("$('#more').open = true")
    for line in "join ann bob", "gift cyd -2", "script ann=1,cyd=-2":
        player.types("#line-in", line)
        player.does(f"1 {line}", player.press, "Enter")
    player.value("document.activeElement.blur()")
    player.press("ArrowLeft")
    equal(player.value("viewer.now"), player.length() - 1, "the arrow key off the board")
    player.press("End")


def with_looks(player):
    """A look is entered once, and one before a gift is stale."""
    def types(line):
        player.types("#line-in", line)
        player.does(f"1 {line}", player.click, "#line-form button")

    for word in "look", "commit", "look":
        player.does(f"1 {word}", player.click, "#" + word)
    types("gift ann 1")
    player.does("1 commit", player.click, "#commit")
    expect(" stale " in player.text("#said") and "Stale" in player.text("#answer"), f"a look before a gift: {player.text('#said')}")
    equal(player.refused(player.click, "#commit"), (NO_LOOK, "dollar: bad look"), "no look")
    player.does("1 look", player.click, "#look")
    types("rank 1")
    expect(" rank " in player.text("#said"), f"no rank test: {player.text('#said')}")
    player.does("1 claim", player.click, "#claim")


def with_refusals(player):
    """What the program refuses is told in words and in its own, and changes nothing."""
    for line, words, own in (
            ("lend zoe", NO_NAME, "bad name"), ("jump", NO_WORD, "bad word"), ("lend", TOO_MANY, "bad form"),
            ("gift ann 1.5", "A number in it is missing, badly written or out of range.", "bad number"), ("<b>x</b>", NO_WORD, "bad word"),
            ("rank 99999", NO_LOOK, "bad look"), ("", NO_WORD, "bad word"), ("look now " + "x" * 200, TOO_MANY, "bad form"),
            ("look now " + "x" * 2000, "The line is too long.", "long line"), ("lend \u00e4nn", NO_NAME, "bad name")):
        said = player.refused(player.value, f"void play({json.dumps(line)})")
        equal(said, (words, f"dollar: {own}"), f"the line {line:.20}")
    said, _ = player.refused(player.value, "void play('look\\n1 claim')")
    equal(said, "A line has no newline in it.", "two lines")
    equal(player.value("$$('#refused b').length"), 0, "elements made of what was typed")


def with_questions(player):
    """Each question has the program's answer, for the table as it stands, and leaves no entry."""
    length = player.length()
    for index in 0, 1, 4, length:
        player.value(f"viewer.go({index})")
        now = player.now()
        judged, numbers = asked("judge", now, "--order")[0], by_line("rr", now)
        words, printed = player.told("#ask-won")
        equal(printed, judged, f"whether it can be won at {index}")
        expect(("can be won" in words) == judged.startswith("winnable"), f"the words {words} for {judged}")
        script = re.fullmatch(r"\w+ by (.*) to .* burning .*\n", judged)[1]
        says = player.value("$$('#board .vertex .says').length")
        equal(says, sum(not pair.endswith("=0") for pair in script.split(" ")), f"the script on the board at {index}")
        degree = int(re.search(r" rank (-?\d+) ", numbers)[1]) + 1
        lost = by_line("rank", now, str(degree))
        player.told("#ask-rank")
        player.until("/rank below/.test($('#told-printed').textContent)")
        equal(player.text("#told-printed"), numbers + lost, f"the rank at {index}")
        losses = [pair.split("=") for pair in re.fullmatch(r"rank below \d+ at (.*)\n", lost)[1].split(" ")]
        shown = player.value(SAID)
        equal(shown, [[name, "lost " + count] for name, count in losses if count != "0"], f"the first loss on the board at {index}")
    equal(player.length(), length, "the entries after questions")


def random_line(draw, one, other):
    """A line that somebody may play."""
    kinds = ("lend %s", "borrow %s", "fire %s", "gift %s 1", "gift %s -2", "gift %s 0", "gift %s 1000000", "script %s=3",
             "lend %s.", "look", "claim", "join %s %s", "fire %s,%s", "script %s=1,%s=-2", "join %s %s", "commit")
    kind = draw.choice(kinds)
    return kind % (one, other)[:kind.count("%s")]


def with_many_lines(player):
    """Lines of all kinds in a fixed random order, good and bad: the page keeps just those that the program takes."""
    draw, before = random.Random(5), player.length()
    lines = [random_line(draw, *draw.sample(["ann", "bob", "cyd", "dan"], 2)) for _ in range(RANDOM_LINES)]
    player.value(f"(async () => {{ for (const line of {json.dumps(lines)}) await play(line); }})()")
    more = player.length() - before
    expect(RANDOM_LINES / 2 < more < RANDOM_LINES, f"{more} of {RANDOM_LINES} lines")
    player.compare("many lines")
    expect(player.told("#ask-rank")[1].startswith(by_line("rr", player.now())), "what the page says of them")
    player.value("hands.tell('')")
    player.compare("houses")


def with_fire(player):
    """The fire goes as docs/play.md tells it: from ann to bob, dan and cyd."""
    # The game before was won once, and nobody is asked whether to leave it.
    player.open_example("kind_houses", asks=False)
    player.click("#cant")
    player.ends("Right: it can't be done.")
    equal(player.value("$('#next').hidden"), False, "the next puzzle after the right answer")
    _, printed = player.told("#ask-won")
    kind = "unwinnable by ann=0 bob=0 cyd=0 dan=-1 to ann=-1 bob=0 cyd=1 dan=1 burning ann bob dan cyd\n"
    equal(printed, kind, "the verdict on the kind houses")
    player.click("#show-fire")
    player.until("$$('#told-fire li').length === 5")
    lines = player.value("texts('#told-fire li')")
    equal([line.split(" ")[0] for line in lines], ["ann", "bob", "dan", "cyd", "All"], "the order of the fire")
    equal(lines[1], "bob burns: 1 burning edge, 0 dollars. So bob can't be one of those that lend most.", "why bob burns")
    for size in (1280, 800), (700, 900):
        player.size(*size)
        equal(player.value(BURNING), [["ann", "1"], ["bob", "2"], ["dan", "3"], ["cyd", "4"]], f"who burns on a page of {size}")
        equal(player.value("texts('#board .amount')"), ["-1", "0", "1", "1"], f"the amounts under the fire on a page of {size}")
    player.size()
    equal(player.text("#answer"), "In debt: ann owes 1.", "what is told beside the fire")
    equal(player.length(), 0, "the entries after a fire")
    player.value("viewer.go(0)")
    equal(player.value("$$('#board .badge').length"), 0, "who burns after that")
    # Here q owes sixteen times as much as a table may have.
    player.open_example("poor_sixteen", asks=False)
    words, _ = player.told("#ask-won")
    player.click("#show-fire")
    player.until("$$('#told-fire li').length === 17")
    equal(player.text("#told-words"), words, "the verdict beside its fire")
    equal(player.value("names('#board .burnt').length"), 16, "who burns of sixteen")


NO_TABLES = [
    ("{", "This isn't a table file", "not JSON"), ("{}", "A table needs just these four", "shape of top"),
    ('{"vertices":["a","b"],"edges":[],"amounts":[0,0],"q":"a"}', "Some vertices can't be reached", "not connected"),
    ('{"vertices":["<img src=x onerror=window.pwned=1>"],"edges":[],"amounts":[0],"q":"a"}', "Vertex 1 needs another name.",
     "name of vertex 0: '<img src=x onerror=window.pwned=1>', and only 1 to 16 letters, digits and _ are possible"),
    (" " * (1 << 20) + "{}", "The file has more than a megabyte", "file too long")]


def with_tables(player):
    """Tables from files, examples and lots; what is no table is refused in words."""
    player.choose_file("#open", written(player.folder, "own.json", text_of(EXAMPLES / "petersen.json")))
    player.until("fileName === 'own.json' && viewer.game.names.length === 10")
    apart = written(player.folder, "places.txt", "a 0 0\nb 300 0\nc 600 0\n")
    player.choose_file("#open", apart, EXAMPLES / "triangle.json")
    player.until("fileName === 'triangle.json'")
    equal(player.value("[...viewer.board.layout.original.places.values()].map(([, y]) => y)").count(player.value("viewer.board.place('a')[1]")), 3,
          "places that are opened with a table")
    player.choose_file("#open", f"{player.folder}/own.json")
    player.until("fileName === 'own.json' && viewer.game.names.length === 10")
    for text, words, own in NO_TABLES:
        said, code = player.refused(player.choose_file, "#open", written(player.folder, "bad.json", text))
        expect(said.startswith(words), f"{own}: {said}")
        equal(code, f"dollar: {own}, in bad.json", "the program's own words")
        equal(player.value("fileName"), "own.json", "the table after one that was refused")
    for graph, level in ("", "easy"), ("Cube", "unwinnable"), ("random", "hard"):
        before = player.value("table")
        player.value(f"($('#puzzle-graph').value = '{graph}', $('#puzzle-level').value = '{level}')")
        player.click("#puzzle-form button")
        player.until(f"table !== {json.dumps(before)}")
        table = player.saved("#take-table", "table.json")
        word = asked("judge", written(player.folder, "puzzle.json", table))[0].split(" ")[0]
        equal(word, "unwinnable" if level == "unwinnable" else "winnable", f"a puzzle that is {level}")


def with_an_end(player):
    """Undo and redo by a click each, a hint of one move, and the end with its number of moves; who does better later is told so."""
    player.open_example("houses", asks=False)
    player.value("localStorage.clear()")
    player.does("1 lend bob", player.click, at("bob"))
    equal([player.text("#count"), player.value("$('#won').hidden")], ["1 move", True], "the moves after one")
    player.click("#undo")
    equal(player.value("[viewer.now, viewer.game.length, $('#count').textContent]"), [0, 1, "0 moves"], "a move that is undone")
    player.click("#redo")
    equal(player.value("viewer.now"), 1, "a move that is done again")
    player.click("#undo")
    player.click(at("cyd"))
    player.until("viewer.now === 1 && $('#asked').textContent === '1 lend cyd'")
    equal(player.value("[viewer.game.length, $('#sure').open]"), [1, False], "a move after one that was undone")
    for line in "1 lend cyd", "1 lend bob", "1 borrow dan", "1 lend dan":
        _, word, name = line.split(" ")
        player.does(line, player.click, at(name), SHIFT if word == "borrow" else 0)
    player.ends(f"Solved in 5 moves: nobody owes a dollar. Your best: 3. {LEAST}")
    equal(player.value("$('#next').hidden"), False, "the next puzzle is offered at the end")
    player.value("viewer.go(0)")
    player.value("hands.tell('')")
    player.click("#hint")
    player.until("$('#note').textContent === 'Let cyd lend once. It can be done in 3 moves altogether.'")
    equal([player.value(SAID), player.length()], [[["cyd", "to lend 1"]], 5], "a hint, and the steps after it")
    player.click("#ask-won")
    player.until("!$('#show-script').hidden")
    for yes in False, True:
        # If it was played after 'no', nobody is asked again.
        player.click("#show-script")
        player.answered(yes)
    player.has(1)
    equal(player.text("#asked"), "1 script bob=1,cyd=2", "the script that is shown")
    player.ends(f"Solved in 3 moves, with help. {LEAST}")
    player.open_example("triangle", asks=False)
    player.open_example("houses", asks=False)
    for name in "cyd", "cyd", "bob":
        player.does(None, player.click, at(name))
    player.ends(f"Solved in 3 moves: nobody owes a dollar. {LEAST}")
    player.does(None, player.click, at("cyd"))
    player.ends(f"Solved before, in 3 moves. {LEAST}")
    player.click("#cant")
    player.until("$('#note').textContent === 'It can be done. Keep trying!'")
    before = player.value("table")
    player.click("#next")
    player.until(f"table !== {json.dumps(before)} && viewer.game.length === 0 && $('#won').hidden && document.activeElement.dataset.name")
    equal(player.text("#title"), "1. The street: make everybody debt-free", "the first of ten chapters")


KEPT_WITH_A_DRAFT = """play("claim").then(() => {
  editor.open();
  editor.clear();
  window.dispatchEvent(new Event("pagehide"));
  editor.close();
  return JSON.parse(sessionStorage.getItem(`dollar ${location.pathname}`)).places;
})"""


def with_editor(player):
    """A table is edited on the board and in lists, and saved as a file which the program takes."""
    player.open_example("triangle", asks=False)
    player.edit()
    player.size(360, 740)
    equal(player.value("[document.documentElement.scrollWidth, $('#board svg').clientHeight > 200]"), [360, True], "the editor on a phone")
    player.size()
    player.press("Escape")
    equal(player.value("$('#editor').hidden"), True, "the editor after Escape")
    player.edit()
    empty = player.value("(({ x, y }) => [x + 40, y + 40])($('#board svg').getBoundingClientRect())")
    player.mouse("Pressed", empty)
    player.mouse("Released", empty, 0, 0)
    equal(player.value("editor.draft.vertices"), ["a", "b", "c", "d"], "a vertex where there was none")
    with_bad_names(player)
    player.click("#edit-done")
    player.until("!$('#edit-refused').hidden")
    equal([player.text("#edit-refused span"), player.text("#edit-refused code")],
          ["Some vertices can't be reached from the others: an edge is missing.", "dollar: not connected"], "a vertex without an edge")
    player.click("input[value=edge]")
    player.drag(at("d"), at("a"))
    player.click("input[value=move]")
    (x, y) = player.middle(at("d"))
    player.drag([x, y], [x + 30, y + 25])
    new = player.middle(at("d"))
    expect(abs(new[0] - x - 30) < 3 and abs(new[1] - y - 25) < 3, f"a vertex that is dragged from {[x, y]} to {new}")
    for selector, text in (
            ("#edit-vertices tr:nth-child(4) input[type=number]", "-5"), ("#edit-edges tr:nth-child(1) input", "3"),
            ("#edit-vertices tr:nth-child(4) input[type=text]", "zoe")):
        player.types(selector, text)
        player.press("Enter")
        player.press("Tab")
    for selector in "#edit-vertices tr:nth-child(2) input[type=radio]", "input[value=remove]", at("c"), "#edit-done":
        player.click(selector)
    player.until("$('#editor').hidden")
    equal(json.loads(player.saved("#take-table", "table.json")), {
        "vertices": ["a", "b", "zoe"], "edges": [["a", "b", 3], ["zoe", "a", 1]], "amounts": [2, -1, -5], "q": "b"}, "the edited table")
    places = player.saved("#take-places", "places.txt")
    equal([line.split(" ")[0] for line in places.splitlines()], ["a", "b", "zoe"], "the places that are saved")
    player.does("1 lend zoe", player.click, at("zoe"))
    equal(player.text("#said"), "0 moved a=3 b=-1 zoe=-6", "a move on the edited table")
    equal(player.text("#title"), "An edited table: make everybody debt-free", "the title of an edited table")
    player.edit()
    for selector in "#edit-clear", "#add-vertex", "#add-vertex", "#add-edge":
        player.click(selector)
    equal(player.value("editor.draft"), {"vertices": ["a", "b"], "edges": [["a", "b", 1]], "amounts": [0, 0], "q": "a"},
          "a table from an empty board")
    player.click("#edit-cancel")
    equal(player.value("[viewer.game.names.length, viewer.now]"), [3, 1], "an edit that is left")
    equal(player.value(KEPT_WITH_A_DRAFT), places, "the places that are kept while the editor draws")


def with_bad_names(player):
    """A name that no vertex can have is told while it is typed; the vertex keeps its own, and nobody plays meanwhile."""
    field = "#edit-vertices tr:nth-child(4) input[type=text]"
    for text, words in (("d e", "A name has 1 to 16 letters from a to z or A to Z, digits or _."), ("b", "Another vertex is called b."),
                        ("\u00e4", "A name has 1 to 16 letters from a to z or A to Z, digits or _."), ("e", "")):
        player.types(field, text)
        equal(player.value(f"$({json.dumps(field)}).validationMessage"), words, f"what is told of the name {text}")
        if words:
            player.click("#edit-done")
            equal(player.value("[$('#editor').hidden, editor.draft.vertices[3]]"), [False, "d"], f"the vertices after the name {text}")
    player.types(field, "d")
    player.press("Tab")
    equal(player.value("editor.draft.vertices[3]"), "d", "the name that is left")


def with_editor_by_keys(player):
    """The focus stays where the hand was after each act of the editor, and vertices move by keys."""
    def focused(wanted, what):
        equal(player.value("document.activeElement.getAttribute('aria-label') || document.activeElement.id"
                           " || document.activeElement.value"), wanted, f"the focus after {what}")

    player.focus("#edit")
    player.press("Enter")
    focused("remove", "the editor has opened")
    player.types("#edit-vertices input", "sue")
    player.press("Tab")
    focused("Dollars of sue", "a vertex was renamed")
    player.focus("#edit-edges button")
    player.press("Enter")
    focused("Remove sue - zoe", "an edge was removed")
    player.focus("#edit-vertices tr:last-child button")
    player.press("Enter")
    focused("Remove b", "the last vertex was removed")
    (x, y) = player.value("viewer.board.place('sue')")
    player.focus(at("sue"))
    player.press("ArrowRight", SHIFT)
    player.press("ArrowDown", SHIFT)
    equal(player.value("viewer.board.place('sue')"), [round(x) + 10, round(y) + 10], "a vertex that was moved by keys")
    equal(player.value("document.activeElement.dataset.name"), "sue", "the focus after a vertex was moved by keys")
    player.focus("#edit-cancel")
    player.press("Enter")
    focused("edit", "the editor was left")


SIZES = """(() => {
  const pixels = (at) => parseFloat(at.getAttribute("font-size")) * $("#board svg").getScreenCTM().a;
  return Math.min(...$$("#board .name, #board .amount").map(pixels));
})()"""


def on_a_phone(player):
    """On a page that is 360 pixels wide names and amounts have at least 11, on any graph."""
    player.size(360, 740)
    for name in "petersen", "path_sixteen", "rich_sixteen", "houses", "triangle":
        player.open_example(name, asks=False)
        player.until("viewer.board.layout.original !== undefined")
        expect(player.value(SIZES) > 10.9, f"letters of {player.value(SIZES):.1f} pixels on {name}")
    player.size()


def with_takings(player):
    """The page that is saved is what it should be."""
    table, steps = player.compare("an edited table")
    player.saved("#take-page", "game.html")
    address = player.value("location.href")
    player.open(player.folder / "game.html")
    shown = player.value("viewer.game.replies.map(({ line }) => line)")
    equal(shown, asked("rehearse", table, steps)[0].splitlines(), "the page that is saved")
    before = text_of(table), text_of(steps)
    player.visit(address + "#%3Cimg%20src=x%20onerror=p()%3E", "viewer.game.length > 0")
    equal(tuple(map(text_of, player.compare("after a reload"))), before, "the files after a reload")
    equal(player.value("$$('img').length"), 0, "pictures made of a fragment of an address")


def with_a_long_game(player):
    """A long game is there again after a reload, and goes on from an earlier place."""
    player.open_example("triangle")
    # What is kept is written a while later, and would be written over the long game.
    player.until("JSON.parse(sessionStorage.getItem(`dollar ${location.pathname}`)).fileName === 'triangle.json'")
    game = f"{{ table, fileName, steps: {json.dumps(swings('a', LONG))}, places: 'a 0 0\\nb 1 0\\nc 0 1\\n' }}"
    player.value(f"sessionStorage.setItem(`dollar ${{location.pathname}}`, JSON.stringify({game})), location.reload()")
    player.until(f"{READY} && viewer.game.length === {LONG}")
    player.value(f"(viewer.go({LONG - 100}), void play('claim'))")
    player.answered(True)
    player.has(LONG - 99)
    equal(player.text("#said"), f"{LONG - 100} not won", "a claim on an earlier place")


PARTS = (in_sizes, made_larger, by_mouse, by_touch, by_keys, with_looks, with_refusals, with_questions, with_many_lines,
         with_fire, with_tables, on_a_phone, with_an_end, with_editor, with_editor_by_keys, with_takings, with_a_long_game, with_focus,
         with_buttons_that_go)
# The three windows of Firefox have one focus, and it comes and goes; and it may scroll once a shorter page was drawn, when the
# board is in view already. So the focus and the editor, and what follows on its table, are looked at in Chromium.
OF_CHROMIUM = with_editor, with_editor_by_keys, with_takings, with_a_long_game, with_focus, with_buttons_that_go


def one_player(folder, browsers):
    browser, *_ = browsers
    with played(EXAMPLES / "houses.json") as (_, (address,)):
        player = Player(browser, address, folder)
        for part in PARTS:
            if part not in OF_CHROMIUM or not isinstance(browser, Firefox):
                part(player)
        browser.harmless(address)
    said = "There is no answer from board/play"
    browser.value("void play('claim')")
    browser.until(f"!$('#refused').hidden && $('#refused').textContent.includes({json.dumps(said)})")


load_tests = tests_of(*in_both(one_player), given=tempfile.TemporaryDirectory)
