"""Pages of games that were played: at each step what stands on them is compared with the step and its printed line."""
import math
import re
import tempfile

from browser import LISTED, needed
from common import EXAMPLES, TRIANGLE, lines_of, refused, script, text_of, written
from dollar import answer, edges, example, joined
from dollar._grammar import GRAMMAR
from helpers import equal, expect, tests_of

STORIES = ("village", "village_story"), ("houses", "tax_on_the_houses"), ("village", "roads_for_the_village")
OTHERS = ("sixty_three_edges", "no_room_for_an_edge"), ("rich_triangle", "to_the_limit"), ("four_cycle", "clear_the_cycle")
# The words of replies that have the amounts of all vertices.
WITH_AMOUNTS = [form.split(" ")[0] for form in GRAMMAR["replies"] if re.fullmatch("[a-z]+( g)? P", form)]
MOST_BYTES, SIZES = 100_000, [(wide, 800) for wide in (320, 360, 1280, 1920)]
LONGEST = 65536
SHOWN = """(() => {
  const text = (id) => document.getElementById(id).textContent;
  const vertices = $$("#board .vertex"), has = (test) => vertices.filter(test).map((at) => at.dataset.name);
  return {
    ...Object.fromEntries(["place", "step", "moves", "answer", "asked", "said"].map((id) => [id, text(id)])),
    differs: $("#differs").hidden ? null : text("differs"),
    amounts: vertices.map((at) => [at.dataset.name, Number(at.querySelector(".amount").textContent)]),
    debts: has((at) => at.classList.contains("debt")),
    hatched: has((at) => getComputedStyle(at.querySelector(".hatch")).display !== "none"),
    says: $$("#board .vertex:has(.says)").map((at) => [at.dataset.name, at.querySelector(".says").textContent]),
    at: vertices.map((at) => [at.dataset.name, ...["cx", "cy"].map((axis) => at.querySelector(".round")[axis].baseVal.value)]),
    arrows: $$("#board .arrow").map((at) => at.getAttribute("transform").match(/[-0-9.]+/g).slice(0, 2).map(Number)),
    edges: $$("#board .edge").length, added: $$("#board .added").length, label: $("#board svg").getAttribute("aria-label"),
    slider: Number($("#slider").value), list: $$("#whole [aria-current]").map((at) => Number(at.dataset.index)), open: $("#verdict").open,
    script: $$("#verdict tbody tr").map((at) => [...at.children].map((cell) => cell.textContent)),
  };
})()"""


def page_of(folder, *words):
    """The place of the page of a game."""
    page, said, status = script("replay", *words)
    equal((status, said), (0, ""), f"replay {words}")
    return written(folder, "page.html", page.decode())


def files_of(table, steps):
    return EXAMPLES / f"{table}.json", EXAMPLES / f"{steps}.txt"


def often(count):
    """A number of a script in words."""
    return "does nothing" if count == 0 else f"{'lends' if count > 0 else 'borrows'} {abs(count)}"


def sent(step):
    """How often each vertex lends in a step that moves, as the step says it."""
    _, word, *given = step.split(" ")
    if word == "script":
        return {name: int(count) for name, count in (pair.split("=") for pair in given[0].split(","))}
    return dict.fromkeys(given[0].split(","), -1 if word == "borrow" else 1)


def flows(table, lent):
    """For each pair of vertices between which dollars move: who gives, who gets, how many, and how many lines are drawn."""
    names, pairs = table["vertices"], {}
    for u, v, count in table["edges"]:
        pair = tuple(sorted((u, v), key=names.index))
        pairs[pair] = pairs.get(pair, 0) + count
    for (u, v), count in pairs.items():
        each = lent.get(u, 0) - lent.get(v, 0)
        if each:
            yield (*((u, v) if each > 0 else (v, u)), abs(each) * count, count if count <= 8 else 1)


def flow_words(table, lent):
    """What a page says of the dollars that move."""
    told = [f"{amount} from {giver} to {getter}" for giver, getter, amount, _ in flows(table, lent)]
    if not told:
        return "No dollar goes along an edge."
    return f"Dollars along the edges: {' and '.join([*filter(None, [', '.join(told[:-1])]), told[-1]])}."


def are_arrows_right(shown, table, lent):
    """Whether there is an arrow on each line along which dollars move, nearer to who gets them."""
    wanted = [pair for giver, getter, _, lines in flows(table, lent) for pair in [(giver, getter)] * lines]
    at = {name: place for name, *place in shown["at"]}
    return len(wanted) == len(shown["arrows"]) and all(
        math.dist(at[getter], place) < math.dist(at[giver], place) for (giver, getter), place in zip(wanted, shown["arrows"]))


def compare(browser, where, index, table, amounts, step, line, added):
    """Compares what a page shows at a step with the step and the line of the history."""
    shown, names, reply = browser.value(SHOWN), table["vertices"], answer(line.split(" ", 1)[1]) if line else (None,)
    debts, is_verdict = [name for name in names if amounts[name] < 0], reply[0] in ("winnable", "unwinnable")
    pairs = [(u, v, count) for u in names for v, count in edges(table)[u].items() if u < v]
    wanted = {
        "asked": step, "said": line, "amounts": [[name, amounts[name]] for name in names], "debts": debts, "hatched": debts,
        "label": "The board: " + ", ".join(f"{name} {amount}" for name, amount in amounts.items()), "slider": index, "list": [index] * (index > 0),
        "added": added, "differs": None, "edges": sum(count if count <= 8 else 1 for _, _, count in pairs), "open": is_verdict,
        "script": [[name, often(reply[1][name]), str(amounts[name]), str(reply[2][name])] for name in names] if is_verdict else []}
    if reply[0] == "moved":
        lent = sent(step)
        wanted.update(says=[[name, often(lent[name])] for name in names if lent.get(name)], moves=flow_words(table, lent))
        expect(are_arrows_right(shown, table, lent), f"{where} at {index}: other arrows: {shown['arrows']}")
    for what, thing in wanted.items():
        equal(shown[what], thing, f"{where} at {index}: {what}")
    if reply[0] in (None, "not won", *WITH_AMOUNTS):
        for name in debts:
            expect(f"{name} owes {-amounts[name]}" in shown["answer"], f"{where} at {index}: {name} is not told to owe")


def states(table, steps, lines):
    """For each place of the slider the table with its edges, the amounts, the step, its line, and how many edges were added."""
    amounts, added = dict(zip(table["vertices"], table["amounts"])), 0
    yield table, amounts, "", "", added
    for step, line in zip(steps, lines):
        reply = answer(line.split(" ", 1)[1])
        if reply[0] == "joined":
            table, added = joined(table, *step.split(" ")[2:]), added + 1
        if reply[0] in WITH_AMOUNTS:
            amounts = reply[-1]
        yield table, amounts, step, line, added


def by_keys(browser, place, table, steps):
    """Goes through a page by keys, forth and back, and compares it at each step."""
    asked, lines = lines_of(f"{steps}.txt"), lines_of(f"{steps}.out")
    all_states, last = list(states(example(table).to_dict(), asked, lines)), len(asked)
    browser.open(place)
    ways = [*(("ArrowRight", i) for i in range(1, last + 1)), *(("ArrowLeft", i) for i in range(last - 1, -1, -1)),
            ("End", last), ("ArrowRight", last), ("Home", 0)]
    compare(browser, steps, 0, *all_states[0])
    for key, index in ways:
        browser.press(key)
        compare(browser, f"{steps}, by {key}", index, *all_states[index])
    equal(browser.value(LISTED), [list(pair) for pair in zip(asked, lines)], f"{steps}: the whole history")
    kept = browser.value("['#table', '#steps', '#printed'].map((id) => $(id).textContent)")
    texts = ["".join(f"{line}\n" for line in each) for each in (asked, lines)]
    equal(kept, [text_of(EXAMPLES / f"{table}.json"), *texts], f"{steps}: the data")
    return all_states


def by_slider(browser, steps):
    """Moves the slider itself by keys, and goes to a step by its line."""
    browser.value("$('#slider').focus()")
    last = len(lines_of(f"{steps}.txt"))
    for key, wanted in ("ArrowRight", 1), ("ArrowRight", 2), ("ArrowLeft", 1), ("End", last), ("Home", 0):
        browser.press(key)
        equal(browser.value("viewer.now"), wanted, f"{steps}: {key} on the slider")
    browser.value("$('#whole [data-index=\"3\"]').click()")
    equal(browser.value("viewer.now"), 3, f"{steps}: a click at a line")
    browser.press("Home")


def by_play(browser, steps):
    """Plays and stops."""
    browser.value("document.activeElement.blur()")
    browser.press(" ")
    equal(browser.text("#play"), "Stop", f"{steps}: the button while it plays")
    browser.until("viewer.now >= 2")
    browser.press(" ")
    expect(browser.value("$('#play').textContent === 'Play' && viewer.timer === null"), f"{steps}: it does not stop")


def with_coins(browser, all_states, steps):
    """With motion, dollars are on their way after a step that moves, and the board is then as printed."""
    index = next(i for i, state in enumerate(all_states) if " moved " in state[3])
    browser.media(motion="no-preference")
    browser.value(f"viewer.go({index - 1})")
    browser.value("(({ board }) => { const { coins } = board; board.coins = () => (board.sent = coins.call(board)); })(viewer)")
    browser.press("ArrowRight")
    expect(browser.value("viewer.board.sent.length") > 0, f"{steps}: no dollars move")
    browser.until("$$('#board .coin').length === 0")
    compare(browser, f"{steps} after its dollars moved", index, *all_states[index])
    browser.media()


def of_a_rule(browser, folder):
    """The page of a greedy game."""
    browser.open(page_of(folder, EXAMPLES / "four_cycle.json", "--greedy", "10"))
    equal(browser.value("viewer.game.replies.map((reply) => reply.line)"), lines_of("greedy_cycle.out"), "the history of a rule")


def of_long_game(browser, folder):
    """The page of the longest game has ticks at the steps that are no moves, and lists a part of its lines."""
    asked = ["1 lend a", "1 borrow a"] * (LONGEST // 2)
    for place in 500, 60000:
        asked[place:place + 2] = ["2 look", "2 commit"]
    browser.open(page_of(folder, TRIANGLE, written(folder, "steps", "\n".join(asked))))
    equal(browser.value("$$('#ticks option').map((at) => at.value)"), ["501", "502", "60001", "60002"], "the ticks")
    browser.value("viewer.go(60002)")
    equal(browser.value("[$('#asked').textContent, $('#whole [aria-current]').dataset.index]"), ["2 commit", "60002"], "its line in the list")
    for _ in range(20):
        browser.press("ArrowRight")
    equal(browser.value("viewer.now"), 60022, "20 steps further")
    browser.press("End")
    equal(browser.value("[viewer.now, $$('#whole li').length]"), [LONGEST, 400], "the last step")
    browser.value("viewer.go(999)")
    equal(browser.value("$('#whole li button').dataset.index"), "800", "the lines around another")


def with_differences(browser, folder):
    """If a printed line is changed, the page says so at that step and no other."""
    table, steps = STORIES[0]
    lines = lines_of(f"{steps}.out")
    for index, old, new in ((1, "barn=2", "barn=3"), (4, "given 1", "given 2"), (8, "to well=1", "to well=2"), (10, "won", "not won")):
        changed = [line.replace(old, new) if i == index else line for i, line in enumerate(lines)]
        history = written(folder, "history", "".join(f"{line}\n" for line in changed))
        browser.open(page_of(folder, *files_of(table, steps), history))
        equal(browser.value("viewer.flaws"), {str(index + 1): lines[index]}, f"the flaws of a history with another line {index}")
        browser.value(f"viewer.go({index + 1})")
        expect(lines[index] in (browser.value(SHOWN)["differs"] or ""), f"a changed line {index} is not shown")


def with_strangers(browser, folder):
    """What is no table, or has a script in it, becomes no page; and a script in a page that was changed does not run."""
    steps, history = written(folder, "s", "1 claim\n"), written(folder, "h", "0 won\n")
    for text in ('{"vertices":["</script><script>window.pwned=1</script>"],"edges":[],"amounts":[1],"q":"a"}', "{}", "[" * 100000,
                 '{"vertices":["a"],"edges":[],"amounts":[NaN],"q":"a"}', "\0\1", '{"vertices":["a"],"edges":[["a","z",1]],"amounts":[1],"q":"a"}'):
        for words in ([steps], [steps, history], ["--greedy", "3"]):
            refused(["replay", written(folder, "t.json", text), *words], "dollar replay: ")
    for words in ([TRIANGLE, written(folder, "bad", "1 lend <b>\n")], [TRIANGLE, steps, written(folder, "two", "0 won\n1 won\n")],
                  [TRIANGLE, steps, written(folder, "odd", "0 <script>\n")], ["/nowhere", steps], [TRIANGLE, "/nowhere"]):
        refused(["replay", *words])
    page, _, _ = script("replay", TRIANGLE, "/dev/stdin", input=b"1 lend a\n1 claim\n")
    changed = page.decode().replace("<main>", '<main><script>window.pwned = 1</script><img src="x:" onerror="window.pwned = 2">')
    browser.open(written(folder, "page.html", changed))
    equal(browser.value("[viewer.game.length, window.pwned === undefined]"), [2, True], "a page with a script that is not its own")


def with_places(browser, folder):
    """The vertices stand where the lines of a file say."""
    words, places = files_of("triangle", "first_steps"), written(folder, "places", "a 0 0\nb 100 0\n\nc 100 50\n")
    browser.open(page_of(folder, "--places", places, *words))
    (_, ax, ay), (_, bx, by), (_, cx, cy) = browser.value(SHOWN)["at"]
    expect(ay == by and bx == cx and abs((cy - by) * 2 - (bx - ax)) <= 1, "the vertices stand elsewhere")
    for text in ("a 0 0\nb 1 0\n", "a 0 0\nb 1 0\nc x 1\n", "a 0 0\nb 1 0\nc 1\n", "a 0 0\nb 0 0\nc 1 1\n", "d 0 0\n",
                 "a nan 0\n", "a 0 0\nb 1e-300 0\nc 1 1\n", "a 0 0\nb 0.0000001 0\nc 1000000 0\n"):
        for name, given in ("replay", words), ("draw", words[:1]):
            refused([name, "--places", written(folder, "places", text), *given])


def of_replays(folder):
    browser, *_ = needed()
    for table, steps in STORIES + OTHERS:
        place = page_of(folder, *files_of(table, steps))
        expect(place.stat().st_size < MOST_BYTES, f"{steps}: the page has {place.stat().st_size} bytes")
        all_states = by_keys(browser, place, table, steps)
        if (table, steps) in STORIES:
            by_slider(browser, steps)
            by_play(browser, steps)
            with_coins(browser, all_states, steps)
        browser.in_sizes(steps, SIZES)
    for part in of_a_rule, with_differences, with_strangers, with_places, of_long_game:
        part(browser, folder)
    browser.harmless("x:")


load_tests = tests_of(of_replays, given=tempfile.TemporaryDirectory)
