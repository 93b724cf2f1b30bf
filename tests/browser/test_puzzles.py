"""Puzzles and hints: what they promise is so, a shortest way is one, and a hint holds nobody up."""
import concurrent.futures
import json
import os
import random
import signal
import tempfile

from common import EXAMPLES, asked, text_of, waited, written
from dollar.board.puzzles import GRAPHS, LEVELS, after, effective, in_chapters, in_rising, puzzles, table_of
from dollar.board.ways import Graph, fewest, least, moves_of, way
from helpers import equal, expect, tests_of
from visitors import a_class

EACH = "--rooms", "1"
TRIANGLE = text_of(EXAMPLES / "triangle.json")


def confirmed(folder, table, level):
    """Sees that somebody owes, and that the program says of a puzzle what its level does."""
    word = asked("judge", written(folder, "puzzle", table))[0].split(" ")[0]
    equal(word, "unwinnable" if level == "unwinnable" else "winnable", f"the verdict on a puzzle that is {level}")
    expect(min(json.loads(table)["amounts"]) < 0, f"nobody owes: {table}")


def on_graphs(folder):
    """Each known graph has puzzles of each level, if there can be any; and so have random ones."""
    for graph in [*GRAPHS, *["random"] * 10]:
        for level in LEVELS:
            name, (table,) = puzzles(graph, level, TRIANGLE)
            equal(name, "a random graph" if graph == "random" else graph, "the name of a puzzle")
            confirmed(folder, table, level)
            if graph != "random":
                equal([json.loads(table)[part] for part in ("vertices", "edges")],
                      [table_of(GRAPHS[graph])[part] for part in ("vertices", "edges")], f"the graph {graph}")
    single = '{"vertices":["a"],"edges":[],"amounts":[0],"q":"a"}\n'
    for level in "easy", "medium", "hard":
        try:
            equal(puzzles("", level, single), None, "a puzzle on one vertex")
        except ValueError as error:
            equal(str(error), "There is no such puzzle on this graph.", "a puzzle on one vertex")


def shortest(_):
    """The fewest moves are as few as a search through all tables finds, and there are so many on each known graph."""
    draw = random.Random(5)
    for name, edges in GRAPHS.items():
        table = table_of(edges)
        graph, count = Graph(table), len(table["vertices"])
        for _ in range(6):
            script = [draw.randint(-2, 2) for _ in range(count)]
            amounts = effective(count, max(0, len(edges) - count + 1 + draw.choice([-1, 0, 2])), draw)
            made = dict(table, amounts=list(graph.after(tuple(amounts), script)))
            found = fewest(made, {name: -times for name, times in zip(table["vertices"], script)})
            expect(min(graph.after(tuple(made["amounts"]), [found[name] for name in table["vertices"]])) >= 0, f"a way on {name}: {made}")
            other = way(json.dumps(made))
            expect(other is None or len(other) == len(moves_of(found)), f"a shortest way on {name}: {made}, {found} and {other}")
    rich = dict(table_of(GRAPHS["Cube"]), amounts=[10 ** 5] * 7 + [-1])
    equal([fewest(rich, {name: -int(name == "h") for name in rich["vertices"]}), len(way(json.dumps(rich)))], [None, 1], "a very rich table")


def rising_ones(folder):
    """A list from easy to hard rises on each board, but for the one that can't be won; the chapters are on graphs of their own."""
    for _ in range(2):
        stages = in_rising("Cycle of 4", TRIANGLE, 4)
        for board in range(4):
            texts = [(texts[board], level) for _, texts, level in stages]
            moves = [least(text) for text, level in texts if level != "unwinnable"]
            equal(moves, sorted(moves), f"the fewest moves of a list: {texts}")
            for text, level in texts:
                confirmed(folder, text, level)
    made = in_chapters(2)
    equal([len({name for name, _, _ in made}), sum(level == "unwinnable" for *_, level in made), made[0][2]], [10, 2, "easy"], "chapters")
    for _, texts, level in made:
        for text in texts:
            confirmed(folder, text, level)
    equal([after(step)[0] for step in (0, 2, 3, 29, 300)], ["1. The street", "1. The street", "2. Three friends", *["10. The star city"] * 2],
          "the way through the chapters")


def patient_hints(folder):
    """A hint that takes long holds nobody up, not even its room; a pupil has one at a time."""
    with a_class(folder, 2, "ann", "bob", options=EACH) as (child, place, _, ann, bob):
        equal(place.post("hint", {"key": bob.key})[0], 200, "a hint")
        reckoner = next(pid for pid in map(int, text_of(f"/proc/{child.pid}/task/{child.pid}/children").split())
                        if "dollar.board.reckoning" in text_of(f"/proc/{pid}/cmdline"))
        os.kill(reckoner, signal.SIGSTOP)
        with concurrent.futures.ThreadPoolExecutor(2) as pool:
            ann.play("lend ann")
            posted = [pool.submit(place.post, "hint", {"key": ann.key}) for _ in range(2)]
            expect(waited(lambda: any(each.done() for each in posted)), "a second hint of a pupil at once")
            equal([each.result()[0] for each in posted if each.done()], [429], "which of them is refused")
            equal([bob.play("lend ann")[0], ann.play("borrow ann")[0], sum(each.done() for each in posted)], [200, 200, 1], "moves meanwhile")
            os.kill(reckoner, signal.SIGCONT)
            equal(sorted(each.result()[0] for each in posted), [200, 429], "the hint")
        os.kill(reckoner, signal.SIGKILL)
        expect(waited(lambda: place.post("hint", {"key": bob.key})[0] == 200), "a hint after an accident")


load_tests = tests_of(on_graphs, shortest, rising_ones, patient_hints, given=tempfile.TemporaryDirectory)
