"""Puzzles: tables that can be won, from easy to hard, and tables that can't. They are made so, and the program confirms each.

An effective divisor is drawn, and the program fires it by a script that is drawn too: so the result can be won. With a dollar or two more
than the genus it is easy; with as many dollars as the genus, or fewer, it is hard. The divisor of an order of the vertices can't be won,
nor what is nowhere above it, nor what they are fired to."""
from __future__ import annotations

import functools
import itertools
import json
import random
from collections import Counter
from typing import Any, List, Sequence, Tuple

from dollar._answers import numbered
from dollar.board.texts import t
from dollar.board.ways import fewest, moves_of
from dollar._drawing import USUAL, layout
from dollar._program import PATIENCE, printed

Edges = List[Tuple[int, int]]
TRIES, LETTERS = 40, "abcdefghijklmnop"
# Of each level: how many dollars there are beside the genus, and how often a vertex lends or borrows at most.
LEVELS = {"easy": (2, 1), "medium": (0, 2), "hard": (-1, 3), "unwinnable": (-1, 2)}
# The levels of puzzles that are handed out one after another: the first ones, some in any order, and the last.
RISING = ["easy", "easy"], ["medium", "unwinnable", "medium"], ["hard"]
# Chapters, each on a graph: for a class one puzzle of each, the first of which is easy, and the others of some levels; for one player some
# puzzles of each, of one of some levels.
CHAPTERS = "chapters"
CHAPTER_GRAPHS = ["Path of 4", "Triangle", "Star of 5", "Cycle of 5", "Complete, 4", "Wheel of 5", "Grid 2 x 3", "Prism", "Cube", "Petersen"]
IN_CHAPTERS = ["easy"] * 3 + ["medium"] * 3 + ["hard"] + ["unwinnable"] * 2
EACH_CHAPTER = ["easy"], ["medium", "medium", "unwinnable"], ["hard"]
# The fewest and the most vertices of a random graph, and edges that it has beside those of a tree.
RANDOM, MORE = (5, 8), (1, 5)


def ring(size: int) -> Edges:
    return [(i, (i + 1) % size) for i in range(size)]


def path(size: int) -> Edges:
    return ring(size)[:-1]


def complete(size: int) -> Edges:
    return list(itertools.combinations(range(size), 2))


def grid(wide: int, high: int) -> Edges:
    across = [(y * wide + x, y * wide + x + 1) for y in range(high) for x in range(wide - 1)]
    return across + [(y * wide + x, (y + 1) * wide + x) for y in range(high - 1) for x in range(wide)]


def bipartite(one: int, other: int) -> Edges:
    return [(i, one + j) for i in range(one) for j in range(other)]


def spokes(size: int) -> Edges:
    return [(0, i) for i in range(1, size + 1)]


def wheel(size: int) -> Edges:
    return spokes(size) + [(i + 1, j + 1) for i, j in ring(size)]


def prism(size: int) -> Edges:
    return ring(size) + [(i + size, j + size) for i, j in ring(size)] + [(i, i + size) for i in range(size)]


def petersen() -> Edges:
    return ring(5) + [(i, i + 5) for i in range(5)] + [(5 + i, 5 + (i + 2) % 5) for i in range(5)]


# The edges of known graphs, each two numbers of vertices from 0.
GRAPHS = {
    "Path of 4": path(4), "Path of 6": path(6), "Triangle": ring(3), "Cycle of 4": ring(4), "Cycle of 5": ring(5), "Cycle of 6": ring(6),
    "Star of 5": spokes(4), "Two with 3 edges": [(0, 1)] * 3, "Complete, 4": complete(4), "Complete, 5": complete(5),
    "Wheel of 5": wheel(4), "Wheel of 6": wheel(5), "Grid 2 x 3": grid(3, 2), "Grid 3 x 3": grid(3, 3), "K 2,3": bipartite(2, 3),
    "K 3,3": bipartite(3, 3), "Prism": prism(3), "Cube": prism(4), "Petersen": petersen()}


def table_of(edges: Edges) -> dict[str, Any]:
    """A table without dollars on a graph."""
    names, counts = LETTERS[:1 + max(max(edge) for edge in edges)], Counter[Tuple[int, int]]()
    for u, v in edges:
        counts[u, v] += 1
    return {"vertices": list(names), "edges": [[names[u], names[v], count] for (u, v), count in counts.items()],
            "amounts": [0] * len(names), "q": names[0]}


def random_graph(draw: random.Random) -> Edges:
    """The edges of a connected graph: a tree, and some more."""
    size = draw.randint(*RANDOM)
    edges = {(draw.randrange(i), i) for i in range(1, size)}
    others = [pair for pair in complete(size) if pair not in edges]
    return sorted(edges | set(draw.sample(others, min(len(others), draw.randint(*MORE)))))


def text_of(table: dict[str, Any]) -> str:
    return json.dumps(table, indent=1) + "\n"


def fired(table: dict[str, Any], script: dict[str, int]) -> list[int]:
    """The amounts after a script, as the program gives them."""
    step = "1 script %s\n" % ",".join("%s=%d" % pair for pair in script.items())
    said = printed("rehearse", text_of(table).encode(), step.encode(), patience=PATIENCE)
    amounts = numbered(said.rstrip("\n")).amounts
    return [amounts[name] for name in table["vertices"]] if amounts else list(table["amounts"])


def effective(count: int, degree: int, draw: random.Random) -> list[int]:
    """The amounts of an effective divisor."""
    amounts = [0] * count
    for _ in range(degree):
        amounts[draw.randrange(count)] += 1
    return amounts


def in_order(table: dict[str, Any], draw: random.Random) -> list[int]:
    """The amounts of the divisor of an order: each vertex has its edges to earlier ones, less one."""
    order = table["vertices"][:]
    draw.shuffle(order)
    earlier = dict.fromkeys(order, -1)
    for u, v, count in table["edges"]:
        earlier[max(u, v, key=order.index)] += count
    return [earlier[name] for name in table["vertices"]]


def puzzle(table: dict[str, Any], level: str, draw: random.Random, others: Sequence[str] = ()) -> tuple[str, int]:
    """A table with other dollars on the same graph, of a level, and in how few moves it can be won, or 0; not one of the others, if it can
    be. Raises ValueError if there is none."""
    names, (beside, most), found = table["vertices"], LEVELS[level], None
    genus = sum(count for _, _, count in table["edges"]) - len(names) + 1
    for _ in range(TRIES):
        amounts = in_order(table, draw) if level == "unwinnable" else effective(len(names), max(0, genus + beside), draw)
        script = {name: count for name in names if (count := draw.randint(-most, most))}
        made = dict(table, amounts=amounts)
        if script:
            made["amounts"] = fired(made, script)
        word = printed("judge", text_of(made).encode(), patience=PATIENCE).partition(" ")[0]
        if min(made["amounts"]) < 0 and word == ("unwinnable" if level == "unwinnable" else "winnable"):
            back = {name: -script.get(name, 0) for name in names}
            found = text_of(made), 0 if level == "unwinnable" else len(moves_of(fewest(made, back) or {}))
            if found[0] not in others:
                return found
    if found is None:
        raise ValueError(t("puzzles.none-here"))
    return found


@functools.lru_cache(maxsize=None)
def graphs() -> list[dict[str, Any]]:
    """The known graphs, each as its name, a table without dollars, and where its vertices stand."""
    tables = {name: table_of(edges) for name, edges in GRAPHS.items()}
    return [{"name": name, "table": table, "layout": layout(table, USUAL)} for name, table in tables.items()]


def puzzles(graph: str, level: str, now: str, count: int = 1) -> tuple[str, list[str]]:
    """The name of a graph and the texts of puzzles on it: on a known graph, on a random one, or on that of the table now."""
    called, made = measured(graph, level, now, count)
    return called, [text for text, _ in made]


def measured(graph: str, level: str, now: str, count: int) -> tuple[str, list[tuple[str, int]]]:
    """Puzzles, each with the fewest moves by which it can be won."""
    if level not in LEVELS or graph not in ("", "random", *GRAPHS):
        raise ValueError(t("puzzles.none"))
    draw = random.SystemRandom()
    table = json.loads(now) if graph == "" else table_of(random_graph(draw) if graph == "random" else GRAPHS[graph])
    called, made = t("graphs." + graph) if graph in GRAPHS else t("puzzles." + (graph or "same")), list[Tuple[str, int]]()
    while len(made) < count:
        # Once none is found that is new, they come again.
        made.append(puzzle(table, level, draw, [text for text, _ in made] if len(set(made)) == len(made) else ()))
    return called, made


def in_rising(graph: str, now: str, count: int = 1) -> list[tuple[str, list[str], str]]:
    """Stages of puzzles on a graph, each as its name, its texts and its level. On each board those that can be won have more and more moves
    at least; nobody can tell by its place which one can't be won."""
    first, middle, last = RISING
    levels = [*first, *random.SystemRandom().sample(middle, len(middle)), *last]
    made = [measured(graph, level, now, count) for level in levels]
    places = [place for place, level in enumerate(levels) if level != "unwinnable"]
    for board in range(count):
        rising = sorted((made[place][1][board] for place in places), key=lambda each: each[1])
        for place, each in zip(places, rising):
            made[place][1][board] = each
    return [(name, [text for text, _ in each], level) for (name, each), level in zip(made, levels)]


def in_chapters(count: int = 1) -> list[tuple[str, list[str], str]]:
    """A stage of puzzles for each chapter, as above, of which some that nobody knows can't be won."""
    levels = random.SystemRandom().sample(IN_CHAPTERS, len(IN_CHAPTERS))
    stages = []
    for graph, level in zip(CHAPTER_GRAPHS, ["easy", *levels]):
        _, texts = puzzles(graph, level, "", count)
        stages.append((t("chapters." + graph), texts, level))
    return stages


def chapter(number: int) -> str:
    """The name of a chapter."""
    return "%d. %s" % (number, t("chapters." + CHAPTER_GRAPHS[number - 1]))


def after(step: int) -> tuple[str, str]:
    """The puzzle at a step of the way through the chapters, of which each has some, and the last goes on: its name and its text."""
    number = min(step // len(EACH_CHAPTER), len(CHAPTER_GRAPHS) - 1)
    level = random.SystemRandom().choice(EACH_CHAPTER[step % len(EACH_CHAPTER)])
    return chapter(number + 1), puzzles(CHAPTER_GRAPHS[number], level, "")[1][0]
