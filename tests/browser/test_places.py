"""Places: known graphs are found by their shape, whatever the vertices are called and in whatever order they stand."""
import itertools
import json
import math
import random
import time

from common import EXAMPLES, text_of
from dollar import _places as module
from dollar.board.puzzles import bipartite, complete, grid, petersen, prism, ring
from dollar._drawing import USUAL, layout
from dollar._places import places, places_of_text
from helpers import equal, expect, tests_of

DRAW = random.Random(7)
TIMES, MOST_SECONDS = 6, 1.0


def tree(size):
    return [(DRAW.randrange(i), i) for i in range(1, size)]


# The crossings of a drawing as people know it: the cube's two squares cross twice, Petersen's star five times.
KNOWN = {
    "the cube": (prism(4), 2), "Petersen's graph": (petersen(), 5), "K3,3": (bipartite(3, 3), 9), "K2,5": (bipartite(2, 5), 10),
    "a prism": (prism(3), 0), **{f"grid {wide}x{high}": (grid(wide, high), 0) for wide, high in ((2, 3), (2, 8), (3, 3), (3, 5), (4, 4))},
    **{f"path {size}": (ring(size)[:-1], 0) for size in (3, 8, 9, 16)}}
RINGS = {**{f"cycle {size}": (ring(size), 0) for size in (3, 4, 5, 9, 16)},
         **{f"K{size}": (complete(size), math.comb(size, 4)) for size in (4, 5, 7)}}


def crossings(found, edges):
    return module.crossings(module.neighbours(list(found), edges), found)


def relabelled(edges):
    """The same graph with other names in another order, its edges either way round."""
    names = [f"v{i}" for i in range(1 + max(map(max, edges)))]
    DRAW.shuffle(names)
    order = names[:]
    DRAW.shuffle(order)
    turned = [(names[i], names[j])[::DRAW.choice((1, -1))] for i, j in edges]
    DRAW.shuffle(turned)
    return order, turned


def apart(found):
    return min((math.dist(x, y) for x, y in itertools.combinations(found.values(), 2)), default=1)


def known_graphs():
    """For each known graph: its edges are as long, and as many of them cross, whatever its vertices are called."""
    for name, (graph, crossed) in {**KNOWN, **RINGS}.items():
        shapes = set()
        for _ in range(TIMES):
            order, edges = relabelled(graph)
            found = places(order, [[u, v, DRAW.randint(1, 3)] for u, v in edges])
            equal(list(found), order, f"{name}: the order of the names")
            equal(crossings(found, edges), crossed, f"the crossings of {name}")
            shapes.add(tuple(sorted(round(math.dist(found[u], found[v]), 3) for u, v in edges)))
            if name in RINGS:
                equal(len({round(math.hypot(x, y), 3) for x, y in found.values()}), 1, f"{name} does not stand in a ring: radii")
        equal(len(shapes), 1, f"the ways in which {name} is drawn")


def trees():
    """Trees have no crossings, and each vertex stands below the one on which it hangs."""
    for size in range(4, 17):
        order, edges = relabelled(tree(size))
        found = places(order, edges)
        equal(crossings(found, edges), 0, f"the crossings of a tree of {size}")
        expect(apart(found) > 0.05, f"the vertices of a tree of {size} are {apart(found):.3f} apart")


def other_graphs():
    """All other graphs come out the same at each run, with all vertices apart and none on an edge of others."""
    for size in [size for size in range(4, 17) for _ in range(4)]:
        more = [tuple(DRAW.sample(range(size), 2)) for _ in range(DRAW.randrange(1, 2 * size))]
        order, edges = relabelled(tree(size) + more)
        start = time.process_time()
        found = places(order, edges)
        took = time.process_time() - start
        equal(places(order, [[v, u, 2] for u, v in edges]), found, "places at another run")
        expect(apart(found) > 0.1, f"the vertices of a graph of {size} are {apart(found):.3f} apart")
        expect(took < MOST_SECONDS, f"places of a graph of {size} take {took:.2f} s")
        equal(through(order, edges), [], f"edges of a graph of {size} through the circles of others")
        parts = [part for place in found.values() for part in place]
        expect(all(math.isfinite(part) and abs(part) <= 1.5 for part in parts), "places out of bounds")


def through(names, edges):
    """The vertices through whose circles, as a page draws them, edges of others go."""
    drawn = layout({"vertices": names, "edges": edges}, USUAL)
    at, radius = drawn["places"], drawn["radius"]
    return [(name, u, v) for u, v in edges if u != v for name in names if name not in (u, v) and aside(at[name], at[u], at[v]) <= radius]


def aside(point, one, other):
    """How far a point is from the line between two others."""
    (x, y), (a, b), (c, d) = point, one, other
    part = min(1, max(0, ((x - a) * (c - a) + (y - b) * (d - b)) / math.dist(one, other) ** 2))
    return math.hypot(x - a - part * (c - a), y - b - part * (d - b))


def examples():
    """The examples, and what is no graph of a table, have places too."""
    for file in sorted(EXAMPLES.glob("*.json")):
        table = json.loads(text_of(file))
        expect(apart(places(table["vertices"], table["edges"])) > 0.1, f"{file.name}: vertices too near")
    names = ["ann", "bob", "cyd", "dan"]
    houses = places(names, [*zip(names, names[1:] + names[:1]), ("bob", "dan")])
    (ax, _), (bx, by), (cx, cy), (dx, _) = (houses[name] for name in names)
    expect(bx == ax < 0 < cx == dx and by == cy < 0, f"the houses stand elsewhere than on the blackboard: {houses}")
    for names, edges in ("", ()), ("a", ()), ("ab", ()), ("abcd", [("a", "b"), ("c", "d")]), ("abc", [("a", "a")]):
        equal(len(places(list(names), list(edges))), len(names), f"{names} with {edges}, which is not connected")
    equal(places_of_text("b 1 2\n\na -1e3 .5\n", ["a", "b"]), {"a": (-1000.0, 0.5), "b": (1.0, 2.0)}, "places of a text")


load_tests = tests_of(known_graphs, trees, other_graphs, examples)
