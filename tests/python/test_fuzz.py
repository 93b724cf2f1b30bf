"""Thousands of calls with what is nearly right: what is taken is what was meant, by a judgement that is written apart from the package, and
all else is a TypeError, a ValueError or a Fault. And many divisors beside the model of the game."""
import collections
import decimal
import fractions
import itertools
import os
import random

import dollar
from dollar import Fault, Table
from helpers import Test, needed
from model import Game
from test_divisors import random_table

CALLS, GRAPHS, EACH = 20_000, 200, 100
# How many times as many divisors are compared; and what all is drawn by.
MORE, SEED = (int(os.environ.get(name, "1")) for name in ("MORE", "SEED"))


def near_numbers(rng, numpy):
    """A number, or what is nearly one; and the int that it is, or None."""
    number = rng.randint(-4, 5)
    if rng.random() < 0.93:
        return number, number
    return rng.choice([
        (numpy.int64(number), number), (numpy.uint8(abs(number)), abs(number)), (numpy.int16(number), number), (True, None), (False, None),
        (numpy.bool_(True), None), (float(number), None), (numpy.float64(number), None), (number + 0.5, None), (float("nan"), None),
        (fractions.Fraction(number), None), (decimal.Decimal(number), None), (str(number), None), (None, None), ([number], None),
        (complex(number), None), (b"1", None), (numpy.array([number]), None), (object(), None), (10 ** 30, 10 ** 30)])


class Graph:
    """A path with some vertices, the table of it, and what its keys mean."""

    def __init__(self, vertices, names=str):
        self.vertices, self.names = vertices, [names(vertex) for vertex in vertices]
        edges = [(u, v) for u, v in zip(vertices, vertices[1:])]
        self.table = Table(Like(vertices, edges), names=names)

    def meant(self, key):
        """The place that a key means, or None. What is true or a whole number of numpy is that of Python."""
        if type(key).__module__ == "numpy" and type(key).__name__ in ("bool_", "int64"):
            key = key.item()
        for place, vertex in enumerate(self.vertices):
            if type(key) is type(vertex) and key == vertex:
                # A pair is made of things that are the same too.
                return place if repr(key) == repr(vertex) else None
        if isinstance(key, str):
            places = [place for place, vertex in enumerate(self.vertices) if key in (str(vertex), self.names[place])]
            return places[0] if len(places) == 1 else None
        if self.vertices == self.names and type(key) is int and str(key) in self.names:
            return self.names.index(str(key))
        return None


class Like:
    """What looks like a graph of networkx."""

    def __init__(self, nodes, edges):
        self.nodes, self.edges = nodes, edges


def graphs():
    return [Graph([0, 1, 2]), Graph(["a", "b", "c"]), Graph(["0", "1", "2"]), Graph([0, 1, 2], lambda v: str(v + 1)),
            Graph([(0, 0), (0, 1), (1, 1)], lambda v: "v%d%d" % v), Graph(["1", "2", "3"], lambda v: str(4 - int(v))),
            Graph([2, 0, 1]), Graph([1.5, 2.5], lambda v: "h%d" % v), Graph([True, 5], lambda v: "b%d" % v)]


def near_keys(rng, graph, numpy):
    vertex = rng.choice(graph.vertices)
    if rng.random() < 0.75:
        return vertex
    return rng.choice([str(vertex), rng.choice(graph.names), numpy.int64(rng.randint(0, 3)), True, False, 1.0, 0.0, 0, 1, 2, 3, None, "x", b"a",
                       (0, True), (0, 1.0), (0, 0), fractions.Fraction(1), decimal.Decimal("1.0"), numpy.float64(1), numpy.bool_(True), "", "1.0"])


def near_amounts(rng, graph, numpy, pandas):
    """Amounts of some kind; and the tuple that they mean, or None."""
    size = len(graph.vertices) + (rng.random() < 0.05) - (rng.random() < 0.05)
    drawn = [near_numbers(rng, numpy) for _ in range(size)]
    numbers, ints = [each for each, _ in drawn], [each for _, each in drawn]
    meant = tuple(ints) if size == len(graph.vertices) and None not in ints else None
    kind = rng.randrange(9)
    if kind < 4:
        given = [numbers, tuple(numbers), iter(numbers), (each for each in numbers)][kind]
        return given, meant
    if kind == 4:
        row = [number for number in ints if number is not None and abs(number) < 100]
        array = numpy.array(row, dtype=rng.choice([int, numpy.int8, float, bool]))
        fine = array.dtype.kind == "i" and len(row) == len(graph.vertices)
        return array, tuple(row) if fine else None
    if kind == 5:
        return rng.choice([{1, 2}, "12", b"\0\1", bytearray(3), memoryview(b"123"), 3, 1.5, object(), frozenset([1]), numpy.array(3)]), None
    keys = [near_keys(rng, graph, numpy) for _ in range(rng.randint(0, len(graph.vertices)))]
    of = dict(zip(keys, numbers))
    places = [graph.meant(key) for key in of]
    found = [0] * len(graph.vertices)
    for key, place in zip(of, places):
        whole = next(number for each, number in drawn if each is of[key])
        if place is None or whole is None:
            return shaped(kind, of, pandas), None
        found[place] = whole
    return shaped(kind, of, pandas), tuple(found) if len(set(places)) == len(places) else None


def shaped(kind, of, pandas):
    """A dict, or a series of pandas that holds objects as they are."""
    if kind < 8 or not of:
        return of
    return pandas.Series(list(of.values()), index=pandas.Index(list(of), dtype=object, tupleize_cols=False), dtype=object)


class OfFuzz(Test):
    def test_what_is_taken_was_meant(self):
        numpy, pandas, rng = needed("numpy"), needed("pandas"), random.Random(SEED)
        taken, refused = 0, 0
        kinds = graphs()
        for call in range(CALLS):
            graph = rng.choice(kinds)
            amounts, meant = near_amounts(rng, graph, numpy, pandas)
            way = call % 10
            try:
                if way == 0:
                    found = next(dollar.judge_all(graph.table, divisors=[amounts], errors="raise")).judged().amounts
                elif way == 1:
                    columns = dollar.rr_all(graph.table, divisors=[amounts]).columns()
                    found = meant if meant is not None and list(map(int, columns.degree)) == [sum(meant)] else "another degree"
                elif way == 2:
                    found = (graph.table + amounts).amounts
                else:
                    found = Table(graph.table, amounts).amounts
            except (TypeError, ValueError):
                self.assertIsNone(meant, (graph.vertices, amounts))
                refused += 1
            except Fault as fault:
                self.assertIn(fault.text, ("shape of amounts",) + tuple("amount of vertex %d" % place for place in range(3)))
                self.assertIn(10 ** 30, meant)
            else:
                self.assertEqual(found, meant, (graph.vertices, amounts))
                self.assertTrue(all(type(each) is int for each in found))
                taken += 1
        self.assertGreater(min(taken, refused), CALLS // 5)

    def test_keys_of_q_and_of_answers(self):
        numpy, rng = needed("numpy"), random.Random(SEED + 1)
        for _ in range(3_000):
            graph = rng.choice(graphs())
            key, script = near_keys(rng, graph, numpy), graph.table.divisor
            meant = graph.meant(key)
            if key is not None:
                try:
                    self.assertEqual(Table(graph.table, q=key).q, graph.vertices[meant] if meant is not None else "refused")
                except ValueError:
                    self.assertIsNone(meant)
            if isinstance(key, str):
                self.assertEqual(script.get(key), None if meant is None else 0)

    def test_lines_with_newlines_and_other_things(self):
        rng, table = random.Random(SEED + 2), dollar.example("triangle")
        pieces = ["look", "lend a", "commit", "claim", "1", "2", " ", "\n", "\r", "\0", "\u2028", "x", "é", ""]
        for _ in range(1_000):
            lines = [rng.choice(["1 look", "2 lend a", "1 claim", "".join(rng.choices(pieces, k=3)), None, b"1 look", 7]) for _ in range(3)]
            try:
                found = dollar.rehearse(table, lines)
            except (TypeError, ValueError):
                self.assertTrue(any(not isinstance(line, str) or "\n" in line for line in lines), lines)
            except Fault as fault:
                self.assertRegex(fault.text, r"^line [123]: bad|^step [123]: no look")
            else:
                self.assertEqual(len(found), 3)


NUMBERS = [0, 1, 2, -1, 3, 17, 63, 64, 65, 1000, 65536, 65537, 2 ** 32, 10 ** 6, 10 ** 6 + 1, -10 ** 6, 10 ** 9, 10 ** 30, True, 1.0, 0.5, "1",
           None, [1], b"1"]
THINGS = ["a", "b", 0, 1, 2, None, "z", "", (0, 1), 5.5, object(), [], {}, set(), frozenset("ab"), [1, 2, 3], [0, 0], {"a": 1}, {0: 1}, {"z": 1},
          {"a", "b"}, {7}, "abc", b"abc", range(3), iter([1, 2, 3]), [10 ** 7, 0, 0], ["look"], ["1 look", "1 commit"], ["1 rank 2"], [None],
          "1 look"]
# What is asked of two tables: a call by its name, and how many things it is given beside.
METHODS = [("fire", 1), ("lend", 1), ("lend", 2), ("borrow", 1), ("borrow", 2), ("reduced", 1), ("place", 1), ("is_equivalent", 1), ("script_to", 1),
           ("__add__", 1), ("__sub__", 1), ("__radd__", 1), ("__mul__", 1), ("effective_divisors", 1), ("reduced_divisors", 1), ("is_reduced", 0),
           ("canonical", 0), ("residual", 0), ("burning_order", 0), ("linear_system", 0), ("rank", 0), ("rank", 1), ("serve", 1), ("to_json", 0)]
FUNCTIONS = [("judge", 0), ("judge", 1), ("rank", 0), ("rank", 1), ("rank_test", 1), ("rr", 0), ("rehearse", 1), ("greedy", 1), ("party", 1),
             ("party", 2), ("fired", 1), ("burnt", 1), ("edges", 0), ("joined", 2), ("flaw", 1), ("picture", 0), ("judge_all", 0), ("rr_all", 0),
             ("rank_test_all", 1)]
OPTIONS = ["seats", "cap", "workers", "patience", "degree", "divisors", "errors", "ahead", "winnable", "program", "names", "no_such"]
# What a call may end with. An AttributeError or a LookupError would be a slip of the package, and so would an error from its depths.
FINE = (TypeError, ValueError, Fault, FileNotFoundError)


class OfWrongCalls(Test):
    def test_no_call_ends_with_a_slip(self):
        """Calls with whatever comes to hand: each answers, or says what is wrong with it."""
        rng, ends = random.Random(SEED + 4), collections.Counter()
        table = dollar.example("triangle")
        tables = [table, Table(table, [10 ** 7, 0, -10 ** 7]), Table([[0, 70], [70, 0]]), table.to_dict(), dict(table, q="z"), Table([[0]])]

        def some():
            return rng.choice(NUMBERS if rng.random() < 0.4 else THINGS)

        for _ in range(CALLS):
            asked = rng.choice(tables)
            options = {rng.choice(OPTIONS): some() for _ in range(rng.random() < 0.15)}
            name, count = rng.choice(METHODS if isinstance(asked, Table) and rng.random() < 0.8 else FUNCTIONS)
            call = getattr(asked, name) if (name, count) in METHODS and isinstance(asked, Table) and hasattr(asked, name) else None
            given = [some() for _ in range(count)]
            try:
                if call is None:
                    call, given = getattr(dollar, name, dollar.judge), [asked if rng.random() < 0.9 else some(), *given]
                found = call(*given, **options)
                if hasattr(found, "close"):
                    found.close()
                elif hasattr(found, "__next__") or hasattr(found, "amounts") and not isinstance(found, (dict, Table, dollar.Entry)):
                    list(itertools.islice(found, 3))
                ends["answered"] += 1
            except FINE as error:
                self.assertTrue(str(error), (name, given, options))
                ends[type(error).__name__] += 1
            except Exception as error:
                self.fail("%r of %s: %s(%r, %r): %r" % (type(error), asked, name, given, options, error))
        self.assertGreater(min(ends["answered"], ends["TypeError"] + ends["ValueError"]), CALLS // 10, ends)


class OfManyDivisors(Test):
    def test_each_verdict_is_right_by_its_definition(self):
        rng, wrong = random.Random(SEED + 3), []
        for _ in range(GRAPHS * MORE):
            table = random_table(rng, 7)
            game, rows = Game(table.to_dict()), [[rng.randint(-6, 8) for _ in table.vertices] for _ in range(EACH)]
            for verdict, game.amounts in zip(dollar.judge_all(table, divisors=rows), rows):
                if not game.is_verdict(str(verdict)):
                    wrong.append(verdict.judged())
        self.assertEqual(wrong, [])
