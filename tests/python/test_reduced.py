"""Reduced divisors of a degree beside their definition and beside counts that are known; tables past a million; moves; and vertices whose
texts are no names."""
import itertools
import os
import random
import types
from unittest import mock

import dollar
from dollar import Fault, Table
from helpers import Test, needed
from test_divisors import complete, random_table, ring

PETERSEN, CUBE = dollar.example("petersen"), dollar.example("cube")


def banana(size):
    return Table([[0, size], [size, 0]])


class OfReducedDivisors(Test):
    def test_they_are_those_of_the_definition(self):
        rng, seen = random.Random(1), 0
        for _ in range(200):
            table, degree = random_table(rng, 5), rng.randint(-3, 9)
            q = table.place(table.q)
            most = [1 if v == q else amount + 2 for v, amount in enumerate(table.canonical().amounts)]
            rows = [list(row) for row in itertools.product(*map(range, most))]
            for row in rows:
                row[q] = degree - sum(row)
            wanted = [tuple(row) for row in rows if Table(table, row).is_reduced()]
            self.assertEqual([each.amounts for each in table.reduced_divisors(degree)], wanted)
            self.assertEqual(table.reduced_divisors(degree).count, len(wanted))
            winnable = [each for each in wanted if each[q] >= 0]
            self.assertEqual(list(table.reduced_divisors(degree, winnable=True).amounts()), winnable)
            verdicts = list(dollar.judge_all(table, divisors=table.reduced_divisors(degree)))
            self.assertEqual([each.winnable for each in verdicts], [each[q] >= 0 for each in wanted])
            self.assertTrue(all(tuple(each.reduced.values()) == row for each, row in zip(verdicts, wanted)))
            seen += len(winnable)
        self.assertGreater(seen, 500)

    def test_counts_that_are_known(self):
        # By Cayley a complete graph has n^(n-2) spanning trees; a cycle n; Petersen's graph 2,000, the cube 384, and the cube of four
        # dimensions 42,467,328.
        for size in range(1, 7):
            self.assertEqual(complete(size).reduced_divisors(3).count, max(size, 1) ** max(size - 2, 0))
        self.assertEqual([ring(size).reduced_divisors(0).count for size in range(3, 17)], list(range(3, 17)))
        for table, count in ((PETERSEN, 2000), (CUBE, 384), (banana(7), 7), (complete(7), 7 ** 5)):
            self.assertEqual((table.reduced_divisors(-1).count, sum(1 for _ in table.reduced_divisors(-1).amounts())), (count, count))
        four = Table([[int(bin(u ^ v).count("1") == 1) for v in range(16)] for u in range(16)])
        self.assertEqual(four.reduced_divisors(0).count, 42_467_328)
        # Lazily: the first of them come at once. The classes of degree 1 that can be won are the 16
        # of a dollar at one vertex, since no two of these are equivalent.
        self.assertEqual(next(iter(four.reduced_divisors(5))).amounts, (5,) + (0,) * 15)
        self.assertEqual(len(list(four.reduced_divisors(1, winnable=True))), 16)

    def test_superstables_by_degree_are_those_of_tutte(self):
        # T(1, y) by deletion and contraction, in which the coefficient of y^(g - d) counts the superstables of degree d.
        def tutte(edges):
            if not edges:
                return {0: 1}
            (u, v), rest = edges[0], edges[1:]
            if u == v:
                return {power + 1: count for power, count in tutte(rest).items()}
            found = tutte([tuple(u if w == v else w for w in edge) for edge in rest])
            if is_bridge(u, v, rest):
                return found
            for power, count in tutte(rest).items():
                found[power] = found.get(power, 0) + count
            return found

        def is_bridge(u, v, edges):
            near, old = {u}, set()
            while near != old:
                old = set(near)
                near |= {w for edge in edges if near & set(edge) for w in edge}
            return v not in near

        for table in (complete(4), complete(5), ring(6), banana(4), Table(ring(4), [0, 0, 0, 0])):
            edges = [(u, v) for u, v, count in table.edges for _ in range(count)]
            found = {}
            for each in table.reduced_divisors(0):
                found[table.genus + each.divisor[table.q]] = found.get(table.genus + each.divisor[table.q], 0) + 1
            self.assertEqual(found, tutte(edges))

    def test_what_no_program_would_take(self):
        apart = Table([[0, 1, 0, 0], [1, 0, 0, 0], [0, 0, 0, 1], [0, 0, 1, 0]])
        self.assertEqual((apart.reduced_divisors(1).count, list(apart.reduced_divisors(1))), (0, []))
        thick = Table([[0, 300], [300, 0]])
        self.assertEqual(([each.amounts[1] for each in thick.reduced_divisors(0)], thick.reduced_divisors(0).count), (list(range(300)), 300))


class OfLargeTables(Test):
    def test_each_call_that_makes_one_answers(self):
        table = Table([[0, 1], [1, 0]], [600_000, 600_000])
        self.assertEqual((table.rank(), table.reduced().amounts, table.reduced().rank()), (1_200_000, (1_200_000, 0), 1_200_000))
        self.assertEqual((table.reduced().is_reduced(), dollar.rank(table.reduced()), (2 * Table(table, [600_000, 0])).rank()),
                         (True, 1_200_000, 1_200_000))
        self.assertEqual((table.is_equivalent([1_200_000, 0]), table.script_to([1_200_000, 0])), (True, {0: 0, 1: 600_000}))
        self.assertEqual([each.amounts for each in itertools.islice(table.linear_system(), 3)], [(0, 1_200_000), (1, 1_199_999), (2, 1_199_998)])
        with self.assertRaisesRegex(Fault, "amount of vertex 0: 6000000, and only -1000000 to 1000000 is possible"):
            (10 * table).rank()

    def test_beside_the_same_within_the_limits(self):
        """What is far off is equivalent to what is near by a script that is known."""
        rng = random.Random(2)
        for _ in range(300):
            table, size = random_table(rng), rng.choice([10 ** 6, 10 ** 9, 10 ** 30])
            script = [rng.randint(-size, size) for _ in table.vertices]
            far = table.fire(script)
            self.assertEqual((far.reduced(), far.degree), (table.reduced(), table.degree))
            self.assertTrue(far.is_equivalent(table))
            found = far.script_to(table)
            self.assertEqual((far.fire(found), found[table.q]), (table, 0))
            self.assertEqual(far.rank(), table.rank())
            q = rng.choice(table.vertices)
            self.assertEqual((far + {q: size}).reduced(q), table.reduced(q) + {q: size})
            if len(table.vertices) > 1:
                self.assertFalse(far.is_equivalent(table + {q: 1}))

    def test_is_reduced_asks_no_program(self):
        table = Table(PETERSEN, [-5] + [0] * 9)
        with mock.patch.dict(os.environ, DOLLAR="/nowhere/dollar"):
            found = table.is_reduced(), Table(table, [0] * 9 + [-1]).is_reduced(), Table(table, [0] + [5] * 9).is_reduced()
        self.assertEqual(found, (True, False, False))


class OfMoves(Test):
    def test_moves_are_those_of_the_program(self):
        rng = random.Random(3)
        for _ in range(100):
            table = random_table(rng)
            v, times = rng.choice(table.vertices), rng.randint(1, 3)
            chosen = {w for w in table.vertices if rng.random() < 0.5} or {v}
            script = [rng.randint(-3, 3) for _ in table.vertices]
            steps = ["1 lend %d" % v, "1 borrow %d" % v, "1 fire " + ",".join(map(str, chosen)),
                     "1 script " + ",".join("%d=%d" % pair for pair in enumerate(script)), "1 script %d=%d" % (v, -times)]
            made = [table.lend(v), table, table.fire(chosen)]
            made += [made[-1].fire(script), made[-1].fire(script).borrow(v, times)]
            played = [tuple(entry.amounts.values()) for entry in dollar.rehearse(table, steps)]
            self.assertEqual([each.amounts for each in made], played)
            self.assertEqual(made[2], table.fire(dict.fromkeys(chosen, 1)))
            self.assertEqual(dollar.fired(table, dict(zip(table.vertices, script))), table.fire(script).divisor)

    def test_gaps_lists_and_texts_serve_everywhere(self):
        table = Table([[0, 1, 1], [1, 0, 1], [1, 1, 0]], [2, -1, -1])
        for given in ([1, 0, 0], {0: 1}, {"0": 1}, (1, 0, 0), {0}):
            self.assertEqual(table.fire(given).amounts, (0, 0, 0))
        for given in ([1, 0, 0], {0: 1}, {"0": 1}):
            for one in (table, table.to_dict()):
                self.assertEqual(list(dollar.fired(one, given).values()), [0, 0, 0])
            self.assertEqual((table + given).amounts, (3, -1, -1))
            self.assertEqual(table.is_equivalent(given), False)
            self.assertEqual(dollar.burnt(table, given), [0, 1, 2])
        self.assertEqual([each.amounts for each in (table.lend("1"), table.borrow("1", 2))], [(3, -3, 0), (0, 3, -3)])
        self.assertEqual(sum([table, table, table]), 3 * table)


class OfNames(Test):
    def test_any_vertices_serve(self):
        grid = types.SimpleNamespace(nodes=[(0, 0), (0, 1), (1, 1)], edges=[((0, 0), (0, 1)), ((0, 1), (1, 1))])
        table = Table(grid, {(0, 0): 2, (1, 1): -1}, (0, 1))
        self.assertEqual((table.names, table.q, table.to_dict()["q"], str(dollar.judge(table))),
                         (("v0", "v1", "v2"), (0, 1), "v1", "winnable by v0=2 v1=0 v2=-1 to v0=0 v1=1 v2=0"))
        self.assertEqual(dollar.judge(table).script, {(0, 0): 2, (0, 1): 0, (1, 1): -1})
        self.assertEqual(Table(table, {"v2": 1}).divisor[(1, 1)], 1)
        for vertices in (["New York", "Rome"], [0, "0"], ["", "a"], ["ä", "b"], ["x" * 17, "y"], [1.5, None], [frozenset(), 7]):
            made = Table(types.SimpleNamespace(nodes=vertices, edges=[tuple(vertices)]), {vertices[1]: 1})
            self.assertEqual((made.names, list(made.divisor)), (("v0", "v1"), vertices))
            self.assertEqual(list(dollar.judge(made).reduced.values()), [1, 0])
        self.assertEqual(Table(types.SimpleNamespace(nodes=["a", "b_1"], edges=[("a", "b_1")])).names, ("a", "b_1"))

    def test_graphs_of_networkx(self):
        networkx = needed("networkx")
        for graph in (networkx.grid_2d_graph(4, 4), networkx.hypercube_graph(3), networkx.grid_graph([2, 2, 2]),
                      networkx.cartesian_product(networkx.path_graph(2), networkx.cycle_graph(3))):
            table = Table(graph, {next(iter(graph)): 3})
            self.assertEqual((table.vertices, dollar.rank_test(table, 1).holds), (tuple(graph), table.rank() >= 1))
            self.assertEqual(Table(table.to_networkx()), table)
