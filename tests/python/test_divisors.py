"""What is asked about divisors in one call, beside what is known of the graphs, and beside a program written apart."""
import itertools
import json
import math
import random

import dollar
from dollar import Fault, RankTest, Table
from dollar._checks import misplaced
from helpers import Test
from model import Game

PETERSEN = dollar.example("petersen")


def complete(size):
    return Table([[int(u != v) for v in range(size)] for u in range(size)])


def ring(size):
    return Table([[int((u - v) % size in (1, size - 1)) for v in range(size)] for u in range(size)])


def random_table(rng, most=6):
    size = rng.randint(1, most)
    matrix = [[0] * size for _ in range(size)]
    for v in range(1, size):
        u = rng.randrange(v)
        matrix[u][v] = matrix[v][u] = rng.randint(1, 3)
    for _ in range(rng.randint(0, 4)):
        u, v = rng.randrange(size), rng.randrange(size)
        if u != v:
            matrix[u][v] = matrix[v][u] = matrix[u][v] + 1
    return Table(matrix, [rng.randint(-4, 5) for _ in range(size)], rng.randrange(size))


class OfDivisors(Test):
    def test_degree_genus_and_canonical_divisor(self):
        self.assertEqual((PETERSEN.genus, PETERSEN.canonical().amounts), (6, (1,) * 10))
        for size in range(2, 8):
            table = complete(size)
            self.assertEqual(table.genus, (size - 1) * (size - 2) // 2)
            self.assertEqual(table.canonical().degree, 2 * table.genus - 2)
            self.assertEqual(table.canonical().rank(), table.genus - 1)
        self.assertEqual(ring(5).canonical().amounts, (0,) * 5)

    def test_sums(self):
        rng = random.Random(3)
        for _ in range(300):
            table = random_table(rng)
            other = [rng.randint(-3, 3) for _ in table.vertices]
            self.assertEqual((table + other - other, (table + other).degree), (table, table.degree + sum(other)))
            self.assertTrue(other + table == table + other == table + table._with(tuple(other)) == table + dict(enumerate(other)))
            self.assertEqual((other - table) + table, table._with(tuple(other)))
            self.assertTrue(3 * table == table + table + table == table * 3)
            self.assertEqual(-table + table, 0 * table)
            self.assertEqual(table.residual() + table, table.canonical())
            self.assertEqual((table + other).q, table.q)

    def test_reduced_divisors_and_scripts(self):
        """A reduced divisor is alone in its class; so what a random script leads to has the same one, at each q."""
        rng = random.Random(4)
        for _ in range(300):
            table = random_table(rng)
            script = {v: rng.randint(-3, 3) for v in table.vertices}
            other = Table(table, dollar.fired(table, script))
            q = rng.choice(table.vertices)
            self.assertEqual(table.reduced(q).amounts, other.reduced(q).amounts)
            self.assertTrue(table.reduced(q).is_reduced())
            self.assertEqual((table.reduced(q).q, set(table.reduced(q).burning_order())), (q, set(table.vertices)))
            self.assertTrue(table.is_equivalent(other))
            found = table.script_to(other)
            self.assertEqual((dollar.fired(table, found), found[table.q]), (other.divisor, 0))
            self.assertEqual(found, {v: times - script[table.q] for v, times in script.items()})
            self.assertFalse(table.is_equivalent(other + {q: 1}))
        # On a cycle of n vertices the classes of degree 0 are n: a dollar moved by n places comes back, and by fewer does not.
        for size in range(3, 9):
            table = Table(ring(size), {0: 1})
            self.assertEqual([table.is_equivalent({v: 1}) for v in range(size)], [True] + [False] * (size - 1))
            self.assertTrue((size * table).is_equivalent({1: size}))
        with self.assertRaisesRegex(ValueError, "the divisors are not equivalent"):
            Table(ring(3), {0: 1}).script_to({1: 1})

    def test_is_reduced_by_the_definition(self):
        rng, seen = random.Random(5), set()
        for _ in range(400):
            table = random_table(rng, 4)
            others = [v for v in table.vertices if v != table.q]
            subsets = itertools.chain.from_iterable(itertools.combinations(others, size) for size in range(1, len(others) + 1))
            may_fire = any(all(dollar.fired(table, {v: int(v in fired) for v in table.vertices})[v] >= 0 for v in fired) for fired in subsets)
            wanted = all(table.divisor[v] >= 0 for v in others) and not may_fire
            self.assertEqual(table.is_reduced(), wanted)
            seen.add(wanted)
        self.assertEqual(seen, {True, False})

    def test_the_order_of_burning_is_that_of_the_program(self):
        rng = random.Random(6)
        for _ in range(200):
            verdict = dollar.judge(random_table(rng))
            reduced = Table(verdict.table, verdict.reduced)
            self.assertEqual(misplaced(reduced, reduced.divisor, verdict.burning), None)
            self.assertEqual(misplaced(reduced, reduced.divisor, reduced.burning_order()), None)
            self.assertEqual(set(verdict.burning), set(reduced.burning_order()))

    def test_effective_divisors(self):
        for size, degree in itertools.product(range(1, 5), range(0, 5)):
            table = complete(size)
            found = table.effective_divisors(degree)
            self.assertEqual(found.count, math.comb(size + degree - 1, degree))
            wanted = [row for row in itertools.product(range(degree + 1), repeat=size) if sum(row) == degree]
            self.assertEqual([each.amounts for each in found], wanted)
        self.assertEqual((list(complete(3).effective_divisors(-1)), complete(3).effective_divisors(-1).count), ([], 0))

    def test_linear_systems(self):
        # On a tree all divisors of a degree are equivalent; on a cycle |D| has as many as D has ways: here by firing all sets.
        path = Table([[0, 1, 0], [1, 0, 1], [0, 1, 0]], [2, 1, -1])
        self.assertEqual([each.amounts for each in path.linear_system()], [each.amounts for each in path.effective_divisors(2)])
        self.assertEqual(list(Table(path, [0, 0, -1]).linear_system()), [])
        for table in (Table(ring(4), [1, 0, 2, 0]), Table(complete(4), [3, 1, 0, 0]), Table(ring(3), [4, -2, 0]), PETERSEN.canonical() - {"a": 6}):
            found = list(table.linear_system())
            self.assertEqual({each.amounts for each in found}, reached(found[0]))
            self.assertTrue(found[0].is_equivalent(table))
            self.assertEqual(table.linear_system().candidates, table.effective_divisors(table.degree).count)

    def test_ranks_past_the_limits_of_one_side(self):
        # 30 dollars on the complete graph of ten vertices: the dual, of degree 40, is within the limits, and the rank is not.
        table = Table(complete(10), [4] * 10)
        self.assertEqual(table.rank(), dollar.rr(table).rank)
        self.assertEqual(dollar.rr(table), next(dollar.rr_all([table])))
        with self.assertRaisesRegex(Fault, "too many trials"):
            dollar.run("rr", table)
        self.assertEqual(dollar.rr(Table(complete(13), [5] * 13)).rank, 20)
        path = Table([[0, 1], [1, 0]], [1500, 0])
        self.assertEqual((str(dollar.rank_test(path, 1200)), str(dollar.rank_test(path, 1501))), ("rank at least 1200", "rank below 1501 at ?"))
        with self.assertRaisesRegex(ValueError, "no loss is given"):
            dollar.rank_test(path, 1501).check()

    def test_rr_takes_what_a_file_may_be(self):
        folder = self.folder()
        table = Table(ring(3), [1, 2, 0])
        (folder / "long.json").write_text(json.dumps(table.to_dict(), indent=4) + "\n\n")
        self.assertEqual(dollar.rr(folder / "long.json"), dollar.rr(table))
        for text, said in (("", "not JSON"), ("{}", "shape of top"), ('{"a\nb": 1}', "not JSON"),
                           (json.dumps({**table.to_dict(), "q": "z"}), "no vertex q")):
            (folder / "bad.json").write_text(text)
            with self.assertRaisesRegex(Fault, said) as caught:
                dollar.rr(folder / "bad.json")
            with self.assertRaises(Fault) as plain:
                dollar.run("rr", folder / "bad.json")
            self.assertEqual((caught.exception.text, caught.exception.status), (plain.exception.text, plain.exception.status))

    def test_a_rank_test_is_checked(self):
        rng, seen = random.Random(7), set()
        for _ in range(150):
            table = random_table(rng, 4)
            test = dollar.rank_test(table, rng.randint(0, 3))
            test.check()
            self.assertTrue(Game(table.to_dict()).is_rank(str(test), test.degree))
            seen.add(test.holds)
            for wrong in self.wrong(test):
                with self.assertRaises(ValueError):
                    wrong.check(table)
        self.assertEqual(seen, {True, False})
        with self.assertRaisesRegex(ValueError, "knows no table"):
            RankTest(True, 1).check()

    def wrong(self, test):
        """Rank tests that are wrong if this one is right."""
        if test.holds:
            first = next(iter(test.judged().effective_divisors(test.degree)))
            yield RankTest(False, test.degree, first.divisor)
        else:
            yield RankTest(True, test.degree)
            first = next(iter(test.judged().effective_divisors(test.degree)))
            if first.divisor != test.loss:
                yield RankTest(False, test.degree, first.divisor)
            yield RankTest(False, test.degree + 1, test.loss)


def reached(table):
    """All effective divisors that sets of vertices lead to, one after another."""
    found, new = {table.amounts}, [table]
    sets = [fired for size in range(1, len(table.vertices)) for fired in itertools.combinations(table.vertices, size)]
    while new:
        last = new.pop()
        for fired in sets:
            there = tuple(dollar.fired(last, {v: int(v in fired) for v in table.vertices}).values())
            if min(there) >= 0 and there not in found:
                found.add(there)
                new.append(Table(table, there))
    return found
