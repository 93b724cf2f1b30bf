"""Beside Sage, an independent program: reduced divisors, ranks and who can win, and its graphs and divisors as tables."""
import random
import re

import dollar
from dollar import Table
from helpers import ROOT, Test, each, needed

sandpiles = needed("sage.sandpiles.all")
sage_all = needed("sage.all")


def random_divisors(count, seed=1):
    """Divisors on random connected multigraphs of two to five vertices."""
    rng = random.Random(seed)
    for _ in range(count):
        size = rng.randint(2, 5)
        near = {v: {} for v in range(size)}
        for v in range(1, size):
            u = rng.randrange(v)
            near[u][v] = near[v][u] = rng.randint(1, 2)
        for _ in range(rng.randint(0, 3)):
            u, v = rng.sample(range(size), 2)
            near[u][v] = near[v][u] = near[u].get(v, 0) + 1
        yield sandpiles.SandpileDivisor(sandpiles.Sandpile(near, rng.randrange(size)), [rng.randint(-2, 3) for _ in range(size)])


def amounts_of(divisor):
    return {vertex: int(amount) for vertex, amount in divisor.items()}


REFUSED = [
    (lambda: Table(sage_all.DiGraph([(0, 1)])), ValueError, "a directed graph"),
    (lambda: Table(sandpiles.Sandpile({0: {1: 1}, 1: {0: 2}}, 0)), ValueError, "from 0 to 1 there are 1 edges, and 2 back"),
    (lambda: Table(sage_all.Graph([(0, 1, 3)])), ValueError, "the edge from 0 to 1 has the label 3"),
    (lambda: Table(sage_all.Graph([(0, 1, 1.5)], weighted=True)), TypeError, "the weight of the edge from 0 to 1 is not a whole number"),
    (lambda: Table(sage_all.Graph([(0, 0)], loops=True)), ValueError, "the edge from 0 to 0 is a loop"),
    (lambda: Table(sandpiles.sandpiles.Cycle(4).max_stable()), ValueError, "a configuration has none at the sink"),
    (lambda: Table(sage_all.graphs.PathGraph(2), [sage_all.QQ(1) / 2, 0]), TypeError, "the amount of vertex 0 is not a whole number: 1/2"),
    (lambda: Table(sage_all.graphs.PathGraph(2), [sage_all.RDF(1), 0]), TypeError, "the amount of vertex 0 is not a whole number: 1.0"),
]


class OfSage(Test):
    def test_two_thousand_divisors(self):
        divisors = list(random_divisors(2000))
        wrong = []
        for divisor, verdict, numbers in zip(divisors, dollar.judge_all(divisors), dollar.rr_all(divisors)):
            rank = int(divisor.rank())
            if (verdict.reduced, verdict.winnable, numbers.rank) != (amounts_of(divisor.q_reduced()), rank >= 0, rank):
                wrong.append(divisor)
        self.assertEqual(wrong, [])

    def test_divisors_come_back(self):
        for divisor in random_divisors(60, 2):
            table = Table(divisor)
            self.assertEqual((table.divisor, table.q), (amounts_of(divisor), divisor.sandpile().sink()))
            back = table.to_sage()
            self.assertEqual(Table(back), table)
            self.assertEqual(int(back.rank()), int(divisor.rank()))
            self.assertEqual(dollar.judge(divisor), dollar.judge(table))

    def test_graphs(self):
        petersen = sage_all.graphs.PetersenGraph()
        table = Table(petersen, {0: sage_all.Integer(3), 5: -1})
        self.assertEqual(len(table.edges), 15)
        self.assertEqual(table.divisor[0], 3)
        self.assertEqual(table.divisor[5], -1)
        self.assertEqual(Table(sandpiles.Sandpile(petersen, 4)).q, 4)
        several = sage_all.Graph([(0, 1), (0, 1), (1, 2)], multiedges=True)
        self.assertEqual(Table(several).edges, ((0, 1, 2), (1, 2, 1)))
        weighted = sage_all.Graph([(0, 1, 3)], weighted=True)
        self.assertEqual(Table(weighted).edges, ((0, 1, 3),))
        self.assertEqual(Table(sandpiles.Sandpile(weighted, 0)), Table(weighted))
        self.assertEqual(Table(sage_all.matrix([[0, 2], [2, 0]]), [1, 2]).edges, ((0, 1, 2),))

    def test_the_lines_of_the_page(self):
        page = (ROOT / "docs" / "tools.md").read_text(encoding="utf-8")
        lines = re.findall(r"(?m)^    sage: (.*)\n(?:    (?!sage: )(.*)\n)?", page)
        self.go_to(ROOT)
        names, shown = dict(vars(sage_all)), 0
        for line, wanted in lines:
            if wanted:
                self.assertEqual(repr(eval(line, names)), wanted)
                shown += 1
            else:
                exec(line, names)
        self.assertEqual(shown, 2)

    @each(REFUSED)
    def test_refused(self, call, error, text):
        with self.assertRaisesRegex(error, text):
            call()
