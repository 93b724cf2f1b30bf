"""Expressions that somebody guesses who knows Sage, networkx or the papers: most do what is meant, and the others say what to write."""
import dollar
from dollar import Table
from helpers import Test, each, needed

T = Table({"vertices": ["a", "b", "c"], "edges": [["a", "b", 1], ["b", "c", 1], ["a", "c", 1]], "amounts": [2, -1, -1], "q": "a"})
# By hand: b and c owe a dollar each, which a lends. A script that does so is 0 -1 -1.
DO = [
    ("t['a']", 2), ("'a' in t", True), ("'z' in t", False), ("len(t)", 3), ("t.get('z')", None), ("dict(t)", {"a": 2, "b": -1, "c": -1}),
    ("list(t)", ["a", "b", "c"]), ("sum(t.values())", 0), ("max(t.items())", ("c", -1)), ("t.edges[0]", ("a", "b", 1)),
    ("t.judge().winnable", True), ("t.is_winnable()", True), ("t.rr().rank", 0), ("t.rank_test(1).holds", False), ("t.is_effective()", False),
    ("t.laplacian()", [[2, -1, -1], [-1, 2, -1], [-1, -1, 2]]), ("t.valence('b')", 2), ("t.neighbors('b')", {"a": 1, "c": 1}),
    ("t.support()", ("a", "b", "c")), ("t.gonality()", 2), ("Table.of_edges([('a', 'b'), ('b', 'c'), ('c', 'a')]).genus", 1),
    ("t.greedy(9)[-1].word", "won"), ("t.rehearse(['1 lend a'])[0].amounts", {"a": 0, "b": 0, "c": 0}), ("t - 0 == t == t + 0", True),
    ("len(t.reduced_divisors(0))", 3), ("t.reduced_divisors(2, winnable=True).count", 3), ("len(t.effective_divisors(2))", 6),
    ("len(t.linear_system())", 1), ("bool(t.linear_system())", True), ("repr([t])", "[Table(<3 vertices, 3 edges>, [2, -1, -1], q='a')]"),
    ("(numpy.int64(2) * t).amounts", (4, -2, -2)), ("numpy.array(t.laplacian()).shape", (3, 3)),
]
SAY = [
    ("t.jacobian()", "t.reduced_divisors(0)"), ("t.superstables()", "t.reduced_divisors(0)"), ("t.q_reduced()", "t.reduced()"),
    ("t.zero()", "0 * t"), ("t.linearly_equivalent(t)", "t.is_equivalent(d)"), ("t.effective_div()", "t.linear_system()"),
    ("t.deg()", "t.degree"), ("t.spanning_trees()", "len(t.reduced_divisors(0))"), ("t.stabilize()", "t.reduced()"),
    ("t['vertices']", "t.to_dict()"), ("Table([('a', 'b'), ('b', 'c'), ('c', 'a')])", "Table.of_edges"),
]


class OfGuesses(Test):
    @each(DO)
    def test_most_do_what_is_meant(self, expression, wanted):
        names = {"t": T, "Table": Table, "numpy": needed("numpy")}
        self.assertEqual(eval(expression, names), wanted)

    @each(SAY)
    def test_the_others_say_what_to_write(self, expression, said):
        with self.assertRaises((AttributeError, KeyError, ValueError)) as caught:
            eval(expression, {"t": T, "Table": Table})
        self.assertIn(said, str(caught.exception))

    def test_how_many(self):
        self.assertEqual((len(DO), len(SAY)), (32, 11))

    @each(sorted(dollar._hints.NAMES))
    def test_a_name_that_is_explained_is_none_of_a_table(self, name):
        self.assertFalse(hasattr(T, name))

    def test_gonality_of_graphs_that_are_known(self):
        complete = [Table([[int(u != v) for v in range(size)] for u in range(size)]).gonality() for size in range(2, 7)]
        self.assertEqual(complete, [1, 2, 3, 4, 5])
        tree, ring = Table.of_edges([(0, 1), (1, 2), (1, 3), (3, 4)]), Table.of_edges([(at, (at + 1) % 7) for at in range(7)])
        bipartite = Table.of_edges([(u, v) for u in range(3) for v in range(3, 6)])
        self.assertEqual((tree.gonality(), ring.gonality(), bipartite.gonality(), Table([[0, 7], [7, 0]]).gonality(), Table([[0]]).gonality()),
                         (1, 2, 3, 2, 1))
        self.assertEqual((dollar.example("cube").gonality(), dollar.example("petersen").gonality()), (4, 4))
