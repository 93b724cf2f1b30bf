"""Tables: what they are made of comes back as it was, and what would have to be dropped or rounded is refused."""
import decimal
import fractions
import json
import pickle
import random
import types


import dollar
from dollar import Table
from helpers import Test, each, needed

PATH = {"vertices": ["a", "b", "c"], "edges": [["a", "b", 1], ["b", "c", 2]], "amounts": [2, -1, 0], "q": "b"}


def connected_graphs(networkx, most=7):
    """All connected graphs of up to so many vertices."""
    return [graph for graph in networkx.graph_atlas_g()[1:] if len(graph) <= most and networkx.is_connected(graph)]


def directed(*edges):
    return types.SimpleNamespace(nodes=[0, 1], edges=list(edges), is_directed=lambda: True)


def weighted(weight):
    class Edges(list):
        def __call__(self, data):
            return [(0, 1, {"weight": weight})]

    return types.SimpleNamespace(nodes=[0, 1], edges=Edges())


PAIR = types.SimpleNamespace(nodes=[0, 1], edges=[(0, 1)])
REFUSED = [
    (lambda: Table(PAIR, {0: 1, "0": 1}), ValueError, "two amounts for vertex 0"),
    (lambda: Table(PAIR, {0: 1.0}), TypeError, "the amount of vertex 0 is not a whole number: 1.0"),
    (lambda: Table(PAIR, {1: fractions.Fraction(-1, 2)}), TypeError, r"the amount of vertex 1 is not a whole number: Fraction\(-1, 2\)"),
    (lambda: Table(PAIR, [True, 0]), TypeError, "the amount of vertex 0 is not a whole number: True"),
    (lambda: Table([[0, True], [True, 0]]), TypeError, "the number of edges from 0 to 1 is not a whole number: True"),
    (lambda: Table(directed((0, 1), (1, 0))), ValueError, "a directed graph"),
    (lambda: Table(weighted(0.5)), TypeError, "the weight of the edge from 0 to 1 is not a whole number: 0.5"),
    (lambda: Table(weighted(None)), TypeError, "the weight of the edge from 0 to 1"),
    (lambda: Table(weighted(-2)), ValueError, "the weight of the edge from 0 to 1 is not a number of edges: -2"),
    (lambda: Table(types.SimpleNamespace(nodes=[0, 1], edges=[(0, 1), (1, 1)])), ValueError, "the edge from 1 to 1 is a loop"),
    (lambda: Table(types.SimpleNamespace(nodes=[0, 1], edges=[(0, 2)])), ValueError, "the edge from 0 to 2 has no vertex"),
    (lambda: Table(types.SimpleNamespace(nodes=["a", "a"], edges=[])), ValueError, "the vertex 'a' is given twice"),
    (lambda: Table(PAIR, names=lambda vertex: vertex), ValueError, "`names` gives vertex 0 the name 0: a name has"),
    (lambda: Table(types.SimpleNamespace(nodes=[], edges=[])), ValueError, "there is no vertex"),
    (lambda: Table(dict(PATH, name="x")), ValueError, "a table has the members"),
    (lambda: Table(dict(PATH, edges=[["a", "a", 1]])), ValueError, "the edge from a to a is a loop"),
    (lambda: Table(dict(PATH, amounts=[1, 2, 3.5])), TypeError, "the amount of vertex c is not a whole number: 3.5"),
    (lambda: Table.graph6(""), ValueError, "not a line of graph6"),
    (lambda: Table.graph6("Bww"), ValueError, "not a line of graph6"),
    (lambda: Table.graph6(":Bw"), ValueError, "not a line of graph6: ':Bw'"),
    (lambda: Table.graph6("&Bw"), ValueError, "not a line of graph6: '&Bw'"),
    (lambda: Table.graph6("~??~"), ValueError, "more than 62 vertices"),
    (lambda: dollar.judge(PAIR), TypeError, r"Table\(graph, amounts\) makes one"),
    (lambda: dollar.judge(dict(PATH, amounts=[fractions.Fraction(1, 2), 0, 0])), TypeError, ""),
    (lambda: list(dollar.judge_all([PATH, dict(PATH, amounts=[decimal.Decimal("-1.5")] * 3)])), TypeError, "table 1: "),
]


class OfTables(Test):
    def test_all_small_graphs_come_back_from_networkx(self):
        networkx = needed("networkx")
        graphs = connected_graphs(networkx)
        self.assertEqual(len(graphs), 1 + 1 + 2 + 6 + 21 + 112 + 853)
        for graph in graphs:
            table = Table(graph, {node: node - 2 for node in graph}, max(graph))
            back = table.to_networkx()
            self.assertEqual({frozenset(map(int, edge)) for edge in back.edges()}, {frozenset(edge) for edge in graph.edges})
            self.assertEqual(back.number_of_edges(), graph.number_of_edges())
            self.assertEqual([back.nodes[node]["amount"] for node in graph], [node - 2 for node in graph])
            self.assertTrue(Table(back) == Table(back, table.divisor, table.q) == table)
            self.assertEqual(table.vertices, tuple(graph))
            self.assertEqual(Table.graph6(networkx.to_graph6_bytes(graph), table.divisor, table.q), table)
            matrix = [[int(graph.has_edge(u, v)) for v in graph] for u in graph]
            self.assertEqual(Table(matrix, list(table.amounts), table.q), table)
            self.assertTrue(Table(json.loads(table.to_json())) == Table(table.to_dict()) == table == pickle.loads(pickle.dumps(table)))

    def test_the_program_reads_what_a_table_says(self):
        networkx = needed("networkx")
        graphs = connected_graphs(networkx)
        tables = [Table(graph, {node: (node * 7 + place) % 9 - 3 for node in graph}) for place, graph in enumerate(graphs)]
        for graph, table, numbers in zip(graphs, tables, dollar.rr_all(tables)):
            self.assertEqual(numbers.degree, sum(table.amounts))
            self.assertEqual(numbers.genus, graph.number_of_edges() - len(graph) + 1)
        for table, verdict in zip(tables, dollar.judge_all(tables)):
            verdict.check()
            again = dollar.judge(Table(table, verdict.reduced)) if len(table.vertices) == 7 and table.amounts[0] == 2 else None
            self.assertTrue(again is None or (set(again.script.values()) == {0} and again.reduced == verdict.reduced))

    def test_edges_of_multigraphs_are_counted(self):
        networkx = needed("networkx")
        rng = random.Random(1)
        for _ in range(200):
            graph, counts = networkx.MultiGraph(), {}
            graph.add_nodes_from("abcde")
            for _ in range(rng.randint(4, 12)):
                u, v = rng.sample("abcde", 2)
                weight = rng.choice([None, 1, 2, 3])
                graph.add_edge(u, v, **({} if weight is None else {"weight": weight}))
                counts[frozenset((u, v))] = counts.get(frozenset((u, v)), 0) + (weight or 1)
            table = Table(graph)
            self.assertEqual({frozenset(edge[:2]): edge[2] for edge in table.edges}, counts)
            self.assertEqual(table.to_networkx().number_of_edges(), sum(counts.values()))

    def test_a_file_comes_back(self):
        folder = self.folder()
        table = Table(PATH)
        self.assertEqual(table.to_dict(), PATH)
        table.write(folder / "table.json")
        self.assertEqual(Table.read(folder / "table.json"), table)
        self.assertTrue(dollar.judge(str(folder / "table.json")) == dollar.judge(table) == dollar.judge(PATH))
        with self.assertRaisesRegex(FileNotFoundError, "missing.json"):
            dollar.judge(str(folder / "missing.json"))
        for text, error, said in (("{", ValueError, "Expecting"), ("[" * 100_000, ValueError, "recursion"), ("\ud800", ValueError, "utf-8"),
                                  (json.dumps(dict(PATH, amounts=[1, 2, 0.5])), TypeError, "the amount of vertex c is not a whole number: 0.5")):
            (folder / "bad.json").write_bytes(text.encode("utf-8", "surrogatepass"))
            with self.assertRaisesRegex(error, "bad.json: .*" + said):
                Table.read(folder / "bad.json")

    def test_amounts_are_by_vertex_or_by_name(self):
        graph = types.SimpleNamespace(nodes=[0, 1, 2], edges=[(0, 1), (1, 2), (2, 1)])
        self.assertEqual(Table(graph, {0: 1, "2": 5}, 2).to_dict(), {
            "vertices": ["0", "1", "2"], "edges": [["0", "1", 1], ["1", "2", 2]], "amounts": [1, 0, 5], "q": "2"})
        grid = types.SimpleNamespace(nodes=[(0, 0), (0, 1)], edges=[((0, 0), (0, 1))])
        named = Table(grid, {(0, 1): 4, "r0c0": -1}, (0, 1), names=lambda vertex: "r%dc%d" % vertex)
        self.assertEqual((named.divisor, named.q, named.names), ({(0, 0): -1, (0, 1): 4}, (0, 1), ("r0c0", "r0c1")))

    @each(REFUSED)
    def test_refused(self, call, error, text):
        with self.assertRaisesRegex(error, text):
            call()

    def test_numbers_that_are_whole_are_taken(self):
        numpy = needed("numpy")
        table = Table(numpy.array([[0, 2], [2, 0]]), numpy.array([3, -1]))
        self.assertEqual(table, Table([[0, 2], [2, 0]], [3, -1]))
        self.assertEqual(json.loads(table.to_json())["amounts"], [3, -1])
        given = {"vertices": ["a", "b"], "edges": [["a", "b", numpy.uint8(2)]], "amounts": [numpy.int64(3), numpy.int16(-1)], "q": "a"}
        self.assertTrue(dollar.judge(given) == dollar.judge(Table(given)) == next(dollar.judge_all([given])))
        for wrong in (numpy.float32(1.7), numpy.float64(2.0), numpy.bool_(True)):
            with self.assertRaises(TypeError):
                Table(PAIR, {0: wrong})
        for wrong in (numpy.float32(1.7), numpy.True_):
            with self.assertRaisesRegex(TypeError, "table 0: "):
                list(dollar.judge_all([dict(given, amounts=[wrong, 0])]))
        # A float of numpy's that is one of Python's goes as it is, and is refused by the program.
        row, = dollar.judge_all([dict(given, amounts=[numpy.float64(2.0), 0])])
        self.assertEqual(row.refused, "shape of amounts")

    def test_numpy_stands_on_either_side(self):
        numpy = needed("numpy")
        table, more = Table([[0, 1], [1, 0]], [2, -1]), numpy.array([1, 2])
        self.assertEqual((more + table, numpy.int64(3) * table), (table + [1, 2], table * 3))

    def test_pictures_stand_as_they_are_told(self):
        cube = dollar.example("cube")
        given = {name: (float(place), 0.0) for place, name in enumerate(cube.vertices)}
        self.assertNotEqual(dollar.picture(cube, places=given), cube._repr_svg_())

    def test_pictures(self):
        from xml.dom import minidom

        for name in ("cube", "petersen", "banana", "triangle", "million_path", "sixty_three_edges"):
            table = dollar.example(name)
            for picture in (table._repr_svg_(), dollar.judge(table)._repr_svg_()):
                texts = [node.firstChild.data for node in minidom.parseString(picture).getElementsByTagName("text")]
                self.assertLessEqual(set(table.vertices), set(texts))
                self.assertLessEqual({str(amount) for amount in table.amounts}, set(texts))
        # On the triangle b and c borrow once each.
        self.assertEqual(dollar.judge(dollar.example("triangle"))._repr_svg_().count(">borrows 1<"), 2)
        self.assertIsNone(dollar.answer("winnable by a=0 to a=0")._repr_svg_())
