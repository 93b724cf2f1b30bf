"""Nothing is taken for something else: vertices keep their labels, a key means one vertex, a line is one line, and a program that is not
ours is noticed."""
import os
import pickle
import random
import signal
import subprocess
import sys
import types
import warnings

import dollar
from dollar import Fault, Table
from helpers import HUNG, PACKAGE, Test, each, needed

TRIANGLE = {"vertices": ["a", "b", "c"], "edges": [["a", "b", 1], ["b", "c", 1], ["a", "c", 1]], "amounts": [2, -1, -1], "q": "a"}
PATH = Table([[0, 1, 0], [1, 0, 1], [0, 1, 0]])
RENAMED = Table([[0, 1, 0], [1, 0, 1], [0, 1, 0]], names=lambda vertex: str(vertex + 1))
# What an interrupt at the terminal, or of a notebook, does: a signal to all processes of the group.
INTERRUPTED = """
import os
import signal
import time
import dollar
session = dollar.Session(dollar.Table([[0, 1], [1, 0]], [2, -1]))
texts = [str(session.ask("look"))]
try:
    os.killpg(0, signal.SIGINT)
    time.sleep(10)
except KeyboardInterrupt:
    texts.append(str(session.ask("commit")))
print("|".join([*texts, str(session.close().status)]))
"""
REFUSED = [
    (lambda: list(dollar.judge_all(PATH, divisors=[[1, 2, 3], [1, True, 3]])), TypeError, "divisor 1: the amount of vertex 1 is not a whole"),
    (lambda: dollar.judge_all(PATH, divisors=[[1, 2, 3], [1, True, 3]]).columns(), TypeError, "divisor 1: the amount of vertex 1 is not a whole"),
    (lambda: dollar.judge_all(PATH, divisors=[[1, 2, 3], [1, 2]]).columns(), ValueError, "divisor 1: there are 2 amounts for 3 vertices"),
    (lambda: Table(PATH, q=[0]), ValueError, "there is no vertex"),
    (lambda: Table(RENAMED, {"1": 5}), ValueError, "'1' means the vertex 0 or the vertex 1: use the vertex itself"),
    (lambda: RENAMED.divisor["1"], KeyError, "1"),
    (lambda: dollar.party(TRIANGLE, ["look\nlend a"]), ValueError, "line 0 has a newline in it"),
]


class OfMeanings(Test):
    @each(REFUSED)
    def test_refused(self, call, error, text):
        with self.assertRaisesRegex(error, text):
            call()

    def test_an_interrupt_at_the_terminal_leaves_a_session(self):
        done = subprocess.run([sys.executable, "-c", INTERRUPTED], env=dict(os.environ, PYTHONPATH=str(PACKAGE)), stdout=subprocess.PIPE,
                              text=True, timeout=HUNG, start_new_session=True)
        self.assertEqual(done.stdout, "0 looked 0 0=2 1=-1|1 winnable by 0=0 1=-1 to 0=1 1=0|0\n")

    def test_a_forked_child_has_no_part_in_a_session(self):
        session = Table(TRIANGLE).serve()
        child = os.fork()
        if child == 0:
            try:
                for call in (lambda: session.ask("look"), session.kill):
                    with self.assertRaisesRegex(ValueError, "belongs to the process %d" % os.getppid()):
                        call()
            except BaseException:
                os._exit(7)
            os._exit(1)
        self.assertEqual(os.waitstatus_to_exitcode(os.waitpid(child, 0)[1]), 1)
        self.assertEqual((session.ask("look").number, session.close()), (0, (0, "")))

    def test_frames_keep_their_labels(self):
        networkx, pandas = needed("networkx"), needed("pandas")
        graph = networkx.Graph([(2, 0), (0, 1)])
        frame = networkx.to_pandas_adjacency(graph, dtype=int)
        table = Table(frame, {2: 5})
        self.assertEqual((table.divisor, table), ({2: 5, 0: 0, 1: 0}, Table(graph, {2: 5})))
        rows = [[0, 1, 0], [1, 0, 2], [0, 2, 0]]
        for index, columns in ((list("abc"), list("cab")), ([0, 1, 2], list("012")), (list("aab"), list("aab"))):
            with self.assertRaises(ValueError):
                Table(pandas.DataFrame(rows, index=index, columns=columns))
        self.assertEqual(Table(pandas.DataFrame(rows, list("abc"), list("abc"))).edges, (("a", "b", 1), ("b", "c", 2)))
        self.assertEqual(Table(PATH, pandas.Series([3, 4], [2, 0])).amounts, (4, 0, 3))

    def test_matrices_of_scipy_and_numpy(self):
        networkx, numpy = needed("networkx"), needed("numpy")
        needed("scipy")
        graph = networkx.cycle_graph(4)
        made = Table(graph)
        with warnings.catch_warnings():
            warnings.simplefilter("ignore", FutureWarning)
            sparse = networkx.adjacency_matrix(graph)
        self.assertTrue(Table(sparse) == Table(networkx.to_numpy_array(graph, dtype=int)) == made)
        self.assertEqual(Table(numpy.matrix(networkx.to_numpy_array(graph, dtype=int))), made)
        with self.assertRaisesRegex(TypeError, "is not a whole number: 0.0"):
            Table(networkx.to_numpy_array(graph))

    def test_a_table_comes_back_from_networkx_as_it_was(self):
        networkx = needed("networkx")
        table = Table(TRIANGLE, None, "b")
        self.assertEqual(Table(table.to_networkx()), table)
        grid = networkx.grid_2d_graph(2, 3)

        def name(vertex):
            return "r%dc%d" % vertex

        table = Table(grid, {(1, 2): 4, (0, 0): -1}, (1, 1), names=name)
        back = Table(table.to_networkx(), names=name)
        self.assertEqual((back, back.vertices, back.q), (table, tuple(grid), (1, 1)))
        graph = networkx.path_graph(3)
        graph.nodes[1]["amount"] = 2
        with self.assertRaisesRegex(ValueError, "the node 0 has no attribute `amount`, which others have"):
            Table(graph)

    def test_vertices_are_kept_after_names(self):
        self.assertEqual(Table(RENAMED, {1: 5}).divisor, {0: 0, 1: 5, 2: 0})
        self.assertEqual(Table(RENAMED, {1: 5}).to_dict()["amounts"], [0, 5, 0])
        verdict, = dollar.judge_all(RENAMED, divisors=[{1: 5}])
        self.assertEqual(verdict.judged().amounts, (0, 5, 0))
        self.assertEqual(str(verdict), "winnable by 1=0 2=5 3=5 to 1=5 2=0 3=0")
        self.assertEqual(verdict.script, {0: 0, 1: 5, 2: 5})
        again = pickle.loads(pickle.dumps(verdict))
        self.assertEqual((again.script["3"], again.judged().vertices, str(again)), (5, (0, 1, 2), str(verdict)))

    def test_a_text_is_a_key_where_it_means_one_vertex(self):
        verdict = dollar.judge(Table(PATH, [-1, 3, 0]))
        self.assertEqual((verdict.script["1"], verdict.script.get("1"), "1" in verdict.script), (verdict.script[1],) * 2 + (True,))
        self.assertEqual((verdict.script.get("7"), verdict.script.get("7", 0), "7" in verdict.script), (None, 0, False))
        self.assertEqual(Table(RENAMED, {"3": 1, "0": 2}).amounts, (2, 0, 1))
        # The vertices of a file are texts, and a whole number is its text there.
        self.assertEqual(Table(PATH.to_dict(), {2: 5}).divisor, {"0": 0, "1": 0, "2": 5})

    def test_answers_are_by_the_vertices(self):
        tuples = types.SimpleNamespace(nodes=[(0, 0), (0, 1)], edges=[((0, 0), (0, 1))])
        table = Table(tuples, [2, -1], names=lambda vertex: "v%d" % vertex[1])
        self.assertEqual(dollar.judge(table).script, {(0, 0): 0, (0, 1): -1})
        self.assertEqual(dollar.judge(table).burning, [(0, 0), (0, 1)])
        self.assertEqual(dollar.rank_test(table, 2).loss, {(0, 0): 0, (0, 1): 2})
        self.assertEqual(next(dollar.rank_test_all([table], 2)).loss, {(0, 0): 0, (0, 1): 2})
        self.assertEqual(dollar.rehearse(table, ["1 look"])[0].amounts, {(0, 0): 2, (0, 1): -1})
        self.assertEqual(dollar.greedy(table, 1)[0].amounts, {(0, 0): 1, (0, 1): 0})
        self.assertEqual(dollar.party(table, ["look"]).position, {(0, 0): 2, (0, 1): -1})
        with table.serve() as session:
            self.assertEqual(session.ask("look").amounts, {(0, 0): 2, (0, 1): -1})
        dollar.judge(table).check()
        self.assertIn(">borrows 1<", dollar.judge(table)._repr_svg_())
        columns = dollar.judge_all(table, divisors=[[2, -1]]).columns()
        self.assertEqual({v: list(map(int, column)) for v, column in columns.script.items()}, {(0, 0): [0], (0, 1): [-1]})

    def test_a_dict_that_is_used_again_is_kept_as_it_was(self):
        def again():
            table = dict(TRIANGLE)
            for amount in range(3):
                table["amounts"] = [amount, 1, -1]
                yield table

        verdicts = list(dollar.judge_all(again()))
        for amount, verdict in enumerate(verdicts):
            verdict.check()
            self.assertEqual(verdict.judged().amounts, (amount, 1, -1))
        for test in list(dollar.rank_test_all(again(), 1)):
            test.check()

    def test_a_divisor_that_is_used_again_is_kept_as_it_was(self):
        def again():
            row = [0, 0, 0]
            for amount in range(3):
                row[0] = amount
                yield row

        self.assertEqual([verdict.judged().amounts[0] for verdict in dollar.judge_all(PATH, divisors=again())], [0, 1, 2])
        self.assertEqual(list(map(int, dollar.rr_all(PATH, divisors=again()).columns().degree)), [0, 1, 2])

    @each(["/usr/bin/true", "/bin/cat", "/bin/echo"])
    def test_a_program_that_is_not_ours_is_noticed(self, program):
        table = Table(TRIANGLE)
        calls = [lambda: dollar.judge(table, program=program), lambda: dollar.rank_test(table, 1, program=program),
                 lambda: dollar.rr(table, program=program), lambda: dollar.rank(table, program=program),
                 lambda: list(dollar.judge_all([table], program=program)), lambda: list(dollar.judge_all([table] * 20_000, program=program)),
                 lambda: list(dollar.judge_all(table, program=program, divisors=[[0, 0, 0]])),
                 lambda: dollar.judge_all(table, program=program, divisors=[[0, 0, 0]]).columns(), lambda: dollar.greedy(table, 0, program=program),
                 lambda: dollar.rehearse(table, ["1 look"], program=program), lambda: dollar.party(table, ["look"], program=program),
                 lambda: dollar.Session(table, program=program).ask("look")]
        for call in calls:
            with self.assertRaises((Fault, ValueError)):
                call()

    def test_an_interrupted_sweep_has_not_ended(self):
        def interrupt(*_):
            raise KeyboardInterrupt

        def tables():
            yield from [PATH] * 100
            os.kill(os.getpid(), signal.SIGALRM)
            yield PATH

        before = signal.signal(signal.SIGALRM, interrupt)
        try:
            verdicts = dollar.judge_all(tables())
            with self.assertRaises(KeyboardInterrupt):
                list(verdicts)
            with self.assertRaisesRegex(ValueError, "the sweep was interrupted"):
                next(verdicts)
        finally:
            signal.signal(signal.SIGALRM, before)

    def test_each_answer_may_choose_the_next_table(self):
        rng, answers = random.Random(1), []

        def choose():
            """From a table that can't be won a dollar more, until it can."""
            amounts = [-rng.randint(3, 9), 0, 0]
            yield Table(PATH, list(amounts))
            while not answers[-1].winnable:
                amounts[rng.randrange(3)] += 1
                yield Table(PATH, list(amounts))

        for verdict in dollar.judge_all(choose(), ahead=1):
            answers.append(verdict)
        self.assertGreater(len(answers), 3)
        self.assertEqual([verdict.winnable for verdict in answers], [False] * (len(answers) - 1) + [True])
        # On a tree that can be won for the first time, all dollars are 0.
        self.assertEqual(answers[-1].judged().degree, 0)
