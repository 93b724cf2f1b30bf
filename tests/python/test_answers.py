"""Answers: they print as the program prints them, and compare with the tuples of their parts."""
import copy
import csv
import io
import json
import pickle

import dollar
from dollar import Fault, Refused, RiemannRoch, Verdict, answer
from dollar._grammar import GRAMMAR
from helpers import Test, checksum, each, needed, sample

TRIANGLE = {"vertices": ["a", "b", "c"], "edges": [["a", "b", 1], ["b", "c", 1], ["a", "c", 1]], "amounts": [2, -1, -1], "q": "a"}
LOOPING = dict(TRIANGLE, edges=[["a", "a", 1]])

# The texts of docs/formats.md, and their parts.
TEXTS = [
    ("moved a=0 b=-10", ("moved", {"a": 0, "b": -10})),
    ("given 3 a=0 b=1", ("given", 3, {"a": 0, "b": 1})),
    ("joined 12 a=0 b=1", ("joined", 12, {"a": 0, "b": 1})),
    ("looked 0 a=1000000", ("looked", 0, {"a": 1000000})),
    ("won", ("won",)), ("not won", ("not won",)), ("turns", ("turns",)), ("stale 7", ("stale", 7)),
    ("winnable by a=0 b=-1 to a=2 b=0", ("winnable", {"a": 0, "b": -1}, {"a": 2, "b": 0})),
    ("unwinnable by a=0 to a=-1", ("unwinnable", {"a": 0}, {"a": -1})),
    ("rank at least 0", ("rank at least", 0)), ("rank below 2 at a=0 b=2", ("rank below", 2, {"a": 0, "b": 2})),
    ("rank below 2000 at ?", ("rank below", 2000)),
    *((word, (word,)) for word in GRAMMAR["refusals"] + GRAMMAR["bad"]),
]


class OfAnswers(Test):
    @each(TEXTS)
    def test_texts(self, text, parts):
        read = answer(text)
        self.assertEqual(read, parts)
        self.assertEqual(parts, read)
        self.assertEqual(tuple(read), parts)
        self.assertEqual(str(read), text)
        self.assertEqual(read[0], parts[0])
        self.assertNotEqual(read, parts + (1,))
        self.assertEqual(read, answer(text))
        self.assertEqual(hash(read), hash(answer(text)))
        if not any(isinstance(part, dict) for part in parts):
            self.assertIn(parts, {read})
        self.assertEqual(pickle.loads(pickle.dumps(read)), read)

    @each(GRAMMAR["replies"])
    def test_each_reply(self, form):
        self.assertEqual(str(answer(sample(form))), sample(form))

    @each(["", "moved", "moved a", "moved a=", "moved a=1  b=2", "given a=1", "winnable by a=1", "rank below 2 at",
                                      "stale x", "won ", "0 won", "refused", "moved a=1.5", "rank at least \u0663"])
    def test_what_is_no_answer(self, text):
        with self.assertRaisesRegex(ValueError, "no answer of the program"):
            answer(text)

    def test_words_of_a_verdict(self):
        verdict = dollar.judge(TRIANGLE)
        word, script, reduced = verdict
        self.assertEqual((word, script, reduced), ("winnable", {"a": 0, "b": -1, "c": -1}, {"a": 0, "b": 0, "c": 0}))
        self.assertTrue(verdict)
        self.assertTrue(verdict.winnable)
        self.assertFalse(dollar.judge(dict(TRIANGLE, amounts=[-1, 1, 0])))
        verdict.check()
        with self.assertRaisesRegex(ValueError, "the script leads elsewhere"):
            Verdict(True, verdict.script, {"a": 1, "b": 0, "c": 0}).check(TRIANGLE)
        with self.assertRaisesRegex(ValueError, "knows no table"):
            answer(str(verdict)).check()

    @each([dollar.Table(TRIANGLE), dollar.Table([[0, 1, 1], [1, 0, 1], [1, 1, 0]], [2, -1, -1])])
    def test_numbers_of_an_answer_can_not_be_changed(self, table):
        one, *_ = dollar.judge_all(table, divisors=[table.amounts] * 3_000)
        for verdict in (dollar.judge(table), one, answer("winnable by a=0 b=-1 c=-1 to a=0 b=0 c=0")):
            before, first = repr(verdict), next(iter(verdict.script))
            for change in (lambda: verdict.script.__setitem__(first, 7), lambda: verdict.script.__delitem__(first), verdict.script.clear,
                           lambda: verdict.script.update({first: 7}), lambda: verdict.reduced.pop(first), verdict.reduced.popitem,
                           lambda: verdict.reduced.setdefault("z", 1), lambda: verdict.reduced.__ior__({first: 7})):
                with self.assertRaisesRegex(TypeError, "the numbers of an answer can't be changed"):
                    change()
            (verdict.burning or []).clear()
            self.assertEqual(repr(verdict), before)
            for again in (pickle.loads(pickle.dumps(verdict)), copy.deepcopy(verdict), copy.copy(verdict)):
                self.assertEqual((again, again.as_dict()), (verdict, verdict.as_dict()))
                self.assertEqual(again.script[first], 0)
            self.assertEqual(json.loads(json.dumps(verdict.as_dict()))["winnable"], True)
            mine = dict(verdict.script)
            mine[first] = 7
            self.assertEqual(verdict.script[first], 0)
        with self.assertRaises(TypeError):
            dollar.rank_test(table, 1).loss[first] = 1
        self.assertEqual(len(dollar.judge(table).burning), 3)

    def test_numbers_are_a_dict_too(self):
        numbers = dollar.rr(TRIANGLE)
        self.assertTrue(numbers == {"degree": 0, "genus": 1, "rank": 0, "dual": 0} == dict(numbers))
        self.assertEqual(numbers, RiemannRoch(0, 1, 0, 0))
        self.assertEqual(str(numbers), "degree 0\ngenus 1\nrank 0\ndual 0")
        self.assertEqual(numbers["rank"], numbers.rank)
        with self.assertRaises(KeyError):
            numbers["keys"]

    def test_histories(self):
        # The lines of README, and a refusal.
        steps = ["1 look", "2 lend a", "1 commit", "1 gift a 0"]
        played = dollar.rehearse(TRIANGLE, steps)
        self.assertEqual(str(played).splitlines(), [
            "0 looked 0 a=2 b=-1 c=-1", "1 moved a=0 b=0 c=0", "2 winnable by a=0 b=0 c=0 to a=0 b=0 c=0", "3 refused gift"])
        self.assertEqual(played[:2], [("looked", 0, {"a": 2, "b": -1, "c": -1}), ("moved", {"a": 0, "b": 0, "c": 0})])
        self.assertEqual(dollar.greedy(TRIANGLE, 1), [("moved", {"a": 1, "b": 1, "c": -2}), ("turns",)])
        self.assertEqual(dollar.rehearse(TRIANGLE, []), [])
        self.assertEqual(dollar.greedy(TRIANGLE, 0), [("turns",)])
        with self.assertRaisesRegex(Fault, "line 1: bad seat"):
            dollar.rehearse(TRIANGLE, ["look"])

    def test_a_party_tells_who_ended_early(self):
        played = dollar.party(TRIANGLE, ["claim"] * 3, ["jump"], cap=2)
        self.assertEqual(played.history, [("not won",)] * 2)
        self.assertEqual([entry.seat for entry in played.history], [1, 1])
        self.assertEqual((played.calls, played.faults, played.position), ([2, 0], {1: "the history is full"}, {"a": 2, "b": -1, "c": -1}))
        self.assertEqual(str(played).splitlines()[-3:], ["position a=2 b=-1 c=-1", "seat 1 calls 2", "seat 2 calls 0"])

    def test_rows_of_refused_tables_have_the_same_shape(self):
        tables = [TRIANGLE, LOOPING, dict(TRIANGLE, amounts=[0, 0, -1])]
        for rows, names in ((list(dollar.judge_all(tables)), ["winnable", "script", "reduced"]),
                            (list(dollar.rank_test_all(tables, 1)), ["holds", "degree", "loss"]),
                            (list(dollar.rr_all(tables)), ["degree", "genus", "rank", "dual"])):
            row = rows[1]
            self.assertTrue(isinstance(row, Refused))
            self.assertTrue(isinstance(row, Fault))
            self.assertFalse(row)
            self.assertEqual((row.refused, row.text, row.table, row.status), ("edge 0 is a loop", "edge 0 is a loop", 1, 3))
            self.assertEqual([getattr(row, name) for name in names], [None] * len(names))
            again = pickle.loads(pickle.dumps(row))
            self.assertEqual((type(again), again.refused, again.table), (type(row), row.refused, row.table))
        with self.assertRaisesRegex(Fault, "table 1: edge 0 is a loop") as caught:
            list(dollar.judge_all(tables, errors="raise"))
        self.assertFalse(isinstance(caught.exception, Refused))

    def test_a_frame_stands_whatever_is_refused(self):
        pandas = needed("pandas")
        tables = [TRIANGLE, LOOPING, dict(TRIANGLE, amounts=[0, 0, -1])]
        for order in (tables, tables[::-1], [LOOPING, TRIANGLE]):
            frame = pandas.DataFrame(dollar.rr_all(order))
            self.assertEqual(set(frame.columns), {"degree", "genus", "rank", "dual", "refused"})
            self.assertEqual(len(frame), len(order))
            self.assertEqual(frame.refused.dropna().tolist(), ["edge 0 is a loop"])
            self.assertEqual(sorted(frame["rank"].dropna()), sorted([0, -1][:len(order) - 1]))
            # Numbers stay whole beside what is refused.
            whole = frame.convert_dtypes()
            self.assertEqual({str(whole[name].dtype) for name in ("degree", "genus", "rank", "dual")}, {"Int64"})
        # On the complete graph of 13 vertices of degree g - 1 both ranks are past the limits of one test.
        complete = dollar.Table([[int(u != v) for v in range(13)] for u in range(13)], [5] * 13)
        row, = dollar.rr_all([complete])
        self.assertEqual(row.as_dict(), {"degree": 65, "genus": 66, "rank": 20, "dual": 20})
        place = self.folder() / "rows.csv"
        dollar.to_csv(dollar.rr_all([complete, LOOPING]), place)
        self.assertEqual([row["rank"] + row["refused"] for row in csv.DictReader(place.open())], ["20", "edge 0 is a loop"])
        columns = dollar.rr_all([TRIANGLE] * 3).columns()
        frame = pandas.DataFrame(columns)
        self.assertEqual((list(frame.columns), len(frame), str(frame["rank"].dtype), list(columns), columns.count),
                         (["degree", "genus", "rank", "dual"], 3, "int64", ["degree", "genus", "rank", "dual"], 3))
        # From 0 0 -1 first c borrows, which leaves -1 -1 1, and then b, which leaves -2 1 0.
        verdicts = pandas.DataFrame(dollar.judge_all(dollar.Table(TRIANGLE), divisors=[[2, -1, -1], [0, 0, -1]]).columns())
        self.assertEqual((verdicts.winnable.tolist(), verdicts.script_b.tolist(), len(verdicts.columns)), ([True, False], [-1, -1], 7))
        self.assertEqual(list(pandas.DataFrame(dollar.judge_all(tables[:1])).columns), ["winnable", "script", "reduced"])
        self.assertEqual(pandas.DataFrame(dollar.rank_test_all(tables[:1], 1)).loss.tolist(), [{"a": 0, "b": 0, "c": 1}])

    def test_csv(self):
        folder = self.folder()
        tables, lines = [TRIANGLE, LOOPING], [json.dumps(TRIANGLE), json.dumps(LOOPING)]
        wanted = {
            "judge 0": (dollar.judge_all(tables), "winnable,script,reduced", "true,a=0 b=-1 c=-1,a=0 b=0 c=0", ",,"),
            "rank 1": (dollar.rank_test_all(tables, 1), "holds,degree,loss", "false,1,a=0 b=0 c=1", ",,"),
            "rr 0": (dollar.rr_all(tables), "degree,genus,rank,dual", "0,1,0,0", ",,,")}
        for asked, (rows, names, first, none) in wanted.items():
            self.assertEqual(dollar.to_csv(rows, str(folder / asked)), 2)
            sums = [checksum(asked + "\n", line) for line in lines]
            self.assertEqual((folder / asked).read_text(), "number,crc32,divisor,%s,refused\n0,%s,a=2 b=-1 c=-1,%s,\n1,%s,a=2 b=-1 c=-1,%s,%s\n" % (
                names, sums[0], first, sums[1], none, "edge 0 is a loop"))
        # A sweep over nothing has its header, also of divisors.
        for rows, names in ((dollar.rr_all([]), "divisor,degree,genus,rank,dual"),
                            (dollar.judge_all(dollar.Table([[0, 2], [2, 0]]), divisors=[]),
                             "divisor_0,divisor_1,winnable,script_0,script_1,reduced_0,reduced_1")):
            self.assertEqual(dollar.to_csv(rows, folder / "none"), 0)
            self.assertEqual((folder / "none").read_text(), "number,crc32,%s,refused\n" % names)

    def test_columns_are_written_as_columns(self):
        table, out = dollar.Table([[0, 2], [2, 0]]), io.StringIO()
        self.assertEqual(dollar.to_csv(dollar.rank_test_all(table, 1, divisors=[[3, 0], [0, 1]]).columns(), out), 2)
        self.assertEqual(out.getvalue(), "holds,loss_0,loss_1\ntrue,0,0\nfalse,1,0\n")
