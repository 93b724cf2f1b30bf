"""Columns: the same numbers as the answers one by one, with numpy and without; what has no place in them is raised. And CSV files that
are gone on with."""
import contextlib
import csv
import io
import itertools
import os
import pickle
import random
import re
import signal
import subprocess
import sys
import time
from array import array
from unittest import mock

import dollar
from dollar import Fault, Table, _columns as columns, _readers as readers
from helpers import PACKAGE, Test, checksum, each, needed

PETERSEN = dollar.example("petersen")
RING = Table([[0, 1, 0, 3], [1, 0, 1, 0], [0, 1, 0, 1], [3, 0, 1, 0]], names=lambda vertex: "v%d%s" % (vertex, "x" * vertex))
ALONE = Table([[0]])


def divisors(table, count, most=4, seed=1):
    rng = random.Random(seed)
    return [[rng.choice([rng.randint(-most, most), rng.randint(-most, most), rng.randint(-most ** 5, most ** 5)]) for _ in table.vertices]
            for _ in range(count)]


@contextlib.contextmanager
def without_numpy():
    """What holds where numpy is not here."""
    with mock.patch.object(columns, "numpy_or_none", lambda: None):
        yield


def with_numpy():
    needed("numpy")
    return contextlib.nullcontext()


def ints(column):
    return list(map(int, column))


class OfColumns(Test):
    @each(list(itertools.product([with_numpy, without_numpy], [PETERSEN, RING, ALONE])))
    def test_the_numbers_are_those_of_the_answers(self, given, table):
        rows = divisors(table, 5_000)
        with given():
            found = dollar.judge_all(table, divisors=rows).columns()
            verdicts = list(dollar.judge_all(table, divisors=rows))
            self.assertEqual(found.count, len(rows))
            self.assertEqual(list(map(bool, found.winnable)), [verdict.winnable for verdict in verdicts])
            self.assertEqual((list(found.script), list(found.reduced)), ([*table.vertices], [*table.vertices]))
            for vertex in table.vertices:
                self.assertEqual(ints(found.script[vertex]), [verdict.script[vertex] for verdict in verdicts])
                self.assertEqual(ints(found.reduced[vertex]), [verdict.reduced[vertex] for verdict in verdicts])
            for degree in (0, 2):
                found = dollar.rank_test_all(table, degree, divisors=rows[:500]).columns()
                tests = list(dollar.rank_test_all(table, degree, divisors=rows[:500]))
                self.assertEqual(list(map(bool, found.holds)), [test.holds for test in tests])
                for vertex in table.vertices:
                    self.assertEqual(ints(found.loss[vertex]), [0 if test.holds else test.loss[vertex] for test in tests])
            small = divisors(table, 500, 1)
            found, numbers = dollar.rr_all(table, divisors=small).columns(), list(dollar.rr_all(table, divisors=small))
            for name in ("degree", "genus", "rank", "dual"):
                self.assertEqual(ints(getattr(found, name)), [getattr(each, name) for each in numbers])

    @each([0, 99, 100, 999, 1000, 9_999, 10_000, 1_000_000])
    def test_numbers_of_each_length(self, number):
        numpy = needed("numpy")
        for most in (number, -number):
            rows = [[most, 0], [most // 2, -most], [0, 7]]
            path = Table([[0, 1], [1, 0]])
            wanted = [sum(row) for row in rows]
            for source in (rows, list(map(tuple, rows)), numpy.array(rows), numpy.array(rows, dtype=numpy.int32)):
                self.assertEqual(ints(dollar.rr_all(path, divisors=source).columns().degree), wanted)
                reduced = dollar.judge_all(path, divisors=source).columns().reduced
                self.assertEqual((ints(reduced[0]), ints(reduced[1])), (wanted, [0, 0, 0]))

    @each([with_numpy, without_numpy])
    def test_what_columns_are(self, given):
        numpy, rows = needed("numpy"), divisors(RING, 50, 1)
        kind = numpy.ndarray if given is with_numpy else array
        with given():
            for found in (dollar.judge_all(RING, divisors=rows).columns(), dollar.rank_test_all(RING, 1, divisors=rows).columns(),
                          dollar.rr_all(RING, divisors=rows).columns()):
                self.assertEqual({type(column) for column in found.values()}, {kind})
                if given is with_numpy:
                    self.assertEqual({str(column.dtype) for column in found.values()} | {"bool"}, {"int64", "bool"})

    @each([with_numpy, without_numpy])
    def test_they_leave_their_process(self, given):
        rows = divisors(RING, 50, 1)
        with given():
            for found in (dollar.judge_all(RING, divisors=rows).columns(), dollar.rank_test_all(RING, 1, divisors=rows).columns(),
                          dollar.rr_all(RING, divisors=rows).columns()):
                again = pickle.loads(pickle.dumps(found))
                self.assertEqual((type(again), repr(again), again.count), (type(found), repr(found), 50))
                self.assertEqual({name: ints(column) for name, column in again.items()}, {name: ints(column) for name, column in found.items()})

    @each([with_numpy, without_numpy])
    def test_whatever_divisors_are(self, given):
        numpy, pandas = needed("numpy"), needed("pandas")
        rows = divisors(RING, 300)
        array = numpy.array(rows)
        frame = pandas.DataFrame(array[:, ::-1], columns=[3, 2, 1, 0])
        sources = [rows, tuple(map(tuple, rows)), iter(rows), (dict(enumerate(row)) for row in rows), array, array.astype(numpy.int32), frame,
                   [numpy.array(row) for row in rows], (iter(row) for row in rows)]
        with given():
            for source in sources[:-2] + [sources[-2]]:
                found = dollar.judge_all(RING, divisors=source).columns()
                self.assertEqual(ints(found.reduced[0] + found.reduced[1] + found.reduced[2] + found.reduced[3])[:300]
                                 if given is with_numpy else [sum(column) for column in zip(*found.reduced.values())], list(map(sum, rows)))
            self.assertEqual([v.judged().amounts for v in dollar.judge_all(RING, divisors=frame)], list(map(tuple, rows)))
            for wrong in (array.astype(float), frame.astype(float), array > 0, array.astype(object) * 1.0):
                with self.assertRaisesRegex(TypeError, "divisor 0: the amount of vertex v0 is not a whole number"):
                    dollar.judge_all(RING, divisors=wrong).columns()
            for labels in ([0, 1, 2, 2], [0, 1, 2, 4], [0, 1, 2]):
                with self.assertRaises(ValueError):
                    dollar.judge_all(RING, divisors=pandas.DataFrame(array[:, :len(labels)], columns=labels))
            with self.assertRaisesRegex(ValueError, "divisor 0: there are 3 amounts for 4 vertices"):
                dollar.judge_all(RING, divisors=array[:, :3]).columns()

    @each([with_numpy, without_numpy])
    def test_what_has_no_place_is_raised(self, given):
        with given():
            rows = divisors(PETERSEN, 3_000)
            rows[2_500] = [1_000_001] + [0] * 9
            for call in (dollar.judge_all, dollar.rr_all, lambda table, **options: dollar.rank_test_all(table, 1, **options)):
                with self.assertRaisesRegex(Fault, "amount of vertex 0") as caught:
                    call(PETERSEN, divisors=rows).columns()
                self.assertEqual(caught.exception.table, 2_500)
            for amount in (2 ** 31, -2 ** 40, 2 ** 63, -2 ** 63, 10 ** 30):
                rows[2_500][0] = amount
                with self.assertRaisesRegex(Fault, "amount of vertex 0|shape of amounts"):
                    dollar.judge_all(PETERSEN, divisors=rows).columns()
            with self.assertRaisesRegex(Fault, "too many trials") as caught:
                dollar.rank_test_all(ALONE, 2_000, divisors=[[3_000], [1_000]]).columns()
            self.assertEqual(caught.exception.table, 1)
            with self.assertRaisesRegex(ValueError, "for `divisors` of one table"):
                dollar.judge_all([PETERSEN]).columns()
            begun = dollar.judge_all(PETERSEN, divisors=[[0] * 10] * 3)
            next(begun)
            with self.assertRaisesRegex(ValueError, "the sweep has begun"):
                begun.columns()
            self.assertEqual((dollar.judge_all(PETERSEN, divisors=[]).columns().count, dollar.rr_all([]).columns().count), (0, 0))

    def test_a_source_that_takes_its_time(self):
        def slowly():
            for place in range(9_000):
                if place % 2_500 == 2_000:
                    time.sleep(0.1)
                yield [place % 5, 0, 0, 0]

        self.assertEqual(ints(dollar.rr_all(RING, divisors=slowly()).columns().degree), [place % 5 for place in range(9_000)])
        self.assertEqual(dollar.rr_all(Table(RING, row) for row in itertools.islice(slowly(), 2_100)).columns().count, 2_100)

    def test_four_numbers_of_many_tables(self):
        tables = [Table(RING, row) for row in divisors(RING, 200, 2)]
        self.assertEqual(ints(dollar.rr_all(tables).columns().degree), [table.degree for table in tables])

    def test_what_is_taken_is_what_the_lines_say(self):
        refused = b"NA NA NA NA # refused "

        def is_right(line, is_test):
            """Whether a line has four numbers of 64 bits, as the program writes them; or is a test that holds, or refused."""
            if line.startswith(refused) or is_test and line == b"1 NA NA NA":
                return True
            return re.fullmatch(rb"(0|-?[1-9]\d*)( (0|-?[1-9]\d*)){3}", line) and all(
                -2 ** 63 <= int(number) < 2 ** 63 for number in line.split()) and (not is_test or line[:2] == b"0 ")

        rng, taken = random.Random(3), [0, 0]
        lines = [b"1 0 -1 20\n", b"0 -300 7 0\n", b"1 NA NA NA\n", b"0 999999999999999999 0 -1\n", refused + b"shape of amounts\n"]
        questions = [readers.RANK, readers.RR]
        for _ in range(10_000):
            piece = b"".join(rng.choices(lines, (9, 9, 1, 9, 0.1), k=rng.randint(1, 4)))
            place = rng.randrange(len(piece))
            put = rng.choice([b"0", b"1", b"9", b"-", b" ", b"\n", b"\t", b"\r", b"+", b"_", b"\xff", b"NA", b""])
            piece = piece[:place] + put + piece[place + rng.randint(0, 1):]
            for question in questions:
                try:
                    found = readers.batch_of(piece, b"", question, 4)
                except ValueError:
                    found = None
                taken[found is None] += 1
                *read, rest = piece.split(b"\n")
                is_test = question is readers.RANK
                self.assertEqual(found is not None, not rest and all(is_right(line, is_test) for line in read), piece)
                if found is not None:
                    told = [refused + b"%b\n" % found.faults[at].encode() if at in found.faults else b"%d %d %d %d\n" % numbers
                            for at, numbers in enumerate(zip(*found.columns))]
                    wanted = piece.replace(lines[2], b"1 0 0 0\n") if is_test else piece
                    self.assertEqual(b"".join(told).decode(), wanted.decode(errors="replace"))
        self.assertGreater(min(taken), 1_000)


SWEEP = """
import os
import sys
import dollar
table = dollar.Table([[0, 2], [2, 0]])
def rows():
    for place in range(int(sys.argv[2])):
        yield [place % 7 - 3, place % 11 - 5] if place % 1000 else [1000001, 0]
        if place == int(sys.argv[3]):
            os.kill(os.getpid(), int(sys.argv[4]))
print(dollar.to_csv(dollar.judge_all(table, divisors=rows(), ahead=1000), sys.argv[1], go_on=True))
"""


class OfCsvFiles(Test):
    def swept(self, place, count, at=-1, sign=0):
        return subprocess.run([sys.executable, "-c", SWEEP, str(place), str(count), str(at), str(sign)], stdout=subprocess.PIPE,
                              stderr=subprocess.DEVNULL, text=True, env=dict(os.environ, PYTHONPATH=str(PACKAGE)))

    def test_an_interrupted_sweep_is_gone_on_with(self):
        folder = self.folder()
        whole, kept = folder / "whole.csv", folder / "kept.csv"
        self.assertEqual(self.swept(whole, 60_000).stdout, "60000\n")
        wanted = whole.read_bytes()
        self.assertEqual(wanted.count(b"\n"), 60_001)
        for at, sign in ((25_000, signal.SIGINT), (55_000, signal.SIGKILL)):
            self.assertNotEqual(self.swept(kept, 60_000, at, sign).returncode, 0)
            found = kept.read_bytes()
            self.assertTrue(wanted.startswith(found))
            # At most a thousand divisors had no answer yet, and a kill loses what was not yet handed to the system.
            self.assertTrue(at - 2_000 < found.count(b"\n") <= at + 2, found.count(b"\n"))
        self.assertEqual(self.swept(kept, 60_000).stdout, "60000\n")
        self.assertEqual(kept.read_bytes(), wanted)
        for size in [*range(0, 200, 7), len(wanted) - 1, len(wanted)]:
            kept.write_bytes(wanted[:size])
            self.assertEqual(dollar.to_csv(self.rows(60_000 if size > 1000 else 100), kept, go_on=True), 60_000 if size > 1000 else 100)
            self.assertTrue(wanted.startswith(kept.read_bytes()))

    def rows(self, count, more=0):
        table = Table([[0, 2], [2, 0]])
        return dollar.judge_all(table, divisors=(
            [place % 7 - 3 + more, place % 11 - 5] if place % 1000 else [1000001, 0] for place in range(count)))

    def test_a_file_of_another_sweep_is_refused(self):
        place, table = self.folder() / "rows.csv", Table([[0, 2], [2, 0]])
        self.assertEqual(dollar.to_csv(self.rows(50), place), 50)
        before = place.read_bytes()
        for other, said in ((self.rows(60, 1), "row 1 is about something else"), (self.rows(30), "it has more than the 30 of this one"),
                            (dollar.judge_all(Table([[0, 3], [3, 0]]), divisors=[[1000001, 0]]), "row 0 is about something else"),
                            (dollar.rr_all(table, divisors=[[0, 0]] * 60), "its header is not number,crc32,divisor_0,divisor_1,degree")):
            with self.assertRaisesRegex(ValueError, "has the rows of another sweep: %s.*; nothing was changed" % said):
                dollar.to_csv(other, place, go_on=True)
            self.assertEqual(place.read_bytes(), before)
        # Columns do not tell what was asked.
        with self.assertRaisesRegex(ValueError, "only the answers of a sweep can be gone on with"):
            dollar.to_csv(dollar.rr_all(table, divisors=[[0, 0]]).columns(), place, go_on=True)
        self.assertEqual(place.read_bytes(), before)
        # Without it a file is written anew.
        self.assertEqual(dollar.to_csv(self.rows(3), str(place)), 3)
        sums = [checksum("judge 0\n" + table.to_json(), line) for line in ("1000001 0", "-2 -4", "-1 -3")]
        self.assertEqual(place.read_text(), "number,crc32,divisor_0,divisor_1,winnable,script_0,script_1,reduced_0,reduced_1,refused\n"
                         "0,%s,1000001,0,,,,,,amount of vertex 0\n1,%s,-2,-4,false,0,-2,-6,0,\n2,%s,-1,-3,false,0,-2,-5,1,\n" % tuple(sums))
        place.write_text("somebody's\nown\n")
        with self.assertRaises(ValueError):
            dollar.to_csv(self.rows(60), place, go_on=True)
        self.assertEqual(place.read_text(), "somebody's\nown\n")
        # A rank test of another degree is another sweep.
        dollar.to_csv(dollar.rank_test_all(table, 1, divisors=[[3, 0]]), place)
        with self.assertRaisesRegex(ValueError, "row 0 is about something else"):
            dollar.to_csv(dollar.rank_test_all(table, 2, divisors=[[3, 0]] * 2), place, go_on=True)

    def test_what_goes_wrong_before_an_answer_leaves_a_file_as_it_was(self):
        place = self.folder() / "rows.csv"
        place.write_text("of last night\n")
        for wrong in (lambda: dollar.to_csv(dollar.judge_all([PETERSEN], program="/nowhere/dollar"), place),
                      lambda: dollar.to_csv(dollar.judge_all(["x"]), place), lambda: dollar.to_csv(dollar.rr(PETERSEN), place),
                      lambda: dollar.to_csv([dollar.rr(PETERSEN)], place), lambda: dollar.to_csv(dollar.judge_all(RING, divisors=[[1.5] * 4]), place),
                      lambda: dollar.to_csv(dollar.rr_all([dict(RING.to_dict(), q="z")], errors="raise"), place)):
            with self.assertRaises((TypeError, FileNotFoundError, Fault)):
                wrong()
            self.assertEqual(place.read_text(), "of last night\n")

    @each([RING, ALONE])
    def test_rows_have_the_divisor_and_what_columns_have(self, table):
        rows, out = divisors(table, 2_000), io.StringIO()
        for source in (rows, needed("numpy").array(rows)):
            out = io.StringIO()
            dollar.to_csv(dollar.judge_all(table, divisors=source), out)
            found, columns = list(csv.DictReader(io.StringIO(out.getvalue()))), dollar.judge_all(table, divisors=rows).columns()
            self.assertEqual([[int(row["divisor_" + name]) for name in table.names] for row in found], rows)
            for name, column in columns.items():
                self.assertEqual([row[name] for row in found],
                                 [str(bool(each)).lower() if name == "winnable" else str(int(each)) for each in column])

    def test_a_first_loss_that_is_not_named_is_left_out(self):
        for rows in (dollar.rank_test_all(ALONE, 2_000, divisors=[[3_000], [1_000]]),
                     dollar.rank_test_all([Table(ALONE, [3_000]), Table(ALONE, [1_000])], 2_000)):
            out = io.StringIO()
            dollar.to_csv(rows, out)
            self.assertEqual([(row["holds"], row["degree"], row["refused"]) for row in csv.DictReader(io.StringIO(out.getvalue()))],
                             [("true", "2000", ""), ("false", "2000", "")])
            self.assertTrue(out.getvalue().endswith("false,2000,,\n"))
