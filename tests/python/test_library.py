"""The library for C from Python: it says what the program says, in this process, where it is and nobody names a program. SEED=N gives the
same divisors again; ROWS is how many are tried."""
import concurrent.futures
import importlib.machinery
import importlib.util
import io
import json
import multiprocessing
import os
import random
import shutil
import signal
import subprocess
import sys
import threading
import time
import unittest
from contextlib import redirect_stderr
from unittest import mock

import dollar
import toolchain
from dollar import Fault, Table, _library as library
from helpers import PACKAGE, ROOT, Test, each, needed, program

SEED, ROWS = (int(os.environ.get(name) or other) for name, other in (("SEED", random.randrange(10000)), ("ROWS", 20_000)))
PETERSEN, TRIANGLE = dollar.example("petersen"), dollar.example("triangle")
# Amounts at the limits of the program, and of 64 bits.
ODD = [0, 1, 10 ** 6, 10 ** 6 + 1, -10 ** 6, -10 ** 6 - 1, 2 ** 63 - 1, -2 ** 63, 2 ** 63, -2 ** 63 - 1, -10 ** 30]
SWEEPS = [dollar.judge_all, dollar.rr_all, lambda *given, **options: dollar.rank_test_all(*given, 2, **options),
          lambda *given, **options: dollar.rank_test_all(*given, 0, **options)]
SINGLE = [dollar.judge, dollar.rr, dollar.rank, lambda table, **options: dollar.rank_test(table, 2, **options), Table.reduced, Table.rank]


def setUpModule():
    if not toolchain.SHARED.exists():
        raise unittest.SkipTest("the library for C from Python, for want of a build by ./dollar")
    patch = mock.patch.dict(os.environ, DOLLAR=program(), DOLLAR_LIBRARY=str(toolchain.SHARED))
    patch.start()
    unittest.addModuleCleanup(patch.stop)


def connected(rng):
    """A table with a connected graph: a random tree, and some edges more."""
    size = rng.choice([1, 2, 3, 4, 5, 6, 8, 10, 16])
    counts = [[0] * size for _ in range(size)]
    pairs = [(rng.randrange(v), v) for v in range(1, size)] + [rng.sample(range(size), 2) for _ in range(rng.randrange(size + 3) if size > 1 else 0)]
    for u, v in pairs:
        counts[u][v] = counts[v][u] = counts[u][v] + rng.choice([1, 1, 1, 2])
    return Table(counts, q=rng.randrange(size))


def said(call, *given, **options):
    """What comes of a call: its answer and all its parts, or its error."""
    try:
        found = call(*given, **options)
    except (Fault, TypeError, ValueError) as error:
        return type(error), str(error), vars(error)
    return found, repr(found), str(found), getattr(found, "burning", None), getattr(found, "table", None)


def told(sweep):
    """What comes of a sweep: each answer with its table, and the error at its end."""
    found = []
    try:
        for answer in sweep:
            found.append((type(answer), repr(answer), str(answer), vars(answer).get("_table")))
    except Exception as error:
        found.append((type(error), str(error), vars(error)))
    return found


def without_processes():
    """What holds where no program can be started."""
    return mock.patch.object(subprocess, "Popen", side_effect=AssertionError("a program is started"))


class OfAnswers(Test):
    def both(self, call, *given, **options):
        """The same comes of a call by the library and by the program."""
        with without_processes():
            mine = call(*given, **options)
        self.assertEqual(mine, call(*given, program=program(), **options), f"SEED={SEED}")

    def test_of_many_divisors(self):
        numpy, rng = needed("numpy"), random.Random(SEED)
        for _ in range(20):
            table = connected(rng)
            rows = [[rng.choice([-4, -2, -1, 0, 0, 1, 1, 2, 3, 5]) for _ in table.vertices] for _ in range(ROWS // 20)]
            for sweep in SWEEPS:
                self.both(lambda **how: told(sweep(table, divisors=rows, **how)))
                for source in (rows, numpy.array(rows), numpy.array(rows, numpy.int32)):
                    self.both(lambda **how: {name: (type(column), column.dtype, list(column)) for name, column
                                             in sweep(table, divisors=source, **how).columns().items()})

    def test_of_divisors_that_are_refused(self):
        numpy, rng = needed("numpy"), random.Random(SEED + 1)
        for _ in range(8):
            table = connected(rng)
            rows = [[rng.choice([0, 1, rng.choice(ODD)]) for _ in table.vertices] for _ in range(60)]
            sources = [lambda: rows, lambda: iter(rows), lambda: (row for row in [*rows[:7], [1.5] * len(rows[0]), *rows]),
                       lambda: [[amount % 2 ** 64 for amount in row] for row in rows],
                       lambda: numpy.array([[amount % 2 ** 64 for amount in row] for row in rows], numpy.uint64),
                       lambda: [dict(zip(table.vertices, row)) for row in rows], lambda: [Table(table, row) for row in rows], lambda: 7]
            for source in sources:
                for sweep in SWEEPS:
                    for errors in "row", "raise":
                        self.both(lambda **how: said(lambda: told(sweep(table, divisors=source(), errors=errors, **how)))[1])
                    self.both(lambda **how: said(lambda: list(map(list, sweep(table, divisors=source(), **how).columns().values()))))

    def test_of_single_tables(self):
        rng = random.Random(SEED + 2)
        for _ in range(60):
            graph = connected(rng)
            table, other = (Table(graph, [rng.choice([-2, -1, 0, 1, 3, 3]) for _ in graph.vertices]) for _ in range(2))
            other = rng.choice([other, table.fire({rng.choice(table.vertices): rng.randrange(-3, 4)})])
            for call in SINGLE:
                self.both(lambda **how: said(call, table, **how))
            self.both(lambda **how: (said(table.is_equivalent, other, **how), said(table.script_to, other, **how),
                                     said(table.reduced, rng.choice(table.vertices[:1]), **how)))

    @each([[[0, 64], [64, 0]], [[0, 0], [0, 0]], [[0, 256], [256, 0]], [[0] * 17] * 17])
    def test_of_graphs_that_are_refused(self, counts):
        for call in SINGLE:
            self.assertEqual(*(said(call, Table(counts), **how) for how in ({}, {"program": program()})))
        self.assertEqual(*(told(dollar.judge_all(Table(counts), divisors=[[0] * len(counts)], **how)) for how in ({}, {"program": program()})))

    def test_of_amounts_at_the_limits(self):
        for amounts in [[first, second, 0] for first in ODD for second in ODD]:
            table = Table(TRIANGLE, amounts)
            for call in SINGLE:
                self.assertEqual(*(said(call, table, **how) for how in ({}, {"program": program()})))

    def test_of_tests_past_the_limits(self):
        """631 dollars on the triangle bear 630 and no more; a test of 631 has more than 200,000 trials."""
        table = Table(TRIANGLE, [631, 0, 0])
        self.both(lambda **how: said(dollar.rank_test, table, 631, **how))
        self.both(lambda **how: told(dollar.rank_test_all(table, 631, divisors=[table, [632, 0, 0]], **how)))
        self.both(lambda **how: said(lambda: dollar.rank_test_all(table, 631, divisors=[[632, 0, 0], table], **how).columns()))
        self.assertEqual(dollar.rank_test(table, 631), ("rank below", 631))

    def test_of_the_rows(self):
        """The rows of tests/rows that are a verdict or a rank test of a table."""
        loader = importlib.machinery.SourceFileLoader("rows_check", str(ROOT / "tests" / "rows" / "check"))
        check, tried = importlib.util.module_from_spec(importlib.util.spec_from_loader("rows_check", loader)), 0
        sys.modules["rows_check"] = check
        loader.exec_module(check)
        shared, _ = check.read(check.DATA / check.SHARED)
        for path in sorted(set(check.DATA.glob("*.txt")) - {check.DATA / check.SHARED}):
            files, rows = check.read(path)
            for row in rows:
                command, file, *more = [*row.words, b"", b""]
                text = {**shared, **files}.get(file.decode("latin-1"))
                if (command, row.status) in ((b"judge", 0), (b"rank", 0)) and text is not None and len(row.words) == 2 + (command == b"rank"):
                    table = Table(json.loads(text))
                    if library.asking(command.decode(), table, None) is None:
                        continue
                    with without_processes():
                        found = dollar.judge(table) if command == b"judge" else dollar.rank_test(table, int(more[0]))
                    self.assertEqual(str(found) + "\n", row.output.decode(), (path.name, row.first))
                    tried += 1
        self.assertGreater(tried, 60)


class OfAskers(Test):
    def test_they_answer_like_tables(self):
        rng = random.Random(SEED + 3)
        for _ in range(30):
            table = connected(rng)
            with without_processes():
                asker = table.asker()
                for _ in range(50):
                    row = [rng.choice([-2, -1, 0, 1, 2, 4]) for _ in table.vertices]
                    self.assertEqual(asker.rank(row), Table(table, row).rank())
                    self.assertEqual(asker.winnable(tuple(row)), dollar.judge(Table(table, row)).winnable)

    def test_whatever_a_divisor_is(self):
        numpy, ask = needed("numpy"), TRIANGLE.asker()
        for divisor in ([3, 0, 0], (3, 0, 0), {"a": 3}, Table(TRIANGLE, [3, 0, 0]), numpy.array([3, 0, 0]), iter([3, 0, 0])):
            self.assertEqual(ask.rank(divisor), 2)
        for wrong in ([3, 0], [3, 0, 0, 0], [3.0, 0, 0], [True, 0, 0], {"z": 1}, "abc", 7, [10 ** 6 + 1, 0, 0], [2 ** 63, 0, 0]):
            for call, asked in (ask.winnable, lambda divisor: dollar.judge(Table(TRIANGLE, divisor)).winnable), (
                    ask.rank, lambda divisor: Table(TRIANGLE, divisor).rank()):
                self.assertEqual(said(call, wrong), said(asked, wrong))

    def test_without_the_library(self):
        with mock.patch.dict(os.environ, DOLLAR_LIBRARY=""):
            ask = TRIANGLE.asker()
            self.assertEqual((ask.rank([3, 0, 0]), ask.winnable([1, -1, 0])), (2, False))


class OfWhoAnswers(Test):
    def asked(self, **variables):
        """Whether the library answers."""
        with mock.patch.dict(os.environ, variables):
            return library.asking("judge", PETERSEN, None) is not None

    def test_whoever_names_a_program_gets_it(self):
        fake = self.script("#!/bin/sh\necho winnable by a=0 b=0 c=0 to a=9 b=9 c=9 burning a b c\n")
        for how, variables in ({"program": fake}, {}), ({}, {"DOLLAR": fake}):
            with mock.patch.dict(os.environ, variables):
                if variables:
                    del os.environ["DOLLAR_LIBRARY"]
                self.assertEqual(said(dollar.judge, TRIANGLE, **how)[0].reduced["a"], 9)
        self.assertTrue(self.asked())
        self.assertFalse(self.asked(DOLLAR_LIBRARY=""))

    def test_files_that_are_not_the_library(self):
        folder = self.folder()
        (folder / "text.so").write_text("no library")
        for place in folder / "text.so", folder / "missing.so", folder:
            self.assertFalse(self.asked(DOLLAR_LIBRARY=str(place)))
        for text in "", "int dollar_abi(void) { return 2; }", "int dollar_abi(void) { return 1; }":
            if not shutil.which("gcc"):
                self.skipTest("libraries of another kind, for want of gcc")
            (folder / "a.c").write_text(text)
            place = folder / f"lib{len(text)}{text[-4:-3]}.so"
            self.holds(["gcc", "-shared", "-o", place, folder / "a.c"])
            self.assertFalse(self.asked(DOLLAR_LIBRARY=str(place)))

    def found(self, folder, **variables):
        """Whether the package in a folder has the library, and a verdict by it, where there is no program."""
        words = "import dollar; print(dollar.judge(dollar.Table([[0, 1], [1, 0]], [2, -1])))"
        done = subprocess.run([sys.executable, "-B", "-c", words], stdout=subprocess.PIPE, stderr=subprocess.DEVNULL, text=True, cwd="/",
                              env={"PYTHONPATH": str(folder), "PATH": "/nowhere", **variables})
        return done.stdout == "winnable by 0=0 1=-1 to 0=1 1=0\n"

    def package(self, folder):
        shutil.copytree(PACKAGE / "dollar", folder / "dollar", ignore=shutil.ignore_patterns("__pycache__"))
        return folder

    def test_where_it_is(self):
        for place, library_at in ("site", "site/dollar"), ("top/share/dollar/python", "top/lib"):
            top = self.folder()
            package, at = self.package(top / place), top / library_at
            self.assertFalse(self.found(package))
            at.mkdir(exist_ok=True)
            shutil.copy(toolchain.SHARED, at)
            self.assertTrue(self.found(package))
            self.assertFalse(self.found(package, DOLLAR_LIBRARY=""))
            self.assertFalse(self.found(package, DOLLAR="/nowhere/dollar"))
        alone = self.package(self.folder() / "alone")
        self.assertTrue(self.found(alone, LD_LIBRARY_PATH=str(at)))
        self.assertTrue(self.found(alone, DOLLAR_LIBRARY=str(at / library.FILE)))

    def test_in_a_clone_it_is_as_new_as_the_program(self):
        top = self.folder()
        shutil.copytree(PACKAGE, top / "python", ignore=shutil.ignore_patterns("__pycache__"))
        for folder in "crates/dg_one/src", "crates/dollar/out", "out/build/dg_abi":
            (top / folder).mkdir(parents=True)
        (top / "crates.txt").write_text("dg_one:\n")
        built = shutil.copy(toolchain.SHARED, top / "out/build/dg_abi")
        self.assertFalse(self.found(top / "python"))
        # A program that answers nothing.
        (top / "crates/dollar/out/dollar").write_text("#!/bin/sh\nexit 9\n")
        self.assertTrue(self.found(top / "python", PATH=os.environ["PATH"]))
        later = time.time() + 10
        os.utime(shutil.copy(top / "crates.txt", top / "crates/dg_one/src/lib.rt"), (later, later))
        self.assertFalse(self.found(top / "python", PATH=os.environ["PATH"]))
        os.remove(top / "crates/dg_one/src/lib.rt")
        os.utime(top / "crates/dg_one/src", (0, 0))
        self.assertTrue(self.found(top / "python", PATH=os.environ["PATH"]))
        os.remove(built)
        self.assertFalse(self.found(top / "python", PATH=os.environ["PATH"]))

    def test_what_may_take_long_is_for_the_program(self):
        """64 and 65 more edges than a tree has; verdicts take long on no graph."""
        for more, is_asked in (library.MOST_GENUS, True), (library.MOST_GENUS + 1, False):
            last = more + 2 - 44
            table = Table([[0, 22, 22], [22, 0, last], [22, last, 0]])
            self.assertEqual((table.genus, library.asking("judge", table, None) is not None), (more, True))
            self.assertEqual({library.asking(command, table, None) is not None for command in ("rr", "rank")}, {is_asked})

    def test_small_stacks_and_threads_of_the_program(self):
        self.addCleanup(threading.stack_size, threading.stack_size(1 << 16))
        self.assertFalse(self.asked())
        threading.stack_size(1 << 20)
        self.assertTrue(self.asked())
        with without_processes(), self.assertRaisesRegex(AssertionError, "a program is started"):
            list(dollar.rr_all(PETERSEN, divisors=[[0] * 10], workers=2))


class OfManyAtOnce(Test):
    def test_threads(self):
        rng, wrong = random.Random(SEED + 4), []
        rows = {table: [[rng.randint(-2, 3) for _ in table.vertices] for _ in range(500)] for table in (PETERSEN, TRIANGLE)}
        wanted = {table: [numbers.rank for numbers in dollar.rr_all(table, divisors=rows[table], program=program())] for table in rows}

        def ask(table):
            mine = rows[table]
            for found in ([each.rank for each in dollar.rr_all(table, divisors=mine)], dollar.rr_all(table, divisors=mine).columns().rank,
                          [Table(table, row).rank() for row in mine], map(table.asker().rank, mine)):
                if list(found) != wanted[table]:
                    wrong.append(table)

        threads = [threading.Thread(target=ask, args=(table,)) for table in (PETERSEN, TRIANGLE) * 3]
        with without_processes():
            for thread in threads:
                thread.start()
            for thread in threads:
                thread.join()
        self.assertEqual(wrong, [])

    def test_processes(self):
        """A graph that was asked about goes to other processes, by a fork and by a fresh one; and they begin while a sweep is on. 1 at each
        vertex is the canonical divisor, and has rank 5, the genus less 1."""
        self.assertEqual(Table(PETERSEN, [1] * 10).rank(), 5)
        for way in "fork", "spawn":
            with concurrent.futures.ProcessPoolExecutor(2, multiprocessing.get_context(way)) as pool:
                sweep = dollar.rr_all(PETERSEN, divisors=([amount] + [0] * 9 for amount in pool.map(abs, range(20))))
                self.assertEqual([numbers.degree for numbers in sweep], list(range(20)))
                self.assertEqual(list(pool.map(dollar.rank, [Table(PETERSEN, [0] * 10), Table(PETERSEN, [1] * 10)])), [0, 5])

    def test_an_interrupt(self):
        """It comes through in a sweep without end, and while one divisor after another is answered."""
        for words in ("dollar.rr_all(table, divisors=rows).columns()", "list(map(str, dollar.rr_all(table, divisors=rows)))"):
            code = ("import dollar, itertools\ntable = dollar.Table([[0, 22, 22], [22, 0, 22], [22, 22, 0]], [30, 1, 32])\n"
                    "assert dollar._library.asking('rr', table, None)\nprint(table.rank() >= 0, flush=True)\n"
                    "rows = itertools.repeat(list(table.amounts))\n" + words)
            child = subprocess.Popen([sys.executable, "-c", code], stdout=subprocess.PIPE, stderr=subprocess.PIPE, text=True,
                                     env=dict(os.environ, PYTHONPATH=str(PACKAGE)))
            self.assertEqual(child.stdout.readline(), "True\n")
            time.sleep(1)
            began = time.monotonic()
            child.send_signal(signal.SIGINT)
            _, error = child.communicate()
            self.assertIn("KeyboardInterrupt", error)
            self.assertLess(time.monotonic() - began, 10)

    def test_a_slow_source_is_answered_as_it_goes(self):
        taken = []

        def slowly():
            for place in range(100):
                taken.append(place)
                yield [place] + [0] * 9
                time.sleep(0.01)

        for number, found in enumerate(dollar.rr_all(PETERSEN, divisors=slowly())):
            self.assertEqual(found.degree, number)
            self.assertLessEqual(len(taken), number + 2)

    def test_no_more_is_taken_ahead_than_allowed(self):
        taken = []
        source = ([taken.append(place) or place] + [0] * 9 for place in range(5_000))
        for number, _ in enumerate(dollar.rr_all(PETERSEN, divisors=source, ahead=7)):
            self.assertLessEqual(len(taken), number + 7)

    def test_progress(self):
        with redirect_stderr(io.StringIO()) as shown:
            self.assertEqual(dollar.judge_all(PETERSEN, divisors=[[0] * 10] * 3, progress=True).columns().count, 3)
            self.assertEqual(len(list(dollar.judge_all(PETERSEN, divisors=[[0] * 10] * 4, progress=True))), 4)
        self.assertEqual([text.split("\r")[-1] for text in shown.getvalue().split("\n")], ["3 answers", "4 answers", ""])

    def test_an_array_of_numpy_is_not_copied(self):
        """The library is lent the array itself: where it lies is seen by the call."""
        numpy = needed("numpy")
        rows, asked = numpy.ones((300, 10), numpy.int64), library.asking("rr", PETERSEN, None)
        rows.flags.writeable = False
        lent, call = [], asked.call
        asked.call = lambda *words: lent.append(words[3:5]) or call(*words)
        self.assertEqual(sum(len(batch.kept) for batch in asked.batches(rows, iter(()))), 300)
        starts = [rows.ctypes.data, *(start + 8 * count for start, count in lent)]
        self.assertEqual(([start for start, _ in lent], starts[-1]), (starts[:-1], rows.ctypes.data + rows.nbytes))
