"""Sweeps: in order, lazy, in the thread of the caller, and whatever goes wrong is told after the answers before it."""
import asyncio
import contextlib
import io
import itertools
import os
import sqlite3
import sys
import threading
import time
from unittest import mock

import dollar
from dollar import Fault, Table
from dollar.board import alone
from helpers import HUNG, PACKAGE, Test, each

PAIR = Table([[0, 2], [2, 0]])


def pairs(count):
    """Tables on two vertices with two edges. With q = 0, the second vertex is left with its amount modulo 2, and so what there is of the
    script is told by hand: it lends half of its amount, rounded down."""
    return (Table(PAIR, [place % 7 - 3, place % 11 - 5]) for place in range(count))


def verdict_by_hand(table):
    first, second = table.amounts
    lent = second // 2
    return ("winnable" if first + 2 * lent >= 0 else "unwinnable", {0: 0, 1: lent}, {0: first + 2 * lent, 1: second - 2 * lent})


def descriptors():
    return len(os.listdir("/proc/self/fd"))


class OfSweeps(Test):
    @each([None, 1, 4, 16])
    def test_many_tables_in_order(self, workers):
        count = 20_000
        verdicts = dollar.judge_all(pairs(count), workers=workers)
        self.assertTrue(all(verdict == verdict_by_hand(table) for verdict, table in itertools.zip_longest(verdicts, pairs(count))))

    def test_no_tables(self):
        self.assertTrue(list(dollar.judge_all([])) == [] == list(dollar.rr_all(iter(()))))

    def test_tables_without_end(self):
        verdicts = dollar.judge_all(itertools.cycle(pairs(77)))
        wanted = map(verdict_by_hand, itertools.cycle(pairs(77)))
        self.assertTrue(all(verdict == right for verdict, right in itertools.islice(zip(verdicts, wanted), 500)))
        verdicts.close()

    def test_tables_are_taken_in_the_thread_of_the_caller(self):
        base = sqlite3.connect(":memory:")
        base.execute("create table tables (first integer, second integer)")
        base.executemany("insert into tables values (?, ?)", [(place % 5, -place % 3) for place in range(1000)])
        rows = base.execute("select first, second from tables")
        degrees = [numbers.degree for numbers in dollar.rr_all(Table(PAIR, row) for row in rows)]
        self.assertEqual(degrees, [place % 5 + -place % 3 for place in range(1000)])

    def test_processes_may_make_what_is_swept(self):
        words = ("import concurrent.futures as futures, multiprocessing, dollar\n"
                 "def rows():\n"
                 "    with futures.ProcessPoolExecutor(2, multiprocessing.get_context('fork')) as pool:\n"
                 "        yield from pool.map(abs, range(3))\n"
                 "print([each.rank for each in dollar.rr_all(dollar.Table([[0]]), divisors=([n] for n in rows()))])")
        self.assertEqual(self.holds([sys.executable, "-c", words], timeout=HUNG, env=dict(os.environ, PYTHONPATH=str(PACKAGE))), "[0, 1, 2]\n")

    def test_bytes_are_never_compared_with_texts(self):
        words = "import dollar; print(next(dollar.judge_all(dollar.Table([[0]]), divisors=[[1]])))"
        self.assertEqual(self.holds([sys.executable, "-bb", "-c", words], env=dict(os.environ, PYTHONPATH=str(PACKAGE))),
                         "winnable by 0=0 to 0=1\n")

    def test_patience(self):
        silent = self.script("#!/bin/sh\nexec sleep %d\n" % HUNG)
        for ask in (dollar.rank, dollar.rr, lambda table, **how: dollar.rank_test(table, 1, **how)):
            with self.assertRaisesRegex(TimeoutError, "no answer for 0.2 seconds"):
                ask(PAIR, patience=0.2, program=silent)
        with mock.patch.dict(os.environ, DOLLAR=str(silent)), mock.patch.object(alone, "FOR_A_RANK", 0.2):
            said = asyncio.run(alone.question({"command": "rr", "table": PAIR.to_json()}.__getitem__))
        self.assertEqual((said["status"], said.get("late")), (None, True))
        once = self.script("#!/bin/sh\nread line\necho '0 1 0 0'\nexec sleep %d\n" % HUNG)
        answers = dollar.rr_all([PAIR, PAIR], patience=0.2, program=once)
        self.assertEqual(next(answers).rank, 0)
        with self.assertRaisesRegex(TimeoutError, "no answer for 0.2 seconds"):
            next(answers)
        with self.assertRaises(TimeoutError):
            dollar.rr_all(PAIR, divisors=[[0, 0]] * 2, patience=0.2, program=once).columns()

    def test_a_slow_source_is_answered_as_it_goes(self):
        taken = []

        def slowly():
            for place in range(4000):
                taken.append(place)
                yield Table(PAIR, [place, 0])
                time.sleep(0.15)

        first = next(dollar.rr_all(slowly()))
        self.assertEqual(first.degree, 0)
        self.assertLess(len(taken), 4000)

    def test_an_error_of_the_source_comes_after_the_answers_before_it(self):
        def broken():
            yield from pairs(3)
            raise KeyError("no more")

        got = []
        with self.assertRaisesRegex(KeyError, "no more"):
            for verdict in dollar.judge_all(broken()):
                got.append(verdict)
        self.assertEqual(got, [verdict_by_hand(table) for table in pairs(3)])

    def test_rank_tests_past_the_limits(self):
        path = Table([[0, 1], [1, 0]])
        self.assertEqual(list(dollar.rank_test_all([Table(path, [20, 0]), Table(path, [0, 5])], 2000)), [("rank below", 2000)] * 2)

    def test_a_sweep_that_is_left_leaves_nothing_behind(self):
        before, threads = descriptors(), threading.active_count()
        for _ in range(20):
            sweep = dollar.judge_all(itertools.cycle(pairs(77)))
            next(sweep)
            sweep.close()
        self.assertEqual((descriptors(), threading.active_count()), (before, threads))

    def test_a_program_that_ends_early_is_a_fault(self):
        program = self.script("#!/bin/sh\nread line\necho '1 0 0 0 0'\necho 'dollar: out of memory' >&2\nexit 4\n")
        got = []
        with self.assertRaisesRegex(Fault, "out of memory") as caught:
            for verdict in dollar.judge_all(pairs(50_000), program=program):
                got.append(verdict)
        self.assertEqual(len(got), 1)
        self.assertEqual(caught.exception.status, 4)

    def test_progress(self):
        for shown in (lambda: list(dollar.judge_all(pairs(3), progress=True)),
                      lambda: dollar.judge_all(PAIR, divisors=[[0, 0]] * 3, progress=True).columns().winnable):
            with contextlib.redirect_stderr(io.StringIO()) as said:
                self.assertEqual(len(shown()), 3)
            self.assertEqual(said.getvalue().split("\r")[-1], "3 answers\n")
        with contextlib.redirect_stderr(io.StringIO()) as said:
            list(dollar.judge_all(pairs(3)))
        self.assertEqual(said.getvalue(), "")
