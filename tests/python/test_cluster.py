"""`dollar sweep` by two runs at once, and on a Dask cluster of two workers, one of which is killed in the middle: the rows are those of one
run of the program. And it goes on with a sweep that was interrupted within a row, and refuses the rows of another file."""
import concurrent.futures
import contextlib
import io
import json
import os
import random
import re
import signal
import subprocess
import sys
import threading
from unittest import mock

import dollar
from dollar import Table, _cluster as cluster
from helpers import HUNG, PACKAGE, Test, needed, program, wait_until

SIZE, AT = 20_000, 8_000
RING = {"vertices": ["a", "b", "c"], "edges": [["a", "b", 1], ["b", "c", 1], ["a", "c", 1]], "amounts": [0, 0, 0], "q": "a"}


def line(rng, number):
    """A ring, some with a chord, or now and then no table."""
    if number % 1_000 == 0:
        return '{"vertices":["a"]}\n'
    names = ["v%d" % v for v in range(rng.randint(3, 8))]
    edges = [[name, names[v - 1], 1] for v, name in enumerate(names)]
    if rng.random() < 0.5:
        edges.append(rng.sample(names, 2) + [1])
    return json.dumps({"vertices": names, "edges": edges, "amounts": [rng.randint(-3, 4) for _ in names], "q": names[0]}) + "\n"


def alone(kind, place, *given, divisors=None):
    """The file of a sweep, as `to_csv` makes it of one run of the program."""
    found = io.StringIO()
    ask = {"judge": dollar.judge_all, "rank": dollar.rank_test_all, "rr": dollar.rr_all}[kind]
    job = ask([], *given)._job if divisors is None else ask(Table(RING), *given, divisors=[], program=program())._job
    job.kept, job.line = cluster.lines_of(place), bytes
    dollar.to_csv(dollar._sweeps.Answers(job), found)
    return found.getvalue().encode()


# A program that is killed the first time, and once there are rows goes on only when the test wants it to.
SLOW = """#!/bin/sh
[ -e killed ] || { : > killed; kill -9 $$; }
while [ -s kept.csv ] && ! [ -e go ]; do sleep 0.1; done
exec %s "$@"
"""


class OfTwoRuns(Test):
    def test_what_takes_long_is_told_once(self):
        told, run, progress = io.StringIO(), concurrent.futures.Future(), cluster.Progress(True, "rows")
        threading.Timer(0.5, run.set_result, ["answers"]).start()
        with mock.patch.object(cluster, "PATIENCE", 0.1), contextlib.redirect_stderr(told), cluster.Runs(1) as runs:
            self.assertEqual(cluster.result_of(runs, run, 8, progress), "answers")
        self.assertEqual(told.getvalue(), "\r0 rows, and no answer yet to the next 8\n")

    def test_a_run_is_killed_and_the_sweep_interrupted(self):
        place, rng = self.folder(), random.Random(1)
        tables = [line(rng, number) for number in range(1, SIZE + 1)]
        (place / "tables.txt").write_text("".join(tables))
        kept = place / "kept.csv"
        words = [sys.executable, "-m", "dollar", "sweep", "--processes", "2", "rank", place / "tables.txt", "1", kept]
        environment = dict(os.environ, DOLLAR=self.script(SLOW % program()), PYTHONPATH=str(PACKAGE))
        child = subprocess.Popen(words, stderr=subprocess.PIPE, env=environment, start_new_session=True, cwd=place)
        wait_until(lambda: child.poll() is not None or kept.exists() and kept.stat().st_size > 0)
        os.killpg(child.pid, signal.SIGINT)
        (place / "go").touch()
        self.assertEqual((child.communicate(timeout=HUNG)[1], child.returncode), (b"", 130))
        self.assertTrue((place / "killed").exists())
        wanted, begun = alone("rank", place / "tables.txt", 1), kept.read_bytes()
        self.assertTrue(wanted.startswith(begun) and 100 < len(begun) < len(wanted))
        self.holds(words, env=dict(environment, DOLLAR=program()))
        self.assertEqual(kept.read_bytes(), wanted)


class OfAClusterOfTwo(Test):
    def swept(self, *words, kill=False):
        """The file after a sweep with two workers; before the row AT, one of them is killed where that is wanted."""
        distributed = needed("distributed")
        given = cluster.words_of(list(map(str, words)))
        options = dict(n_workers=2, threads_per_worker=1, dashboard_address=None, silence_logs=50)
        with distributed.LocalCluster(**options) as workers, distributed.Client(workers) as client:
            answered, waiting = cluster.result_of, [AT] if kill else []

            def answered_after_killing(*about):
                found = answered(*about)
                if waiting and about[3].count >= waiting[0]:
                    waiting.clear()
                    os.kill(workers.workers[0].pid, signal.SIGKILL)
                return found

            with mock.patch.object(cluster, "result_of", answered_after_killing):
                cluster.swept(client, cluster.job_of(given, program()), given.csv)
            self.assertEqual(waiting, [])
        with open(given.csv, "rb") as file:
            return file.read()

    def setUp(self):
        needed("distributed")
        # The workers have the package too.
        os.environ["PYTHONPATH"] = str(PACKAGE)
        self.place, rng = self.folder(), random.Random(1)
        self.tables = [line(rng, number) for number in range(1, SIZE + 1)]
        self.file = self.place / "tables.txt"
        self.file.write_text("".join(self.tables))

    def test_a_sweep_outlives_a_worker_and_an_interrupt(self):
        kept = self.place / "answers.csv"
        wanted = alone("judge", self.file)
        self.assertEqual(wanted.count(b"\n"), SIZE + 1)
        self.assertEqual(self.swept("judge", self.file, kept, kill=True), wanted)
        for size in (len(wanted) // 3, 10, 0):
            os.truncate(kept, size)
            self.assertEqual(self.swept("judge", self.file, kept), wanted)
        self.assertEqual(self.swept("judge", self.file, kept), wanted)

    def test_the_other_commands(self):
        few = self.place / "few.txt"
        few.write_text("".join(self.tables[990:1_400]).rstrip("\n"))
        self.assertEqual(self.swept("rank", few, 2, self.place / "rank.csv"), alone("rank", few, 2))
        self.assertEqual(self.swept("rr", few, self.place / "rr.csv"), alone("rr", few))
        ring, lines = self.place / "ring.json", self.place / "lines.txt"
        ring.write_text(json.dumps(RING))
        amounts = ["%d %d %d\n" % (a, b, c) for a in range(-3, 4) for b in range(-3, 4) for c in range(-3, 4)] + ["1 2\n"]
        lines.write_text("".join(amounts))
        for command, more in (("judge", []), ("rank", [1]), ("rr", [])):
            self.assertEqual(self.swept(command, ring, *more, "--divisors", lines, self.place / ("divisors_%s.csv" % command)),
                             alone(command, lines, *more, divisors=lines))
        # Python's own sweep over the same divisors goes on with the file, since all that was asked is the same.
        place, rows = self.place / "divisors_rr.csv", [list(map(int, line.split())) for line in amounts[:-1]]
        whole = place.read_bytes()
        place.write_bytes(whole[:1000])
        self.assertEqual(dollar.to_csv(dollar.rr_all(Table(RING), divisors=rows), place, go_on=True), len(rows))
        self.assertTrue(whole.startswith(place.read_bytes()))

    def test_rows_of_another_sweep_are_refused(self):
        few, other, ring, lines = (self.place / name for name in ("few.txt", "other.txt", "ring.json", "lines.txt"))
        few.write_text("".join(self.tables[:100]))
        other.write_text("".join(self.tables[:50] + self.tables[60:]))
        ring.write_text(json.dumps(RING))
        lines.write_text("1 2 3\n" * 100)
        kept = self.place / "kept.csv"
        before = self.swept("judge", few, kept)
        divided = self.place / "divided.csv"
        self.swept("judge", ring, "--divisors", lines, divided)
        ring_2 = self.place / "ring_2.json"
        ring_2.write_text(json.dumps(Table(RING, q="b").to_dict()))
        for words, row in ((["judge", other, kept], "row 50 is about"), (["rr", few, kept], "its header is not"),
                           (["judge", ring, "--divisors", lines, kept], "its header is not"),
                           (["judge", ring_2, "--divisors", lines, divided], "row 0 is about")):
            size = os.path.getsize(words[-1])
            with self.assertRaisesRegex(ValueError, row + ".*; nothing was changed"):
                self.swept(*words)
            self.assertEqual(os.path.getsize(words[-1]), size)
        # A file to which lines were added is gone on with.
        few.write_text("".join(self.tables[:200]))
        after = self.swept("judge", few, kept)
        self.assertTrue(after.startswith(before))
        self.assertEqual(after.count(b"\n"), 201)

    def begun(self, *words, **more):
        """A process of Dask, which is ended after the test."""
        child = subprocess.Popen([sys.executable, "-m", "distributed.cli." + words[0], *words[1:], "--no-dashboard"], stdout=subprocess.DEVNULL,
                                 stderr=subprocess.PIPE, text=True, cwd=self.place, **more)
        self.addCleanup(child.communicate)
        self.addCleanup(child.kill)
        return child

    def test_each_end_of_a_cluster_is_told_in_a_line(self):
        scheduler = self.begun("dask_scheduler", "--port", "0")
        address = next(found[0] for found in (re.search(r"tcp://\S+:\d+", line) for line in scheduler.stderr) if found)
        impatient = "import sys; from dollar import _cluster, __main__; _cluster.PATIENCE = 1.0; sys.exit(__main__.main(sys.argv[1:]))"
        words = [sys.executable, "-c", impatient, "sweep", "--scheduler", address, "judge", self.file, self.place / "ends.csv"]

        def swept(then):
            child = subprocess.Popen(words, stderr=subprocess.PIPE, text=True, env=dict(os.environ, DOLLAR=program()))
            first = child.stderr.readline()
            then()
            return first, child.communicate(timeout=HUNG)[1], child.returncode

        waits = "python3 -m dollar sweep: the scheduler has no worker, and one is waited for: `dask worker ADDRESS` begins one\n"
        worker = ["dask_worker", address, "--no-nanny", "--nthreads", "1"]
        # Nobody has the package, then nobody is there any more.
        bare = {name: text for name, text in os.environ.items() if name != "PYTHONPATH"}
        told = swept(lambda: self.begun(*worker, env=bare))
        self.assertEqual(told, (waits, "python3 -m dollar sweep: a worker has no module named 'dollar': install it on each machine, "
                                "and the same command goes on\n", 1))

    def test_a_scheduler_that_is_gone(self):
        scheduler = self.begun("dask_scheduler", "--port", "0")
        address = next(found[0] for found in (re.search(r"tcp://\S+:\d+", line) for line in scheduler.stderr) if found)
        child = subprocess.Popen([sys.executable, "-m", "dollar", "sweep", "--scheduler", address, "judge", self.file, self.place / "gone.csv"],
                                 stderr=subprocess.PIPE, text=True, env=dict(os.environ, DOLLAR=program()))
        with needed("distributed").Client(address) as client:
            wait_until(lambda: client.run_on_scheduler(lambda dask_scheduler: len(dask_scheduler.tasks)))
        scheduler.kill()
        said = child.communicate(timeout=HUNG)[1]
        self.assertEqual((said, child.returncode),
                         ("python3 -m dollar sweep: the scheduler is gone; the same command goes on after the last row\n", 1))

    def test_it_says_what_is_sooner_than_a_cluster(self):
        few = dollar.judge_all([])._job
        for seconds, lines, sooner in ((0.2, 10, "one run of `dollar judge` with --lines"), (9.0, 10, "`--processes 4` without a cluster"),
                                       (2.0, 200_000, "one run of `dollar judge` with --lines"), (11.0, 10, None)):
            pace = cluster.Pace()
            pace.took(lines, seconds)
            with mock.patch.object(os, "cpu_count", lambda: 4):
                said = cluster.small(few, pace)
            self.assertEqual(said, sooner and "the program took %.1f s for these lines: that is too little for a cluster, and %s does it sooner"
                             % (seconds, sooner))
