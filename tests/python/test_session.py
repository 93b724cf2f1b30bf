"""Sessions: never out of step, whatever is asked and whatever comes in between."""
import gc
import multiprocessing
import os
import pickle
import random
import signal
import subprocess
import sys
import threading
import time

from dollar import Ended, Session, Table
from helpers import EXAMPLES, HUNG, PACKAGE, Test, each, wait_until
from model import Session as Model, some_command

TABLE = {
    "vertices": ["a", "b", "c", "d"],
    "edges": [["a", "b", 1], ["b", "c", 2], ["c", "d", 1], ["a", "d", 1]],
    "amounts": [-3, 5, 0, -1],
    "q": "a",
}
SEATS, LINES = 5, 20_000


def some_line(rng):
    """A line of a stranger: a good one, or a damaged one, or none at all."""
    line = "%d %s" % (rng.randint(1, SEATS), rng.choice(["rank 5000", "fire a,a", *(some_command(rng, "abcd") for _ in range(8))]))
    kind = rng.random()
    if kind < 0.6:
        return line
    place = rng.randrange(len(line) + 1)
    if kind < 0.9:
        # No letter that ends a line: what splits lines in Python ends none here.
        return line[:place] + rng.choice(["", " ", "\t", "\r", "\0", "é", "\u2028", "0", "-", ",", "=", "x" * 1000]) + line[place + rng.randint(0, 2):]
    return rng.choice([
        line[:place] + "\n" + line[place:], "\n", line + "\n", "x" * 1025, "é" * 513, line + "\ud800", "", "6 look", "0 look", "01 look",
        "look", "x" * 1024])


def is_refused(line):
    try:
        return "\n" in line or len(line.encode()) > 1024
    except UnicodeEncodeError:
        return True


class Interrupt(Exception):
    """What a signal raises in the middle of a call."""


def is_interrupted(session, seconds):
    """Asks a line that changes nothing, and is interrupted after so long if that takes longer. Tells whether it was."""
    try:
        try:
            signal.setitimer(signal.ITIMER_REAL, seconds)
            session.ask("jump")
        finally:
            signal.setitimer(signal.ITIMER_REAL, 0)
    except Interrupt:
        return True
    return False


class OfSessions(Test):
    def test_hostile_lines_leave_it_in_step(self):
        rng, model, refused, wrong = random.Random(1), Model(TABLE, SEATS), 0, []
        with Table(TABLE).serve(seats=SEATS) as session:
            for _ in range(LINES):
                line = some_line(rng)
                try:
                    text = str(session.ask(line))
                except ValueError:
                    self.assertTrue(is_refused(line))
                    refused += 1
                    continue
                self.assertFalse(is_refused(line))
                if not model.is_answer(line, text):
                    wrong.append((line, text))
        self.assertEqual(wrong, [])
        self.assertGreater(refused, 500)
        self.assertGreater(model.number, 5000)

    def test_an_interrupt_leaves_no_answer_unread(self):
        def interrupt(*_):
            raise Interrupt

        rng, interrupted = random.Random(2), 0
        before = signal.signal(signal.SIGALRM, interrupt)
        try:
            with Session(TABLE) as session:
                for number in range(3000):
                    interrupted += is_interrupted(session, rng.uniform(1e-6, 2e-4))
                    self.assertEqual(session.ask("claim").number, number)
        finally:
            signal.signal(signal.SIGALRM, before)
        self.assertGreater(interrupted, 20)

    def test_threads_have_their_own_answers(self):
        session, model, told = Session(TABLE, seats=8), Model(TABLE, 8), []

        def attend(seat):
            draw = random.Random(seat)
            for _ in range(200):
                line = some_command(draw, "abcd")
                told.append(("%d %s" % (seat, line), session.ask_seat(seat, line)))

        seats = [threading.Thread(target=attend, args=(seat,)) for seat in range(1, 9)]
        for thread in seats:
            thread.start()
        for thread in seats:
            thread.join()
        self.assertEqual(session.close(), (0, ""))
        # In the order in which they were asked they are one right game.
        told.sort(key=lambda pair: pair[1].step)
        self.assertEqual([answer.step for _, answer in told], list(range(1, 1601)))
        self.assertEqual([line for line, answer in told if not model.is_answer(line, str(answer))], [])

    def test_ends(self):
        session = Session(TABLE, cap=1)
        self.assertEqual(session.ask("claim"), ("not won",))
        for _ in range(2):
            with self.assertRaisesRegex(Ended, "the history is full") as caught:
                session.ask("claim")
            again = pickle.loads(pickle.dumps(caught.exception))
            for ended in caught.exception, again:
                self.assertEqual((ended.text, ended.status, ended.fault), ("the history is full", 3, "dollar: the history is full"))
        self.assertTrue(session.close() == session.close() == (3, "dollar: the history is full"))
        with self.assertRaisesRegex(Ended, "the history is full"):
            with Session(TABLE, cap=1) as session:
                session.ask_bytes(b"claim")
                session.ask("claim")
        # A line as bytes is sent as it is; one that is too long ends the session.
        session = Session(EXAMPLES / "triangle.json")
        self.assertEqual(session.ask_bytes(b"x" * 1024), "bad word")
        with self.assertRaisesRegex(Ended, "^the session has ended with status 3: long line$"):
            session.ask_bytes(b"x" * 1025)
        # With a session that is refused from the start, the end of `with` tells it.
        with self.assertRaisesRegex(Ended, "no vertex q"):
            with Session(dict(TABLE, q="z")):
                pass
        with self.assertRaises(ZeroDivisionError):
            with Session(dict(TABLE, q="z")):
                1 / 0
        session = Session(TABLE)
        self.assertEqual(session.close(), (0, ""))
        with self.assertRaisesRegex(Ended, "status 0"):
            session.ask("claim")

    def test_a_silent_program_is_killed(self):
        session = Session(TABLE, patience=0.2, program=self.script("#!/bin/sh\nexec sleep %d\n" % HUNG))
        with self.assertRaisesRegex(TimeoutError, "nothing for 0.2 seconds"):
            session.ask("look")
        # To be killed may take longer than its patience.
        wait_until(lambda: session.ended is not None)
        self.assertEqual(session.close(), (-signal.SIGKILL, "nothing for 0.2 seconds, after which it was killed"))

    def test_a_process_that_is_forked_off_does_not_keep_it_from_ending(self):
        with Session(TABLE) as session:
            worker = multiprocessing.get_context("fork").Process(target=time.sleep, args=(HUNG,))
            worker.start()
            try:
                self.assertEqual(session.ask("claim").word, "not won")
                self.assertEqual(session.close(), (0, ""))
            finally:
                worker.kill()
                worker.join()

    def test_what_is_no_line(self):
        with Session(TABLE, seats=2) as session:
            for line in (7, b"look", None):
                with self.assertRaisesRegex(TypeError, "a line is a text"):
                    session.ask(line)
            for seat in ("1 look\n2", 1.5, None):
                with self.assertRaisesRegex(TypeError, "a seat is not a whole number"):
                    session.ask_seat(seat, "look")
            with self.assertRaisesRegex(ValueError, "newline"):
                session.ask_bytes(b"1 look\n1 look")
            self.assertEqual(session.ask_seat(3, "look").word, "bad seat")
            self.assertEqual(session.ask_seat(2, "look").number, 0)

    @each(["<&-", ">&-", "2>&-", "<&- >&- 2>&-"])
    def test_standard_streams_may_be_closed(self, closed):
        said = self.folder() / "said"
        words = ("import dollar, sys; table = dollar.Table([[0, 1], [1, 0]], [2, -1]); session = table.serve(); "
                 "texts = [str(dollar.judge(table)), str(next(dollar.judge_all([table]))), str(session.ask('claim'))]; "
                 "open(sys.argv[1], 'w').write('|'.join(texts))")
        done = subprocess.run(["sh", "-c", '"$0" -c "$1" "$2" ' + closed, sys.executable, words, str(said)], timeout=HUNG,
                              env=dict(os.environ, PYTHONPATH=str(PACKAGE)))
        verdict = "winnable by 0=0 1=-1 to 0=1 1=0"
        self.assertEqual(done.returncode, 0)
        self.assertEqual(said.read_text(), "%s|%s|0 not won" % (verdict, verdict))

    def test_a_session_that_is_given_up_ends(self):
        threads, sessions = threading.active_count(), [Session(TABLE) for _ in range(10)]
        for session in sessions:
            session.ask("claim")
        children = ["/proc/%d" % session.child.pid for session in sessions]
        del session, sessions
        gc.collect()
        wait_until(lambda: threading.active_count() <= threads and not any(map(os.path.exists, children)))

    def test_nothing_is_left_behind(self):
        before = len(os.listdir("/proc/self/fd"))
        for _ in range(20):
            with Session(TABLE) as session:
                session.ask("claim")
        wait_until(lambda: len(os.listdir("/proc/self/fd")) <= before)

    def test_closing_leaves_no_thread(self):
        before, sessions = threading.active_count(), [Session(TABLE) for _ in range(8)]
        for session in sessions:
            self.assertEqual(session.close(), (0, ""))
        wait_until(lambda: threading.active_count() <= before)
        # What is asked after that has its answer too, without a thread.
        for session in sessions:
            with self.assertRaisesRegex(Ended, "status 0"):
                session.ask("claim")
            self.assertEqual((session.close(), session.now().amounts), ((0, ""), (-3, 5, 0, -1)))

    def test_the_table_as_it_stands(self):
        """After any lines it is the one on which they would be played next: a session on it says what the first one says."""
        rng = random.Random(5)
        for seats in (None, 3):
            with Session(TABLE, seats=seats) as session:
                for _ in range(60):
                    line = some_command(rng, "abcd")
                    session.ask(line if seats is None else "%d %s" % (rng.randint(1, 3), line))
                now = session.now()
                shown = session.ask("look" if seats is None else "1 look").amounts
                self.assertEqual(dict(now), dict(shown))
                with Session(now) as other:
                    for command in ("look", "fire a,b", "join b d", "fire b,c", "claim"):
                        told = [each.ask(command if each is other or seats is None else "1 " + command) for each in (session, other)]
                        self.assertEqual(*((entry.word, entry.amounts) for entry in told))
                self.assertEqual(dict(other.now()), dict(session.now()))
                self.assertEqual(other.now().genus, session.now().genus)

    def test_calls_by_the_vertices_of_the_caller(self):
        grid = {v: {u for u in ((0, 0), (0, 1), (1, 0), (1, 1)) if sum(map(abs, (u[0] - v[0], u[1] - v[1]))) == 1}
                for v in ((0, 0), (0, 1), (1, 0), (1, 1))}
        table = Table.of_edges([(u, v) for u, near in grid.items() for v in near if u < v], {(0, 0): 4, (1, 1): -2})
        with table.serve() as session, table.serve(seats=2) as seated:
            for call in (lambda its, **seat: its.lend((0, 0), **seat), lambda its, **seat: its.borrow((1, 1), **seat),
                         lambda its, **seat: its.fire({(0, 1), (0, 0)}, **seat), lambda its, **seat: its.fire({(1, 0): 2, (0, 1): -1}, **seat),
                         lambda its, **seat: its.gift((1, 1), 5, **seat), lambda its, **seat: its.join((0, 0), (1, 1), **seat)):
                one, other = call(session), call(seated, seat=2)
                self.assertEqual((one, one.seat, other.seat), (other, None, 2))
            script = {(0, 0): 2, (0, 1): 0, (1, 0): 2, (1, 1): -1}
            self.assertEqual(session.now().amounts, tuple((table.fire(script) + {(1, 1): 5}).amounts))
            self.assertEqual((session.now().genus, session.now().neighbors((0, 0))[1, 1]), (2, 1))
            for wrong, said in ((lambda: session.lend((5, 5)), "there is no vertex"), (lambda: session.gift((0, 0), 1.5), "not a whole number"),
                                (lambda: session.fire([(0, 0)]), "is a set of vertices, or a dict"),
                                (lambda: session.fire({(0, 0): 0.5}), "not a whole number")):
                with self.assertRaisesRegex((TypeError, ValueError), said):
                    wrong()
        with Session(EXAMPLES / "triangle.json") as session:
            self.assertEqual(session.lend("a").amounts, {"a": 0, "b": 0, "c": 0})

    def test_it_is_killed_while_it_waits(self):
        session = Session(TABLE, patience=None, program=self.script("#!/bin/sh\nexec sleep %d\n" % HUNG))
        threading.Timer(0.2, session.kill).start()
        with self.assertRaisesRegex(Ended, "status -9: it was killed by `kill`"):
            session.ask("look")
        session.kill()
        self.assertEqual(session.close(), (-signal.SIGKILL, "it was killed by `kill`"))
