"""Sessions that outlast their program: what is told is kept, and the game goes on from the file. What entries tell, asyncio, and JSON."""
import asyncio
import gc
import json
import os
import random
import signal
import subprocess
import sys
import threading
import time
from unittest import mock

import dollar
from dollar import Ended, Entry, Session, Table, _asynchronous as asynchronous
from dollar._as_json import read
from dollar._grammar import GRAMMAR
from helpers import EXAMPLES, HUNG, PACKAGE, Test, each, program, sample, wait_until
from model import Session as Model, some_command
from test_session import TABLE

PLAYER = """
import sys
import dollar
with dollar.Session(%r, seats=3, keep=sys.argv[1]) as session:
    print(len(session.kept), flush=True)
    for line in sys.stdin:
        print(session.ask(line.rstrip(chr(10))), flush=True)
""" % TABLE


class OfKeptGames(Test):
    def test_a_game_that_is_killed_goes_on(self):
        """The program or its caller is killed now and then; in the end the answers are those of one game."""
        rng, model, place = random.Random(1), Model(TABLE, 3), self.folder() / "game"
        lines, told = ["%d %s" % (rng.randint(1, 3), some_command(rng, "abcd")) for _ in range(900)], []
        at = 0
        while at < len(lines):
            child = subprocess.Popen([sys.executable, "-c", PLAYER, str(place)], stdin=subprocess.PIPE, stdout=subprocess.PIPE, text=True,
                                     env=dict(os.environ, PYTHONPATH=str(PACKAGE)))
            self.assertEqual(int(child.stdout.readline()), sum(text[0].isdigit() for text in told))
            for line in lines[at:at + rng.randint(50, 300)]:
                child.stdin.write(line + "\n")
                child.stdin.flush()
                told.append(child.stdout.readline().rstrip("\n"))
                at += 1
            child.kill()
            child.communicate()
        self.assertTrue(all(model.is_answer(line, text) for line, text in zip(lines, told)))
        kept = Session(TABLE, seats=3, keep=place)
        self.assertEqual([str(entry) for entry in kept.kept], [text for text in told if text[0].isdigit()])
        self.assertEqual(kept.close(), (0, ""))
        # What is kept can be rehearsed.
        steps = place.read_text().splitlines()[1::2]
        self.assertEqual(str(dollar.rehearse(TABLE, steps)).splitlines(), [text for text in told if text[0].isdigit()])

    def test_looks_are_kept_and_what_was_cut_is_dropped(self):
        place = self.folder() / "game"
        with Session(TABLE, keep=place) as session:
            session.ask("look")
            session.ask("jump")
            session.ask("lend b")
        whole = place.read_bytes()
        self.assertEqual(whole.decode().splitlines()[1:], ["look", "0 looked 0 a=-3 b=5 c=0 d=-1", "lend b", "1 moved a=-2 b=2 c=2 d=-1"])
        for size in range(len(whole) + 1):
            place.write_bytes(whole[:size])
            with Session(TABLE, keep=place) as session:
                count = len(session.kept)
                self.assertEqual(session.ask("commit").word, "winnable" if count else "bad look")
            self.assertEqual(count, 2 if size == len(whole) else int(whole[:size].count(b"\n") >= 3))
            with Session(TABLE, keep=place) as session:
                self.assertEqual(len(session.kept), count + (count > 0))

    def test_another_game_is_refused(self):
        place = self.folder() / "game"
        with Session(TABLE, keep=place) as session:
            session.ask("look")
            with self.assertRaisesRegex(ValueError, "keeps the game of a session that still runs"):
                Session(TABLE, keep=place)
        other = "keeps a game that this program and table do not have: its answer 1 is '0 looked 0 a=-3 b=6"
        for table, text in ((dict(TABLE, q="b"), "keeps a game on another table"), (TABLE, other)):
            before = place.read_bytes()
            if table is TABLE:
                place.write_bytes(before.replace(b"b=5", b"b=6"))
                before = place.read_bytes()
            with self.assertRaisesRegex(ValueError, text):
                Session(table, keep=place)
            self.assertEqual(place.read_bytes(), before)
        place.write_text("somebody's own file\n")
        with self.assertRaisesRegex(ValueError, "keeps a game on another table"):
            Session(TABLE, keep=place)
        self.assertEqual(place.read_text(), "somebody's own file\n")

    def test_what_does_not_fit_a_kept_game_is_told(self):
        place = self.folder() / "game"
        with Session(TABLE, seats=3, keep=place) as session:
            for line in ("1 claim", "3 lend b", "2 claim"):
                session.ask(line)
        before = place.read_bytes()
        for options, said in (({"seats": 2}, "its answer 2 is '1 moved a=-2 b=2 c=2 d=-1', and the program's 'bad seat'"),
                              ({}, "its answer 1 is '0 not won', and the program's 'bad word'"),
                              ({"seats": 3, "cap": 2}, "its answer 3 is '2 not won', and there the session has ended: the history is full"),
                              ({"seats": 3, "program": self.script("#!/bin/sh\nread line\necho '0 won'\n")},
                               "its answer 1 is '0 not won', and the program's '0 won'")):
            with self.assertRaisesRegex(ValueError, "keeps a game that this program and table do not have: " + said):
                Session(TABLE, keep=place, **options)
            self.assertEqual(place.read_bytes(), before)
        with Session(TABLE, seats=3, keep=place) as session:
            self.assertEqual((len(session.kept), session.now().amounts), (3, (-2, 2, 2, -1)))

    def test_what_is_not_kept_is_not_told(self):
        place = self.folder() / "game"
        session = Session(TABLE, keep=place)
        self.assertEqual(session.ask("look").number, 0)
        before = place.read_bytes()

        def full(line, answer):
            raise OSError("the disk is full")

        session.keeping.add = full
        with self.assertRaisesRegex(Ended, "status -9: %s: the disk is full" % place):
            session.ask("lend b")
        self.assertEqual(place.read_bytes(), before)
        self.assertEqual(session.close(), (-signal.SIGKILL, "%s: the disk is full" % place))
        with Session(TABLE, keep=place) as session:
            self.assertEqual((len(session.kept), session.ask("lend b").number), (1, 1))

    def test_an_end_tells_the_signal_and_how_much_was_answered(self):
        session = Session(TABLE)
        for line in ("look", "jump", "claim"):
            session.ask(line)
        session.child.send_signal(signal.SIGTERM)
        with self.assertRaisesRegex(Ended, "ended by SIGTERM after 3 answers") as caught:
            for _ in range(100):
                session.ask("claim")
        self.assertEqual((caught.exception.status, caught.exception.answers), (-signal.SIGTERM, session.answers))
        self.assertEqual(session.close(), (-signal.SIGTERM, ""))


class OfEntries(Test):
    def test_each_kind_has_a_class(self):
        kinds = {form: type(dollar._answers.entry(sample(form))).__name__ for form in [*GRAMMAR["replies"], *GRAMMAR["bad"], "turns"]}
        self.assertEqual(set(kinds.values()), {
            "Moved", "Given", "Joined", "Looked", "Judged", "Tested", "Stale", "Claimed", "Declined", "Bad", "Turns"})
        for form, kind in kinds.items():
            entry = dollar._answers.entry(sample(form))
            for name, value in vars(entry).items():
                if name in getattr(dollar, kind).__annotations__:
                    self.assertIsNotNone(value, form)
        self.assertIs(type(Entry("stale", 3)), dollar.Stale)

    def test_a_session_tells_seat_line_and_step(self):
        with Table(TABLE).serve(seats=2) as session:
            found = [session.ask_seat(2, "look"), session.ask("x"), session.ask_seat(3, "look"), session.ask("1 claim"), session.ask("01 look")]
        self.assertEqual([(each.seat, each.line, each.step, each.number) for each in found],
                         [(2, "look", 1, 0), (None, "x", 2, None), (3, "look", 3, None), (1, "claim", 4, 1), (None, "01 look", 5, None)])
        with Table(TABLE).serve() as session:
            found = session.ask("gift a 0")
        self.assertEqual((found.seat, found.line, found.step, str(found)), (None, "gift a 0", 1, "0 refused gift"))


class OfAsyncSessions(Test):
    def test_many_tasks_have_their_own_answers(self):
        async def attend(session, seat):
            return [(await session.ask_seat(seat, "claim")).number for _ in range(50)]

        async def play():
            async with dollar.AsyncSession(TABLE, seats=8) as session:
                return await asyncio.gather(*(attend(session, seat) for seat in range(1, 9)))

        told = asyncio.run(play())
        self.assertEqual(sorted(number for numbers in told for number in numbers), list(range(400)))
        self.assertTrue(all(numbers == sorted(numbers) for numbers in told))

    def test_a_task_that_is_cancelled_leaves_it_in_step(self):
        async def play():
            session, rng = dollar.AsyncSession(TABLE), random.Random(2)
            for number in range(200):
                task = asyncio.ensure_future(session.ask("jump"))
                await asyncio.sleep(rng.uniform(0, 2e-4))
                task.cancel()
                self.assertEqual((await session.ask("claim")).number, number)
            return await session.close()

        self.assertEqual(asyncio.run(play()), (0, ""))
        wait_until(lambda: threading.active_count() < 5)

    def test_a_hundred_that_wait_stop_nothing(self):
        silent = self.script("#!/bin/sh\nexec sleep %d\n" % HUNG)

        async def play():
            waiting = [await dollar.AsyncSession.open(TABLE, program=silent, patience=None) for _ in range(100)]
            tasks = [asyncio.ensure_future(session.ask("look")) for session in waiting]
            await asyncio.sleep(0)
            async with dollar.AsyncSession(TABLE) as other:
                told = await asyncio.wait_for(other.ask("look"), HUNG)
            # The pool of the loop, by which names are looked up and files are read, has all its threads.
            count = await asyncio.wait_for(asyncio.get_running_loop().run_in_executor(None, len, tasks), HUNG)
            undone = sum(not task.done() for task in tasks)
            for session in waiting:
                session.session.child.kill()
            return told.number, count, undone, {type(each) for each in await asyncio.gather(*tasks, return_exceptions=True)}

        self.assertEqual(asyncio.run(play()), (0, 100, 100, {Ended}))

    @each(["ask", "with"])
    def test_asyncio_ends_though_a_program_hangs(self, how):
        """Without any patience: the task is given up, and nothing waits for its answer."""
        silent, words = self.script("#!/bin/sh\nexec sleep %d\n" % HUNG), {
            "ask": "    session = await dollar.AsyncSession.open(table, patience=None, program=%r)\n"
                   "    await asyncio.wait_for(session.ask('look'), 0.2)\n",
            "with": "    async with dollar.AsyncSession(table, patience=None, program=%r) as session:\n"
                    "        await asyncio.wait_for(session.ask('look'), 0.2)\n"}
        text = "import asyncio, dollar\ntable = dollar.Table([[0]])\nasync def play():\n" + words[how] % silent + "asyncio.run(play())\n"
        began = time.monotonic()
        done = subprocess.run([sys.executable, "-c", text], stderr=subprocess.PIPE, text=True, env=dict(os.environ, PYTHONPATH=str(PACKAGE)))
        self.assertIn("TimeoutError", done.stderr.splitlines()[-1])
        self.assertLess(time.monotonic() - began, HUNG / 2)

    def test_waiting_ones_that_are_cancelled_make_no_entry(self):
        async def play():
            async with dollar.AsyncSession(TABLE) as session:
                first, *others = [asyncio.ensure_future(session.ask("claim")) for _ in range(11)]
                await asyncio.sleep(0)
                for other in others:
                    other.cancel()
                told = (await first).number
                await asyncio.gather(*others, return_exceptions=True)
                return told, (await session.ask("claim")).number

        self.assertEqual(asyncio.run(play()), (0, 1))

    def test_it_is_killed(self):
        async def play():
            session = await dollar.AsyncSession.open(TABLE, patience=None, program=self.script("#!/bin/sh\nexec sleep %d\n" % HUNG))
            task = asyncio.ensure_future(session.ask("look"))
            await asyncio.sleep(0.1)
            session.kill()
            with self.assertRaisesRegex(Ended, "it was killed by `kill`"):
                await task
            return await session.close()

        self.assertEqual(asyncio.run(play()), (-signal.SIGKILL, "it was killed by `kill`"))

    def test_a_line_that_was_given_up_does_not_hide_the_next(self):
        async def play():
            session = await dollar.AsyncSession.open(TABLE, patience=None)
            go, exchange = [threading.Event(), threading.Event()], session.session._exchange
            waits = iter(go)

            def slowly(line):
                next(waits).wait(20)
                return exchange(line)

            session.session._exchange = slowly
            first = asyncio.ensure_future(session.ask("look"))
            await asyncio.sleep(0.1)
            first.cancel()
            await asyncio.gather(first, return_exceptions=True)
            second = asyncio.ensure_future(session.ask("look"))
            await asyncio.sleep(0.1)
            go[0].set()
            await asyncio.sleep(0.2)
            is_known = session._working is not None
            go[1].set()
            return is_known, str(await second).split()[:2], session._working, await session.close()

        self.assertEqual(asyncio.run(play()), (True, ["1", "looked"], None, (0, "")))

    def test_openings_that_are_cancelled_leave_nothing(self):
        async def play():
            tasks = [asyncio.ensure_future(dollar.AsyncSession.open(TABLE)) for _ in range(100)]
            await asyncio.sleep(0.01)
            for task in tasks:
                task.cancel()
            await asyncio.gather(*tasks, return_exceptions=True)

        before = len(os.listdir("/proc/self/fd")), threading.active_count()
        asyncio.run(play())
        # What another test has left may end meanwhile, so there may be less.
        wait_until(lambda: gc.collect() >= 0 and len(os.listdir("/proc/self/fd")) <= before[0] and threading.active_count() <= before[1])

    def test_500_at_once_leave_nothing(self):
        async def user(number):
            async with dollar.AsyncSession(TABLE, seats=2) as session:
                told = [(await session.lend("b", seat=1 + number % 2)).number for _ in range(5)]
                return told, dict(session.session.now())

        async def play():
            return await asyncio.gather(*map(user, range(500)))

        asyncio.run(user(0))
        before = len(os.listdir("/proc/self/fd")), threading.active_count()
        found = asyncio.run(play())
        # b has three neighbours' edges, one to a and two to c, and lends five times.
        self.assertEqual(found, [([0, 1, 2, 3, 4], {"a": 2, "b": -10, "c": 10, "d": -1})] * 500)
        wait_until(lambda: len(os.listdir("/proc/self/fd")) <= before[0] and threading.active_count() <= before[1])

    def test_a_kept_game_is_played_in_the_thread_of_the_session(self):
        place = self.folder() / "game"
        with Session(TABLE, keep=place) as session:
            for _ in range(3):
                session.ask("look")
        threads = []

        class Seen(Session):
            def _go_on(self, *given):
                threads.append(threading.current_thread())
                super()._go_on(*given)

        async def play():
            async with dollar.AsyncSession(TABLE, keep=place) as session:
                return len(session.session.kept), (await session.ask("claim")).number

        with mock.patch.object(asynchronous, "Session", Seen):
            self.assertEqual(asyncio.run(play()), (3, 3))
        self.assertNotIn(threading.main_thread(), threads)
        self.assertEqual(len(threads), 1)

    def test_one_that_can_not_begin(self):
        async def play(**options):
            async with dollar.AsyncSession(TABLE, **options):
                pass

        for options, error, said in (({"seats": 65}, ValueError, "seats: 65, and only 1 to 64"),
                                     ({"keep": "/nowhere/game"}, OSError, "/nowhere/game"),
                                     ({"program": "/nowhere/dollar"}, dollar.ProgramNotFound, "names /nowhere/dollar")):
            with self.assertRaisesRegex(error, said):
                asyncio.run(play(**options))


class OfJson(Test):
    @each([*GRAMMAR["replies"], *GRAMMAR["ordered"], "turns", *GRAMMAR["bad"]])
    def test_each_reply(self, form):
        text = sample(form).replace(" N", " a b")
        entry = text if text.startswith(("bad ", "turns")) else "7 " + text
        if form in GRAMMAR["ordered"]:
            entry = text
        found = json.loads(json.dumps(read(entry)))
        self.assertEqual(found, dollar._answers.numbered(entry).as_dict() if entry != text or "burning" not in text else {
            "winnable": text.startswith("w"), "script": {"a": 2, "b": -1}, "reduced": {"a": 2, "b": -1}, "burning": ["a", "b"]})

    @each(["", "foo", "0", "0 foo", "0 bad word", "moved a=1", "won", "2 turns", "degree x", "position", "seat 0 calls 1", "refused range",
           "rank below 2 at"])
    def test_what_is_no_line(self, line):
        with self.assertRaisesRegex(ValueError, "no answer of the program"):
            read(line)

    def test_the_command_answers_at_once(self):
        child = subprocess.Popen([sys.executable, "-m", "dollar", "json"], stdin=subprocess.PIPE, stdout=subprocess.PIPE, stderr=subprocess.PIPE,
                                 text=True, env=dict(os.environ, PYTHONPATH=str(PACKAGE)))
        for line, wanted in (("0 won", {"word": "won", "number": 0}), ("refused not JSON", {"refused": "not JSON"})):
            child.stdin.write(line + "\n")
            child.stdin.flush()
            self.assertEqual(json.loads(child.stdout.readline()), wanted)
        said = child.communicate("nothing\n")[1]
        self.assertEqual((child.returncode, said), (1, "python3 -m dollar json: line 3: no answer of the program: 'nothing'\n"))

    def test_all_that_commands_print(self):
        cube, lines = EXAMPLES / "cube.json", EXAMPLES / "both_sides_cube.out"
        for words in (["judge", cube], ["judge", "--order", cube], ["rank", cube, "2"], ["rr", cube], ["greedy", cube, "50"],
                      ["judge", "--lines", lines], ["rr", "--lines", EXAMPLES / "million_path.json"],
                      ["party", EXAMPLES / "shared_table.json", EXAMPLES / "shared_player_1.txt", EXAMPLES / "shared_player_2.txt"]):
            out = subprocess.run([program(), *map(str, words)], stdout=subprocess.PIPE, text=True).stdout
            found = [json.loads(json.dumps(read(line))) for line in out.splitlines()]
            self.assertEqual(len(found), out.count("\n"))
            self.assertTrue(all(found))
        # A value of the package and the line of the program are the same JSON.
        self.assertEqual(read(str(dollar.judge(cube))), {k: v for k, v in dollar.judge(cube).as_dict().items() if k != "burning"})
        self.assertEqual(json.loads(json.dumps(dollar.greedy(cube, 3).as_dicts())), [read(str(each)) for each in dollar.greedy(cube, 3)])
        played = dollar.party(dollar.example("triangle"), ["claim"] * 3, cap=2).as_dict()
        self.assertEqual(json.loads(json.dumps(played))["faults"], {"1": "the history is full"})
