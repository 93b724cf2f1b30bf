"""64 seats play on one table. How their entries interleave is the program's choice; all else is determined, and the model of the game
plays it again."""
import collections
import json
import os
import random
import re
import subprocess

from helpers import HUNG, Test, program
from model import Session, entries

SEATS, LINES = 64, 1024
TABLE = {
    "vertices": ["a", "b", "c", "d"],
    "edges": [["a", "b", 1], ["b", "c", 2], ["c", "d", 1], ["a", "d", 1], ["a", "c", 1]],
    "amounts": [-30, 5, 0, -5],
    "q": "a",
}
# What each script of 64 together brings about once at least.
KINDS = {"moved", "given", "joined", "looked", "not won", "winnable", "unwinnable", "rank at least", "rank below", "stale", "refused gift",
         "refused range", "refused loop"}


def some_script(rng, names):
    """A script with each of the ten commands and with bad lines. One gift, of two dollars, and one levy, of a dollar, are
    taken, and others are refused, as all joins are: so the sum of the dollars rises slowly, and verdicts and rank tests stay
    open for long."""
    def line():
        v, w = rng.sample(names, 2)
        return rng.choices([
            "lend " + v, "borrow " + v, "fire %s,%s" % (v, w),
            "script %s=%d,%s=%d" % (v, rng.randint(-3, 3), w, rng.randint(-3, 3)),
            "look", "commit", "rank %d" % rng.randint(0, 3), "claim",
            "script %s=%d" % (v, rng.choice([-200000, 200000, 999999999])),
            "gift %s %s" % (v, rng.choice(["0", "-1000001", "1000001", "9223372036854775807"])),
            "join %s %s" % (v, v),
            rng.choice(["rank 105", "rank 1001"]),
            rng.choice(["", "lend", "look ", "lend  a", "Lend a", "lend z", "claim\r", "fire a,a", "fire a,", "script a",
                        "script a=b,z=1", "script a=1000000001", "gift a 01", "gift a 9223372036854775808", "join a", "join a z",
                        "rank -1", "rank 4294967296", "\xff"]),
        ], [10, 10, 8, 8, 16, 14, 8, 4, 2, 2, 1, 2, 5])[0]
    lines = [line() for _ in range(LINES)]
    given, taken = rng.sample(range(LINES), 2)
    lines[given], lines[taken] = "gift %s 2" % rng.choice(names), "gift %s -1" % rng.choice(names)
    return lines


def kind_of(reply):
    return re.match("[a-z]*( won| gift| range| loop| at least| below)?", reply)[0]


class Play:
    """Plays a history again by the model: each entry is for its seat's next line, and its reply is the one that the rules give."""

    def __init__(self, scripts):
        self.session, self.waiting = Session(TABLE, SEATS), [collections.deque(entries(TABLE, script)) for script in scripts]
        self.kinds, self.wrong, self.replies, self.steps, self.apart = collections.Counter(), [], [], [], 0

    def enter(self, number, seat, reply):
        if not 1 <= seat <= len(self.waiting) or not self.waiting[seat - 1]:
            self.wrong.append((number, seat, reply))
            return
        line, command = self.waiting[seat - 1].popleft()
        looked, _ = self.session.looks.get(seat, (0, 0))
        if not self.session.enter(seat, command, reply):
            self.wrong.append((number, line, reply))
        self.apart += command[0] in ("commit", "rank") and number > looked + 1
        self.kinds[kind_of(reply)] += 1
        self.replies.append("%d %s" % (number, reply))
        self.steps.append("%d %s\n" % (seat, line))


class OfAParty(Test):
    def put(self, name, text):
        place = os.path.join(self.folder(), name)
        with open(place, "wb") as file:
            file.write(text)
        return place

    def run_program(self, *words):
        done = subprocess.run([program(), *words], stdin=subprocess.DEVNULL, stdout=subprocess.PIPE, stderr=subprocess.PIPE, timeout=HUNG)
        self.assertEqual((done.returncode, done.stderr), (0, b""))
        return done.stdout.decode("latin-1").split("\n")

    def test_64_seats_make_one_right_history(self):
        rng, names = random.Random(1), TABLE["vertices"]
        scripts = [some_script(rng, names) for _ in range(SEATS)]
        # Edges are added late: each one gives more classes of divisors, and the model more trials to make that it has not made.
        scripts[-1][-14:] = ["join a c", "join d b"] + ["gift %s 1000000" % name for name in names * 3]
        texts = ["".join(line + "\n" for line in script).encode("latin-1") for script in scripts]
        play = Play(scripts)
        calls = [len(entered) for entered in play.waiting]
        table = self.put("table", json.dumps(TABLE).encode())
        printed = self.run_program("party", table, *(self.put("script_%d" % i, text) for i, text in enumerate(texts)))
        history = [re.fullmatch("(0|[1-9][0-9]*) ([1-9][0-9]*) (.+)", line) for line in printed[:sum(calls)]]
        self.assertEqual([entry and entry[1] for entry in history], [str(i) for i in range(sum(calls))])
        for number, entry in enumerate(history):
            play.enter(number, int(entry[2]), entry[3])
        self.assertEqual(play.wrong, [])
        self.assertLessEqual(KINDS, set(play.kinds))
        self.assertGreater(play.apart, 0)
        self.assertFalse(any(play.waiting))
        game = play.session.game
        totals = ["entries %d" % sum(calls), "gifts %d" % game.gifts, "position " + game.pairs(game.amounts)]
        self.assertEqual(printed[sum(calls):], totals + ["seat %d calls %d" % (i + 1, n) for i, n in enumerate(calls)] + [""])
        # The same steps in the same order, by one player.
        again = self.run_program("rehearse", table, self.put("steps", "".join(play.steps).encode("latin-1")))
        self.assertEqual(again, play.replies + [""])
