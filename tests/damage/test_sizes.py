"""Sizes and numbers at which a program may go wrong and at no other: all of them if they are few, and else some that are drawn
by a seed, which is printed; SEED=NUMBER in the environment gives it again."""
import os
import random
import select
import subprocess

from runs import SEED, TRIANGLE, WON, Run, checked, refused
from dollar import answer, flaw
from dollar._grammar import limit
from helpers import HUNG

DRAW = random.Random(SEED)
print(f"SEED={SEED}")
SEATS, ENTRIES, WORKERS = limit("dg_rules::MAX_SEATS"), limit("dg_rules::MAX_ENTRIES"), limit("dg_rank::MAX_WORKERS")
FULL = b"the history is full"
START = b"a=2 b=-1 c=-1"
NAMES = [f"v{i}" for i in range(16)]
PAIRS = [(u, v) for v in range(16) for u in range(v)]


def sizes(few, most, count):
    """All sizes up to a few, and so many others up to the most, which is among them."""
    return [*range(1, few + 1), *sorted({DRAW.randrange(few + 1, most) for _ in range(count)}), most]


def claims(count, first=0):
    return b"".join(b"%d not won\n" % number for number in range(first, first + count))


def items_of_edges(checks):
    """Tables with each number of items in their list of edges, as lines of one file and some as files of their own."""
    def board(count):
        size = min(16, count + 1)
        path, more = [(v, v + 1) for v in range(size - 1)], [PAIRS[i % len(PAIRS)] for i in range(count)]
        edges = path + [(u, v) for u, v in more if v < size][:count - len(path)]
        return {"vertices": NAMES[:size], "edges": [[NAMES[u], NAMES[v], 1] for u, v in edges], "amounts": [0] * size,
                "q": "v0"}

    boards = [board(count) for count in range(420)]
    texts = [str(each).replace("'", '"') for each in boards]
    run = checks.run("judge", "--lines", checks.put("lines", "\n".join(texts).encode()))
    said = run.output.decode().splitlines()
    checks.same("tables of many edges: the end", (0, b"", len(boards)), (run.status, run.faults, len(said)))
    for number in DRAW.sample(range(len(boards)), 100):
        run = checks.brief("judge", checks.put("board", texts[number].encode()))
        checks.same("a table with %d items of edges" % number, Run(0, said[number].encode() + b"\n", b""), run)
    for each, text in zip(boards, said):
        checks.holds("a line with %d items of edges" % len(each["edges"]), flaw(each, answer(text)) is None, text)


def lengths_of_amounts(checks):
    """Lines of amounts of each length."""
    table, lines = checks.put("triangle", TRIANGLE), [(b"0 " * 600)[:length] for length in range(1, 1101)]
    many = [b"winnable by a=0 b=0 c=0 to a=0 b=0 c=0" if line == b"0 0 0" else
            b"refused shape of amounts" if line.endswith(b" ") else b"refused number of amounts" for line in lines]
    for workers in DRAW.sample(range(1, WORKERS + 1), 4):
        run = checks.run("judge", table, "--divisors", checks.put("lines", b"\n".join(lines)), "--workers", str(workers))
        checks.same("lines of amounts, %d workers" % workers, Run(0, b"".join(text + b"\n" for text in many), b""), run)


def names_of_files(checks):
    """Files whose names, with all folders, have each length that there is room for."""
    for length in range(len(checks.folder) + 2, len(checks.folder) + 256):
        path = checks.put("x" * (length - len(checks.folder) - 1), TRIANGLE)
        checks.same("a name of %d bytes" % length, Run(0, WON, b""), checks.brief("judge", path))
        os.remove(path)


def parties(checks):
    """Parties of each number of scripts, the words of a command line; and the same whose last script is not there."""
    table, script, missing = checks.put("triangle", TRIANGLE), checks.put("script", b"claim\n"), checks.folder + "/missing"
    for seats in range(1, SEATS + 1):
        run = checks.run("party", table, *[script] * seats)
        lines = run.output.splitlines()
        history, totals = sorted(line.split(b" ", 2)[1:] for line in lines[:seats]), lines[seats:]
        checks.same("a party of %d" % seats, (0, b""), (run.status, run.faults))
        checks.same("a party of %d: the history" % seats, sorted([b"%d" % seat, b"not won"] for seat in range(1, seats + 1)),
                    history)
        wanted = [b"entries %d" % seats, b"gifts 0", b"position " + START,
                  *(b"seat %d calls 1" % seat for seat in range(1, seats + 1))]
        checks.same("a party of %d: the totals" % seats, wanted, totals)
        checks.same("a party of %d, the last of which is missing" % seats, refused(b"read fault", 5),
                    checks.brief("party", table, *[script] * (seats - 1), missing))


def workers(checks):
    """Each number of workers, where they share work: the answers are those of one."""
    table, lines = checks.put("triangle", TRIANGLE), checks.put("lines", (TRIANGLE + b"\n") * DRAW.randint(1, 400))
    amounts = checks.put("amounts", b"2 -1 -1\n0 0 1\n" * DRAW.randint(1, 3000))
    typed, each = b"look\nrank 2\nlook\nrank 1\nclaim\n" * DRAW.randint(1, 40), [
        ("judge", "--lines", lines), ("rank", "--lines", lines, "1"), ("rr", "--lines", lines),
        ("judge", table, "--divisors", amounts),
        ("rank", table, "1"), ("rank", table, str(DRAW.randint(2, 300))), ("serve", table)]
    for words in each:
        given = typed if words[0] == "serve" else None
        alone = checks.run(*words, typed=given)
        checks.same("%s alone" % words[0], (0, b""), (alone.status, alone.faults))
        for count in range(1, WORKERS + 1):
            checks.same("%s, %d workers" % (" ".join(words[:2]), count), alone,
                        checks.run(*words, "--workers", str(count), typed=given))
    checks.same("17 workers", 2, checks.run("rank", table, "1", "--workers", "17").status)


def capacities(checks):
    """Sessions and parties whose histories are full after each number of entries."""
    table, script = checks.put("triangle", TRIANGLE), checks.put("script", b"claim\n" * 16384)
    for cap in sizes(400, ENTRIES, 8):
        got = checks.run("serve", table, "--cap", str(cap), typed=b"claim\n" * (cap + 1))
        checks.same("a session of %d entries" % cap, refused(FULL, 3, claims(cap)), got)
    for cap in sizes(330, 16384, 4)[:-1]:
        run = checks.run("party", table, script, "--cap", str(cap))
        history = b"".join(b"%d 1 not won\n" % number for number in range(cap))
        totals = b"entries %d\ngifts 0\nposition %s\nseat 1 calls %d\n" % (cap, START, cap)
        checks.same("a party of %d entries" % cap, Run(3, history + totals, b"dollar: seat 1: " + FULL + b"\n"), run)


def seats(checks):
    """Sessions of each number of seats that end early; all seats, each with a thousand calls and more; and one with all of
    them."""
    table = checks.put("triangle", TRIANGLE)
    for count in range(1, SEATS + 1):
        cap, typed = DRAW.randint(1, 40), b"%d claim\n" % count
        run = checks.run("serve", table, "--seats", str(count), "--cap", str(cap), typed=typed * (cap + 1))
        checks.same("a session of %d seats that is full" % count, refused(FULL, 3, claims(cap)), run)
    for half in range(2):
        lines = b"".join(b"%d claim\n" % (seat + 32 * half) for seat in range(1, 33)) * (ENTRIES // 32)
        run = checks.run("serve", table, "--seats", "64", typed=lines)
        checks.same("2,048 calls of each seat", Run(0, claims(ENTRIES), b""), run)
    seat = DRAW.randint(1, SEATS)
    run = checks.run("serve", table, "--seats", "64", typed=b"%d claim\n" % seat * ENTRIES)
    checks.same("all calls by seat %d" % seat, Run(0, claims(ENTRIES), b""), run)


def changes(checks):
    """As many changes as a history holds, in a schedule and in a session; and before each a look that is stale after it, by all
    seats in turn."""
    table = checks.put("triangle", TRIANGLE)
    steps = b"1 gift a 1\n1 gift a -1\n" * (ENTRIES // 2)
    said = b"".join(b"%d given %d a=%d b=-1 c=-1\n" % (entry, entry + 1, 3 - entry % 2) for entry in range(ENTRIES))
    checks.same("a schedule of changes", Run(0, said, b""), checks.run("rehearse", table, checks.put("steps", steps)))
    checks.same("a session of changes", Run(0, said, b""), checks.run("serve", table, "--seats", "1", typed=steps))
    lines, said, entry = [], [], 0
    for gifts in range(ENTRIES // 3):
        seat, word = gifts % SEATS + 1, (b"commit", b"rank 1")[gifts // SEATS % 2]
        lines += [b"%d look\n" % seat, b"1 gift a %d\n" % (1 - 2 * (gifts % 2)), b"%d %s\n" % (seat, word)]
        amount, after = 2 + gifts % 2, 3 - gifts % 2
        said += [b"%d looked %d a=%d b=-1 c=-1\n" % (entry, gifts, amount),
                 b"%d given %d a=%d b=-1 c=-1\n" % (entry + 1, gifts + 1, after),
                 b"%d stale %d\n" % (entry + 2, gifts + 1)]
        entry += 3
    checks.same("stale looks", Run(0, b"".join(said), b""), checks.run("serve", table, "--seats", "64", typed=b"".join(lines)))


def untouched_input(checks):
    """A command that plays no session leaves the input as it is."""
    table, typed = checks.put("triangle", TRIANGLE), checks.put("typed", b"claim\n" * 100)
    for words in (("judge", table), ("rank", table, "1"), ("rr", table), ("greedy", table, "5"),
                  ("rehearse", table, checks.put("s", b"1 look\n")),
                  ("party", table, checks.put("script", b"claim\n")), ("judge", "--lines", checks.put("lines", TRIANGLE)),
                  ("--help",)):
        with open(typed, "rb", buffering=0) as file:
            checks.run(*words, stdin=file)
            checks.same("the input after %s" % words[0], 0, os.lseek(file.fileno(), 0, os.SEEK_CUR))


def told(child, line):
    """What comes for a line that is written."""
    child.stdin.write(line)
    return child.stdout.readline() if select.select([child.stdout], [], [], HUNG)[0] else b"nothing"


def ends(checks, child, what):
    """Sees that a run ends well once its input does."""
    child.stdin.close()
    checks.same("the end of %s that was answered line by line" % what, (0, b""), (child.wait(), child.stderr.read()))
    child.stdout.close()
    child.stderr.close()


def texts(checks):
    """A session answers each line before the next is written, whatever the length of its answer."""
    child = checks.start("serve", checks.put("triangle", TRIANGLE), stdin=subprocess.PIPE, bufsize=0)
    amount = 2
    for gifts in range(1, 400):
        more = DRAW.choice([1, 10, 100, 1000, 10000, 100000]) * DRAW.choice([1, -1])
        more = -more if abs(amount + more) > 1000000 else more
        amount += more
        came = told(child, b"gift a %d\n" % more)
        checks.same("the answer to gift %d" % gifts, b"%d given %d a=%d b=-1 c=-1\n" % (gifts - 1, gifts, amount), came)
    ends(checks, child, "a session")


def answers(checks):
    """So does a sweep, of tables and of amounts, by one worker and by more."""
    table = checks.put("triangle", TRIANGLE)
    amounts = [(b"2 -1 -1\n", b"winnable by a=0 b=-1 c=-1 to a=0 b=0 c=0\n"), (b"-1 1 0\n", b"unwinnable by a=0 b=0 c=0 to a=-1 b=1 c=0\n")]
    for words, lines in (([table, "--divisors"], amounts), (["--lines"], [(b" ".join(TRIANGLE.split()) + b"\n", amounts[0][1])])):
        for workers in "1", "3":
            child = checks.start("judge", *words, "/dev/stdin", "--workers", workers, stdin=subprocess.PIPE, bufsize=0)
            for line, text in lines * 20:
                checks.same("the answer to a line of a sweep", text, told(child, line))
            ends(checks, child, "a sweep")


def long_sweeps(checks):
    """A sweep takes no more memory for many lines than for few."""
    table, room = checks.put("triangle", TRIANGLE), 2 << 20
    for words, line, many in (([table, "--divisors"], b"2 -1 -1\n", 200_000), (["--lines"], b" ".join(TRIANGLE.split()) + b"\n", 50_000)):
        peaks = []
        for count in 1000, many:
            run, peak = checks.peak("judge", *words, checks.put("lines", line * count))
            checks.same("the answers of a sweep", (0, b"winnable by a=0 b=-1 c=-1 to a=0 b=0 c=0\n" * count, b""), tuple(run))
            peaks.append(peak)
        checks.holds("the memory of a long sweep", peaks[1] < peaks[0] + room, peaks)


load_tests = checked(items_of_edges, lengths_of_amounts, names_of_files, parties, workers, capacities, seats, changes, untouched_input,
                     texts, answers, long_sweeps)
