"""Sessions and parties whose lines and scripts are damaged, many or long."""
import itertools
import json
import re
import resource

from runs import TRIANGLE, Run, checked, refused
from model import Session
from dollar._grammar import GRAMMAR

LINES, ROOM = 1000000, 16 << 20
# Words of each kind.
WORDS = {"vertex": ["a", "b"], "vertices": ["a,b"], "script": ["a=1,c=-2"], "degree": ["1"], "dollars": ["5", "-12"]}
FORMS = [" ".join([word, *given]) for word, kinds in GRAMMAR["commands"].items()
         for given in itertools.product(*(WORDS[kind] for kind in kinds))]
LONG, MANY = b"long line", b"too many lines"


def damaged_lines():
    """Each form of a command with each byte changed to each other, left out, and doubled."""
    for form in FORMS:
        for at in range(len(form)):
            yield from (form[:at] + chr(byte) + form[at + 1:] for byte in range(256) if byte != ord("\n"))
            yield from (form[:at] + form[at + 1:], form[:at + 1] + form[at:], "look")


def damaged_sessions(checks):
    """A session of all these lines, whose answers are those of tests/model.py."""
    table = checks.put("triangle", TRIANGLE)
    lines = list(damaged_lines())
    run = checks.run("serve", table, typed="".join(line + "\n" for line in lines).encode("latin-1"))
    session, answers = Session(json.loads(TRIANGLE)), run.output.decode("latin-1").split("\n")
    checks.same("damaged lines: the end", (0, b"", len(lines) + 1), (run.status, run.faults, len(answers)))
    for line, answer in zip(lines, answers):
        checks.holds("line %r" % line, session.is_answer(line, answer), answer)


def many_lines(checks):
    """As many lines as a session may have, and one more; as long as one may be, and one byte more. 16 MB of address space are
    enough for each."""
    table = checks.put("triangle", TRIANGLE)
    for what, lines, answered, fault in (
            ("a million lines", b"x\n" * LINES, LINES, None),
            ("a million lines, the last without its end", (b"x\n" * LINES)[:-1], LINES, None),
            ("a byte more", b"x\n" * LINES + b"x", LINES, MANY),
            ("a million lines and an empty one", b"x\n" * LINES + b"\n", LINES, MANY),
            ("a line of each length", b"".join(b"x" * size + b"\n" for size in range(1025)), 1025, None),
            ("lines of 1,024 bytes", (b"x" * 1024 + b"\n") * 1000, 1000, None),
            ("a line of 1,025 bytes after others", (b"x" * 1024 + b"\n") * 1000 + b"x" * 1025 + b"\nclaim\n", 1000, LONG)):
        printed = b"bad word\n" * answered
        checks.ends(what, refused(fault, 3, printed) if fault else Run(0, printed, b""), "serve", table,
                    typed=checks.put("typed", lines), before=lambda: resource.setrlimit(resource.RLIMIT_AS, (ROOM, ROOM)))


# A script that changes nothing, and what is answered to its entries on the triangle, whoever else changes nothing.
LOOKED, WON = "looked 0 a=2 b=-1 c=-1", "not won"
QUIET = b"look\nclaim\ncommit\nlook\nrank 1\nnothing\n"
REPLIES = [LOOKED, WON, "winnable by a=0 b=-1 c=-1 to a=0 b=0 c=0", LOOKED, "rank below 1 at a=0 b=0 c=1"]

# Scripts, the replies to their entries, and the fault with which their sessions end.
DAMAGED = [
    ("nothing", b"", [], None), ("a line cut in its middle", b"look\ncla", [LOOKED], None),
    ("a last line without its end", b"claim\nclaim", [WON, WON], None),
    ("a long line", b"claim\n" + b"x" * 1025 + b"\nclaim\n", [WON], LONG),
    ("a line as long as one may be", b"claim\n" + b"x" * 1024 + b"\nclaim\n", [WON, WON], None),
    ("a long line at the end", b"claim\nlook\n" + b"look" * 300, [WON, LOOKED], LONG),
    ("a million lines", b"claim\n" + b"\n" * (LINES - 1), [WON], None),
    ("a million lines and a byte", b"claim\n" + b"\n" * (LINES - 1) + b"c", [WON], MANY),
    ("as many lines as a file holds", b"look\n" + b"\n" * 1048571, [LOOKED], MANY),
    ("bytes of all kinds", bytes(range(256)) * 4000 + b"\nclaim\n", [WON], None),
    ("zeros", b"\0" * 1048576, [], LONG), ("carriage returns", b"claim\r\nlook\r\nclaim\n", [WON], None),
]


def party(checks, what, scripts, replies, faults, *options):
    """Plays the scripts, none of which changes anything, and compares what each seat is answered, the totals, and how its
    session ends."""
    paths = [checks.put("script_%d" % i, script) for i, script in enumerate(scripts)]
    run = checks.run("party", checks.put("triangle", TRIANGLE), *paths, *options)
    lines = run.output.decode("latin-1").split("\n")
    count = sum(len(texts) for texts in replies)
    entries = [re.fullmatch("([0-9]+) ([0-9]+) (.*)", line) for line in lines[:count]]
    heard = [[entry[3] for entry in entries if entry and entry[2] == str(seat + 1)] for seat in range(len(scripts))]
    checks.same("%s: the numbers" % what, [str(i) for i in range(count)], [entry and entry[1] for entry in entries])
    checks.same("%s: the replies" % what, list(replies), heard)
    checks.same("%s: the totals" % what, ["entries %d" % count, "gifts 0", "position a=2 b=-1 c=-1"]
                + ["seat %d calls %d" % (seat + 1, len(texts)) for seat, texts in enumerate(replies)] + [""], lines[count:])
    told = b"".join(b"dollar: seat %d: %s\n" % (seat + 1, fault) for seat, fault in enumerate(faults) if fault)
    checks.same("%s: the faults" % what, (3 if told else 0, told), (run.status, run.faults))


def damaged_parties(checks):
    """Each damaged script beside two that are not, at each place; all of them at once; and scripts that can't be read."""
    for what, script, replies, fault in DAMAGED:
        for place in range(3):
            scripts, heard, faults = [QUIET, QUIET], [REPLIES, REPLIES], [None, None]
            scripts.insert(place, script)
            heard.insert(place, replies)
            faults.insert(place, fault)
            party(checks, "%s as script %d" % (what, place + 1), scripts, heard, faults)
    party(checks, "all of them", *zip(*[row[1:] for row in DAMAGED]))
    table, script = checks.put("triangle", TRIANGLE), checks.put("script", QUIET)
    for what, bad, fault, status in (
            ("no script", "missing", b"read fault", 5), ("a folder", checks.folder, b"read fault", 5),
            ("a script that is too long", checks.put("long", b"\n" * 1048577), b"file too long", 3)):
        for scripts in ((bad, script, script), (script, bad, script), (script, script, bad)):
            checks.same("a party with %s" % what, refused(fault, status), checks.run("party", table, *scripts))


SEATS, EACH, ENTRIES, MEMORY = 64, 16384, 65536, 200
SIXTEEN = ["v%014d" % i for i in range(16)]
COMPLETE = ('{"vertices":[%s],"edges":[%s],"amounts":[%s],"q":"%s"}' % (
    ",".join('"%s"' % name for name in SIXTEEN),
    ",".join('["%s","%s",4]' % (SIXTEEN[u], SIXTEEN[v]) for v in range(16) for u in range(v)),
    ",".join(["-1000000", "1000000"] * 8), SIXTEEN[0])).encode()

# Scripts of 16,384 lines, and whether their lines are entries.
LARGE = [
    ("claims", b"claim\n" * EACH, True), ("looks", b"look\n" * EACH, True),
    ("looks and verdicts", b"look\ncommit\n" * (EACH // 2), True),
    ("lendings", b"lend v00000000000000\nborrow v00000000000000\n" * (EACH // 2), True),
    ("short scripts", b"script v00000000000003=0\n" * EACH, True),
    ("long scripts", b"script v00000000000003=1000000000,v00000000000004=-1000000000\n" * EACH, True),
    ("rank tests", b"look\nrank 0\n" * (EACH // 2), True), ("no commands", (b"x" * 63 + b"\n") * EACH, False),
]


def large_parties(checks):
    """64 scripts of 16,384 lines: the history is full, or has no entry, in memory that docs/formats.md tells."""
    table = checks.put("complete", COMPLETE)
    for what, script, are_entries in LARGE:
        path = checks.put("large", script)
        run, peak = checks.peak("party", table, *[path] * SEATS)
        totals = run.output.decode().splitlines()[ENTRIES if are_entries else 0:]
        calls = [int(re.fullmatch("seat %d calls ([0-9]+)" % (seat + 1), line)[1]) for seat, line in enumerate(totals[3:])]
        checks.same("64 scripts of %s: the totals" % what, ("entries %d" % (ENTRIES if are_entries else 0), SEATS),
                    (totals[0], len(calls)))
        checks.same("64 scripts of %s: the calls" % what, ENTRIES if are_entries else 0, sum(calls))
        told = b"".join(b"dollar: seat %d: the history is full\n" % seat for seat, made in enumerate(calls, 1)
                        if are_entries and made < EACH)
        checks.same("64 scripts of %s: the faults" % what, (3 if told else 0, told), (run.status, run.faults))
        print("64 scripts of %s: %d MB at most" % (what, peak >> 20))
        checks.holds("64 scripts of %s: the memory" % what, peak < MEMORY << 20, peak)


load_tests = checked(damaged_sessions, many_lines, damaged_parties, large_parties)
