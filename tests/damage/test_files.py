"""Table files whose bytes are damaged, and large ones. That the program judges a JSON value by the rules is proved, and rows play it;
that its library reads JSON is compared here with Python's own reader."""
import json
import math
import random
import re
import resource

from runs import SEED, TRIANGLE, WON, Run, checked, refused
from dollar import answer, flaw
from dollar._grammar import GRAMMAR, limit

DRAW = random.Random(SEED)
print(f"SEED={SEED}")
SIZE_LIMIT, LEVELS = limit("dg_system::MAX_FILE"), 127
LINES, FILES = 20000, 300

# What may stand within a string, and what may not: bytes that are not UTF-8, escapes, and control characters.
STRINGS = [
    b"\xff", b"\x80", b"\xc0\x80", b"\xc3", b"\xc3\xa4", b"\xe0\x80\x80", b"\xe2\x82", b"\xe2\x82\xac", b"\xed\x9f\xbf", b"\xed\xa0\x80",
    b"\xee\x80\x80", b"\xf0\x80\x80\x80", b"\xf0\x9f\x98\x80", b"\xf4\x8f\xbf\xbf", b"\xf4\x90\x80\x80", b"\xf8\x88\x80\x80\x80",
    b"\x00", b"\x1f", b"\x7f", b"\\u0061", b"\\u0041\\u005f", b"\\u0000", b"\\u00e4", b"\\uD83D\\uDE00", b"\\uD83D", b"\\uDE00",
    b"\\uDE00\\uD83D", b"\\uD83D\\u0061", b"\\uD83Da", b"\\u006", b"\\u00g1", b"\\U0061", b"\\a", b"\\x61", b"\\'", b"\\/", b"\\b",
    b"\\n", b"\\\"", b"\\\\", b"\\", b"a\\", b"\"",
]
NUMBERS = [
    b"0", b"-0", b"00", b"01", b"-01", b"+1", b"-", b"--1", b".5", b"1.", b"1.0", b"0.5", b"1e0", b"1E+2", b"1e", b"1e+", b"0x10", b"1_0",
    b"1000000", b"1000001", b"-1000000", b"-1000001", b"9223372036854775807", b"9223372036854775808", b"-9223372036854775808",
    b"-9223372036854775809", b"18446744073709551615", b"18446744073709551616", b"1e308", b"1e309", b"-1e309", b"1e-400", b"1e400",
    b"9" * 308, b"9" * 309, b"-" + b"9" * 400, b"NaN", b"Infinity", b"-Infinity", b"null", b"true", b"True", b'"0"', b"[0]", b"{}", b"",
]
SPACES = [b"\xef\xbb\xbf", b"\xfe\xff", b"\0", b" ", b"\r", b"\t", b"\x0b", b"\x0c", b"\xc2\xa0", b"\xe2\x80\xa8", b",", b"//"]


def number(text):
    """A number, if a double can hold it."""
    if math.isinf(float(text)):
        raise ValueError("too large")
    return float(text) if re.search("[.eE]", text) else int(text)


def levels(value):
    """How many arrays and objects are in one another."""
    inside = value.values() if isinstance(value, dict) else value
    return 1 + max(map(levels, inside), default=0) if isinstance(value, (dict, list)) else 0


def value_of(data):
    """The JSON value of the bytes, by the rules of docs/formats.md. Raises ValueError if they have none."""
    value = json.loads(data.decode(), parse_constant=number, parse_float=number, parse_int=number)
    # What has half of a pair can't be encoded, and raises a ValueError too.
    json.dumps(value, ensure_ascii=False).encode()
    if levels(value) > LEVELS:
        raise ValueError("too deep")
    return value


def is_right(data, said):
    """Whether the answer to a line is right: `not JSON` if it has no value and only then, and else another fault, or a verdict on that
    value in which there is no flaw."""
    try:
        value = value_of(data)
    except (RecursionError, ValueError):
        return said == "refused not JSON"
    fault = said.startswith("refused ") and re.sub(r"\d+", "#", said[len("refused "):])
    return fault != "not JSON" and fault in GRAMMAR["tables"] if fault else flaw(value, answer(said)) is None


def damaged():
    """The triangle's text with a few bytes changed, doubled, exchanged or left out, or cut off."""
    data = TRIANGLE
    for _ in range(DRAW.choice([1, 1, 1, 2, 4])):
        at = DRAW.randrange(len(data) + 1)
        end = at + DRAW.randrange(3)
        piece = data[at:end]
        new = DRAW.choice([b"", piece * 2, piece[::-1], DRAW.choice(NUMBERS), bytes([DRAW.choice(TRIANGLE)]), bytes([DRAW.randrange(256)])])
        data = data[:at] if DRAW.random() < 0.01 else data[:at] + new + data[end:]
    return data


def chosen():
    """Strings and numbers of all kinds, what stands before, after and within the text, and levels about the limit."""
    for text in STRINGS:
        yield from (TRIANGLE.replace(old, b'"' + text + b'"') for old in (b'"a"', b'"q"'))
    for text in NUMBERS:
        yield from (TRIANGLE.replace(b"[2,", b"[" + text + b","), TRIANGLE.replace(b'["a","b",1]', b'["a","b",' + text + b"]"))
    for text in SPACES:
        yield from (text + TRIANGLE, TRIANGLE + text, TRIANGLE.replace(b",", b"," + text))
    for deep in (3, LEVELS - 1, LEVELS, LEVELS + 1, LEVELS + 2, 100000):
        yield from (b"[" * deep + b"]" * deep, b'{"a":' * deep + b"0" + b"}" * deep,
                    b'[{"q":' * (deep // 2) + b"[" * (deep % 2) + b"]" * (deep % 2) + b"}]" * (deep // 2),
                    TRIANGLE.replace(b'"q":"a"', b'"q":' + b"[" * (deep - 1) + b"]" * (deep - 1)))


def damage(checks):
    """Damaged texts: each as a line of a sweep, alone and with more workers, and some as files of their own."""
    checks.same("the triangle's text", Run(0, WON, b""), checks.brief("judge", checks.put("table", TRIANGLE)))
    texts = [text for text in [*chosen(), *(damaged() for _ in range(LINES))] if b"\n" not in text]
    lines = checks.put("lines", b"".join(text + b"\n" for text in texts))
    run = checks.run("judge", "--lines", lines)
    for workers in "3", "16":
        checks.same("damaged lines, %s workers" % workers, run, checks.run("judge", "--lines", "--workers", workers, lines))
    answers = run.output.decode().splitlines()
    checks.same("damaged lines: the end", (0, b"", len(texts)), (run.status, run.faults, len(answers)))
    for text, said in zip(texts, answers):
        checks.holds("the line %.300r" % text, is_right(text, said), said)
    for text, said in DRAW.sample(list(zip(texts, answers)), FILES):
        fault = said.startswith("refused ") and said[len("refused "):].encode()
        checks.same("the file %.300r" % text, refused(fault, 3) if fault else Run(0, said.encode() + b"\n", b""),
                    checks.brief("judge", checks.put("table", text)))


def cut_off(checks):
    """The triangle's text is no JSON if its end is missing."""
    for length in range(len(TRIANGLE)):
        checks.same("the first %d bytes" % length, refused(b"not JSON", 3), checks.brief("judge", checks.put("table", TRIANGLE[:length])))


def member(name, text):
    """The triangle's text with another value of a member."""
    return re.sub(rb'("%s":)(\[\[.*\]\]|\[.*?\]|".")' % name.encode(), lambda found: found[1] + text, TRIANGLE, count=1)


def many(name, item, count):
    """The triangle's text in which a member is an array of so many items."""
    return member(name, b"[" + b",".join([item] * count) + b"]")


def large():
    """Large texts, the fault of each by the definitions, and how many times its length the memory may grow. A number, a text
    or an array in an array takes more memory than bytes, and an object far more, the most where objects are in one another."""
    return [
        ("padded with spaces to the limit", TRIANGLE.ljust(SIZE_LIMIT), None, 10),
        ("padded with a newline past the limit", TRIANGLE.ljust(SIZE_LIMIT) + b"\n", b"file too long", 10),
        ("an amount of a million digits", member("amounts", b"[" + b"1" * 1000000 + b",-1,-1]"), b"not JSON", 10),
        ("a fraction of a million digits", member("amounts", b"[0." + b"1" * 1000000 + b",-1,-1]"), b"shape of amounts", 10),
        ("a name of a million letters", member("vertices", b'["' + b"a" * 1000000 + b'","b","c"]'), b"name of vertex 0", 10),
        ("170,000 escapes", member("q", b'"' + b"\\u0061" * 170000 + b'"'), b"no vertex q", 10),
        ("a million arrays in one another", b"[" * 1000000, b"not JSON", 10),
        ("a million quotes", b'"' * 1000000, b"not JSON", 10),
        ("100,000 vertices", member("vertices", b"[" + b",".join(b'"v%d"' % i for i in range(100000)) + b"]"), b"number of vertices", 14),
        ("100,000 edges without names", many("edges", b'["","",1]', 100000), b"edge 0 has no vertex", 30),
        ("80,000 edges between two", many("edges", b'["a","b",1]', 80000), b"valence of vertex 0", 30),
        ("500,000 amounts", many("amounts", b"0", 500000), b"number of amounts", 30),
        ("340,000 arrays", many("q", b"[]", 340000), b"shape of q", 30),
        ("99,000 members", b"{" + b",".join(b'"%d":0' % i for i in range(99000)) + b"}", b"shape of top", 30),
        ("200,000 arrays of a number", many("q", b"[0]", 200000), b"shape of q", 60),
        ("130,000 objects of a number", many("q", b'{"":0}', 130000), b"shape of q", 140),
        ("4,300 arrays, of 120 in one another each", many("q", b"[" * 120 + b"]" * 120, 4300), b"shape of q", 90),
        ("1,700 objects, of 120 in one another each", many("q", b'{"":' * 120 + b"0" + b"}" * 120, 1700), b"shape of q", 190),
    ]


def large_files(checks):
    """Large texts: their faults, and that each is told in the memory of a small file and so many times its own length."""
    small = checks.needs("judge", checks.put("small", TRIANGLE))
    for what, data, fault, times in large():
        room = small + times * len(data)
        checks.same("%s, in %d times its length" % (what, times), Run(0, WON, b"") if fault is None else refused(fault, 3), checks.run(
            "judge", checks.put("table", data), before=lambda: resource.setrlimit(resource.RLIMIT_AS, (room, room))))


load_tests = checked(damage, cut_off, large_files)
