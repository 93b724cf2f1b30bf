"""What the benches share: the programs, which are the built one if none is given; tables; what runs take; and lines of numbers.

    tools/bench/NAME [--count | --time] [PROGRAM [OTHER]]

With a second program, any that takes the same words, its runs are made in turn with those of the first, and ratios are
printed. `serve`, `rehearse`, `reduce`, `rank` and `lines` print the same rows with --count, as instructions, and with --time,
as microseconds of the child's processor time, the least of nine runs of which each is longer; system calls, threads and the
clearing of memory are in these alone."""
import json
import math
import os
import re
import subprocess
import sys
import tempfile
import threading
import time

TOP = os.path.normpath(os.path.join(os.path.dirname(os.path.abspath(__file__)), "..", ".."))
TRIANGLE = '{"vertices":["a","b","c"],"edges":[["a","b",1],["b","c",1],["a","c",1]],"amounts":[2,-1,-1],"q":"a"}\n'
NAMES = [f"v{i}" for i in range(16)]
COUNTED, TIMED = "--count" in sys.argv, "--time" in sys.argv
OF_LINES, UNIT = COUNTED or TIMED, "instructions" if COUNTED else "microseconds"
# How many times as many lines a run has if it is timed.
LONGER = 30 if TIMED else 1
PROGRAMS = [os.path.abspath(word) for word in sys.argv[1:]
            if not word.startswith("--")] or [os.path.join(TOP, "crates/dollar/out/dollar")]
CALLGRIND = ["valgrind", "--tool=callgrind", "--callgrind-out-file=/dev/null"]


def cycle(size=16):
    return [(v, (v + 1) % size, 1) for v in range(size)]


def path(size=16, count=1):
    return [(v, v + 1, count) for v in range(size - 1)]


def cubic(size=16):
    """A cycle, and from each vertex an edge to the one across."""
    return cycle(size) + [(v, v + size // 2, 1) for v in range(size // 2)]


def complete(size=16, count=1):
    return [(u, v, count) for v in range(size) for u in range(v)]


DENSE = complete(16, 4)
GRAPHS = {"dense": DENSE, "cubic": cubic(), "path": path(), "cycle": cycle()}
FOLDER = tempfile.TemporaryDirectory()


def put(name, text=""):
    """A file with a text, for this run of the bench."""
    place = os.path.join(FOLDER.name, name)
    with open(place, "w") as file:
        file.write(text)
    return place


def table(edges, amounts, q=0):
    """A line with a table."""
    named = [[NAMES[u], NAMES[v], count] for u, v, count in edges]
    return json.dumps({"vertices": NAMES[:len(amounts)], "edges": named, "amounts": amounts, "q": NAMES[q]}) + "\n"


def instructions(words, typed=""):
    """How many instructions a run takes, or no number if the program does not know the words."""
    done = subprocess.run([*CALLGRIND, *words], input=typed, stdout=subprocess.DEVNULL, stderr=subprocess.PIPE, text=True)
    if done.returncode == 2:
        return math.nan
    found = re.search(r"Collected : (\d+)", done.stderr)
    if done.returncode or not found:
        sys.exit(f"{words[:3]}: status {done.returncode}: {done.stderr[-400:]}")
    return int(found[1])


def spent(words, typed=os.devnull, said=os.devnull, limit=None):
    """The wall time and the processor time of a run in milliseconds, which reads a file and writes another; no numbers if the
    program does not know the words. After a limit in seconds it is ended."""
    with open(typed) as lines, open(said, "w") as out:
        start = time.perf_counter()
        child = subprocess.Popen(words, stdin=lines, stdout=out)
        ender = threading.Timer(limit or 3600, child.kill)
        ender.start()
        _, status, usage = os.wait4(child.pid, 0)
        ender.cancel()
        child.returncode, took = os.waitstatus_to_exitcode(status), time.perf_counter() - start
    if child.returncode == 2:
        return math.nan, math.nan
    if status != 0 and not limit:
        sys.exit(f"{words[:3]}: status {child.returncode}")
    return took * 1e3, (usage.ru_utime + usage.ru_stime) * 1e3


def least(runs, times):
    """For each name the least numbers that its run gives, all runs made in turn so many times."""
    best = {}
    for _ in range(times):
        for name, run in runs.items():
            got = run()
            best[name] = [min(pair) for pair in zip(best.get(name, got), got)]
    return best


def costs(runs):
    """What each run takes, by its name; a run is its words and what is typed: instructions, or microseconds."""
    if COUNTED:
        return {name: instructions(*run) for name, run in runs.items()}
    best = least({name: lambda words=words, place=put(f"typed {number}", *typed): spent(words, place)
                  for number, (name, (words, *typed)) in enumerate(runs.items())}, 9)
    return {name: 1e3 * processor for name, (_, processor) in best.items()}


def line_costs(number, whole, part, programs=PROGRAMS):
    """For each program what one of so many lines takes: a whole run less a part of it."""
    found = costs({(program, of): of(program) for program in programs for of in (whole, part)})
    return [(found[program, whole] - found[program, part]) / number for program in programs]


def compare(name, *given):
    """Prints these for the first program, with the ratio."""
    each = line_costs(*given)
    row(name, each[0], *ratio(each))


def peak(child):
    """The most memory that a process has had, in MB, or None if it has ended."""
    with open(f"/proc/{child.pid}/status") as file:
        found = re.search(r"VmHWM:\s*(\d+)", file.read())
    return int(found[1]) / 1024 if found else None


def ratio(numbers):
    """How many times the second of two numbers the first is, as a text; none if there is no second."""
    return [] if len(numbers) < 2 or any(map(math.isnan, numbers)) else [f"{numbers[0] / max(numbers[1], 1e-9):.2f}"]


def row(name, *cells, width=40):
    """Prints a line: a name, and numbers or texts in columns."""
    shown = [cell if isinstance(cell, str) else "-" if math.isnan(cell) else f"{cell:.4g}" if cell < 1e3 else f"{cell:.0f}"
             for cell in cells]
    print((f"{name:<{width}} " + " ".join(f"{cell:<10}" for cell in shown)).rstrip(), flush=True)
