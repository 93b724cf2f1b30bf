"""What the tests of the pages share: files, waiting, threads, and the board's server."""
import concurrent.futures
import contextlib
import os
import re
import subprocess
import sys
import time
from pathlib import Path

from helpers import EXAMPLES, PACKAGE, ROOT, expect, program

# So long is waited for what is to come: longer than the busiest machine takes.
PATIENCE = 300
PLAY = [sys.executable, "-B", ROOT / "board" / "play", "--no-browser"]
TRIANGLE = EXAMPLES / "triangle.json"


def text_of(place):
    return Path(place).read_bytes().decode()


def lines_of(name):
    return text_of(EXAMPLES / name).splitlines()


def written(folder, name, text):
    """A file in a folder with a text, as its place."""
    place = Path(folder, name)
    place.write_bytes(text.encode())
    return place


def swings(name, count):
    """Steps of seat 1, which lends and borrows in turn."""
    return "".join(f"1 {'borrow' if number % 2 else 'lend'} {name}\n" for number in range(count))


def waited(held, seconds=PATIENCE):
    """Waits until something holds, and says whether it came to."""
    end = time.monotonic() + seconds
    while not held():
        if time.monotonic() > end:
            return False
        time.sleep(0.02)
    return True


def together(*acts):
    """Does all of this at once, each in a thread of its own."""
    with concurrent.futures.ThreadPoolExecutor(len(acts)) as pool:
        return [done.result() for done in [pool.submit(act) for act in acts]]


def script(*words, **given):
    """Runs a command of the package, and gives what it printed, what it said on standard error, and its status."""
    done = subprocess.run([sys.executable, "-B", PACKAGE / "dollar", *words], capture_output=True, timeout=PATIENCE, **given)
    return done.stdout, done.stderr.decode(errors="replace"), done.returncode


def refused(words, begins="", **given):
    """Sees that a command of the package makes nothing, and says why in one line."""
    made, said, status = script(*words, **given)
    fine = (made, status, said.count("\n")) == (b"", 1, 1) and begins in said
    expect(fine, f"{words}: the status {status}, {made!r:.80} and {said!r:.300}")


def asked(command, *words):
    """What the program prints for a command, with its fault and its status."""
    done = subprocess.run([program(), command, *words], stdin=subprocess.DEVNULL, capture_output=True)
    return done.stdout.decode(), done.stderr.decode(), done.returncode


def by_line(command, place, *words):
    """What the program prints for a table file, by a line of a sweep."""
    words = [program(), command, "--lines", "/dev/stdin", *words]
    return subprocess.run(words, input=" ".join(text_of(place).split()), stdout=subprocess.PIPE, text=True).stdout


def started(*words, browser=None):
    """Starts board/play, which opens a browser if one is given."""
    pipes = dict(stdin=subprocess.DEVNULL, stdout=subprocess.PIPE, stderr=subprocess.PIPE, text=True)
    play, more = (PLAY[:-1], {"BROWSER": str(browser)}) if browser else (PLAY, {})
    return subprocess.Popen([*play, *words], env={**os.environ, **more}, **pipes)


@contextlib.contextmanager
def played(*words, **given):
    """Starts board/play, and gives the process and the addresses that it prints. Ends it, and sees that it ends well."""
    child = started(*words, **given)
    try:
        yield child, addresses(child)
    finally:
        child.terminate()
        try:
            _, said = child.communicate(timeout=PATIENCE)
        except subprocess.TimeoutExpired:
            child.kill()
            said = child.communicate()[1] + "no end"
        expect((child.returncode, said) == (0, ""), f"board/play ended with {child.returncode} and said {said}")


def addresses(child):
    """The addresses in the lines that it prints, up to the one that says how it is ended."""
    found = []
    for line in child.stdout:
        found += re.findall(r"http://\S+", line)
        if "ends it" in line:
            return found
    raise EOFError(f"board/play has ended: {child.stderr.read()}")


def is_modest(child, most):
    """Sees that a server has never had more memory than so many KiB."""
    had = int(re.search(r"VmHWM:\s*(\d+)", text_of(f"/proc/{child.pid}/status"))[1])
    expect(had < most, f"{had} KiB of memory")
