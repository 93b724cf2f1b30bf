"""What tests share: the folders of the clone, the program that is tried, and small helpers beside unittest."""
import contextlib
import functools
import glob
import importlib
import os
import shutil
import subprocess
import sys
import tempfile
import time
import unittest
import zlib
from pathlib import Path

import dollar

ROOT = Path(__file__).resolve().parents[1]
EXAMPLES, PACKAGE = ROOT / "examples", ROOT / "python"
# How many seconds a thing may take that comes, if the machine does not hang.
HUNG = 600


def program():
    """The program that is tried: the one that the variable DOLLAR names, or the one of this clone."""
    return dollar.find_program()


def pythons():
    """The Pythons that are here and that serve, those of pyenv among them, by their versions."""
    found = {}
    kept = os.path.join(os.environ.get("PYENV_ROOT", os.path.expanduser("~/.pyenv")), "versions", "*", "bin", "python3")
    for name in [sys.executable, *("python3.%d" % minor for minor in range(10, 15)), *sorted(glob.glob(kept)), "/usr/bin/python3"]:
        if shutil.which(name):
            said = subprocess.run([name, "-c", "import sys; print(*sys.version_info[:2])"], stdout=subprocess.PIPE, stderr=subprocess.DEVNULL,
                                  text=True).stdout
            version = tuple(map(int, said.split()))
            if version >= (3, 10):
                found.setdefault(version, name)
    return found


def needed(name):
    """A module, or the test is left out."""
    try:
        return importlib.import_module(name)
    except ImportError:
        raise unittest.SkipTest("the tests with %s, which this Python does not have" % name) from None


def wait_until(holds, what="what is waited for"):
    """Waits until something holds."""
    end = time.monotonic() + HUNG
    while not holds():
        assert time.monotonic() < end, "%s did not come in %d seconds" % (what, HUNG)
        time.sleep(0.01)


def each(cases):
    """Has a test be run for each case, which is its arguments, or its one argument."""
    def of(test):
        @functools.wraps(test)
        def run(self):
            for case in cases:
                with self.subTest(case):
                    test(self, *(case if isinstance(case, tuple) else (case,)))
        return run
    return of


def checksum(asked, line):
    """What a CSV file has for a line: the checksum of the command, the degree, the table of divisors, and the line, each with a newline."""
    return "%08x" % zlib.crc32(("%s\n%s\n" % (asked, line)).encode())


def sample(form):
    """A text of the form of a reply in the grammar."""
    return " ".join({"P": "a=2 b=-1", "g": "3", "k": "2"}.get(part, part) for part in form.split(" "))


# What has not held in this process.
wrong = []


def expect(held, what):
    """Keeps what has not held: the test goes on, and fails at its end."""
    if not held:
        wrong.append(what)


def equal(found, wanted, what):
    """The same of two things that are to be equal; says how they differ."""
    expect(found == wanted, "%s: found %.600r, wanted %.600r" % (what, found, wanted))


def tests_of(*functions, given=contextlib.nullcontext):
    """What unittest asks a module for its tests, here functions. `given` is a context, whose value is what each is called with."""
    def test(function):
        @functools.wraps(function)
        def run():
            before = len(wrong)
            with given() as value:
                function(*([] if value is None else [value]))
            if wrong[before:]:
                raise AssertionError("\n".join(map(str, ["%d did not hold:" % len(wrong[before:]), *wrong[before:][:20]])))
        return unittest.FunctionTestCase(run)

    return lambda loader, tests, pattern: unittest.TestSuite(map(test, functions))


class Test(unittest.TestCase):
    """A test with a folder of its own."""

    def folder(self):
        """A folder that is removed after the test."""
        made = tempfile.TemporaryDirectory()
        self.addCleanup(made.cleanup)
        return Path(made.name)

    def go_to(self, folder):
        """Has the test run in a folder."""
        self.addCleanup(os.chdir, os.getcwd())
        os.chdir(folder)

    def script(self, text):
        """The place of a file that can be run."""
        place = self.folder() / "script"
        place.write_text(text)
        place.chmod(0o755)
        return str(place)

    def holds(self, words, **options):
        """Runs what has to end with the status 0, and gives what it printed."""
        done = subprocess.run(words, stdin=subprocess.DEVNULL, stdout=subprocess.PIPE, stderr=subprocess.STDOUT, text=True, **options)
        self.assertEqual(done.returncode, 0, "%s:\n%s" % (words, done.stdout))
        return done.stdout
