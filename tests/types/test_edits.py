"""`tools/edits` in a small repository: which crates it takes for tried, what it says of an edit that is not refused, and that it heeds the
time. `rt` itself tries a crate once; else a stand-in prints what `rt` does."""
import os
import re
import shutil
import subprocess
from pathlib import Path

from helpers import ROOT, Test

CODE = """// A library with one function.
#![tactic(auto)]

ghost use Rattle.std.specs.Prelude.{◌≡◌};

pub fn same(x: usize) -> usize
    ensures { result ≡ x }
{
    x
}
"""
WRONG, RIGHT = ("file: src/lib.rt\nold:     x\nnew:     %s\n" % new for new in ("0", "{ x }"))
BAD = WRONG.replace("0", "y")

# It takes so many seconds of processor time for each edit.
STAND_IN = """#!/usr/bin/env python3
import os
import sys
import time
from pathlib import Path
missed = 0
for edit in sorted(Path("crates").glob("*/must-fail/*.edit")):
    end = time.process_time() + float(os.environ.get("EACH", 0))
    while time.process_time() < end:
        pass
    text = edit.read_text()
    is_right = "{ x }" in text
    missed += is_right
    print("rt: must-fail %s/%s: %s" % (edit.parts[1], edit.name, "NOT REFUSED: .." if is_right else
                                       "BAD EDIT: .." if text.rstrip().endswith("y") else "refused, as it must be: .."))
sys.exit(missed > 0)
"""


class OfEdits(Test):
    def setUp(self):
        self.top = self.folder()
        self.record = self.top / "tools" / "edits.txt"
        self.put("tools/seconds", "low 3\n")
        for name in "edits", "repository.py":
            shutil.copy(ROOT / "tools" / name, self.top / "tools")
        self.put("crates.txt", "low:\nhigh: low\n")
        for name in "low", "high":
            self.put("crates/%s/src/lib.rt" % name, CODE)
            self.put("crates/%s/more-must-fail/wrong.edit" % name, WRONG)

    def put(self, place, text):
        (self.top / place).parent.mkdir(parents=True, exist_ok=True)
        (self.top / place).write_text(text)

    def tried(self, *words, each=0, rt=None):
        """The status of tools/edits, and the last line that it prints."""
        if rt is None:
            rt = self.top / "bin" / "rt"
            self.put("bin/rt", STAND_IN)
            rt.chmod(0o755)
        done = subprocess.run([self.top / "tools" / "edits", *words], stdin=subprocess.DEVNULL, stdout=subprocess.PIPE, stderr=subprocess.STDOUT,
                              text=True, env={**os.environ, "PATH": "%s:%s" % (rt.parent, os.environ["PATH"]), "EACH": str(each)})
        self.said = done.stdout
        return done.returncode, done.stdout.splitlines()[-1]

    def recorded(self):
        return re.findall(r"^(\w+) [0-9a-f]{64} (\d+) \d+$", self.record.read_text(), re.M) if self.record.exists() else []

    def test_what_has_changed_is_untried(self):
        self.assertEqual(self.tried("--untried"), (0, "2 of 2 refused, 0 not tried"))
        self.assertEqual(self.recorded(), [("high", "1"), ("low", "1")])
        self.assertEqual(self.tried("--untried"), (0, "0 of 0 refused, 0 not tried"))
        for file, text in (("src/lib.rt", CODE + "\n"), ("specs/Lib.antt", "\n"), ("proofs/Lib.antt", "\n"), ("more-must-fail/zero.edit", WRONG)):
            self.put("crates/low/" + file, text)
            count = 2 if file.endswith("zero.edit") else 1
            self.assertEqual(self.tried("--untried"), (0, "%d of %d refused, 0 not tried" % (count, count)), file)
            self.assertIn("rt: must-fail low/", self.said)
            self.assertNotIn("rt: must-fail high/", self.said)
        # One byte.
        self.put("crates/high/src/lib.rt", CODE.replace("    x\n", "    y\n"))
        self.assertEqual(self.tried("--untried"), (0, "1 of 1 refused, 0 not tried"))
        self.assertIn("rt: must-fail high/", self.said)
        self.assertEqual(self.recorded(), [("high", "1"), ("low", "2")])

    def test_an_edit_that_is_not_refused_fails(self):
        self.put("crates/low/more-must-fail/right.edit", RIGHT)
        self.assertEqual(self.tried("--untried"), (1, "2 of 3 refused, 0 not tried"))
        self.assertEqual(self.recorded(), [("high", "1")])
        self.assertEqual(self.tried("--untried"), (1, "1 of 2 refused, 0 not tried"))
        self.assertEqual(self.tried("low"), (1, "1 of 2 refused"))
        self.assertEqual(self.tried("high"), (0, "1 of 1 refused"))
        self.assertEqual(self.tried(), (1, "2 of 3 refused"))
        (self.top / "crates/low/more-must-fail/right.edit").unlink()
        self.assertEqual(self.tried(), (0, "2 of 2 refused"))
        self.assertEqual(self.recorded(), [("high", "1"), ("low", "1")])

    def test_an_edit_that_does_not_compile(self):
        self.put("crates/low/more-must-fail/bad.edit", BAD)
        self.assertEqual(self.tried("--untried"), (0, "2 of 2 refused, 0 not tried"))
        self.assertEqual(self.recorded(), [("high", "1")])
        self.assertEqual(self.tried("low"), (1, "1 of 2 refused"))

    def test_the_time(self):
        for number in range(9):
            self.put("crates/low/more-must-fail/wrong%d.edit" % number, WRONG)
        # By tools/seconds the proof of low takes 3 seconds, and by default that of high 30: in 6 there is time for 4 edits.
        self.assertEqual(self.tried("--untried", "0.1"), (0, "4 of 4 refused, 7 not tried"))
        self.assertIn("\nnot tried, since the time was up: 6 of the 10 edits of low\n", self.said)
        self.assertIn("\nnot tried, since the time was up: 1 of the 1 edits of high\n", self.said)
        self.assertEqual(self.recorded(), [])
        first = set(re.findall(r"low/(\w+)\.edit", self.said))
        self.assertEqual(len(first), 4)
        self.tried("--untried", "0.1")
        self.assertEqual(set(re.findall(r"low/(\w+)\.edit", self.said)), first)
        # What takes longer than that is ended, and counts for nothing.
        self.assertEqual(self.tried("--untried", "0.1", each=4), (0, "0 of 0 refused, 11 not tried"))
        self.assertEqual(self.recorded(), [])
        # By what the edits took before, a proof takes 1 second.
        self.assertEqual(self.tried("low", each=0.3), (0, "10 of 10 refused"))
        self.put("crates/low/src/lib.rt", CODE + "\n")
        self.assertEqual(self.tried("--untried", "0.035"), (0, "4 of 4 refused, 7 not tried"))

    def test_by_the_prover(self):
        rt = shutil.which("rt")
        if rt is None:
            self.skipTest("an edit that rt tries, for want of rt")
        self.put("crates.txt", "low:\n")
        shutil.rmtree(self.top / "crates" / "high")
        self.assertEqual(self.tried("--untried", rt=Path(rt)), (0, "1 of 1 refused, 0 not tried"), self.said)
        self.assertEqual(self.recorded(), [("low", "1")])
        self.put("crates/low/more-must-fail/right.edit", RIGHT)
        self.assertEqual(self.tried("--untried", rt=Path(rt)), (1, "1 of 2 refused, 0 not tried"), self.said)
        self.assertRegex(self.said, r"must-fail low/right\.edit: NOT REFUSED")
