"""Things of two tables can't be mixed up, reckoning can take no lock, and a look that a rank test took can't be kept: it does not
compile. Each file CRATE.FILE.txt beside this script is added at the end of crates/CRATE/src/FILE.rt in a copy of the checkout, where
`rt try` then has to fail with just the errors that the file's comments name, each at the line after its comment. It proves nothing, and
wants a test to run."""
import re
import shutil
import subprocess
import unittest
from pathlib import Path

from helpers import ROOT, Test, each

ADDED = sorted(Path(__file__).parent.glob("*.txt"))
TEST = "\n#[test]\nfn nothing() {}\n"


class OfTypes(Test):
    @classmethod
    def setUpClass(cls):
        cls.copy = ROOT / "out" / "types"
        if not shutil.which("rt"):
            raise unittest.SkipTest("what must not compile, for want of rt")
        shutil.rmtree(cls.copy, ignore_errors=True)
        shutil.copytree(ROOT, cls.copy, ignore=shutil.ignore_patterns(".git", "out"))
        cls.addClassCleanup(shutil.rmtree, cls.copy)

    @each(ADDED)
    def test_it_does_not_compile(self, file):
        crate, name, _ = file.name.split(".")
        place, added = self.copy / "crates" / crate / "src" / (name + ".rt"), file.read_text()
        code = place.read_text()
        place.write_text(code + added + TEST)
        first = code.count("\n") + 1
        wanted = {(first + i + 1, line.split("// ", 1)[1]) for i, line in enumerate(added.split("\n")) if line.strip().startswith("// error[")}
        try:
            done = subprocess.run(["rt", "try", "--test"], cwd=self.copy / "crates" / crate, capture_output=True, text=True)
        finally:
            place.write_text(code)
        found = {(int(line), re.split(": (?:help|note): ", text)[0])
                 for line, text in re.findall(r"^src/%s\.rt:(\d+):\d+: (error\[.*\]: .*)$" % name, done.stdout + done.stderr, re.M)}
        self.assertTrue(wanted)
        self.assertEqual(found, wanted)
        self.assertNotEqual(done.returncode, 0)
