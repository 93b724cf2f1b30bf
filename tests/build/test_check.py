"""How ./check ends: in a copy with parts of its own, which pass, fail, or leave something out."""
import shutil
import subprocess

from helpers import ROOT, Test, each


class OfCheck(Test):
    def checked(self, **parts):
        """What ./check prints of scripts in tools/, each with what it says, and its status."""
        top = self.folder()
        shutil.copy(ROOT / "check", top)
        (top / "tools").mkdir()
        for name, said in parts.items():
            (top / "tools" / name).write_text("#!/bin/sh\ncat <<'END'\n%s\nEND\n" % said)
            (top / "tools" / name).chmod(0o755)
        done = subprocess.run([top / "check", "--program", "nothing"], stdin=subprocess.DEVNULL, stdout=subprocess.PIPE, text=True)
        return done.stdout.splitlines(), done.returncode

    def test_what_is_left_out_stands_at_the_end(self):
        lines, status = self.checked(
            edits="left out: an edit that rt tries, for want of rt\n2 passed, 0 failed",
            lint="left out: the tests with numpy, which this Python does not have\nleft out: the look, for want of Chromium\n"
                 "3 passed, 0 failed")
        self.assertEqual((lines[3:], status), ([
            "", "left out, for want of what is named:", "  edits      an edit that rt tries, for want of rt",
            "  lint       the look, for want of Chromium", "  lint       the tests with numpy, which this Python does not have",
            "Debian has most of that: apt install chromium python3-numpy python3-websocket", "", "5 passed, 0 failed"], 0))
        self.assertFalse([line for line in lines[:3] if "left out" in line])

    def test_nothing_is_left_out(self):
        lines, status = self.checked(lint="3 passed, 0 failed")
        self.assertEqual((lines[2:], status), (["3 passed, 0 failed"], 0))

    @each([("it is wrong\n2 passed, 1 failed", "2 passed, 1 failed"), ("it ends early", "0 passed, 1 failed")])
    def test_a_part_that_fails(self, said, last):
        lines, status = self.checked(lint=said)
        self.assertEqual((lines[:3], lines[-1], status), (["", "lint:", said.splitlines()[0]], last, 1))
