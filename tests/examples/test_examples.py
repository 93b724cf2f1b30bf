"""The examples: each line of runs.txt prints its file NAME.out, and README.md lists it; each other file is named there or in docs/."""
import json
import re
import subprocess
import sys

from helpers import EXAMPLES, ROOT, Test, each, program
from pages import shown

RUNS = [tuple(line.split(" ", 3)) for line in (EXAMPLES / "runs.txt").read_text().splitlines()]
PAGES = "".join(page.read_text() for page in [EXAMPLES / "README.md", *sorted((ROOT / "docs").glob("*.md"))])


class OfExamples(Test):
    @each(RUNS)
    def test_a_run(self, command, table, name, more=""):
        """`rehearse` takes the schedule NAME.txt, and `serve` reads it. Since the scripts of a `party` are played at once, only the
        lines below the history are compared."""
        steps = str(EXAMPLES / (name + ".txt"))
        files = [steps] if command == "rehearse" else [str(EXAMPLES / (script + ".txt")) for script in more.split()] if command == "party" else []
        words = [command, str(EXAMPLES / table), *files, *([more] if command in ("rank", "greedy") else [])]
        with open(steps if command == "serve" else "/dev/null") as typed:
            printed = subprocess.run([program(), *words], stdin=typed, stdout=subprocess.PIPE, text=True).stdout
        if command == "party":
            printed = re.sub(r"(?m)^\d.*\n", "", printed)
        self.assertEqual(printed, (EXAMPLES / (name + ".out")).read_text())
        shown = re.sub(r"\.json|\.txt", "", " ".join(words).replace(str(EXAMPLES) + "/", ""))
        self.assertIn("`%s`" % (shown + (" < " + name if command == "serve" else "")), (EXAMPLES / "README.md").read_text())

    def test_each_file_is_named(self):
        named = {word for run in RUNS for word in re.split(r"[ .]", " ".join(run))}
        for file in EXAMPLES.iterdir():
            if file.suffix in (".json", ".txt", ".py") and file.name != "runs.txt" and not (file.suffix != ".py" and file.stem in named):
                self.assertIn(file.name, PAGES)

    def test_a_talk(self):
        said = subprocess.run([sys.executable, "-B", EXAMPLES / "talk.py"], stdout=subprocess.PIPE, text=True).stdout
        # First b borrows, the earlier of two who owe a dollar, and then c, who owes two after that.
        self.assertEqual(said.split("\n"), ["borrow b     0 moved a=1 b=1 c=-2", "borrow c     1 moved a=0 b=0 c=0", "claim        2 won", ""])

    def test_the_first_program_of_the_library(self):
        """It is proved over what ./dollar has built here, and prints what the page says. With a vertex that is not there it is refused."""
        page, file = (ROOT / "docs" / "library.md").read_text(), self.folder() / "first.rt"
        if not (ROOT / "out" / "build" / "dg_verdict.rlib").exists():
            self.skipTest("the first program of the library, for want of a build by ./dollar")
        (code,), ((command, wanted),) = re.findall(r"(?s)```rust\n(#!.*?)```", page), shown(page, "tools/try")
        file.write_text(code)
        words = [ROOT / command.split()[0], file, *command.split()[2:]]
        self.assertEqual(self.holds(words), wanted)
        file.write_text(code.replace("judge(&triangle, 0,", "judge(&triangle, 3,"))
        refused = subprocess.run(words, stdout=subprocess.PIPE, stderr=subprocess.PIPE, text=True)
        self.assertEqual((refused.returncode, refused.stdout), (1, ""))
        self.assertIn("is not proved:", refused.stderr)

    def test_gonalities(self):
        self.holds([sys.executable, "-B", "-m", "doctest", EXAMPLES / "gonality.py"])
        (command, wanted), = shown((ROOT / "docs" / "tools.md").read_text(), "python3 examples/gonality.py")
        self.assertEqual(self.holds([sys.executable, "-B", *command.split()[1:]], cwd=ROOT), wanted)

    def gonality_of(self, *words):
        done = subprocess.run([sys.executable, "-B", EXAMPLES / "gonality.py", *words], stdout=subprocess.PIPE, stderr=subprocess.PIPE, text=True)
        return done.stdout, done.stderr, done.returncode

    def test_gonalities_of_lines(self):
        lines = self.folder() / "lines"
        lines.write_text("".join(json.dumps(json.loads((EXAMPLES / name).read_text())) + "\n" for name in ("cube.json", "triangle.json")))
        self.assertEqual(self.gonality_of(lines), ("4\n2\n", "", 0))

    def test_gonalities_of_nothing(self):
        self.assertRegex(self.gonality_of()[1], "^usage: gonality.py ")
        for name, text in ("missing", None), ("empty", ""), ("list", "[]"), ("cut off", '{"vertices": ["a"],\n'), ("half", "{}\n{"):
            place = self.folder() / name
            if text is not None:
                place.write_text(text)
            printed, said, status = self.gonality_of(place)
            self.assertEqual((printed, said.count("\n"), status), ("", 1, 1), said)
