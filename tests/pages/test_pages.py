"""Every command that a page or the help shows is run, and what it prints is compared with what stands below it.

A command is an indented line `$ ./dollar WORD ..`, or another line of bash that has `./dollar` in it. What it prints are the lines below
it that are indented as far; where the first of these is `..`, as many of its last lines as stand below that. What stands below `>>>` is
compared with what Python prints, and what stands below 'From `FILE`:' with that file. In the help a command is `$ dollar WORD ..`, and
is run in a folder which has the table that `dollar --help` shows, and the files that this help shows below a line `$ cat FILE`."""
import doctest
import json
import re
import shutil
import subprocess
import sys
import textwrap
import xml.dom.minidom

from helpers import EXAMPLES, PACKAGE, ROOT, Test, each, program
from pages import pages, shown

PAGES = [ROOT / page for page in pages()]
HANDOUT = ROOT / "docs" / "handout.html"
DRAW = [sys.executable, "-B", PACKAGE / "dollar", "draw"]


def help_of(*words):
    return subprocess.run([program(), *words, "--help"], stdin=subprocess.DEVNULL, stdout=subprocess.PIPE, text=True).stdout


class OfPages(Test):
    def play(self, command, wanted, folder):
        """Runs a command in a folder; where it shows a file, makes that."""
        if command.startswith("cat "):
            (folder / command[4:]).write_text(wanted)
            return
        last = None
        if wanted.startswith("..\n"):
            wanted = wanted[3:]
            last = -wanted.count("\n")
        said = subprocess.run(["bash", "-c", 'dollar() { "$0" "$@"; }; eval "$1"', program(), command.replace("./dollar", "dollar")],
                              cwd=folder, stdin=subprocess.DEVNULL, stdout=subprocess.PIPE, stderr=subprocess.STDOUT, text=True).stdout
        self.assertEqual("".join(said.splitlines(keepends=True)[last:]), wanted, command)

    @each(PAGES)
    def test_a_page(self, page):
        for command, wanted in shown(page.read_text(), r"(?:|.* )\./dollar"):
            if command.startswith("jq ") and not shutil.which("jq"):
                print("left out: a sweep over lines that jq makes, for want of it")
            else:
                self.play(command, wanted, ROOT)
        for path, quoted in re.findall(r"(?m)^From `(.+)`:\n\n((?:    .*\n)+)", page.read_text()):
            self.assertIn("\n" + re.sub("(?m)^    ", "", quoted), "\n" + (ROOT / path).read_text())

    @each([page for page in PAGES if re.search("(?m)^ *>>> ", page.read_text())])
    def test_the_python_of_a_page(self, page):
        self.go_to(ROOT)
        self.assertEqual(doctest.testfile(str(page), module_relative=False)[0], 0)

    @each([(), *((name,) for name in re.findall(r"(?m)^  ([a-z]+) ", help_of().partition("Commands:")[2].partition("\n\n")[0]) if name != "help")])
    def test_a_help(self, *words):
        text, folder = help_of(*words), self.folder()
        table = re.search(r"(?m)^( *)\{\n(?:.*\n)*?\1\}\n", help_of())
        (folder / "triangle.json").write_text(textwrap.dedent(table[0]))
        self.assertEqual(textwrap.dedent(table[0]), (EXAMPLES / "triangle.json").read_text())
        self.assertLessEqual(max(map(len, text.splitlines())), 80)
        if words:
            self.assertLessEqual(len(text.splitlines()), 50)
        commands = list(shown(text, "(?:dollar|cat)"))
        self.assertTrue(commands)
        for command, wanted in commands:
            self.play(command, wanted, folder)

    def test_a_table_of_ones_own_is_drawn(self):
        xml.dom.minidom.parseString(self.holds([*DRAW, EXAMPLES / "houses.json"]))
        for words in [], [EXAMPLES / "houses.json", EXAMPLES / "cube.json"], ["--nothing"]:
            done = subprocess.run([*DRAW, *words], stdout=subprocess.PIPE, stderr=subprocess.DEVNULL)
            self.assertEqual((done.returncode, done.stdout), (2, b""))

    def test_the_handout(self):
        """Its table begins with the houses, and with what the program prints when cyd lends."""
        houses = json.loads((EXAMPLES / "houses.json").read_text())
        rows = dict(re.findall(r"<tr><td>(start|cyd lends)</td>(.*?)</tr>", HANDOUT.read_text()))
        start, after = (list(map(int, re.findall(r"-?\d+", row))) for row in (rows["start"], rows["cyd lends"]))
        self.assertEqual(start, [*houses["amounts"], sum(houses["amounts"])])
        said = subprocess.run([program(), "serve", EXAMPLES / "houses.json"], input="lend cyd", stdout=subprocess.PIPE, text=True).stdout
        self.assertEqual(list(map(int, re.findall(r"=(-?\d+)", said))), after)

    def test_the_homework(self):
        """The handout gives what play.md gives, and the answers there are right."""
        asked = re.findall(r"(?s)<li>(.*?)</li>", HANDOUT.read_text().partition("At home</h2>")[2])
        home, answers = (ROOT / "docs" / "play.md").read_text().partition("### To take home")[2].split("#### Answers")
        for said in zip(asked, re.findall(r"(?ms)^\d\. (.*?)(?=^\d\.|\Z)", home)):
            one, other = (re.sub(r"In part 1|On the first table", "There", re.sub("part 3|the second table", "it", " ".join(text.split())))
                          for text in said)
            self.assertEqual(one, other)
        self.assertEqual(len(asked), 2)
        kind, first = (json.loads((EXAMPLES / f"{name}.json").read_text()) for name in ("kind_houses", "houses"))
        names = first["vertices"]
        given = [{**kind, "amounts": [n + (i == at) for i, n in enumerate(kind["amounts"])]} for at in range(4)]
        roads = [(one, other) for at, one in enumerate(names) for other in names[:at]]
        built = [{**first, "edges": [*first["edges"], [*road, 1]]} for road in roads]
        lines = "".join(json.dumps(table) + "\n" for table in given + built)
        said = subprocess.run([program(), "judge", "--lines", "/dev/stdin"], input=lines, stdout=subprocess.PIPE, text=True).stdout
        won = [line.startswith("winnable") for line in said.splitlines()]
        self.assertEqual((won[:4], [set(road) for road, is_won in zip(roads, won[4:]) if is_won]), ([True] * 4, [{"ann", "dan"}]))
        self.assertIn("any of the four houses", answers)
        self.assertIn("road between ann and dan, and after no other", answers)

    def test_the_handout_fits_a_sheet(self):
        if not shutil.which("chromium"):
            self.skipTest("how the handout is printed, for want of chromium")
        sheet = self.folder() / "handout.pdf"
        subprocess.run(["chromium", "--headless", "--no-sandbox", "--disable-gpu", f"--print-to-pdf={sheet}", HANDOUT], stderr=subprocess.DEVNULL,
                       stdout=subprocess.DEVNULL, check=True)
        self.assertEqual(len(re.findall(rb"/Type */Page\b(?!s)", sheet.read_bytes())), 1)
