"""What docs/tools.md shows over several lines, or with tools that may be missing. tests/pages plays the other commands of
the pages."""
import inspect
import re
import shutil
import subprocess

import dollar
from dollar import _names as names
from helpers import ROOT, Test, each, needed
from pages import shown

PAGE = (ROOT / "docs" / "tools.md").read_text(encoding="utf-8")


def block(page, first):
    """The indented lines of a page from one on, as Python."""
    return re.search(r"(?m)^    %s\n(?:    .*\n)*" % re.escape(first), page)[0].replace("\n    ", "\n").lstrip()


class OfPages(Test):
    @each(["jq", "nauty-geng"])
    def test_pipes(self, tool):
        if not shutil.which(tool):
            self.skipTest("the pipe with %s, which is not here" % tool)
        first, below = next(shown(PAGE, tool))
        lines = [first, *below.splitlines()]
        last = max(place for place, line in enumerate(lines) if "dollar " in line) + 1
        command, wanted = 'dollar() { "$DOLLAR" "$@"; }\n' + "\n".join(lines[:last]).replace("./dollar", "dollar"), lines[last:]
        done = subprocess.run(["bash", "-c", command], cwd=ROOT, stdout=subprocess.PIPE, text=True)
        # How far uniq moves its numbers to the right is its own affair.
        self.assertEqual([line.strip() for line in done.stdout.splitlines()], [line.strip() for line in wanted])
        self.assertEqual(done.returncode, 0)

    def test_the_help_and_the_page_have_each_name(self):
        self.assertEqual([name for name in dollar.__all__ if not re.search(r"`%s\b" % name, dollar.__doc__)], [])
        page = "\n".join(names.page())
        self.assertEqual([name for name in dollar.__all__ if not re.search(r"(?m)^## `%s\b.*\n\n\S" % name, page)], [])

    def test_each_name_has_an_example(self):
        """In its own description, or in the one to which that sends."""
        things = {name: getattr(dollar, name) for name in dollar.__all__}
        for name in ("Table", "Session", "AsyncSession"):
            things.update(("%s.%s" % (name, each), value) for each, value in vars(things[name]).items()
                          if not each.startswith("_") and (callable(value) or isinstance(value, (property, classmethod))))
        without = []
        for name, thing in things.items():
            text = inspect.getdoc(getattr(thing, "__func__", thing)) or ""
            sent = re.search(r"`help\((?:dollar\.)?([\w.]+)\)`", text)
            if ">>> " not in text and not (sent and ">>> " in inspect.getdoc(things[sent[1]])):
                without.append(name)
        self.assertEqual(without, [])

    def test_five_lines_with_pandas(self):
        needed("networkx")
        pandas = needed("pandas")
        self.go_to(self.folder())
        lines = block(PAGE, "import dollar, networkx, pandas")
        self.assertLess(lines.count("\n"), 5)
        exec(lines, {})
        frame = pandas.read_csv("ranks.csv")
        # Riemann-Roch, and one dollar in all on each of the connected graphs of seven vertices.
        self.assertEqual(len(frame), 853)
        self.assertEqual(set(frame.degree), {1})
        self.assertTrue((frame["rank"] - frame.dual == frame.degree + 1 - frame.genus).all())
