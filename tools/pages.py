"""Reads the pages: headings, links, what is code, what they show as typed, tables and sentences. tools/lint, tools/prose, tools/stated.py
and tests look at what it finds. Paths are from the repository's top."""
import os
import re
from urllib.parse import unquote

from repository import files, read


def pages():
    return ["README.md", *files("docs/*.md"), "examples/README.md", "tests/rows/README.md", "tools/bench/README.md"]


def without_code(text):
    """The lines of a page that are no code. A line in a list's item may be indented as well."""
    kept, fenced, in_item = [], False, False
    for line in text.splitlines():
        if line.startswith("```"):
            fenced = not fenced
        elif not fenced:
            if line.strip():
                depth = len(line) - len(line.lstrip())
                if depth == 0:
                    in_item = bool(re.match(r"[-*] |\d+\. ", line))
                is_code = depth >= (6 if in_item else 4) and not re.match(r" *([-*]|\d+\.) ", line)
                if is_code:
                    line = ""
            kept.append(line)
    return kept


def headings(page):
    """The headings of a page, each as its depth, its text and the anchor that a link has for it."""
    counts = {}
    for line in without_code(read(page)):
        found = re.match(r"(#+) (.*)", line)
        if found:
            text = re.sub(r"[`*]", "", found[2])
            anchor = re.sub(r"[^\w\- ]", "", text.lower()).replace(" ", "-")
            number = counts.get(anchor, 0)
            counts[anchor] = number + 1
            yield len(found[1]), text, f"{anchor}-{number}" if number else anchor


def links(page):
    """The links and pictures of a page, each as the file and the anchor to which it leads, if it is no address."""
    text = re.sub(r"`[^`\n]+`", "CODE", "\n".join(without_code(read(page))))
    for target in re.findall(r"\]\(\s*([^)\s]+)\s*\)", text):
        if not re.match(r"[a-z]+:", target):
            path, _, anchor = target.partition("#")
            place = os.path.normpath(os.path.join(os.path.dirname(page), unquote(path))) if path else page
            yield target, place, re.sub(r"\s", "", anchor)


def names(text):
    """What is in the typewriter font."""
    return re.findall(r"(?<!`)`([^`\n]+)`(?!`)", text)


def shown(text, word):
    """The commands that a text shows, which begin so, each with the lines below it."""
    for found in re.finditer(r"(?m)^( {4,})\$ (%s .*)\n((?:\1[^ \n].*\n|\1 .*\n)*)" % word, text):
        below = re.split(r"(?m)^%s\$ " % found[1], found[3])[0]
        yield found[2], "".join(line[len(found[1]):] + "\n" for line in below.splitlines())


def passages(text):
    """The paragraphs, items of lists and cells of tables of a page, each with what is code in it as one word."""
    passage = []
    for line in [*without_code(text), ""]:
        line = re.sub(r"`[^`]+`", "CODE", line)
        begins = re.match(r"\s*([-*]|\d+\.) +", line)
        if (not line.strip() or begins or line.startswith(("#", "|", ">", "!["))) and passage:
            yield " ".join(passage)
            passage = []
        if line.startswith("|"):
            yield from filter(None, map(str.strip, line.strip("|").split("|")))
        elif line.strip() and not line.startswith(("#", ">", "![")):
            passage.append(line[begins.end():] if begins else line.strip())


def sentences(text):
    for passage in passages(text):
        passage = re.sub(r"!?\[([^\]]*)\]\([^)]*\)", r"\1", passage)
        passage = re.sub(r"[*_]{1,2}(\S)|(\S)[*_]{1,2}", lambda found: found[1] or found[2], passage)
        for sentence in re.split(r"(?<=[.?!])[)'\"]?\s+(?=[(\"'\w])(?![a-z])", passage):
            if re.search(r"[A-Za-z]", sentence):
                yield sentence.strip()


class Part:
    """A part of a file, from one text to the next that follows it, and where in the file it stands."""

    def __init__(self, path, begin="", end=None):
        self.path, whole = path, read(path)
        at = whole.find(begin)
        stop = whole.find(end, at + len(begin)) if end else len(whole)
        self.is_there = at >= 0 and stop >= 0
        self.before, self.text = (whole[:at], whole[at:stop]) if self.is_there else ("", "")

    def place(self, offset=0):
        return "%s:%d" % (self.path, (self.before + self.text[:offset]).count("\n") + 1)

    def matches(self, form, flags=re.M):
        """What fits, each with the line that it stands on; of several groups the ones that there are, and else the whole."""
        for found in re.finditer(form, self.text, flags):
            yield found[found.lastindex or 0], self.place(found.start(found.lastindex or 0))

    def rows(self):
        """The rows of tables: the cells of each, and where it is."""
        for row, place in self.matches(r"^\| (.*) \|$"):
            yield row.split(" | "), place

    def codes(self, column):
        """What is in the typewriter font in a column of a table, each with its place."""
        for cells, place in self.rows():
            yield from ((text, place) for text in names(cells[column]))

    def compare(self, what, found, wanted, both=True):
        """Names what is wanted and lacks, and what stands there and is none. `found` are pairs of a text and its place."""
        if not self.is_there:
            yield "%s: the list of each %s is not where tools/stated.py looks for it" % (self.path, what)
            return
        places = dict(reversed(list(found)))
        for text in wanted:
            if text not in places:
                yield "%s: the %s `%s` is wanted here" % (self.place(), what, text)
        if both:
            yield from self.unknown(what, places.items(), wanted)

    def unknown(self, what, found, known):
        """Names what stands there and is none."""
        for text, place in found:
            if text not in known:
                yield "%s: `%s` is no %s of the code's" % (place, text, what)
