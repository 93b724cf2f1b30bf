"""Pages and texts that state the program's words and limits, each compared with the grammar that tools/words.py reads off the
code. tools/lint prints what differs, with the file and the line, and what is wanted there. What is written in Python or
JavaScript reads the grammar itself."""
import re

import words
from pages import Part, names, pages
from repository import files, read
from words import numbered

HELP, FORMATS = "crates/dg_cli/src/help_texts.rt", "docs/formats.md"


def commands():
    """Lists of the commands: names, number and kinds of the words after each."""
    forms, column = words.command_forms(), r"^ *([a-z]+(?: \S+)*)(?:  +.*|)$"
    part = Part(FORMATS, "| Command | Meaning |", "\n\n")
    yield from part.compare("command", part.codes(0), forms)
    part = Part(HELP, "one of these commands:\n", "\nThere is")
    found = [(text, place) for text, place in part.matches(column) if not text.startswith(("one of", "exactly"))]
    yield from part.compare("command", found, forms)


def played_commands():
    """Rows: one at least with each command."""
    rows = "".join(map(read, files("crates/dg_rows/data/*.txt")))
    for word, kinds in words.commands().items():
        line = r"(?:^[<|] |\| |\\n)(?:\d+ )?%s(?:\\n|$| \|)" % " ".join([word, *[r"[^ \n\\|]+"] * len(kinds)])
        if not re.search(line, rows, re.M):
            yield "crates/dg_rows/data: a row with the command `%s` is wanted" % word


def replies():
    """Lists of the replies' forms, and of the refusals."""
    given = words.grammar()
    part = Part(FORMATS, "| Reply | Text |", "\n\n")
    yield from part.compare("reply", part.codes(1), given["replies"])
    yield from Part(FORMATS).compare("refusal", Part(FORMATS).matches(r"`(refused \w+)`"), given["refusals"])


def bad_texts():
    """What is said of lines that make no entry."""
    bad = words.bad_texts()
    lines = [text for text in bad if "line #: " + text in words.faults()]
    part = Part(FORMATS, "A line that spells no step is refused with the first of these.", "\n\nIn an item")
    found = list(part.codes(0))
    yield from part.compare("fault of a line", found, lines)
    if sorted(lines) == sorted(text for text, _ in found) and lines != [text for text, _ in found]:
        yield "%s: the order of the faults of a line is %s" % (part.place(), ", ".join(lines))
    for path in [HELP, "CHANGELOG.md", *pages()]:
        part = Part(path)
        if path in (HELP, FORMATS, "docs/tools.md"):
            yield from part.compare("answer to a bad line", part.matches(r"`(bad [a-z]+)`"), bad)
        else:
            yield from part.unknown("answer to a bad line", part.matches(r"`(bad [a-z]+)`"), bad)
    for path in files("tests/**/*.py", "python/**/*.py"):
        yield from Part(path).unknown("answer to a bad line", Part(path).matches(r"""["'](bad \w+)["']"""), bad)


# The definitions of what is said of a table in answer to a line, and the enums whose #[error] says the same.
SAID = {"shape_fault_words": ("Shape", "crates/dg_file/src/fault.rt"),
        "graph_fault_words": ("GraphFault", "crates/dg_graph/src/fault.rt"),
        "chip_fault_words": ("ChipFault", "crates/dg_chips/src/divisor.rt"),
        "file_fault_words": ("FileFault", "crates/dg_file/src/fault.rt")}


def told_twice():
    """Texts that stand in two places of the code and are compared here."""
    return set(words.texts(words.FILE_FAULTS, "file_fault_words")) - {"out of memory"}


def table_faults():
    """The faults of table files: each variant is told in an answer as on the fault line and on the page."""
    for name, (enum, path) in SAID.items():
        part = Part(words.FILE_FAULTS, "abbrev pub %s" % name)
        own = {variant: numbered(text.strip('"')) for variant, text, _ in words.variants(enum, path) if text
               and text != "transparent"}
        for variant, text in words.texts_by_variant(words.FILE_FAULTS, name):
            if variant in own and numbered(text) != own[variant]:
                yield "%s: %s::%s says `%s`, not `%s`" % (part.place(), enum, variant, own[variant], text)
    of_files = set(words.table_faults()) - {"out of memory"}
    part = Part(FORMATS, "The reader reports one fault, the first in this order.", "\n\nEvery JSON text (RFC 8259)")
    found = [(numbered(text), place) for text, place in part.codes(0)]
    yield from part.compare("fault of a table file", found, of_files)


def fault_tables():
    """The tables of faults and exit statuses on pages."""
    statuses, of_files = words.faults(), set(words.table_faults()) - {"out of memory"}
    bad = {text for text in statuses if text.startswith("line #: ")}
    wanted = {text: status for text, status in statuses.items() if text not in of_files | bad}
    wanted["line #:"], wanted["amount of vertex #"] = statuses[min(bad)], statuses["amount of vertex #"]
    part = Part(FORMATS, "| Text | Meaning, and what helps | Status |", "\n\n")
    rows = [(numbered(text), cells[-1], place) for cells, place in part.rows() for text in names(cells[0])[:1]]
    yield from part.compare("fault", [(text, place) for text, _, place in rows], list(wanted))
    rows += [("not JSON", cells[-1], place) for cells, place in part.rows() if "[the table file]" in cells[0]]
    for text, status, place in rows:
        if status != str({**statuses, **wanted}.get(text, status)):
            yield "%s: the status of `%s` is %d" % (place, text, {**statuses, **wanted}[text])


def faults():
    """Faults and exit statuses on pages."""
    yield from table_faults()
    yield from fault_tables()
    statuses = sorted({"0"} | {str(status) for status in words.faults().values()})
    part = Part(HELP, "The status is\n", '"#;')
    yield from part.compare("exit status", part.matches(r"^    (\d)  "), statuses)


# Constants that are one limit: of crates that do not know each other, or of other types.
SAME = [("dg_sweep::MAX_LINE", "dg_system::MAX_FILE"), ("dg_rules::MAX_GIFT", "dg_chips::MAX_AMOUNT")]


def limits():
    """Limits that pages, the help and models of the game state, as tools/limits.txt lists them."""
    known = {"u32::MAX": str(2**32 - 1), **{name: str(number) for name, number in words.limits().items()}}
    for number, line in enumerate(read("tools/limits.txt").splitlines(), 1):
        if line.startswith("#"):
            continue
        name, path, text = line.split(" | ", 2)
        form = re.escape(text).replace(re.escape("#"), r"(\d[\d,]*\d|\d)").replace(re.escape(".."), r"[^\n]*?")
        found = list(re.finditer(re.sub(r"(?:\\ )+", r"\\s+", form), read(path)))
        if name not in known:
            yield "tools/limits.txt:%d: there is no constant %s" % (number, name)
        elif not found:
            yield "%s: the text `%s` is wanted, with %s for %s" % (path, text, known[name], name)
        for stated in {stated for match in found for stated in match.groups()}:
            if name in known and stated.replace(",", "") != known[name]:
                yield "%s: %s is %s, not %s, in `%s`" % (path, name, known[name], stated, text)
    for one, other in SAME:
        if known[one] != known[other]:
            yield "%s is %s, and %s is %s: they are one limit" % (one, known[one], other, known[other])
    part = Part(FORMATS, "| What | Limit | Name in the code |", "\n\n")
    for (_, stated, *code), place in part.rows():
        name = "".join(code).strip("`")
        if name.startswith("dg_") and known.get(name, "no constant") != stated.replace(",", ""):
            yield "%s: %s is %s, not %s" % (place, name, known.get(name, "no constant"), stated)


def grammar():
    """The file of the grammar."""
    if read(words.GRAMMAR) != words.grammar_text():
        yield "%s is not what the code says: tools/words.py --write makes it anew" % words.GRAMMAR


def version():
    """The version of the newest part of the changelog that has one, which no other part has, is that of the program, of the package
    for Python, and of what to cite, whose day it has too."""
    heads = [(head, place) for head, place in Part("CHANGELOG.md").matches(r"^## (.*)$") if head != "Unreleased"]
    parts = [re.match(r"(\d+\.\d+\.\d+), (\d{4}-\d\d-\d\d)$", head) for head, _ in heads]
    if not parts[0]:
        yield f"{heads[0][1]}: the newest part has no version and day, as `## 1.0.0, 2026-11-27`"
        return
    for part, (_, place) in list(zip(parts, heads))[1:]:
        if part and part[1] == parts[0][1]:
            yield f"{place}: {part[1]} is the version of the newest part too, which wants one of its own"
    for path, form, wanted in ((HELP, r'VERSION: &str = "([\d.]+)', 1), ("python/dollar/__init__.py", r'^__version__ = "(.*)"$', 1),
                               ("CITATION.cff", "^version: (.*)$", 1), ("CITATION.cff", "^date-released: (.*)$", 2)):
        for text, place in Part(path).matches(form):
            if text != parts[0][wanted]:
                yield f"{place}: {text} is not what the newest part of CHANGELOG.md says, {parts[0][wanted]}"


CHECKS = {"grammar": grammar, "version": version, "command words": commands, "played commands": played_commands,
          "reply words": replies, "bad texts": bad_texts, "faults": faults, "limits": limits}
