#!/usr/bin/env python3
"""The grammar of the program, read from the proved code: the commands of the step language, the replies, what a
session says of a line that makes no entry, the faults with their exit statuses, and the limits. Its home is
python/dollar/grammar.json, which everything else reads; tools/lint compares it with the code.

    tools/words.py            prints it
    tools/words.py --write    writes it"""
import functools
import json
import os
import re
import sys

from repository import TOP, code, files, read, without_comments

LINES, SESSION, SWEEP = "crates/dg_lines/specs/", "crates/dg_session/specs/", "crates/dg_sweep/specs/"
COMMANDS, KINDS_OF, REPLIES = LINES + "Commands.antt", LINES + "CommandWords.antt", LINES + "Texts.antt"
JUDGEMENTS = LINES + "Judgements.antt"
LOOKS, FILE_FAULTS, STATUS = SESSION + "Commands.antt", SWEEP + "FaultTexts.antt", "crates/dg_run/specs/Status.antt"
FAULT, LINE_FAULT = "crates/dg_run/src/fault.rt", "crates/dg_lines/src/line.rt"
GRAMMAR = "python/dollar/grammar.json"
# How a page shows a word after a command, by its kind.
KINDS = {"vertex": "V", "vertices": "V,V,..", "script": "V=x,V=x,..", "degree": "k", "dollars": "x"}


def unread(path, what):
    return ValueError("%s: %s is not written as tools/words.py reads it" % (path, what))


@functools.lru_cache(maxsize=None)
def equations(path):
    """The equations in a file of definitions: for each name what stands before and after the equals sign of each."""
    found = {}
    text = re.sub(r"\n +", " ", re.sub(r"--.*", "", read(path)))
    for name, given, body in re.findall(r"^(\w+)((?: (?:\w+|\([^()=]*\)|\[\]|[\w.]+))*) = (.*)$", text, re.M):
        found.setdefault(name, []).append((given.strip(), body.strip()))
    return found


def texts_by_variant(path, name):
    """The texts that a definition by cases gives, with the variant of each: a number is the first letter of its name, and P stands
    for the amounts of all vertices."""
    defined = equations(path)

    def of(part):
        part = part.strip("() ")
        literal = re.fullmatch(r'codes "(.*)"', part)
        if literal:
            return [literal[1].replace("\\n", "")]
        word, *given = part.split(" ")
        if word == "decimal":
            return [given[0][0]]
        if word == "pairs":
            return ["P"]
        if word not in defined:
            raise unread(path, "the part `%s` of a text" % part)
        return [text for _, body in defined[word] for text in whole(body)]

    def whole(body):
        found = [""]
        for part in body.split(" ++ "):
            found = [before + after for before in found for after in of(part)]
        return found

    return [(given.strip("()").split(" ")[0], text) for given, body in defined[name] for text in whole(body)]


def texts(path, name):
    """The texts alone."""
    return [text for _, text in texts_by_variant(path, name)]


def ordered_texts():
    """The verdicts with the order of burning: N stands for the names of all vertices, with one space between two."""
    literal = re.fullmatch(r'codes "( \w+)" \+\+ flat_map \(.*\) order', equations(JUDGEMENTS)["burning_text"][0][1])
    if not literal:
        raise unread(JUDGEMENTS, "burning_text")
    return [text + literal[1] + " N" for text in texts(REPLIES, "verdict_text")]


def commands():
    """The commands, each with the kinds of the words after it."""
    rows = [re.fullmatch(r'\(codes "(\w+)", (.*)\)', body) for _, body in equations(COMMANDS).get("row", [])]
    if not rows or None in rows:
        raise unread(COMMANDS, "a row of commands")
    return {row[1]: [kind for kind in row[2].split(" ∷ ") if kind != "[]"] for row in rows}


def kinds():
    """The kinds of words: how a page shows one, and the least and the most number that may stand in it."""
    ranges = {}
    for given, body in equations(KINDS_OF)["IsWordNumeral"]:
        bounds = re.fullmatch(r"IsNumeralWithin \((.*)\) \((.*)\) text", body)
        if not bounds:
            raise unread(KINDS_OF, "IsWordNumeral")
        ranges[given.split(" ")[0]] = [value_of(bound) for bound in bounds.groups()]
    found = {}
    for kind in dict.fromkeys(kind for given in commands().values() for kind in given):
        if kind not in KINDS:
            raise ValueError("tools/words.py: KINDS has no form for words of the kind %s" % kind)
        has_numbers = "[]" not in next(body for given, body in equations(KINDS_OF)["numbers_in_word"] if given.split(" ")[0] == kind)[:2]
        least, most = ranges.get(kind, ranges["kind"])
        found[kind] = {"form": KINDS[kind], **({"least": least, "most": most} if has_numbers else {})}
    return found


def value_of(bound):
    """The number that a term of whole numbers stands for."""
    text = re.sub(r"[A-Z_]{3,}", lambda name: limits()["dg_chips::" + name[0]].__str__(), bound)
    text = re.sub(r"\bpos\b", "", text).replace("neg_ℤ", "-").replace("^", "**")
    if re.search(r"[^\d\s()*+-]", text):
        raise unread(KINDS_OF, "the bound `%s`" % bound)
    return int(eval(text))


def command_forms():
    """The commands as pages show them, as `gift V x`."""
    shown = kinds()
    return [" ".join([word, *(shown[kind]["form"] for kind in given)]) for word, given in commands().items()]


def bad_texts():
    """All that a session says of a line that makes no entry, in the order in which a line is judged."""
    return list(dict.fromkeys([text for text, _ in faults_of("LineFault", LINE_FAULT)] + re.findall(r'codes "(bad \w+)\\n"', read(LOOKS))))


def numbered(text):
    """The text with # for each number, its letter or its name in braces."""
    return re.sub(r"\{[^}]*\}|(?<![\w-])(?:[LSIiv]|\d[\d,]*)(?![\w,])", "#", text.strip())


def table_faults():
    """What is said of bytes that are no table."""
    return [numbered(text) for text in texts(FILE_FAULTS, "file_fault_words")]


def home_of(what, path):
    """The file that has an item, as `enum Shortage` or `fn end_text`, if the file of the path uses it by its last word."""
    word = what.split(" ")[1]
    name = word.rpartition("::")[2]
    item = re.compile(r"^ *pub (?:const )?%s %s\b|^fn %s\b" % (what.split(" ")[0], name, name), re.M)
    if "::" not in word and item.search(without_comments(path)):
        return path
    uses = re.findall(r"^use (\w+)::(?:\{([^}]*)\}|(\w+));", without_comments(path), re.M)
    crate = word.split("::")[0] if "::" in word else next(
        (crate for crate, several, one in uses if name in re.findall(r"\w+", several + " " + one)), "crate")
    crate = path.split("/")[1] if crate == "crate" else crate
    return next((found for found in code(crate) if item.search(without_comments(found))), None)


def block(path, head):
    """What stands in braces after a head."""
    text = without_comments(path)
    body = re.search(r"^( *)(?:pub )?%s\b[\s\S]*?\{\n" % re.escape(head), text, re.M)
    if not body:
        raise unread(path, "`%s`" % head)
    return text[body.end():text.index("\n%s}" % body[1], body.end())]


def variants(name, path):
    """The variants of a type of faults: each with its text as the code has it, and the types of what it holds by their names or places.
    A type without variants has one, of no name."""
    alone = re.search(r"#\[error\(([^\n]*)\)\]\npub struct %s;" % name, without_comments(path))
    if alone:
        return [("", alone[1], {})]
    body = block(path, "enum %s" % name)
    found = re.findall(r"#\[error\(([^\n]*)\)\]\n *([A-Z]\w*)(?:\(([^\n]*)\)|\s*\{([^}]*)\})?,\n", body + "\n")
    if not found or len(found) < body.count("#[error("):
        raise unread(path, "a variant of %s" % name)
    places = [enumerate(held.split(", ")) if held else re.findall(r"(\w+): ([^\n]*),", fields) for _, _, held, fields in found]
    return [(variant, text, {str(place): kind for place, kind in holds}) for (text, variant, *_), holds in zip(found, places)]


def home_of_faults(name, path):
    """The file that has a type of faults, if the name is one that the file of the path uses."""
    if not re.fullmatch(r"(?:\w+::)?[A-Z]\w+", name):
        return None
    return home_of("enum " + name, path) or home_of("struct " + name, path)


def shown(argument, held, path, status):
    """What an argument of a fault's text shows, with its status: each text of the fault that it makes, or that the variant holds there; or
    # for a number."""
    made = re.match(r"[\w:]*", argument)[0]
    for name, variant in ((made, None), made.rpartition("::")[::2]):
        home = home_of_faults(name, path)
        if home:
            return list(faults_of(name.rpartition("::")[2], home, status, variant))
    kind = held.get(argument.strip("{}"), "")
    home = home_of_faults(kind, path)
    return list(faults_of(kind.rpartition("::")[2], home, status)) if home else [("#", status)]


def faults_of(name, path, status=None, only=None):
    """The faults of a type, or of one variant of it: each as its text and its exit status."""
    for variant, text, held in variants(name, path):
        if only not in (None, variant):
            continue
        number = status(variant) if callable(status) else status
        literal, rest = re.fullmatch(r'"([^"]*)"(?:, (.*))?', '"{0}"' if text == "transparent" else text).groups()
        arguments = iter(re.split(r", (?![^{]*\})", rest or ""))
        found = [("", number)]
        for part in re.split(r"(\{\w*\})", literal):
            after = shown(next(arguments) if part == "{}" else part, held, path, number) if part.startswith("{") else [(part, None)]
            found = [(before + each, own if part.startswith("{") else old) for before, old in found for each, own in after]
        if list(held.values()) != ["String"]:
            yield from found


def status_of(function, variant):
    """The status that a definition gives for a variant: a number, or a function that tells it of what the variant holds."""
    names = {after: before for before, after in re.findall(r"(\w+) as (\w+)", read(STATUS))}
    for given, body in equations(STATUS)[function]:
        name = re.sub(r"^\w+\.", "", given.strip("()").split(" ")[0])
        name = names.get(name, name)
        if name in (variant, "_"):
            word = body.split(" ")[0]
            return int(word) if word.isdigit() else (lambda inner: status_of(word, inner))
    raise KeyError("%s of %s" % (function, variant))


def faults():
    """The faults that end a run: the text of each, where # is a number, and its exit status."""
    found = {numbered(text): status for text, status in faults_of("Fault", FAULT, lambda variant: status_of("status", variant))}
    return dict(sorted(found.items()))


@functools.lru_cache(maxsize=None)
def limits():
    """The public limits of the crates, by the crate and the name."""
    found = {}
    for path in files("crates/*/src/**/*.rt"):
        crate = path.split("/")[1]
        if not crate.endswith("_tests"):
            for name, value in re.findall(r"^pub const (\w+): \w+ = ([\w:]+?)(?: as \w+)?;", read(path), re.M):
                found["%s::%s" % (crate, name)] = int(value.replace("_", "")) if value[0].isdigit() else value
    return {name: found.get(value, value) for name, value in found.items()}


def grammar():
    """All of it."""
    return {
        "commands": commands(), "kinds": kinds(), "replies": texts(REPLIES, "text_of"), "ordered": ordered_texts(),
        "refusals": texts(REPLIES, "refusal_text"),
        "bad": bad_texts(), "tables": table_faults(), "faults": faults(), "limits": limits()}


def grammar_text():
    return json.dumps(grammar(), indent=1, ensure_ascii=False) + "\n"


if __name__ == "__main__":
    if sys.argv[1:] == ["--write"]:
        with open(os.path.join(TOP, GRAMMAR), "w", encoding="utf-8") as file:
            file.write(grammar_text())
    else:
        sys.stdout.write(grammar_text())
