"""Which definitions and lemmas something reaches. A name is followed to where it is declared, through imports and what files pass
on, so a lemma whose name is also a variable's, or another crate's, counts only where it is meant."""
import os
import re

from repository import files, read

TOKEN = re.compile(r"[^\s(){}\[\],;`]+")
ITEM = re.compile(r"(?:(?:pub|abbrev|unfoldable|opaque) )*(?:(?:record|data|ruleset) )?([^\s:(){}.]+)(?= |$)")
OPENS = re.compile(r"(?:pub )?module\b")
IMPORT = re.compile(r"(?:(?:pub|unfoldable) )*(?:use|mod)\b")
NO_ITEM = re.compile(r"unfolding\b|--|[|)}\]]")


class File:
    """A file of definitions or proofs: the lines of each item, and where the names come from that it imports."""

    def __init__(self, path):
        self.items, self.imported, self.short, module, scopes, item = {}, {}, {}, [], [0], None
        for line in read(path).splitlines():
            indent, text = len(line) - len(line.lstrip()), line.strip()
            while text and indent < scopes[-1]:
                scopes.pop()
            if module or OPENS.match(text):
                # What a module takes is read by all in it, so it counts for the file.
                module.append(text)
                self.items.setdefault("", []).append(text)
                if text.endswith("where"):
                    scopes.append(scopes[-1] + 2)
                    module = []
                continue
            if IMPORT.match(text):
                continue
            if indent == scopes[-1] and text and not NO_ITEM.match(text):
                item = ITEM.match(text)[1] if ITEM.match(text) else item
            self.items.setdefault(item or "", []).append(re.sub(r"--.*", "", text))
        for where, names, short in re.findall(r"^ *(?:pub |unfoldable )*use ([\w.\-]+?)(?:\.\{([^}]*)\}| as (\w+))$", read(path), re.M):
            if short:
                self.short[short] = where
            for name in re.split(r",\s*", names.strip()) if names else []:
                there, _, here = name.partition(" as ")
                self.imported[here or there] = where, there


def module(path):
    """The name by which others import a file."""
    return "Rattle." + path[len("crates/"):-len(".antt")].replace("/", ".")


def declared(known, where, name, steps=12):
    """The file and the name under which a name that is seen in a file was declared, or None."""
    if where not in known or steps == 0:
        return None
    if name in known[where].items:
        return where, name
    return declared(known, *known[where].imported[name], steps - 1) if name in known[where].imported else None


def cited(known, where, text):
    """What a text in a file names."""
    for token in TOKEN.findall(text):
        parts = token.lstrip("λ¬").rstrip(".:").split(".")
        for end in range(1, len(parts) + 1):
            first, last = ".".join(parts[:end - 1]), parts[end - 1]
            yield declared(known, known[where].short.get(first, first) if first else where, last)


def of_code():
    """The definitions and lemmas that contracts and attributes of the code name."""
    for path in files("crates/*/src/**/*.rt"):
        text = read(path)
        for where, names in re.findall(r"ghost use ([\w.]+)\.\{([^}]*)\}", text):
            yield from ((where, name.partition(" as ")[0]) for name in re.split(r",\s*", names.strip()))
        for place, name in re.findall(r"crate::((?:proofs|specs)::[\w:]+)::(\w[\w'\-]*)", text):
            yield "Rattle.%s.%s" % (path.split("/")[1], place.replace("::", ".")), name
        yield from re.findall(r"(Rattle\.[\w.]+)\.([\w'\-]+)", re.sub(r"ghost use .*", "", text))


def unreached():
    """What no function's proof and no contract reaches, with its file."""
    paths = {module(path): path for path in files("crates/*/specs/**/*.antt", "crates/*/proofs/**/*.antt")}
    known = {name: File(path) for name, path in paths.items()}
    # The folder of a function has the answers of its goals.
    left = [(where, name) for where, path in paths.items() if path.count("/") > 3 for name in known[where].items]
    left += [(where, "") for where in known]
    left += [declared(known, where, name) for where, name in of_code()]
    reached = set()
    while left:
        item = left.pop()
        if item and item not in reached:
            reached.add(item)
            where, name = item
            left += [found for line in known[where].items.get(name, []) for found in cited(known, where, line)]
    return [(paths[where], name) for where in known for name in known[where].items
            if name and "◌" not in name and (where, name) not in reached and os.path.basename(paths[where]) != "Lib.antt"]
