"""What tools read of the repository: its files, its crates, and the functions and exports of a crate's code. Paths are from its
top."""
import functools
import glob
import os
import re
import shutil
import subprocess

TOP = os.path.dirname(os.path.dirname(os.path.abspath(__file__)))


def read(path):
    with open(os.path.join(TOP, path), encoding="utf-8") as file:
        return file.read()


def files(*patterns):
    """The files that fit, without what is made."""
    found = (os.path.relpath(path, TOP) for pattern in patterns
             for path in glob.glob(os.path.join(TOP, pattern), recursive=True))
    return sorted(path for path in found if os.path.isfile(os.path.join(TOP, path))
                  and not {"out", "__pycache__"} & set(path.split("/")))


def tracked():
    """The files that git knows, or without git all that are here."""
    words = ["git", "-C", TOP, "ls-files"]
    done = subprocess.run(words, stdout=subprocess.PIPE, stderr=subprocess.DEVNULL, text=True) if shutil.which("git") else None
    return done.stdout.splitlines() if done and done.returncode == 0 else files("**/*", ".*", ".ci/*")


def crates():
    """The crates in crates.txt, from bottom to top, each with its libraries."""
    lines = (line.split("#")[0].strip() for line in read("crates.txt").splitlines())
    return {name.split()[0]: rest.split() for name, _, rest in (line.partition(":") for line in lines if line)}


def below(*names):
    """The crates that these stand on, and they themselves, from bottom to top, each with its libraries."""
    found, wanted = {}, set(names)
    for name, libraries in reversed(crates().items()):
        if name in wanted:
            found[name] = libraries
            wanted |= set(libraries)
    return dict(reversed(found.items()))


def is_of_tests(crate):
    return crate.endswith("_tests")


def code(crate):
    return files(f"crates/{crate}/src/**/*.rt")


@functools.lru_cache(maxsize=None)
def without_comments(path):
    return re.sub(r"//.*", "", read(path))


def uses(crate):
    """What a crate of the program exports, also by its public modules: the path of the crate or module, the name there, and the
    path of what that stands for."""
    root = f"crates/{crate}/src/lib.rt"
    if is_of_tests(crate) or not os.path.exists(os.path.join(TOP, root)):
        return
    modules = {crate: root}
    for name in re.findall(r"^pub mod (\w+);", without_comments(root), re.M):
        modules[f"{crate}::{name}"] = f"crates/{crate}/src/{name}.rt"
    for module, path in modules.items():
        for source, several, one in re.findall(r"^pub use ([\w:]+)::(?:\{([^}]*)\}|([\w ]+));", without_comments(path), re.M):
            for name, other in re.findall(r"(\w+)(?: as (\w+))?", several or one):
                yield module, other or name, f"{source}::{name}"


def exports():
    """Names that a crate of the program exports, also those of its public modules."""
    return ((crate, name) for crate in crates() for _, name, _ in uses(crate))


def body(text):
    """Where the body of a function begins, whose text this is: at the brace on a line of its own after a contract, or at the end of
    the signature."""
    indent = re.match(r" *", text)[0]
    found = re.search(rf"^{indent}\{{", text, re.M) or re.search(r"\{$", text, re.M)
    return found.start() if found else 0


def functions(text):
    """The functions in a file, each as its name, whether it is public, the type it belongs to, and where it begins and ends."""
    starts = [(found.start(), found[2], bool(found[1]))
              for found in re.finditer(r"^ *(pub )?(?:unsafe |const )*fn (\w+)", text, re.M)]
    types = [(found.start(), found[1])
             for found in re.finditer(r"^impl(?:<[^>]*>)? (?:\w+(?:<[^{]*>)? for )?(\w+)", text, re.M)]
    for (begin, name, is_public), end in zip(starts, [start for start, _, _ in starts[1:]] + [len(text)]):
        owner = [own for start, own in types if start < begin] if text[begin] == " " else []
        yield name, is_public, owner[-1] if owner else "", begin, end


# A public item: the word for it, its name, and what it has between braces on lines of their own.
ITEM = re.compile(r"^pub (?:unsafe |const )*(struct|enum|trait|type|fn|const|static) (\w+)(?:[^;{]*\{\n(.*?)^\})?", re.M | re.S)
KINDS = {"fn": "function", "const": "constant", "static": "constant"}
# The public members of an item by the word for it: their kinds, and how they begin.
MEMBERS = {"enum": {"variant": r"^    ([A-Z]\w*)"}, "struct": {"field": r"^    pub (\w+):"},
           "trait": {"method": r"^    fn (\w+)", "type": r"^    type (\w+)"}}


@functools.lru_cache(maxsize=None)
def defined(crate):
    """What a crate defines: for each public name its kind, and its members, each as a kind and a name."""
    found = {}
    for word, name, inside in ITEM.findall("".join(map(without_comments, code(crate)))):
        found[name] = KINDS.get(word, "type"), {(kind, member) for kind, form in MEMBERS.get(word, {}).items()
                                                for member in re.findall(form, inside, re.M)}
    for path in code(crate):
        for name, is_public, owner, _, _ in functions(without_comments(path)):
            if is_public and owner in found:
                found[owner][1].add(("method", name))
    return found


def public_names():
    """The public names of the program's crates and of the members of their types, each as its kind and its path: a crate also has
    those that it exports from a crate below."""
    meant, found = {}, set()
    for crate in crates():
        for module, name, source in uses(crate):
            own = source.split("::")
            home = meant.get(source) or (own[0] if own[0] in crates() else crate, own[-1])
            kind, members = defined(home[0]).get(home[1], ("type", set()))
            meant[f"{module}::{name}"] = home
            found.add((kind, f"{module}::{name}"))
            found |= {(kind, f"{module}::{name}::{member}") for kind, member in members}
    return found
