"""A toolchain that proves nothing, so that builds can be tried in no time. Like the real one it refuses a library that was made over
another build of a crate than the one that is there."""
import hashlib
import json
import os
import random
import signal
import sys
import time
from pathlib import Path


def sum_of(rows):
    return hashlib.sha256("\n".join(rows).encode()).hexdigest()


def own_sum(crate):
    """The sum of a crate's files, in the folder of the crate."""
    return sum_of(f"{file.relative_to(crate)} {file.read_text()}" for file in sorted(crate.rglob("*.*t")) if "out" not in file.parts)


def whole_sum(own, below):
    """The sum of a crate, and with it of all below."""
    return sum_of([own, *(below[name] for name in sorted(below))])


def written(place, text):
    """Writes a file in two parts, and waits in between."""
    with open(place, "w") as file:
        file.write(text[:len(text) // 2])
        file.flush()
        wait()
        file.write(text[len(text) // 2:])


def wait():
    time.sleep(random.uniform(0, 2 * float(os.environ.get("PACE", 0))))


def hold(file, is_deaf):
    """Waits, with a process of its own as the toolchain has some, until the file is gone in which their numbers are. Who is deaf is
    not ended by SIGTERM."""
    signal.signal(signal.SIGTERM, signal.SIG_IGN if is_deaf else signal.SIG_DFL)
    file.write_text(f"{os.getpid()}")
    other = os.fork()
    if other:
        file.write_text(f"{os.getpid()} {other}")
    while file.exists():
        time.sleep(0.01)
    if not other:
        os._exit(0)
    os.waitpid(other, 0)


def read(library):
    """What a library, which is a folder, holds."""
    return json.loads((library / "format").read_text())


def rattle(words):
    """Makes a crate, in whose folder it runs."""
    name, out = (words[words.index(word) + 1] for word in ("--crate-name", "-o"))
    own, below = own_sum(Path.cwd()), {}
    made = Path(next(word for word in words if word.endswith("/out/build")).partition("=")[2])
    fault = os.environ.get("FAULT", "") if name == "dg_rank" else ""
    if fault == "killed":
        os.kill(os.getpid(), signal.SIGKILL)
    if fault in ("held", "deaf"):
        hold(made / "held", fault == "deaf")
    elif fault:
        sys.exit(fault)
    wait()
    for place in (Path(word.partition("=")[2]) for word in words if "=" in word and word.endswith(".rlib")):
        if place.parent == made:
            library = read(place)
            for lower, sum_ in {**library["below"], place.stem: library["sum"]}.items():
                if read(made / f"{lower}.rlib")["sum"] != sum_:
                    sys.exit(f"{place.name} holds statements that were proved over another build of {lower}")
                below[lower] = sum_
    if out.endswith(".rlib"):
        os.makedirs(out, exist_ok=True)
        out += "/format"
    written(out, json.dumps({"sum": whole_sum(own, below), "below": below, "all the rest": "." * 4000}))


def link(words):
    """Makes the program, which prints its sum."""
    *_, out, object_, _, _ = words
    written(out, "#!/bin/sh\necho %s\n" % json.loads(Path(object_).read_text())["sum"])
    os.chmod(out, 0o755)


def link_for_c(words):
    """Makes the library for C, which is its sum."""
    written(words[words.index("-o") + 1], json.loads(Path(words[words.index("--whole-archive") + 1]).read_text())["sum"])


def rt(words):
    if words[0] == "try":
        print("\n".join(words[words.index("--") + 1:]))
        return
    print({"doc": Path(__file__).resolve().parents[1] / "guide.md", "version": "rattle-of-tests"}[words[0]])


if __name__ == "__main__":
    {"rattle": rattle, "rattle-link": link, "ld.lld": link_for_c, "rt": rt}[os.path.basename(sys.argv[0])](sys.argv[1:])
