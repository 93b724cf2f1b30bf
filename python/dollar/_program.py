"""Where the program is, and runs of it."""

from __future__ import annotations

import fcntl
import functools
import os
import shutil
import signal
import subprocess
import sys
import sysconfig
import tempfile
import weakref
from collections.abc import Iterable, Iterator, Sequence
from contextlib import ExitStack, contextmanager
from pathlib import Path
from typing import IO, Union

from dollar._vertices import seconds

Place = Union[str, "os.PathLike[str]"]

# The folder in which this package lies, and the folder of the clone that has it in `python`, if it is in one.
HOME = Path(__file__).resolve().parents[1]
CLONE = HOME.parent
# Whether it is in a clone, or unpacked from the tarball: what else is beside its folder is somebody else's.
IS_IN_CLONE = (HOME / "backend.py").is_file()
# How many seconds a page waits for an answer.
PATIENCE = 120.0
# Whether the program of a clone is built if it has to be.
may_build = False
# The runs of the program that are talked to through pipes.
piped: weakref.WeakSet[subprocess.Popen[bytes]] = weakref.WeakSet()


class Fault(Exception):
    """The program has refused what was asked, or could not do it.

    `text` is what it said, `status` its exit status, and `table` the number of the table in a sweep, from 0. `more` has what the program
    does not say: the file, the value, and the limit.

    >>> from dollar import Table, judge
    >>> try:
    ...     judge(Table([[0, 1], [1, 0]], [2_000_000, 0]))
    ... except Fault as fault:
    ...     print(fault)
    amount of vertex 0: 2000000, and only -1000000 to 1000000 is possible (status 3)
    """

    def __init__(self, text: str, status: int, table: int | None = None, more: str = "") -> None:
        super().__init__(text, status, table, more)
        self.text, self.status, self.table, self.more = text, status, table, more

    def __str__(self) -> str:
        place = "" if self.table is None else "table %d: " % self.table
        return "%s%s%s (status %d)" % (place, self.text, self.more and ": " + self.more, self.status)


class ProgramNotFound(FileNotFoundError):
    """There is no program `dollar` in any of the places that it may be in. `help(find_program)` has an example."""


def fault_of(said: bytes, status: int, otherwise: str = "") -> Fault:
    """The Fault of a program that ended with this status and has said this on standard error, or else nothing."""
    text = said.decode(errors="replace").strip() or otherwise
    return Fault(text[len("dollar: "):] if text.startswith("dollar: ") else text.partition("\n")[0], status)


def ended_by(status: int, answers: int) -> str:
    """How a program has ended that said nothing."""
    names = {each.value: each.name for each in signal.Signals}
    end = "ended" if status >= 0 else "was ended by %s" % names.get(-status, "signal %d" % -status)
    return "it %s after %d answer%s" % (end, answers, "" if answers == 1 else "s")


def is_new(program: Path) -> bool:
    """Whether the program of the clone is there, and no source is newer, as its script `dollar` has it."""
    sources = [CLONE / "crates.txt", *(folder for name in ("src", "specs", "proofs") for folder in CLONE.glob("crates/*/" + name))]
    return program.is_file() and subprocess.run(["find", *sources, "-newer", program, "-print", "-quit"], stdin=subprocess.DEVNULL,
                                                stdout=subprocess.PIPE).stdout == b""


@functools.lru_cache(maxsize=None)
def built() -> str:
    """The program of the clone. A proof takes minutes on all processors, so no call begins one, but only a command that somebody typed.
    This looks at all sources, and so it is done once."""
    program, script = CLONE / "crates" / "dollar" / "out" / "dollar", CLONE / "dollar"
    if may_build and subprocess.run([script, "--version"], stdin=subprocess.DEVNULL, stdout=subprocess.DEVNULL).returncode:
        raise ProgramNotFound("%s has built no program" % script)
    if not may_build and not is_new(program):
        raise ProgramNotFound("%s is not built, or older than its sources: run %s once, which proves and builds it, or name another program "
                              "by the variable DOLLAR or the parameter `program`" % (program, script))
    return str(program)


def beside() -> Iterator[Path]:
    """The folders in which the program is that was installed with this package: of the environment whose packages these are; of a
    target of pip; of a wheel that was unpacked; and of the tarball."""
    for scheme in sysconfig.get_scheme_names():
        paths = sysconfig.get_paths(scheme)
        if str(HOME) in {os.path.realpath(paths[of]) for of in ("purelib", "platlib")}:
            yield Path(paths["scripts"])
    yield HOME / "bin"
    yield from HOME.glob("dollar-*.data/scripts")
    if IS_IN_CLONE:
        yield CLONE


def find_program(program: Place | None = None) -> str:
    """The path of the program. It is the one that is given, or that the variable DOLLAR names; or the one that is built in this clone
    or was installed with the package; or the `dollar` on the PATH.

    >>> find_program("/nowhere/dollar")
    Traceback (most recent call last):
        ...
    dollar.ProgramNotFound: the parameter `program` names /nowhere/dollar, and no program is there
    """
    for given, whence in ((program, "the parameter `program`"), (os.environ.get("DOLLAR"), "the variable DOLLAR")):
        if given:
            found = shutil.which(os.fspath(given))
            if not found:
                raise ProgramNotFound("%s names %s, and no program is there" % (whence, os.fspath(given)))
            return os.path.abspath(found)
    if IS_IN_CLONE and (CLONE / "crates.txt").is_file():
        return built()
    found = shutil.which("dollar", path=os.pathsep.join(map(str, beside()))) or shutil.which("dollar")
    if not found:
        raise ProgramNotFound("there is no program `dollar` on the PATH; name it by the variable DOLLAR or the parameter `program`")
    return os.path.abspath(found)


def typed(command: str) -> str:
    """What somebody types for a command of this package, which its help and its errors call it by."""
    name = os.path.basename(sys.argv[0])
    if name in ("play", "dollar-board"):
        return "board/play" if name == "play" else name
    return "%s %s" % ("python3 " + sys.argv[0] if name == "dollar" else "python3 -m dollar", command)


@contextmanager
def command_line(words: Iterable[str | bytes], program: Place | None) -> Iterator[tuple[list[str], list[int]]]:
    """The command line of the program with these words, and the descriptors that the child must be handed. A word as bytes stands for
    a file with these bytes, which has no name of its own, so that none is left behind. Descriptors below 3 are the child's standard
    streams, even if they are closed here."""
    line, descriptors = [find_program(program)], []
    with ExitStack() as until:
        for word in words:
            if isinstance(word, bytes):
                file = until.enter_context(tempfile.TemporaryFile())
                file.write(word)
                file.flush()
                descriptors.append(fcntl.fcntl(file, fcntl.F_DUPFD_CLOEXEC, 3))
                until.callback(os.close, descriptors[-1])
                word = "/dev/fd/%d" % descriptors[-1]
            line.append(word)
        yield line, descriptors


def talk(line: Sequence[str], descriptors: Sequence[int], said: int | IO[bytes], buffer: int = -1) -> subprocess.Popen[bytes]:
    """A run of this command line with pipes to its input and from its output; what it says on standard error goes to `said`. An
    interrupt at the terminal, or of a notebook, is for Python and not for the run."""
    child = subprocess.Popen(line, bufsize=buffer, stdin=subprocess.PIPE, stdout=subprocess.PIPE, stderr=said, pass_fds=descriptors,
                             start_new_session=True)
    piped.add(child)
    return child


def let_go() -> None:
    """Has a process that was forked off hold no end of a pipe to a run of its parent: the run would wait for the end of its input
    until this process has ended too. Each descriptor stays taken, because the object that has it will close it."""
    for child in piped:
        for stream in (child.stdin, child.stdout, child.stderr):
            if stream is not None and not stream.closed:
                nothing = os.open(os.devnull, os.O_RDWR | os.O_CLOEXEC)
                os.dup2(nothing, stream.fileno(), inheritable=False)
                os.close(nothing)


os.register_at_fork(after_in_child=let_go)


def call(words: Sequence[str | bytes], program: Place | None = None,
         patience: float | None = None) -> tuple[bytes, bytes, int]:
    """What the program prints and says, and its status. A word as bytes stands for a file with these bytes. With `patience` it is
    killed after so many seconds, and a TimeoutError raised."""
    seconds(patience)
    with command_line(words, program) as (line, descriptors):
        try:
            done = subprocess.run(line, stdin=subprocess.DEVNULL, stdout=subprocess.PIPE, stderr=subprocess.PIPE,
                                  pass_fds=descriptors, timeout=patience)
        except subprocess.TimeoutExpired:
            raise TimeoutError("no answer for %s seconds" % patience) from None
    return done.stdout, done.stderr, done.returncode


def printed(*words: str | bytes, program: Place | None = None, patience: float | None = None) -> str:
    """What the program prints, or its Fault. A word as bytes stands for a file with these bytes."""
    out, said, status = call(words, program, patience)
    if status:
        raise fault_of(said, status, ended_by(status, 0))
    return out.decode()
