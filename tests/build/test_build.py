"""Builds that are ended at random moments, and each way in which a first run of ./dollar can fail: in a copy, with a toolchain that
proves nothing (kit.py). SEED=N gives the same moments again, as far as the machine does."""
import contextlib
import importlib.machinery
import importlib.util
import os
import random
import re
import shutil
import signal
import subprocess
import sys
import time
import types
from pathlib import Path

from helpers import HUNG, ROOT, Test, each, wait_until
from kit import own_sum, whole_sum

SEED = int(os.environ.get("SEED") or random.randrange(10000))
TOOLS = ["bash", "basename", "dirname", "env", "find", "grep", "mkdir", "mv", "nice", "python3", "readlink", "rm", "sh"]
NOBODY = 65534
# A Python that other users can run too.
PYTHON = "/usr/bin/python3" if os.path.exists("/usr/bin/python3") else sys.executable
KEPT = "dollar: interrupted; what is proved is kept, and the next call goes on from there\n"
ENDED = {signal.SIGINT: 130, signal.SIGTERM: 143, signal.SIGHUP: 129}
BUILT = 25  # The crates of the program and of the library for C.


def crates():
    lines = (line.partition(":") for line in (ROOT / "crates.txt").read_text().splitlines() if ":" in line and line[0] != "#")
    return {name.split()[0]: rest.split() for name, _, rest in lines}


def is_running(number):
    """Whether a process has not ended yet."""
    try:
        return "\nState:\tZ" not in Path(f"/proc/{number}/status").read_text()
    except OSError:
        return False


class OfBuilds(Test):
    def setUp(self):
        self.top = self.folder()
        self.top.chmod(0o755)
        self.tree, self.kit, self.tools = (self.top / name for name in ("tree", "kit", "tools"))
        tools = "build", "repository.py", "seconds", "store.py", "toolchain.py", "unproved"
        for path in "crates.txt", "dollar", *("tools/" + name for name in tools):
            (self.tree / path).parent.mkdir(parents=True, exist_ok=True)
            shutil.copy(ROOT / path, self.tree / path)
        for name in crates():
            for part in "src", "specs", "proofs":
                (self.tree / "crates" / name / part).mkdir(parents=True)
            (self.tree / "crates" / name / "src" / ("main.rt" if name == "dollar" else "lib.rt")).write_text(f"// {name}\n")
        for name in "bin/rt", "bin/rattle", "bin/rattle-link", "toolchain/bin/ld.lld":
            (self.kit / name).parent.mkdir(parents=True, exist_ok=True)
            (self.kit / name).write_text(f"#!{PYTHON} -S\n" + Path(__file__).with_name("kit.py").read_text())
            (self.kit / name).chmod(0o755)
        self.tools.mkdir()
        for name in TOOLS:
            (self.tools / name).symlink_to(PYTHON if name == "python3" else shutil.which(name))
        self.made = self.tree / "out" / "build"
        # A place where no store can be.
        self.caches = Path("/dev/null")

    def begun(self, *words, without="", pace=0, fault="", **options):
        """Starts a command, the script if none is given, in a group of its own and without a tool."""
        (self.tools / (without or "nothing")).unlink(missing_ok=True)
        path = f"{self.tools}:{self.kit / 'bin'}" if without != "rt" else str(self.tools)
        return subprocess.Popen(list(map(str, words or [self.tree / "dollar"])), stdin=subprocess.DEVNULL, stdout=subprocess.PIPE,
                                stderr=subprocess.PIPE, text=True, start_new_session=True,
                                env={"PATH": path, "PACE": str(pace), "FAULT": fault, "XDG_CACHE_HOME": str(self.caches)}, **options)

    def run_of(self, *words, **options):
        """What a command prints, what it says, and its status."""
        child = self.begun(*words, **options)
        out, said = child.communicate(timeout=HUNG)
        self.assertNotIn("Traceback", said)
        return out, said, child.returncode

    def builds(self, **options):
        """Sees that the script builds the program of these files."""
        sums = {}
        for name, libraries in crates().items():
            below = {lower for library in libraries if library in sums for lower in [library, *sums[library][1]]}
            sums[name] = whole_sum(own_sum(self.tree / "crates" / name), {lower: sums[lower][0] for lower in below}), below
        out, said, status = self.run_of(**options)
        self.assertEqual((out, status), (sums["dollar"][0] + "\n", 0), said)
        return said

    def fails(self, text, status=1, **options):
        """Sees that the script says this in one line, and ends so."""
        out, said, found = self.run_of(**options)
        *before, last = said.splitlines()
        self.assertRegex(last, text)
        self.assertEqual((out, found), ("", status), said)
        return before

    def edit(self, name):
        """Edits a crate, and gives what takes that back."""
        file = next((self.tree / "crates" / name / "src").iterdir())
        text = file.read_text()
        file.write_text(f"{text}// {random.random()}\n")
        return lambda: file.write_text(text)

    def elsewhere(self):
        """Goes on in another checkout of the files as they are."""
        other = Path(self.folder()) / "tree"
        shutil.copytree(self.tree, other, ignore=shutil.ignore_patterns("out"))
        self.tree, self.made = other, other / "out" / "build"

    def held(self, fault="held"):
        """Starts a build, in which the process of the toolchain that makes dg_rank waits until the file is gone that this gives."""
        child, file = self.begun(fault=fault), self.made / "held"
        wait_until(lambda: file.exists() or child.poll() is not None)
        return child, file

    def end(self, child, number):
        """Ends a build after its first line, at a random moment, and gives what it says. Whoever has a pipe to it ends with it."""
        first = child.stderr.readline()
        time.sleep(random.uniform(0, 0.8))
        with contextlib.suppress(ProcessLookupError):
            os.killpg(child.pid, number)
        return first + child.communicate(timeout=HUNG)[1]

    def test_builds_that_are_ended_at_random_moments(self):
        """Every other turn is in another checkout."""
        random.seed(SEED)
        self.caches = self.top / "caches"
        names = [name for name in crates() if (self.tree / "crates" / name).exists() and "_tests" not in name]
        for turn in range(12):
            with self.subTest(f"SEED={SEED}", turn=turn):
                for _ in range(random.randrange(1, 4)):
                    back = self.edit(random.choice(names))
                    number = random.choice([signal.SIGKILL, *ENDED])
                    said = self.end(self.begun(pace=0.03), number)
                    self.assertNotIn("Traceback", said)
                    self.assertTrue(number == signal.SIGKILL or said.endswith((KEPT, " left\n", " done\n", "/dollar\n")) or not said, said)
                    if random.random() < 0.6:
                        back()
                if turn % 2:
                    self.elsewhere()
                self.builds()

    def test_another_checkout(self):
        """It takes what is proved, also from a third, and what is edited there changes nothing for the first."""
        self.caches, first = self.top / "caches", self.tree
        self.builds()
        taken = f"crates were proved in another checkout, and are taken from {self.caches}/dollar\n"
        self.elsewhere()
        self.assertEqual(self.builds(), f"dollar: {BUILT} of {BUILT} {taken}")
        # Packages are linked from it.
        self.assertTrue((self.tree / "out" / "build" / "dollar.o").exists())
        self.edit("dg_cli")
        self.assertIn(f"its crates are proved: {BUILT - 3} of {BUILT}, ", self.builds())
        self.elsewhere()
        self.edit("dollar")
        self.assertIn(f"dollar: {BUILT - 1} of {BUILT} {taken}", self.builds())
        self.tree = first
        self.assertEqual(self.builds(), "")
        self.elsewhere()
        self.assertIn(f"dollar: {BUILT - 1} of {BUILT} {taken}", self.builds())

    def test_rt_takes_what_is_built(self):
        """Each library lies where `rt` looks for it, with the sum by which it takes it, also once `rt` has put its own there."""
        (self.kit / "bin" / "rtlib.py").write_text(
            "class Crate:\n def __init__(self, folder, root, known):\n"
            "  self.folder, self.rlib = folder, folder + '/out/rlib/' + folder.split('/')[-1] + '.rlib'\n"
            " def stamp(self):\n  return 'of ' + self.folder.split('/')[-1]\n")
        self.builds()
        own = self.tree / "crates" / "dg_chips" / "out" / "rlib"
        shutil.rmtree(own)
        (own / "dg_chips.rlib").mkdir(parents=True)
        self.edit("dg_rank")
        self.builds()
        for library in self.made.glob("*.rlib"):
            lent = self.tree / "crates" / library.stem / "out" / "rlib"
            self.assertEqual((lent / "stamp").read_text(), "of " + library.stem)
            self.assertEqual((lent / library.name / "format").read_text(), (library / "format").read_text())

    def test_the_last_two_states_are_kept(self):
        self.caches = self.top / "caches"
        for _ in range(4):
            self.edit("dg_theory")
            self.edit("dg_system")
            self.builds()
        kept = [len([*folder.iterdir()]) for folder in (self.caches / "dollar").iterdir()]
        self.assertEqual(kept, [3] * (BUILT + 1), "two states and a lock, of each crate and of the program's object")

    @each(list(ENDED.items()))
    def test_a_build_that_is_ended_says_what_is_kept(self, number, status):
        for path in "out", "crates/dollar/out":
            shutil.rmtree(self.tree / path, ignore_errors=True)
        child = self.begun(self.tree / "tools" / "build", pace=5)
        self.assertEqual((self.end(child, number)[-len(KEPT):], child.returncode), (KEPT, status))
        self.assertIn(f"its crates are proved: {len([*self.made.glob('*.sum')])} of {BUILT}, ", self.builds())

    def test_a_build_that_is_killed_takes_its_processes_along(self):
        """The process of the toolchain, which would wait for ever, and one that it has started."""
        child, file = self.held()
        wait_until(lambda: " " in file.read_text())
        one, other = file.read_text().split()
        os.killpg(child.pid, signal.SIGKILL)
        child.communicate(timeout=HUNG)
        wait_until(lambda: not is_running(one) and not is_running(other))
        file.unlink()
        self.assertNotIn("is waited for", self.builds())

    def test_an_edit_that_is_taken_back_after_a_kill(self):
        """The process of the toolchain was told to end, and yet makes the crate of the edited file. Then one far above is edited."""
        self.builds()
        back = self.edit("dg_rank")
        child, file = self.held("deaf")
        os.killpg(child.pid, signal.SIGKILL)
        child.communicate()
        back()
        self.edit("dollar")
        file.unlink()
        self.assertIn(f"its crates are proved: {BUILT - 2} of {BUILT}, ", self.builds(pace=0.3))

    def test_an_edit_during_a_build(self):
        """What was edited while it was made is made again, even if the edit was taken back in time."""
        self.builds()
        self.edit("dg_theory")
        child = self.begun(pace=0.1)
        child.stderr.readline()
        back = self.edit("dg_cli")
        child.stderr.readline()
        child.communicate()
        back()
        self.builds()

    def test_one_that_another_build_is_waited_for(self):
        first, file = self.held()
        second = self.begun()
        self.assertRegex(second.stderr.readline(), "^dollar: a build that was begun here is still running, and is waited for: [0-9]+ of "
                                                   f"{BUILT} are proved\n$")
        os.killpg(second.pid, signal.SIGINT)
        self.assertEqual((second.communicate()[1], second.returncode), (KEPT, -signal.SIGINT))
        file.unlink()
        self.assertEqual(first.communicate(timeout=HUNG)[1].splitlines()[-1], f"dollar: {BUILT} of {BUILT}, done")
        self.assertEqual(self.builds(), "")

    def test_the_first_lines(self):
        first, second, *more = (line for line in self.builds().splitlines() if " processors at a time" not in line)
        self.assertEqual(first, "dollar: for a first answer without any proof, in two minutes or more: ./dollar --unproved ..")
        self.assertRegex(second, f"^dollar: the program is missing, and its crates are proved: 0 of {BUILT}, some [0-9]+ minutes left$")
        self.assertEqual(more, sorted(more, key=lambda line: int(line.split()[1])))
        self.assertEqual(more[-1], f"dollar: {BUILT} of {BUILT}, done")

    def test_no_toolchain(self):
        self.assertEqual(self.fails("'rt', the toolchain of Rattle, is not on the PATH; 'How to get it' in README.md", without="rt"), [])
        _, said, status = self.run_of(self.tree / "dollar", "--unproved", "judge", without="rt")
        self.assertEqual((said.count("\n"), status), (1, 1))

    @each([("judge t.json --divisors=l.txt", "judge /t.json --divisors=/l.txt"),
           ("judge t.json --divisors l.txt", "judge /t.json --divisors /l.txt"),
           ("rank t.json 2", "rank /t.json 2"), ("rank --workers 2 t.json 3", "rank --workers 2 /t.json 3"), ("judge 2", "judge /2"),
           ("judge missing --divisors=missing", "judge missing --divisors=missing"), ("t.json", "t.json")])
    def test_the_files_of_a_run_without_proof(self, typed, wanted):
        """The program runs elsewhere, and so is given their whole paths."""
        here = Path(os.path.realpath(self.folder()))
        for name in "t.json", "l.txt", "2":
            (here / name).touch()
        out, said, status = self.run_of(self.tree / "dollar", "--unproved", *typed.split(), cwd=here)
        self.assertEqual((out.split(), status), (wanted.replace("/", f"{here}/").split(), 0))
        self.assertIn("dollar: not proved", said)

    @each(["--version", "-V"])
    def test_no_version_without_proof(self, word):
        out, said, status = self.run_of(self.tree / "dollar", "--unproved", word)
        self.assertEqual((out, status), ("", 2))
        self.assertRegex(said, "^dollar: with --unproved nothing is proved, .*\n$")

    def test_a_toolchain_that_does_not_run(self):
        (self.kit / "bin" / "rt").write_text("#!/bin/sh\nexit 3\n")
        self.assertEqual(self.fails("the toolchain can't be run: "), [])
        (self.kit / "bin" / "rt").chmod(0o644)
        self.assertEqual(self.fails("the toolchain can't be run: "), [])

    def test_no_python(self):
        self.assertEqual(self.fails("'python3', which takes part in that, is not on the PATH", without="python3"), [])

    @each([("no proof", "dg_rank is not proved; what the toolchain says is in out/build/dg_rank.log"),
           ("logic=proved\ncannot write the rlib: No space left on device (os error 28)", "the disk is full: there is no room for dg_rank;"),
           ("cannot write the rlib: Disk quota exceeded (os error 122)", "the disk is full: there is no room for dg_rank;"),
           ("killed", "dg_rank is not proved: its process was killed, perhaps because memory was short")])
    def test_a_crate_that_is_not_proved(self, fault, text):
        self.edit("dg_rank")
        self.fails(text, fault=fault)
        self.builds()

    def as_nobody(self):
        """The options for a run of another user, or of this one without the right to write."""
        if os.geteuid() == 0:
            return {"user": NOBODY, "group": NOBODY, "extra_groups": []}
        subprocess.run(["chmod", "-R", "a-w", self.tree], check=True)
        self.addCleanup(subprocess.run, ["chmod", "-R", "u+w", self.tree])
        return {}

    def test_a_folder_that_cannot_be_written(self):
        self.assertEqual(self.fails("the program can't be built here: .Errno 13. Permission denied", **self.as_nobody()), [])

    def test_a_checkout_of_somebody_else(self):
        self.builds()
        self.edit("dollar")
        self.assertEqual(self.fails("the program can't be built here: .Errno 13. Permission denied", **self.as_nobody()), [])

    def mounted(self, *options):
        """A file system of its own in the place of `out`, for as long as the test."""
        (self.tree / "out").mkdir()
        done = subprocess.run(["mount", "-t", "tmpfs", *options, "tmpfs", self.tree / "out"], stderr=subprocess.DEVNULL)
        if done.returncode:
            self.skipTest("a build on a disk that is full or can't be written, for want of root")
        self.addCleanup(subprocess.run, ["umount", "-l", self.tree / "out"])

    def test_a_disk_that_is_full(self):
        self.mounted("-o", "size=160k")
        with open(self.tree / "out" / "filler", "wb", buffering=0) as filler:
            filler.write(bytes(100_000))
        self.fails("the disk is full|No space left on device")
        (self.tree / "out" / "filler").unlink()
        subprocess.run(["mount", "-o", "remount,size=10m", self.tree / "out"], check=True)
        self.builds()

    def test_a_disk_that_cannot_be_written(self):
        self.mounted("-o", "ro")
        self.assertEqual(self.fails("the program can't be built here: .Errno 30. Read-only file system"), [])

    def module(self):
        """The script as a module."""
        loader = importlib.machinery.SourceFileLoader("build", str(self.tree / "tools" / "build"))
        module = importlib.util.module_from_spec(importlib.util.spec_from_loader("build", loader))
        sys.modules.pop("repository", None)
        self.addCleanup(sys.path.remove, str(self.tree / "tools"))
        sys.path.insert(0, str(self.tree / "tools"))
        loader.exec_module(module)
        return module

    def begun_with(self, change, **options):
        """Starts a build by the script as a module, in which something is changed."""
        script = self.script("import importlib.machinery, importlib.util, pathlib, sys\nsys.path.insert(0, sys.argv[1])\n"
                             "loader = importlib.machinery.SourceFileLoader('build', sys.argv[1] + '/build')\n"
                             "build = importlib.util.module_from_spec(importlib.util.spec_from_loader('build', loader))\n"
                             f"loader.exec_module(build)\n{change}\nsys.exit(build.main())\n")
        return self.begun(sys.executable, "-B", script, self.tree / "tools", **options)

    @each([(5, 1), (8, 2), (1, 1)])
    def test_little_memory(self, free, count):
        """A build says first that it takes fewer processors than there are."""
        file = self.top / "meminfo"
        file.write_text(f"MemAvailable: {free * 10 ** 6} kB\n")
        child = self.begun_with(f"build.MEMINFO = pathlib.Path({str(file)!r})\nbuild.GROUP = build.MEMINFO / 'none'\n"
                                "build.os.sched_getaffinity = lambda number: range(4)", fault="no proof")
        first = child.communicate()[1].splitlines()[0]
        self.assertEqual(first, f"dollar: {count} of 4 processors at a time, since a proof may take 3 GB of memory, and "
                                f"{free * 1.024:.1f} GB are free")

    @each([1, 2, 4])
    def test_the_minutes_that_are_left(self, slower):
        """On one processor that takes so many times as long as tools/seconds says. If that is once, they fall, but for a minute. While the
        last crate is late, they are no more than a third of the time that it has taken."""
        module, now = self.module(), [0]
        module.time, module.processors = types.SimpleNamespace(monotonic=lambda: now[0]), lambda: 1
        clock, said = module.Clock(set()), []
        for name in module.CRATES:
            clock.starts[name], end = now[0], now[0] + clock.seconds[name] * slower + 3600 * (name == "dollar")
            while now[0] < end:
                now[0] = min(end, now[0] + 30)
                said.append(int(re.search("some ([0-9]+) minutes left|$", str(clock))[1] or 1))
                if slower == 1 and name != "dollar":
                    self.assertLessEqual(said[-1], min(said) + 1)
                if name == "dollar":
                    passed = now[0] - clock.starts[name]
                    self.assertLessEqual(said[-1], 2 + max(clock.seconds[name] * slower, passed / 3) / 60)
            clock.done.add(name)
        self.assertGreater(said[0], 20)

    def test_a_line_comes_in_time(self):
        """Also if no crate is done."""
        child = self.begun_with("build.PATIENCE = 0.1", pace=1000)
        lines = [line for line in (child.stderr.readline() for _ in range(6)) if " processors at a time" not in line][:5]
        os.killpg(child.pid, signal.SIGINT)
        child.communicate()
        self.assertEqual([line.split(",")[0] for line in lines[2:]], [f"dollar: 0 of {BUILT}"] * 3)

    @each([("0::/a/b\n", {"a/b/memory.max": "max\n", "a/memory.max": "5000000000\n", "a/memory.current": "1500000000\n",
                          "a/memory.stat": "anon 7\ninactive_file 500000000\n"}, 4000000000),
           ("0::/a\n", {"memory.max": "7000000000\n", "memory.current": "6000000000\n", "memory.stat": ""}, 1000000000),
           ("4:memory:/of/docker\n0::/\n", {"memory/memory.limit_in_bytes": "3000000000\n", "memory/memory.usage_in_bytes": "1000000\n",
                                            "memory/memory.stat": "inactive_file 5\ntotal_inactive_file 1000\n"}, 2999001000),
           ("4:memory:/a\n", {"memory/a/memory.limit_in_bytes": "9223372036854771712\n", "memory/a/memory.usage_in_bytes": "1\n",
                              "memory/a/memory.stat": ""}, 9000000000 // 1024 * 1024),
           ("", {}, 9000000000 // 1024 * 1024)])
    def test_the_memory_of_a_container(self, group, files, free):
        module, folder = self.module(), self.folder()
        for path, text in {"group": group, "meminfo": f"MemFree: 5 kB\nMemAvailable: {9000000000 // 1024} kB\n", **files}.items():
            (folder / path).parent.mkdir(parents=True, exist_ok=True)
            (folder / path).write_text(text)
        module.GROUP, module.MEMINFO, module.GROUPS = folder / "group", folder / "meminfo", folder
        self.assertEqual(module.free_memory(), free)
        self.assertEqual(module.processors(), min(len(os.sched_getaffinity(0)), max(1, free // 3_000_000_000)))
