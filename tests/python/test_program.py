"""Which program runs: never one that only lies beside the package, and none is proved by a call. And what commands call themselves."""
import os
import re
import shutil
import subprocess
import sys

from helpers import PACKAGE, Test, each, program

FOUND = "import dollar; print(dollar.find_program())"
STRANGER = "#!/bin/sh\necho a stranger runs >&2\nexit 9\n"


class OfFindingIt(Test):
    def put(self, place, text=None):
        """A file that can be run: the program itself, or a script."""
        place.parent.mkdir(parents=True, exist_ok=True)
        if text is None:
            shutil.copy(program(), place)
        else:
            place.write_text(text)
        place.chmod(0o755)
        return str(place)

    def package(self, folder):
        """A copy of the package in a folder, around which somebody has put another program, as a clone has it."""
        shutil.copytree(PACKAGE / "dollar", folder / "dollar", ignore=shutil.ignore_patterns("__pycache__"))
        (folder.parent / "crates.txt").touch()
        self.put(folder.parent / "dollar", STRANGER)
        return folder

    def found(self, folder, words=FOUND, path="/usr/bin:/bin", **more):
        environment = {"PYTHONPATH": str(folder), "PATH": path, "HOME": str(self.folder()), **more}
        return subprocess.run([sys.executable, "-B", "-c", words], stdout=subprocess.PIPE, stderr=subprocess.PIPE, text=True, env=environment,
                              cwd="/")

    def test_a_target_of_pip(self):
        folder = self.package(self.folder() / "target")
        own = self.put(folder / "bin" / "dollar")
        self.assertEqual(self.found(folder).stdout, own + "\n")

    def test_a_wheel_that_was_unpacked(self):
        folder = self.package(self.folder() / "wheel")
        own = self.put(folder / "dollar-9.9.9.data" / "scripts" / "dollar")
        self.assertEqual(self.found(folder).stdout, own + "\n")

    def test_the_packages_of_a_user(self):
        home = self.folder()
        site = subprocess.run([sys.executable, "-c", "import site; print(site.getusersitepackages())"], stdout=subprocess.PIPE, text=True,
                              env={"HOME": str(home)}).stdout.strip()
        os.makedirs(site)
        folder = self.package(home.__class__(site))
        own = self.put(home / ".local" / "bin" / "dollar")
        # Another that is installed for all comes first on the PATH.
        other = self.put(self.folder() / "dollar", STRANGER)
        self.assertEqual(self.found(folder, path=os.path.dirname(other), HOME=str(home)).stdout, own + "\n")

    def test_a_package_alone_takes_the_path(self):
        folder = self.package(self.folder() / "alone")
        own = self.put(self.folder() / "dollar")
        self.assertEqual(self.found(folder, path=os.path.dirname(own)).stdout, own + "\n")
        done = self.found(folder)
        self.assertIn("there is no program `dollar` on the PATH; name it by the variable DOLLAR or the parameter `program`", done.stderr)
        self.assertNotIn("a stranger runs", done.stderr)

    def test_the_tarball(self):
        folder = self.folder() / "share" / "dollar" / "python"
        self.package(folder)
        (folder / "backend.py").touch()
        (folder.parent / "crates.txt").unlink()
        own = self.put(folder.parent / "dollar")
        self.assertEqual(self.found(folder).stdout, own + "\n")


class OfAClone(Test):
    def clone(self):
        """What looks like a clone that has never been built, whose script would build for half an hour."""
        top = self.folder()
        shutil.copytree(PACKAGE, top / "python", ignore=shutil.ignore_patterns("__pycache__"))
        (top / "crates" / "dg_one" / "src").mkdir(parents=True)
        (top / "crates.txt").write_text("dg_one:\n")
        (top / "dollar").write_text("#!/bin/sh\necho begun >> %s/begun\n[ -x %s ] || exit 1\n" % (top, top / "crates/dollar/out/dollar"))
        (top / "dollar").chmod(0o755)
        return top

    def run_in(self, top, *words):
        return subprocess.run([sys.executable, "-B", *words], stdout=subprocess.PIPE, stderr=subprocess.PIPE, text=True, cwd=top,
                              env={"PYTHONPATH": str(top / "python"), "PATH": os.environ["PATH"]})

    def test_no_call_begins_a_proof(self):
        top = self.clone()
        for words in (FOUND, "import dollar; dollar.judge({'vertices': ['a'], 'edges': [], 'amounts': [0], 'q': 'a'})"):
            done = self.run_in(top, "-c", words)
            self.assertIn("is not built, or older than its sources: run %s once, which proves and builds it" % (top / "dollar"), done.stderr)
            self.assertEqual(done.returncode, 1)
        self.assertFalse((top / "begun").exists())
        built = top / "crates" / "dollar" / "out" / "dollar"
        built.parent.mkdir(parents=True)
        shutil.copy(program(), built)
        self.assertEqual(self.run_in(top, "-c", FOUND).stdout, "%s\n" % built)
        # A source that is newer.
        later = built.stat().st_mtime + 10
        (top / "crates" / "dg_one" / "src" / "lib.rt").touch()
        os.utime(top / "crates" / "dg_one" / "src" / "lib.rt", (later, later))
        self.assertIn("is not built, or older than its sources", self.run_in(top, "-c", FOUND).stderr)
        self.assertFalse((top / "begun").exists())

    def test_a_command_that_somebody_typed_may(self):
        top = self.clone()
        (top / "table.json").write_text('{"vertices": ["a"], "edges": [], "amounts": [0], "q": "a"}')
        done = self.run_in(top, "-m", "dollar", "draw", "table.json")
        self.assertEqual((done.stderr, done.returncode), ("python3 -m dollar draw: %s has built no program\n" % (top / "dollar"), 1))
        self.assertEqual((top / "begun").read_text(), "begun\n")


class OfTheirNames(Test):
    @each(["draw", "json", "sweep", "board", "replay"])
    def test_help_and_errors_have_what_is_typed(self, command):
        for words, name in ((["-m", "dollar"], "python3 -m dollar"), (["python/dollar"], "python3 python/dollar")):
            done = subprocess.run([sys.executable, "-B", *words, command, "--help"], stdout=subprocess.PIPE, text=True, cwd=PACKAGE.parent,
                                  env=dict(os.environ, PYTHONPATH=str(PACKAGE)))
            usage = done.stdout.split("\n")[0]
            self.assertTrue(usage.startswith("usage: ") and "%s %s" % (name, command) in usage, usage)
            done = subprocess.run([sys.executable, "-B", *words, command, "--nonsense"], stderr=subprocess.PIPE, text=True, cwd=PACKAGE.parent,
                                  env=dict(os.environ, PYTHONPATH=str(PACKAGE)))
            self.assertIn("%s %s: error: " % (name, command), done.stderr)
            self.assertEqual(done.returncode, 2)

    @each([("play", "board/play"), ("dollar-board", "dollar-board"), ("dollar", "python3 /bin/dollar board")])
    def test_the_help_of_the_board_shows_what_is_typed(self, name, shown):
        code = f"import sys; sys.argv = ['/bin/{name}', '--help']; from dollar.__main__ import board; board()"
        said = subprocess.run([sys.executable, "-B", "-c", code], stdout=subprocess.PIPE, text=True, env=dict(os.environ, PYTHONPATH=str(PACKAGE)))
        self.assertIn(f"\n    {shown} [FILE]\n    {shown} FILE .. --class N ", said.stdout)
        self.assertEqual(set(re.findall("board/play|dollar-board", said.stdout)), {shown} & {"board/play", "dollar-board"})

    def test_the_command_of_a_clone(self):
        done = subprocess.run(["board/play", "/nowhere/table.json"], cwd=PACKAGE.parent, stderr=subprocess.PIPE, text=True)
        self.assertEqual(done.stderr, "board/play: [Errno 2] No such file or directory: '/nowhere/table.json'\n")
