"""The tarball, the Debian packages and the wheel of the built program: each is made twice, from other folders, at other times and by
each Python that is here, and is the same, byte for byte. They are unpacked and installed, the commands of the pages are run in them,
and they are removed again: the wheel in an environment of its own, and all three in a fresh tree of this Debian, if debootstrap can
make one, which takes root and a mirror of Debian."""
import gzip
import json
import os
import re
import shutil
import subprocess
import sys
import tarfile
import tempfile
import time
import unittest
import urllib.request
from pathlib import Path

from helpers import EXAMPLES, ROOT, Test, program, pythons
from pages import links, shown
from toolchain import SHARED

VERDICT = "winnable by a=0 b=-1 c=-1 to a=0 b=0 c=0\n"
TOOL = ROOT / "tools" / "package"
# What a package is for, from Python: a verdict on an example, by the library for C if it is packed, and a sweep.
LINES = f"""import dollar
assert (dollar._library.asking("judge", dollar.example("triangle"), None) is not None) is {SHARED.exists()}
print(dollar.judge(dollar.example("triangle")))
assert [numbers.rank for numbers in dollar.rr_all(dollar.Table([[0, 3], [3, 0]], [amount, 1]) for amount in range(4))] == [0, 1, 1, 2]
"""


# The pages whose commands are run where a package is installed, and what is typed there in place of the words of a clone.
PAGES = ["README.md", "docs/play.md", "docs/theory.md", "docs/formats.md", "docs/tools.md", "examples/README.md"]
TYPED = {"./dollar": "dollar", "python3 python/dollar": "python3 -m dollar"}
# Where a page says that a tool is needed that few machines have.
OTHERS = ["jq ", "nauty-geng "]
UNITS = ["dollar.socket", "dollar@.service"]


def made(folder, given, *before, tool=TOOL, **options):
    """What tools/package prints that it makes."""
    said = subprocess.run([*before, tool, given, folder], stdout=subprocess.PIPE, text=True, check=True, **options).stdout
    return list(map(Path, said.splitlines()))


def dead_links(folder):
    """The links of the pages of a folder that lead to no file of it."""
    for page in sorted(folder.rglob("*.md")):
        yield from (f"{page.relative_to(folder)}: {target}" for target, place, _ in links(str(page)) if not os.path.exists(place))


def listed(tree):
    """The files below a folder, but for those of the system and the notes that dpkg keeps."""
    words = ["find", ".", "-xdev", "(", "-path", "./proc", "-o", "-path", "./sys", "-o", "-path", "./dev", "-o", "-path",
             "./var/lib/dpkg", "-o", "-path", "./var/log", ")", "-prune", "-o", "-print"]
    return set(subprocess.run(words, cwd=tree, stdout=subprocess.PIPE, text=True, check=True).stdout.splitlines())


class OfPackages(Test):
    @classmethod
    def setUpClass(cls):
        if (ROOT / ".git").exists() and not shutil.which("git"):
            raise unittest.SkipTest("all of it, for want of git")
        folder = tempfile.TemporaryDirectory()
        cls.addClassCleanup(folder.cleanup)
        cls.place = Path(folder.name)
        cls.tarball, *cls.debs, cls.wheel = cls.made = made(cls.place / "one", os.path.abspath(program()), cwd="/")
        cls.deb, *cls.for_c = cls.debs
        cls.version = subprocess.run([program(), "--version"], stdout=subprocess.PIPE, text=True).stdout.split()[1]
        cls.environ = {name: value for name, value in os.environ.items() if name not in ("DOLLAR", "DOLLAR_LIBRARY", "PYTHONPATH")}

    def out(self, *words, **options):
        """What a run prints that ends well, without the variables that name this clone."""
        return self.holds(list(map(str, words)), **{"env": self.environ, **options})

    def test_they_are_the_same_each_time(self):
        shutil.copy(program(), self.place / "copy")
        time.sleep(1)
        for python in pythons().values():
            for one, other in zip(self.made, made("two", "copy", python, "-B", cwd=self.place)):
                self.assertEqual(one.name, other.name)
                self.assertTrue(one.read_bytes() == (self.place / other).read_bytes(), f"{one.name} by {python}")
        # Some Pythons write another tenth byte, which names the system.
        self.assertEqual(self.tarball.read_bytes()[:10], b"\x1f\x8b\x08\0\0\0\0\0\x02\xff")
        sdists = []
        for name in "first", "second":
            (self.place / name).mkdir()
            self.out(sys.executable, "-B", "-c", "import backend, sys; backend.build_sdist(sys.argv[1])", self.place / name,
                     cwd=ROOT / "python")
            sdists += [file.read_bytes() for file in (self.place / name).iterdir()]
            time.sleep(1)
        self.assertTrue(sdists[0] == sdists[1])

    def test_what_is_refused(self):
        for words in [ROOT / "dollar"], ["/nowhere"], ["a", "b", "c"]:
            done = subprocess.run([TOOL, *words], stdout=subprocess.PIPE, stderr=subprocess.STDOUT, text=True)
            self.assertEqual((done.returncode, done.stdout.count("\n")), (1, 1))

    def test_only_what_git_knows_is_packed(self):
        """Files lie about that git does not know, among them the secrets of a class that was kept, and a file that is not there
        any more."""
        copy = self.folder() / "copy"
        listed = subprocess.run(["git", "-C", ROOT, "ls-files", "-z"], stdout=subprocess.PIPE, text=True)
        if listed.returncode:
            self.skipTest("what git knows of the packed folders, for want of git or a checkout")
        for path in filter(os.path.isfile, (ROOT / name for name in listed.stdout.split("\0") if name)):
            (copy / path.relative_to(ROOT)).parent.mkdir(parents=True, exist_ok=True)
            shutil.copy(path, copy / path.relative_to(ROOT))
        for words in ["init", "-q"], ["add", "-A"]:
            self.out("git", *words, cwd=copy)
        strange = ["examples/class.json", "examples/kept/class.json", "python/dollar/id_rsa", "python/dollar/new.py", "docs/notes.bak"]
        for path in strange:
            (copy / path).parent.mkdir(exist_ok=True)
            (copy / path).write_text("secret")
        (copy / "examples" / "cube.json").unlink()
        _, deb, *_, wheel = made(self.folder(), program(), tool=copy / "tools" / "package", cwd=copy)
        for found in self.out("dpkg-deb", "-c", deb), self.out(sys.executable, "-m", "zipfile", "-l", wheel):
            self.assertIn("triangle.json", found)
            self.assertEqual([path for path in strange if path.split("/")[-1] in found], [])

    def unpacked(self):
        """The folder of the tarball."""
        with tarfile.open(self.tarball) as archive:
            archive.extractall(self.place)
        return self.place / ("dollar-" + self.version)

    def of_debian(self):
        """What lies in the Debian packages."""
        tree = self.folder()
        for deb in self.debs:
            self.out("dpkg-deb", "-x", deb, tree)
        return tree

    def try_example(self, place, words, *before, **variables):
        """Makes the example for C, in the folder in which it lies, by what pkg-config says, and runs it."""
        self.assertEqual(self.out(*before, "sh", "-c", f"cd {place} && gcc -o /tmp/example example.c {words} && /tmp/example && rm /tmp/example",
                                  env={**self.environ, **variables}), 2 * "winnable by 0 -1 -1, rank 0\n")

    def test_the_library_for_c(self):
        """It is used from where it lies in the tarball; and its file for pkg-config leads to what is in Debian's packages."""
        if not self.for_c:
            self.skipTest("the library for C in packages, for want of a build by ./dollar")
        tree, debian = self.unpacked(), self.of_debian()
        self.assertTrue((tree / "lib/libdollar.so.1").read_bytes() == (debian / "usr/lib/x86_64-linux-gnu/libdollar.so.1").read_bytes())
        control = {deb.name.split("_")[0]: self.out("dpkg-deb", "-f", deb, "Depends", "Recommends") for deb in self.debs}
        self.assertIn("Depends: libdollar1 (= %s)" % self.version, control["libdollar-dev"])
        self.assertIn("libdollar1 (= %s)" % self.version, control["dollar"])
        for tool in "gcc", "pkg-config":
            if not shutil.which(tool):
                self.skipTest("programs in C by pkg-config, for want of " + ("gcc" if tool == "gcc" else "it"))
        self.try_example(tree / "share/doc/dollar/library", "$(pkg-config --cflags --libs dollar)", PKG_CONFIG_PATH=f"{tree}/lib/pkgconfig",
                         LD_LIBRARY_PATH=f"{tree}/lib")
        self.try_example(tree / "share/doc/dollar/library", "$(pkg-config --cflags dollar) $(pkg-config --variable=libdir dollar)/libdollar.a",
                         PKG_CONFIG_PATH=f"{tree}/lib/pkgconfig")
        folder = f"{debian}/usr/lib/x86_64-linux-gnu"
        here = {"PKG_CONFIG_LIBDIR": f"{folder}/pkgconfig"}
        said = [self.out("pkg-config", *words, "dollar", env={**self.environ, **here}).split()
                for words in (["--modversion"], ["--cflags", "--libs"])]
        self.assertEqual(said, [[self.version], ["-ldollar"]])
        # The same as if the tree of the packages were the whole system.
        self.try_example(debian / "usr/share/doc/dollar/library", "$(pkg-config --cflags --libs dollar)", **here, PKG_CONFIG_SYSROOT_DIR=str(debian),
                         PKG_CONFIG_ALLOW_SYSTEM_CFLAGS="1", PKG_CONFIG_ALLOW_SYSTEM_LIBS="1", LD_LIBRARY_PATH=folder)

    def try_pages(self, documents, path, *before, inside="", **variables):
        """Runs the commands of the pages in the folder of the documents, and compares what they print; inside of a tree, the words
        before a command lead there."""
        environ = {**self.environ, "PATH": f"{path}:{os.environ['PATH']}", "PYTHONDONTWRITEBYTECODE": "1", **variables}
        words, tried = [*before, "bash", "-c", 'cd "$0" && eval "$1"', inside or documents], 0
        for page in PAGES:
            for command, wanted in shown((documents / page).read_text(), r"(?:|.* )\./dollar"):
                for word, typed in TYPED.items():
                    command = command.replace(word, typed)
                if not any(command.startswith(tool) for tool in OTHERS):
                    rest, said = wanted.partition("..\n")[2], self.said(words, command, environ)
                    self.assertEqual(said[-len(rest):] if rest and wanted.startswith("..") else said, rest or wanted, command)
                    tried += 1
        self.assertGreater(tried, 20)

    def said(self, words, command, environ):
        """What a command prints and says."""
        return subprocess.run([*map(str, words), command], stdin=subprocess.DEVNULL, stdout=subprocess.PIPE, stderr=subprocess.STDOUT,
                              text=True, env=environ).stdout

    def test_links_lead_to_pages(self):
        for folder in self.of_debian() / "usr/share/doc/dollar", self.unpacked() / "share/doc/dollar":
            self.assertEqual(list(dead_links(folder)), [])

    def test_what_is_inside_and_its_licences(self):
        """Each package lists the libraries of the toolchain, and says under which licences they are. The object makes the program again."""
        used = {name for line in (ROOT / "crates.txt").read_text().splitlines() if line[0] != "#" for name in line.partition(":")[2].split()}
        wheel = self.folder()
        self.out(sys.executable, "-m", "zipfile", "-e", self.wheel, wheel)
        for top in self.of_debian() / "usr", self.unpacked(), next(wheel.glob("*.data/data")):
            documents = top / "share/doc/dollar"
            inside, said = json.loads((documents / "contents.json").read_text())["inside"], (documents / "copyright").read_text()
            self.assertLessEqual({name for name in used if not (ROOT / "crates" / name).is_dir()}, {each["name"] for each in inside} | {"anyhow"})
            for each in inside[1:]:
                self.assertGreater(len(each["licences"]), 0)
                for licence in each["licences"]:
                    self.assertRegex(said, rf"(?m)^(.*, )?{each['name']}(, .*)?: {licence}$")
            for place in re.findall(r"(?m)^The text is in (.*)\.$", said):
                self.assertTrue(os.path.exists(place))
            if (top / "lib/dollar/dollar.o").exists():
                linked = self.folder() / "dollar"
                self.out("gcc", "-static-pie", "-o", linked, top / "lib/dollar/dollar.o")
                self.assertEqual(self.out(linked, "judge", EXAMPLES / "triangle.json"), VERDICT)

    def test_the_units(self):
        """Each path in the units is in the package, and systemd has nothing to say of them."""
        tree = self.folder()
        shutil.copytree(self.of_debian() / "usr", tree / "usr")
        shutil.copytree(self.unpacked(), tree / "usr" / "local", symlinks=True)
        for place in "usr", "usr/local":
            units = [tree / place / "share/doc/dollar/examples" / name for name in UNITS]
            command = re.search("(?m)^ExecStart=-(.*)$", units[1].read_text())[1].split()
            self.assertEqual([word for word in command if word[0] == "/" and not (tree / word[1:]).is_file()], [])
            self.assertTrue(command[0].startswith(f"/{place}/bin/"))
            if not shutil.which("systemd-analyze"):
                self.skipTest("what systemd says of the units, for want of it")
            self.assertIn(self.out("systemd-analyze", "verify", *units), ["", "running with root privileges is not recommended!\n"])
            level = self.out("systemd-analyze", "security", "--offline=true", units[1])
            self.assertLess(float(re.search(r"exposure level for .*: ([\d.]+)", level)[1]), 1)

    def test_it_can_be_removed_without_its_folder(self):
        """What Debian runs before it removes the package."""
        control, module = self.folder(), self.folder() / "dollar"
        self.out("dpkg-deb", "-e", self.deb, control)
        text = (control / "prerm").read_text().replace("/usr/lib/python3/dist-packages/dollar", str(module)).replace("py3clean", "nothing")
        (module / "board" / "__pycache__").mkdir(parents=True)
        self.out("sh", "-c", text, "prerm", "remove")
        self.assertEqual(list(module.rglob("*")), [module / "board"])
        shutil.rmtree(module)
        self.out("sh", "-c", text, "prerm", "remove")

    def test_the_program_needs_no_library(self):
        packed = self.unpacked() / "bin" / "dollar"
        if b"/ld-linux" in packed.read_bytes():
            self.skipTest("the link with the C library, for want of gcc, rt, or the object of which tools/build has made the program")
        ldd = subprocess.run(["ldd", packed], stdout=subprocess.PIPE, stderr=subprocess.STDOUT, text=True)
        self.assertIn(ldd.stdout.strip(), ["not a dynamic executable", "statically linked"])
        self.out(ROOT / "tests" / "rows" / "check", packed)
        if shutil.which("readelf"):
            # It lies at no fixed address, and what it has looked up is read-only, as in the built program.
            self.assertRegex(self.out("readelf", "-hd", packed), r"(?s)Type: +DYN .*NOW PIE")

    def test_the_tarball(self):
        tree = self.unpacked()
        self.assertEqual(self.out(tree / "bin" / "dollar", "--version"), self.out(program(), "--version"))
        for name, words in {"dollar": [program()], "dollar-board": ["--board"]}.items():
            page = gzip.decompress((tree / f"share/man/man1/{name}.1.gz").read_bytes()).decode()
            self.assertEqual(page, self.out(sys.executable, ROOT / "tools" / "manual", *words))
            named = re.findall(r"(?m)^\.I ([\w/]+\.md)$", page)
            self.assertEqual([name for name in named if not (tree / "share/doc/dollar" / name).is_file()], [])
        self.assertIn("complete -F _dollar dollar", self.out(
            "bash", "--norc", "-c", 'source "$1"; complete -p dollar', "bash",
            tree / "share/bash-completion/completions/dollar"))
        for shell, place in ("zsh", "site-functions/_dollar"), ("fish", "vendor_completions.d/dollar.fish"):
            if shutil.which(shell):
                self.out(shell, "-n", tree / "share" / shell / place)
        package, inside = str(tree / "share/dollar/python"), {**self.environ, "PATH": f"{tree / 'bin'}:{os.environ['PATH']}"}
        self.assertEqual(self.out(sys.executable, "-B", "-c", LINES, cwd="/", env={**inside, "PYTHONPATH": package}), VERDICT)
        self.assertTrue(self.out(sys.executable, tree / "share/dollar/python/dollar", "draw", EXAMPLES / "triangle.json",
                                 env=inside).endswith("</svg>\n"))
        self.assertTrue(self.out(tree / "share/doc/dollar/examples/talk.py", env=inside).endswith("2 won\n"))
        self.try_pages(tree / "share/doc/dollar", tree / "bin", PYTHONPATH=package)
        self.try_board([tree / "bin" / "dollar-board"], env=inside)
        local = self.place / "local"
        local.mkdir()
        remove = re.search(r"(?m)^ *(rm .*)$", (tree / "README").read_text())[1].replace("/usr/local", str(local))
        copy = re.search(r"(?m)^ *(cp -r .*)$", (tree / "README").read_text())[1].replace("/usr/local", str(local))
        self.out("sh", "-c", f"{copy} && {remove}", cwd=tree.parent)
        self.assertEqual([file for file in local.rglob("*") if not file.is_dir()], [])

    def try_board(self, words, env=None):
        """Opens the first board, and sees that its page is there."""
        child = subprocess.Popen(list(map(str, [*words, "--no-browser"])), stdin=subprocess.DEVNULL, stdout=subprocess.PIPE,
                                 text=True, env=env or self.environ, cwd="/")
        try:
            address = re.search(r"http://\S+", child.stdout.readline())[0]
            with urllib.request.urlopen(address) as page:
                self.assertIn(b"The dollar game", page.read())
        finally:
            child.terminate()
            child.communicate()
        self.assertEqual(child.returncode, 0)

    def try_wheel(self, wheel, *before, tree="/"):
        """Installs the wheel in a fresh environment, in a tree if the words before a command lead there; tries it, and removes
        it."""
        inside = "/tmp/own" if before else str(self.folder() / "own")
        own = Path(f"{tree}/{inside}")
        self.out(*before, "python3" if before else sys.executable, "-m", "venv", inside)

        def files():
            return {file for file in own.rglob("*") if "__pycache__" not in file.parts and not file.is_dir()}

        kept, pip = files(), [*before, inside + "/bin/python", "-m", "pip", "--disable-pip-version-check"]
        self.out(*pip, "install", "--quiet", "--no-index", wheel)
        documents = inside + "/share/doc/dollar"
        self.assertEqual(self.out(*before, inside + "/bin/dollar", "judge", documents + "/examples/triangle.json"), VERDICT)
        self.assertEqual(self.out(*before, inside + "/bin/python", "-B", "-c", LINES, cwd="/"), VERDICT)
        self.assertTrue(self.out(*before, inside + "/bin/python", "-B", documents + "/examples/talk.py").endswith("2 won\n"))
        self.assertTrue(os.access(own / "share/doc/dollar/examples/talk.py", os.X_OK))
        self.try_pages(own / "share/doc/dollar", inside + "/bin", *before, inside=documents)
        self.try_board([*before, inside + "/bin/dollar-board"])
        self.assertEqual(list(dead_links(own / "share/doc/dollar")), [])
        self.out(*pip, "uninstall", "--quiet", "--yes", "dollar")
        self.assertEqual(files() - kept, set())

    def test_the_wheel(self):
        self.try_wheel(self.wheel)

    def test_lintian_has_nothing_to_say_but_the_licence(self):
        if not shutil.which("lintian"):
            self.skipTest("what lintian says, for want of it")
        said = subprocess.run(["lintian", *self.debs], stdout=subprocess.PIPE, stderr=subprocess.DEVNULL, text=True).stdout
        self.assertEqual(said.splitlines(), [])

    def fresh_debian(self):
        """A fresh tree of this Debian, and the files that are in it."""
        with open("/etc/os-release") as file:
            suite = re.search(r"(?m)^VERSION_CODENAME=(.*)$", file.read())
        if not shutil.which("debootstrap") or os.geteuid() or not suite:
            self.skipTest("the install in a fresh Debian, for want of root or debootstrap")
        tree = self.place / "debian"
        self.addCleanup(lambda: [subprocess.run(["umount", tree / each], stderr=subprocess.DEVNULL)
                                 for each in ("proc", "sys")])
        words = ["timeout", "280", "debootstrap", "--variant=minbase", "--include=python3,python3-venv,sse4.2-support", suite[1], tree]
        done = subprocess.run(words, stdout=subprocess.PIPE, stderr=subprocess.STDOUT, text=True)
        if done.returncode:
            self.skipTest("the install in a fresh Debian, which debootstrap could not make: %s" % done.stdout.splitlines()[-1:])
        # The package hands the program its files by /dev/fd, which leads to /proc.
        self.out("mount", "-t", "proc", "proc", tree / "proc")
        for file in self.made:
            shutil.copy(file, tree / "tmp")
        return tree, listed(tree)

    def try_debian(self, tree, inside, user):
        """What somebody without rights does with the installed Debian package."""
        documents = "/usr/share/doc/dollar"
        self.assertEqual(self.out(*user, "dollar", "judge", documents + "/examples/triangle.json"), VERDICT)
        self.assertEqual(self.out(*inside, "dpkg-query", "-W", "-f", "${Version}", "dollar"), self.version)
        self.assertEqual(self.out(*inside, "dpkg", "-V", "dollar"), "")
        self.assertEqual(self.out(*user, "python3", "-c", LINES), VERDICT)
        self.try_pages(tree / documents[1:], "/usr/bin", *user, inside=documents)
        self.try_board([*user, "dollar-board"])
        command = re.search("(?m)^ExecStart=-(.*)$", (tree / documents[1:] / "examples" / UNITS[1]).read_text())[1]
        self.assertEqual(self.out(*user, "sh", "-c", f"echo claim | {command}"), "0 not won\n")

    def test_all_in_a_fresh_debian(self):
        tree, before = self.fresh_debian()
        inside, user = ["chroot", tree], ["chroot", "--userspec=65534:65534", tree]
        for number in range(2):
            self.out(*inside, "dpkg", "-i", *("/tmp/" + deb.name for deb in self.debs))
            if number == 0:
                self.try_debian(tree, inside, user)
            else:
                shutil.rmtree(tree / "usr/lib/python3/dist-packages/dollar")
            self.out(*inside, "dpkg", "-P", *(deb.name.split("_")[0] for deb in self.debs))
            self.assertEqual(listed(tree) - before, set())
        self.try_wheel("/tmp/" + self.wheel.name, *user, tree=tree)
        self.out(*user, "sh", "-c", f"cd /tmp && tar -xf {self.tarball.name}")
        home = f"/tmp/dollar-{self.version}"
        self.try_pages(tree / home[1:] / "share/doc/dollar", home + "/bin", *user, inside=home + "/share/doc/dollar",
                       PYTHONPATH=home + "/share/dollar/python")
        self.try_board([*user, home + "/bin/dollar-board"])
