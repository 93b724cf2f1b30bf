"""The package as a whole: installed by pip for each Python that is here, with its examples and its types."""
import doctest
import email
import importlib.util
import inspect
import os
import shutil
import subprocess
import sys
import zipfile

import dollar
from helpers import EXAMPLES, PACKAGE, Test, each, needed, pythons

DOCTESTS = """
import doctest
import importlib
import pkgutil

import dollar
modules = [dollar, *(importlib.import_module(each.name) for each in pkgutil.walk_packages(dollar.__path__, "dollar."))]
failed, tried = map(sum, zip(*map(doctest.testmod, modules)))
assert tried > 50 and not failed, (tried, failed)
"""


def has(python, module):
    look = "import importlib.util, sys; sys.exit(importlib.util.find_spec(%r) is None)" % module
    return subprocess.run([python, "-c", look]).returncode == 0


class OfThePackage(Test):
    @each(range(10, 15))
    def test_pip_installs_it_and_its_examples_hold(self, minor):
        python = pythons().get((3, minor))
        if python is None:
            self.skipTest("Python 3.%d, which is not here" % minor)
        place = str(PACKAGE)
        if has(python, "pip"):
            place = str(self.folder())
            # pip leaves its own build/ in a folder that it installs.
            top = self.folder()
            copy = shutil.copytree(PACKAGE, top / "python", ignore=shutil.ignore_patterns("__pycache__"))
            shutil.copytree(EXAMPLES, top / "examples")
            self.holds([python, "-B", "-m", "pip", "install", "--quiet", "--disable-pip-version-check", "--no-index", "--no-deps",
                        "--target", place, copy])
        self.holds([python, "-B", "-c", DOCTESTS], cwd="/", env=dict(os.environ, PYTHONPATH=place))

    @each(["networkx", "sage.all"])
    def test_examples_that_take_another_package(self, name):
        needed(name)
        method = {"networkx": dollar.Table.to_networkx, "sage.all": dollar.Table.to_sage}[name]
        text = inspect.getdoc(method).replace("  # doctest: +SKIP", "")
        found = doctest.DocTestParser().get_doctest(text, dict(vars(dollar)), name, None, None)
        self.assertEqual((doctest.DocTestRunner().run(found).failed, len(found.examples) > 0), (0, True))

    def test_what_is_told_of_it(self):
        """The wheel tells what pyproject.toml has, which is read here by Python itself; and each platform of a tag has a line."""
        project = needed("tomllib").loads((PACKAGE / "pyproject.toml").read_text())["project"]
        folder = self.folder()
        words = ("import sys; sys.path.insert(0, %r); import backend; print(backend.wheel_of(%r, {}, 'py3-none-one.two'))"
                 % (str(PACKAGE), str(folder)))
        name = self.holds([sys.executable, "-B", "-c", words]).strip()
        with zipfile.ZipFile(folder / name) as wheel:
            info = "dollar-%s.dist-info/" % dollar.__version__
            told = email.message_from_bytes(wheel.read(info + "METADATA"))
            self.assertEqual((told["Name"], told["Version"], told["Summary"], told["License"], told["Requires-Python"], told["Keywords"].split(",")),
                             (project["name"], dollar.__version__, project["description"], project["license"]["text"],
                              project["requires-python"], project["keywords"]))
            self.assertEqual(told.get_all("Classifier"), project["classifiers"])
            self.assertIn("dollar-board = %s\n" % project["scripts"]["dollar-board"], wheel.read(info + "entry_points.txt").decode())
            self.assertEqual(email.message_from_bytes(wheel.read(info + "WHEEL")).get_all("Tag"), ["py3-none-one", "py3-none-two"])

    def test_it_is_imported_from_a_zip_and_without_asyncio(self):
        archive = shutil.make_archive(str(self.folder() / "dollar"), "zip", PACKAGE, "dollar")
        words = "import sys, dollar; print('asyncio' in sys.modules, dollar.Table([[0, 1], [1, 0]]).degree, dollar.AsyncSession.__name__)"
        self.assertEqual(self.holds([sys.executable, "-c", words], cwd="/", env=dict(os.environ, PYTHONPATH=archive)), "False 0 AsyncSession\n")

    def test_the_types(self):
        needed("mypy")
        self.holds([sys.executable, "-m", "mypy", "--config-file", PACKAGE / "pyproject.toml", "--cache-dir", self.folder(), PACKAGE / "dollar"])

    def test_nothing_is_unused(self):
        linter = next((words for words in (["ruff", "check"], ["pyflakes"]) if importlib.util.find_spec(words[0])), None)
        if linter is None:
            self.skipTest("the look for slips, for want of ruff and pyflakes")
        self.holds([sys.executable, "-m", *linter, PACKAGE, PACKAGE.parent / "tests", *EXAMPLES.glob("*.py")])
