"""The notebook of examples/: each of its cells runs, and mypy finds nothing in its code."""
import json
import sys

import dollar
from helpers import EXAMPLES, PACKAGE, Test, needed

NOTEBOOK = json.loads((EXAMPLES / "chip_firing.ipynb").read_text(encoding="utf-8"))
CELLS = ["".join(cell["source"]) for cell in NOTEBOOK["cells"] if cell["cell_type"] == "code"]


class OfTheNotebook(Test):
    def test_each_cell_runs(self):
        needed("networkx")
        needed("numpy")
        self.go_to(EXAMPLES)
        names = {}
        for cell in CELLS:
            exec(compile(cell, "a cell", "exec"), names)
        # What is known: cycles have as many spanning trees as vertices, and Petersen's graph 2,000.
        self.assertEqual([names["trees"](table) for table in names["cycles"]], [3, 4, 5, 6, 7])
        self.assertEqual(names["trees"](dollar.example("petersen")), 2000)
        self.assertEqual([names["gonality"](table) for table in names["complete"]], [1, 2, 3, 4, 5])
        self.assertTrue(0 < len(names["hyperelliptic"]) < len(names["tried"]))

    def test_it_holds_no_outputs(self):
        self.assertTrue(all(cell.get("outputs", []) == [] for cell in NOTEBOOK["cells"]))

    def test_the_types(self):
        needed("mypy")
        folder = self.folder()
        (folder / "notebook.py").write_text("\n\n".join(CELLS))
        # Who reads it need not know what the vertices of a Table are.
        words = ["--strict", "--allow-any-generics", "--ignore-missing-imports", "--cache-dir", folder / "cache"]
        self.holds([sys.executable, "-m", "mypy", *words, folder / "notebook.py"],
                   cwd=PACKAGE)
