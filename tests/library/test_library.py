"""The library for C: what it shows, and its answers beside those of the program. SEED=N gives the same rows again; ROWS and CALLS are
how many are tried."""
import ctypes
import os
import random
import re
import shutil
import threading
import unittest
from array import array

import toolchain
from helpers import ROOT, Test, each, program
from pages import shown

SEED, ROWS, CALLS = (int(os.environ.get(name) or other) for name, other in
                     (("SEED", random.randrange(10000)), ("ROWS", 20_000), ("CALLS", 50_000)))
FUNCTIONS = ["dollar_abi", "dollar_graph", "dollar_judge", "dollar_rank", "dollar_rank_test"]
PROVED = ROOT / "crates" / "dg_abi" / "out" / "libdg_abi.a"
TRIANGLE = (3, [(0, 1, 1), (1, 2, 1), (0, 2, 1)])
SIZE, NO_VERTEX, LOOP, EMPTY, VALENCE, NOT_CONNECTED, NO_Q, LENGTHS, TOO_MANY = range(1, 10)


def graph_of(random_):
    """A connected graph: a random tree, and some edges more."""
    size = random_.choice([1, 2, 3, 4, 5, 6, 8, 10, 16])
    items = [(random_.randrange(v), v, random_.choice([1, 1, 1, 2, 3])) for v in range(1, size)]
    for _ in range(random_.randrange(size + 3) if size > 1 else 0):
        u, v = random_.sample(range(size), 2)
        items.append((u, v, 1))
    return size, items


def edges_between(items):
    """The items of a table file: each two vertices once."""
    counts = {}
    for u, v, count in items:
        counts[min(u, v), max(u, v)] = counts.get((min(u, v), max(u, v)), 0) + count
    return [["v%d" % u, "v%d" % v, count] for (u, v), count in sorted(counts.items())]


class OfLibrary(Test):
    @classmethod
    def setUpClass(cls):
        cls.place = toolchain.SHARED
        if not cls.place.exists():
            raise unittest.SkipTest("the library for C, for want of a build by ./dollar")
        cls.library = ctypes.CDLL(str(cls.place))
        for name in FUNCTIONS[1:]:
            getattr(cls.library, name).restype = ctypes.c_int64

    def asked(self, name, size, items, *words, amounts, arrays, rows=None):
        """What a call gives, what it tells, and its arrays. A word is a number; arrays have a kind and a number of places."""
        edges = array("B", [part for item in items for part in item])
        held, told = array("q", amounts), array("b", [77] * (len(amounts) // max(size, 1) if rows is None else rows))
        made = [array(kind, [77] * count) for kind, count in arrays]
        given = [ctypes.c_size_t(size), ctypes.c_void_p(edges.buffer_info()[0]), ctypes.c_size_t(len(items)), *words]
        for lent in (held, told, *made):
            given += [ctypes.c_void_p(lent.buffer_info()[0] or 8), ctypes.c_size_t(len(lent))]
        return getattr(self.library, name)(*given), told, made

    def lines(self, command, size, items, rows, *words):
        """The lines that the program prints for these divisors of one table."""
        folder = self.folder()
        names = ["v%d" % v for v in range(size)]
        table = {"vertices": names, "edges": edges_between(items), "amounts": [0] * size, "q": "v%d" % self.q}
        (folder / "t").write_text(repr(table).replace("'", '"'))
        (folder / "l").write_text("".join(" ".join(map(str, row)) + "\n" for row in rows))
        said = self.holds([program(), command, folder / "t", *words, f"--divisors={folder / 'l'}", "--numbers"])
        return [line.split() for line in said.splitlines()]

    def test_it_shows_five_functions_and_needs_no_library(self):
        for tool in "nm", "readelf":
            if not shutil.which(tool):
                self.skipTest("what the library for C shows, for want of gcc")
        shown = re.findall(r"(?m) T (.*)$", self.holds(["nm", "-D", "--defined-only", self.place]))
        self.assertEqual(sorted(shown), [name + "@@DOLLAR_1" for name in FUNCTIONS])
        said = self.holds(["readelf", "-d", self.place])
        self.assertIn("soname: [libdollar.so.1]", said)
        self.assertNotIn("NEEDED", said)
        self.assertEqual(self.library.dollar_abi(), 1)

    def compiled(self, compiler, *words):
        """A program that is compiled with the library."""
        if not shutil.which(compiler):
            self.skipTest("programs in C, for want of gcc")
        folder = self.folder()
        (folder / "libdollar.so").symlink_to(self.place)
        (folder / "libdollar.so.1").symlink_to(self.place)
        self.holds([compiler, "-Wall", "-Wextra", "-Werror", "-pedantic", f"-I{ROOT / 'library'}", "-o", folder / "it", *words,
                    f"-L{folder}", "-ldollar", f"-Wl,-rpath,{folder}"])
        return folder / "it"

    @each([("gcc", "-std=c11"), ("g++", "-std=c++17", "-x", "c++")])
    def test_the_example(self, compiler, *words):
        """2 -1 -1 on the triangle clears by one borrowing each, so its class has degree 0 and rank 0; with a dollar more the rank is that
        of a divisor of degree 1 on a graph of genus 1, which is 0."""
        made = self.compiled(compiler, *words, ROOT / "library" / "example.c")
        self.assertEqual(self.holds([made]), "winnable by 0 -1 -1, rank 0\nwinnable by 0 -1 -1, rank 0\n")
        (command, wanted), = shown((ROOT / "docs" / "library.md").read_text(), "cc")
        self.assertEqual(self.holds(["sh", "-c", "mkdir -p out && " + command], cwd=ROOT), wanted)

    def test_ranks_for_r(self):
        """The rank of n dollars on the triangle is n - 1."""
        if not shutil.which("R"):
            self.skipTest("ranks of the library for C in R, for want of it")
        folder = self.folder()
        (folder / "libdollar.so").symlink_to(self.place)
        (folder / "libdollar.so.1").symlink_to(self.place)
        shutil.copy(ROOT / "library" / "dollar_r.c", folder)
        self.holds(["R", "CMD", "SHLIB", "dollar_r.c", f"-L{folder}", "-ldollar", f"-Wl,-rpath,{folder}"], cwd=folder,
                   env={**os.environ, "PKG_CPPFLAGS": f"-I{ROOT / 'library'}"})
        said = self.holds(["Rscript", "-e", 'dyn.load("dollar_r.so"); edges <- matrix(c(0L, 1L, 1L, 1L, 2L, 1L, 0L, 2L, 1L), 3); '
                           'cat(.Call("dollar_ranks", edges, cbind(c(3, 0, 0), c(2, -1, 4), c(1e9, 0, 0))))'], cwd=folder)
        self.assertEqual(said, "2 4 NA")

    def test_calls_at_the_ends_of_pages(self):
        made = self.compiled("gcc", "-std=c11", "-O2", ROOT / "tests" / "library" / "guarded.c")
        for turn in range(4):
            self.assertEqual(self.holds([made, str(CALLS // 4), str(SEED + turn)]), "1\n", f"SEED={SEED}")
        if not shutil.which("valgrind"):
            self.skipTest("calls of the library for C under valgrind, for want of it")
        self.assertEqual(self.holds(["valgrind", "-q", "--error-exitcode=9", made, "1000", str(SEED)]), "1\n")

    def test_rows_beside_the_program(self):
        random_ = random.Random(SEED)
        for graph in range(40):
            size, items = graph_of(random_)
            self.q, count = random_.randrange(size), ROWS // 40
            rows = [[random_.choice([-4, -2, -1, 0, 0, 1, 1, 2, 3, 5]) for _ in range(size)] for _ in range(count)]
            with self.subTest(f"SEED={SEED}", graph=graph):
                self.compare(size, items, rows, random_.randrange(4))

    def compare(self, size, items, rows, degree):
        amounts, count = [amount for row in rows for amount in row], len(rows)
        given, told, (scripts, reduced, orders) = self.asked(
            "dollar_judge", size, items, ctypes.c_size_t(self.q), amounts=amounts,
            arrays=[("q", count * size), ("q", count * size), ("B", count * size)])
        self.assertEqual(given, 0)
        found = [[str(told[r]), *map(str, scripts[r * size:(r + 1) * size]), *map(str, reduced[r * size:(r + 1) * size])]
                 for r in range(count)]
        self.assertEqual(found, self.lines("judge", size, items, rows))
        self.assertEqual([sorted(orders[r * size:(r + 1) * size]) for r in range(count)], [list(range(size))] * count)
        given, told, (ranks, duals) = self.asked("dollar_rank", size, items, amounts=amounts, arrays=[("q", count), ("q", count)])
        self.assertEqual((given, set(told)), (0, {0}))
        self.assertEqual([list(map(str, pair)) for pair in zip(ranks, duals)], [line[2:] for line in self.lines("rr", size, items, rows)])
        given, told, (losses,) = self.asked("dollar_rank_test", size, items, ctypes.c_uint32(degree), amounts=amounts,
                                            arrays=[("q", count * size)])
        wanted = [["1", *["NA"] * size] if told[r] == 1 else ["0", *map(str, losses[r * size:(r + 1) * size])] for r in range(count)]
        self.assertEqual((given, wanted), (0, self.lines("rank", size, items, rows, str(degree))))

    @each([(SIZE, 0, 0, []), (SIZE, 0, 17, []), (NO_VERTEX, 1, 3, [(0, 1, 1), (1, 3, 1)]), (LOOP, 0, 2, [(1, 1, 1)]),
           (EMPTY, 0, 2, [(0, 1, 0)]), (VALENCE, 0, 2, [(0, 1, 64)]), (NOT_CONNECTED, 0, 3, [(0, 1, 1)]),
           (TOO_MANY, 0, 2, [(0, 1, 1)] * 121)])
    def test_a_graph_that_is_refused(self, kind, place, size, items):
        for name, words in ("dollar_judge", [ctypes.c_size_t(0)]), ("dollar_rank", []), ("dollar_rank_test", [ctypes.c_uint32(1)]):
            arrays = {"dollar_judge": [("q", size), ("q", size), ("B", size)], "dollar_rank": [("q", 1), ("q", 1)],
                      "dollar_rank_test": [("q", size)]}[name]
            given, told, made = self.asked(name, size, items, *words, amounts=[0] * size, arrays=arrays, rows=1)
            self.assertEqual((-given & 15, -given >> 4), (kind, place))
            self.assertEqual({77}, {*told, *(part for lent in made for part in lent), 77})

    def test_lengths_and_vertices_that_do_not_fit(self):
        for q, amounts, arrays, kind in [(3, 3, (3, 3, 3), NO_Q), (0, 4, (3, 3, 3), LENGTHS), (0, 3, (2, 3, 3), LENGTHS),
                                         (0, 3, (3, 1, 3), LENGTHS), (0, 3, (3, 3, 4), LENGTHS), (0, 3, (0, 0, 0), 0), (0, 3, (3, 0, 3), 0)]:
            given, told, made = self.asked("dollar_judge", *TRIANGLE, ctypes.c_size_t(q), amounts=[0] * amounts,
                                           arrays=list(zip("qqB", arrays)), rows=1)
            self.assertEqual(-given & 15, kind, arrays)
            self.assertEqual(told[0], 77 if kind else 1)

    def test_a_row_that_is_refused_keeps_its_places(self):
        rows = [1, 0, 0, 0, 1_000_001, 0, 0, 0, -(1 << 63), 2, -1, -1]
        given, told, (scripts, reduced, orders) = self.asked("dollar_judge", *TRIANGLE, ctypes.c_size_t(0), amounts=rows,
                                                             arrays=[("q", 12), ("q", 12), ("B", 12)])
        self.assertEqual((given, list(told), list(scripts[3:9]), list(orders[3:9])), (0, [1, -2, -3, 1], [77] * 6, [77] * 6))
        given, told, (ranks, duals) = self.asked("dollar_rank", *TRIANGLE, amounts=rows, arrays=[("q", 4), ("q", 4)])
        self.assertEqual((given, list(told), list(ranks)), (0, [0, -2, -3, 0], [0, 77, 77, 0]))

    def test_a_loss_past_the_limits_is_not_named(self):
        """631 dollars on the triangle bear 630 and no more; a test of 631 has more than 200,000 trials."""
        given, told, (losses,) = self.asked("dollar_rank_test", *TRIANGLE, ctypes.c_uint32(631), amounts=[631, 0, 0], arrays=[("q", 3)])
        self.assertEqual((given, list(told), list(losses)), (0, [2], [77] * 3))

    def test_a_thread_with_the_stack_of_the_header(self):
        """Ranks and tests of many dollars, on heavy edges, in a thread of 1 MB: by Riemann-Roch 61 on two vertices, since the divisor has
        degree 122 and genus 62."""
        found, before = [], threading.stack_size(1 << 20)
        self.addCleanup(threading.stack_size, before)

        def ask(size, items, amounts, degree):
            _, _, (ranks, duals) = self.asked("dollar_rank", size, items, amounts=amounts, arrays=[("q", 1), ("q", 1)])
            _, told, _ = self.asked("dollar_rank_test", size, items, ctypes.c_uint32(degree), amounts=amounts, arrays=[("q", size)])
            genus = sum(count for _, _, count in items) - size + 1
            found.append((ranks[0] - duals[0] == sum(amounts) + 1 - genus, told[0] == (ranks[0] >= degree), ranks[0]))

        for case in [(2, [(0, 1, 63)], [61, 61], 60), (3, [(0, 1, 31), (1, 2, 31), (0, 2, 31)], [60, 60, 61], 45),
                     (16, [(v, v + 1, 31) for v in range(15)], [28] * 16, 10)]:
            thread = threading.Thread(target=ask, args=case)
            thread.start()
            thread.join()
        self.assertEqual([each[:2] for each in found], [(True, True)] * 3)
        self.assertEqual(found[0][2], 61)

    def test_threads(self):
        wrong = []

        def ask(size, items, amounts, wanted):
            for _ in range(200):
                if list(self.asked("dollar_rank", size, items, amounts=amounts * 50, arrays=[("q", 50), ("q", 0)])[2][0]) != wanted * 50:
                    wrong.append(size)

        threads = [threading.Thread(target=ask, args=words) for words in [(*TRIANGLE, [3, 0, 0], [2]), (2, [(0, 1, 3)], [2, 2], [2])] * 2]
        for thread in threads:
            thread.start()
        for thread in threads:
            thread.join()
        self.assertEqual(wrong, [])
