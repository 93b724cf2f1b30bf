"""Answers in numbers as others read them: R, numpy, pandas and awk, with the words that docs/formats.md has for each. A refused line is
`NA` in all columns, and what is wrong stands behind ` # `."""
import io
import shutil
import subprocess

from helpers import EXAMPLES, Test, each, needed, program

TRIANGLE = EXAMPLES / "triangle.json"
# Amounts, some refused, also in the first line. By hand: the first and the last can be won, and 1 -1 0 is unwinnable.
LINES = ["1 1", "2 -1 -1", "0 0 1000001", "1 -1 0", "", "0 0 0"]
JUDGED = [None, [1, 0, -1, -1, 0, 0, 0], None, [0, 0, -1, -1, -1, 0, 1], None, [1, 0, 0, 0, 0, 0, 0]]
REFUSED = {0: "number of amounts", 2: "amount of vertex 2", 4: "shape of amounts"}
# Of degree 0 no dollar can be lost, and the first loss in the order of lists is at the last vertex.
TESTED = [None, [0, 0, 0, 1], None, [0, 0, 0, 1], None, [0, 0, 0, 1]]
RANKS = [None, [0, 1, 0, 0], None, [0, 1, -1, -1], None, [0, 1, 0, 0]]
ASKED = [(["judge", TRIANGLE], JUDGED), (["rank", TRIANGLE, "1"], TESTED), (["rr", TRIANGLE], RANKS)]


def printed(words, lines=LINES):
    """What the program prints of lines of amounts."""
    return subprocess.run([program(), *map(str, words), "--divisors", "/dev/stdin", "--numbers"], input="".join(line + "\n" for line in lines),
                          stdout=subprocess.PIPE, text=True, check=True).stdout


def table_of(rows):
    """The numbers of an array, in which what is missing is not a number."""
    return [None if any(each != each for each in row) else [int(each) for each in row] for row in rows]


class OfReaders(Test):
    @each(ASKED)
    def test_the_lines(self, words, wanted):
        count = len(wanted[1])
        lines = [" ".join(["NA"] * count) + " # refused " + REFUSED[at] if row is None else " ".join(map(str, row))
                 for at, row in enumerate(wanted)]
        self.assertEqual(printed(words).splitlines(), lines)

    @each(ASKED)
    def test_numpy(self, words, wanted):
        numpy = needed("numpy")
        self.assertEqual(table_of(numpy.genfromtxt(io.StringIO(printed(words)))), wanted)
        marked = {"NA": float("nan")}
        found = numpy.loadtxt(io.StringIO(printed(words)), converters=lambda word: marked.get(word) or float(word), encoding="ascii")
        self.assertEqual(table_of(found), wanted)

    @each(ASKED)
    def test_pandas(self, words, wanted):
        frame = needed("pandas").read_csv(io.StringIO(printed(words)), sep=r"\s+", header=None, comment="#")
        self.assertEqual(table_of(frame.to_numpy()), wanted)
        self.assertEqual({str(kind) for kind in frame.dtypes}, {"float64"})

    @each(ASKED)
    def test_r(self, words, wanted):
        if not shutil.which("Rscript"):
            self.skipTest("the test with R, which is not here")
        told = subprocess.run(["Rscript", "-e", "write.table(read.table(file('stdin')), row.names=FALSE, col.names=FALSE)"],
                              input=printed(words), stdout=subprocess.PIPE, text=True, check=True).stdout
        self.assertEqual([None if "NA" in line else list(map(int, line.split())) for line in told.splitlines()], wanted)

    def test_awk(self):
        for awk in filter(shutil.which, ("mawk", "gawk")):
            told = subprocess.run([awk, "!/#/ {won += $1; rows++} /#/ {print NR - 1, $NF} END {print won, rows}"], input=printed(["judge", TRIANGLE]),
                                  stdout=subprocess.PIPE, text=True, check=True).stdout
            self.assertEqual(told, "0 amounts\n2 2\n4 amounts\n2 3\n")
