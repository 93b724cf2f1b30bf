"""Types: what mypy says of code that uses the package. A line whose comment begins with `error` has to be one, and `is T` is the type
of what the line reveals."""
import re
import subprocess
import sys

from helpers import PACKAGE, Test, each, needed

SAMPLE = '''
import dollar
from dollar import Table

table = Table([[0, 1], [1, 0]], [2, -1])
members = {"vertices": ["a"], "edges": [], "amounts": [0], "q": "a"}
named = Table(members, {"a": 1}, "a")
dollar.judge(table), dollar.judge(members), dollar.judge("table.json")
dollar.judge(5)  # error
dollar.judge(None)  # error
dollar.rank_test(table, "1")  # error
dollar.rank_test(table, 1, workers="2")  # error
dollar.rr([1, 2])  # error
Table(3.5)  # error
Table("table.json")  # error
Table(table, 5)  # error
Table(table, ["a"])  # error
Table(table, {"a": "b"})  # error
dollar.rehearse(table, [1])  # error
dollar.judge_all(5)  # error
dollar.judge_all(table, divisors=[1, 2])  # error
dollar.Session(5)  # error
reveal_type(dollar.judge(table).winnable)  # is builtins.bool
dollar.judge(table).script[0] = 1  # error
reveal_type(dollar.judge(table).script)  # is typing.Mapping[typing.Hashable, builtins.int]
reveal_type(table.rank())  # is builtins.int
reveal_type(table)  # is dollar._table.Table[builtins.int]
reveal_type(named + {"a": 2})  # is dollar._table.Table[builtins.str]
reveal_type(3 * table)  # is dollar._table.Table[builtins.int]
reveal_type(table[0] + sum(table.values()))  # is builtins.int
reveal_type(list(table))  # is builtins.list[builtins.int]
reveal_type(Table.of_edges([("a", "b")]).gonality())  # is builtins.int
reveal_type(table.degree)  # is builtins.int
reveal_type(table.linear_system())  # is dollar._divisors.LinearSystem[builtins.int]
reveal_type(next(dollar.judge_all([table], errors="raise")))  # is dollar._answers.Verdict
reveal_type(next(dollar.judge_all([table])))  # is Union[dollar._answers.Verdict, dollar._answers.RefusedVerdict]
reveal_type(next(dollar.rank_test_all([table], 1, errors="raise")))  # is dollar._answers.RankTest
reveal_type(next(dollar.rr_all([table], errors="row")))  # is Union[dollar._answers.RiemannRoch, dollar._answers.RefusedRiemannRoch]
reveal_type(dollar.rr(table).rank)  # is builtins.int
reveal_type(dollar.rank(table))  # is builtins.int
reveal_type(table.fire({0: 1}).lend(1))  # is dollar._table.Table[builtins.int]
reveal_type(next(iter(table.reduced_divisors(2, winnable=True))))  # is dollar._table.Table[builtins.int]
dollar.rr_all([table], errors="ignore")  # error
dollar.judge(table, "b")  # error
dollar.judge_all(table, [[2, -1]])  # error
dollar.rank(table, 1)  # error
table.rank(1)  # error
found = dollar.judge_all(table, divisors=[[1, 2]]).columns()
reveal_type(found.winnable)  # is numpy.ndarray[Any, numpy.dtype[numpy.bool_]]
reveal_type(found.script[0])  # is numpy.ndarray[Any, numpy.dtype[numpy.signedinteger[numpy._typing._64Bit]]]
(found.script[0] == found.reduced[0] - 1).all()
found.no_such_thing  # error
found.script[0] = found.script[1]  # error
dollar.judge_all(table, divisors=[[1, 2]]).columns("numpy")  # error
reveal_type(dollar.judge_all([table], errors="raise"))  # is dollar._sweeps.Verdicts[dollar._answers.Verdict]
dollar.to_csv(found, "found.csv"), dollar.to_csv(dollar.judge_all([table]), "found.csv")
dollar.to_csv([table], "found.csv")  # error
Table(table, {0: 1.5})  # error
table.fire({0: 1.5})  # error
table + {0: 1.5}  # error
table.jacobian()  # error
table.fire({0, 1}), table.fire([1, 2]), table.fire((1, 2)), table.fire({0: 1}), table.fire(table)


async def play() -> None:
    await dollar.AsyncSession.open(table, seat=3)  # error
    other = await dollar.AsyncSession.open(table, seats=3)
    reveal_type(await other.lend(0, seat=1))  # is dollar._answers.Entry
    other.kill()


with table.serve() as session:
    entry = session.ask("look")
    reveal_type(entry)  # is dollar._answers.Entry
    reveal_type(session.gift(0, 3))  # is dollar._answers.Entry
    reveal_type(session.now().amounts)  # is builtins.tuple[builtins.int, ...]
    session.gift(0, 1.5)  # error
    session.fire(0)  # error
    reveal_type(entry.amounts)  # is Union[typing.Mapping[typing.Hashable, builtins.int], None]
    if isinstance(entry, dollar.Looked):
        reveal_type(entry.amounts)  # is typing.Mapping[typing.Hashable, builtins.int]
    if isinstance(entry, dollar.Judged):
        reveal_type(entry.found)  # is dollar._answers.Verdict
    if isinstance(entry, dollar.Tested):
        reveal_type(entry.found)  # is dollar._answers.RankTest
'''


class OfTypes(Test):
    @each(["with", "without"])
    def test_what_mypy_says(self, numpy):
        needed("mypy")
        folder = self.folder()
        (folder / "sample.py").write_text(SAMPLE)
        words = ["--strict", "--hide-error-context", "--cache-dir", folder / "cache", folder / "sample.py"]
        if numpy == "without":
            words.append("--no-site-packages")
        else:
            needed("numpy")
        said = subprocess.run([sys.executable, "-m", "mypy", *words], stdout=subprocess.PIPE, stderr=subprocess.STDOUT, text=True,
                              cwd=PACKAGE).stdout
        found = {}
        for number, kind, text in re.findall(r'sample\.py:(\d+): (error|note): (.*)', said):
            revealed = re.search(r'Revealed type is "(.*)"', text)
            if kind == "error" or revealed:
                found.setdefault(int(number), "is " + revealed[1] if revealed else "error")
        sample = SAMPLE if numpy == "with" else re.sub(r"is numpy\.ndarray.*", "is Any", SAMPLE)
        wanted = {number: line.partition("  # ")[2] for number, line in enumerate(sample.splitlines(), 1) if "  # " in line}
        self.assertEqual(found, wanted, said)
        self.assertNotRegex(said, "dollar/.*error")
