"""The dollar game from Python: tables, verdicts, ranks, games and sweeps, by the program `dollar` and its library for C.

>>> import dollar
>>> triangle = dollar.Table({"vertices": ["a", "b", "c"], "edges": [["a", "b", 1], ["b", "c", 1], ["a", "c", 1]],
...                          "amounts": [2, -1, -1], "q": "a"})
>>> print(dollar.judge(triangle))
winnable by a=0 b=-1 c=-1 to a=0 b=0 c=0
>>> dollar.rank(triangle), print(dollar.rank_test(triangle, 1))
rank below 1 at a=0 b=0 c=1
(0, None)
>>> dollar.rr(triangle)
RiemannRoch(degree=0, genus=1, rank=0, dual=0)

A table is made of anything that has a graph; anything else is an error; see `Table`. `judge_all`, `rank_test_all` and `rr_all` answer
many tables, `Session` plays line by line, `flaw` checks a verdict without the program. docs/tools.md shows it all.

All names; modules that begin with an underscore are not for users:

- `Table`, `example`: a table; the table of a file in the clone's folder `examples`
- `judge`, `rank`, `rank_test`, `rr`, `rehearse`, `greedy`, `party`: the commands for one table
- `judge_all`, `rank_test_all`, `rr_all`, `to_csv`: the commands for many tables; a CSV file of their answers
- `Verdict`, `RankTest`, `RiemannRoch`, `Entry`, `History`, `Party`: answers
- `Verdicts`, `RankTests`, `RiemannRochs`: the answers of sweeps; `VerdictColumns`, `RankTestColumns`, `RiemannRochColumns`: their columns
- `Refused`, `RefusedVerdict`, `RefusedRankTest`, `RefusedRiemannRoch`: a row of a refused table
- `Moved`, `Given`, `Joined`, `Looked`, `Judged`, `Tested`, `Stale`, `Claimed`, `Declined`, `Bad`, `Turns`: the kinds of entries
- `Session`, `AsyncSession`, `End`, `Ended`: a session, and one for asyncio; how it has ended; the error once it has
- `Fault`, `ProgramNotFound`, `find_program`: a refusal; the error if there is no program; the path of the program
- `flaw`, `fired`, `burnt`, `edges`, `joined`, `picture`: the game itself, without the program; a picture of a table
- `run`, `answer`, `history`: the lines that any command prints; what a line and a history say
"""

from __future__ import annotations

from typing import TYPE_CHECKING, Any

from dollar._answers import (
    Bad, Claimed, Declined, Entry, Given, History, Joined, Judged, Looked, Moved, Party, RankTest, Refused, RefusedRankTest, RefusedRiemannRoch,
    RefusedVerdict, RiemannRoch, Stale, Tested, Turns, Verdict, answer, history)
from dollar._checks import burnt, edges, fired, flaw, joined
from dollar._columns import RankTestColumns, RiemannRochColumns, VerdictColumns
from dollar._commands import greedy, judge, party, rank, rank_test, rehearse, rr, run
from dollar._csvs import to_csv
from dollar._drawing import picture
from dollar._program import Fault, ProgramNotFound, find_program
from dollar._session import End, Ended, Session
from dollar._sweeps import RankTests, RiemannRochs, Verdicts, judge_all, rank_test_all, rr_all
from dollar._table import Table, example

if TYPE_CHECKING:
    from dollar._asynchronous import AsyncSession

__version__ = "2.0.0"

__all__ = [
    "AsyncSession", "Bad", "Claimed", "Declined", "End", "Ended", "Entry", "Fault", "Given", "History", "Joined", "Judged", "Looked", "Moved",
    "Party", "ProgramNotFound", "RankTest", "RankTestColumns", "RankTests", "Refused", "RefusedRankTest", "RefusedRiemannRoch", "RefusedVerdict",
    "RiemannRoch", "RiemannRochColumns", "RiemannRochs", "Session", "Stale", "Table", "Tested", "Turns", "Verdict", "VerdictColumns", "Verdicts",
    "answer", "burnt", "edges", "example", "find_program", "fired", "flaw", "greedy", "history", "joined", "judge", "judge_all", "party",
    "picture", "rank", "rank_test", "rank_test_all", "rehearse", "rr", "rr_all", "run", "to_csv",
]

# Errors and pickles name a class by where users find it.
for _name in __all__:
    if isinstance(globals().get(_name), type):
        globals()[_name].__module__ = "dollar"


def __getattr__(name: str) -> Any:
    """Brings asyncio only where it is wanted: it takes as long as all else."""
    if name == "AsyncSession":
        from dollar._asynchronous import AsyncSession

        AsyncSession.__module__ = "dollar"
        return AsyncSession
    raise AttributeError("module 'dollar' has no attribute %r" % name)
