"""Turns the lines that the program prints into lines of JSON.

    dollar serve FILE | python3 -m dollar json

Each line of standard input is one that a command of the program has printed. It may be a verdict, a rank test, the four numbers, an
entry of a history or a session, the totals of a party, or the fault of a refused table. Each is answered by one line, an object, as soon
as it is read: amounts are objects by the names of the vertices, and numbers are numbers. Any other line is a fault, with the status 1.

    >>> print(json.dumps(read("2 winnable by a=0 b=-1 to a=1 b=0")))
    {"word": "winnable", "found": {"winnable": true, "script": {"a": 0, "b": -1}, "reduced": {"a": 1, "b": 0}}, "number": 2}
    >>> read("0 3 given 1 a=2 b=-1")
    {'word': 'given', 'gifts': 1, 'amounts': {'a': 2, 'b': -1}, 'number': 0, 'seat': 3}
    >>> read("degree 2 genus 1 rank 1 dual -1"), read("rank -1"), read("seat 2 calls 5"), read("refused shape of q")
    ({'degree': 2, 'genus': 1, 'rank': 1, 'dual': -1}, {'rank': -1}, {'seat': 2, 'calls': 5}, {'refused': 'shape of q'})
"""

from __future__ import annotations

import argparse
import json
import re
import sys

from dollar._answers import RIEMANN_ROCH, Entry, answer, no_answer, numbered, pairs_of
from dollar._grammar import GRAMMAR
from dollar._program import typed

TOTAL = re.compile(r"(degree|genus|rank|dual|entries|gifts) (0|-?[1-9]\d*)|seat ([1-9]\d*) calls (0|[1-9]\d*)", re.ASCII)
POSITION = re.compile(r"position (\w+=-?\d+(?: \w+=-?\d+)*)", re.ASCII)


def read(line: str) -> dict[str, object]:
    """The object for a line, which has no newline."""
    if line[:1].isdigit():
        found = numbered(line, re.match(r"\d+ \d", line, re.ASCII) is not None)
        if found.number is None:
            raise no_answer(line)
        return found.as_dict()
    if line.startswith("refused ") and line not in GRAMMAR["refusals"]:
        return {"refused": line[len("refused "):]}
    numbers, total, position = RIEMANN_ROCH.fullmatch(line), TOTAL.fullmatch(line), POSITION.fullmatch(line)
    if numbers:
        return {word: int(number) for word, number in zip(("degree", "genus", "rank", "dual"), numbers.groups())}
    if total:
        return {total[1]: int(total[2])} if total[1] else {"seat": int(total[3]), "calls": int(total[4])}
    if position:
        return {"position": pairs_of(position[1])}
    found_without = answer(line)
    if isinstance(found_without, Entry) and found_without.word.split(" ")[0] not in ("bad", "turns"):
        raise no_answer(line)
    return found_without.as_dict()


def main(arguments: list[str]) -> int:
    text = (__doc__ or "").partition("\n    >>>")[0].split("\n\n", 2)
    usage = text[1].strip().replace("python3 -m dollar json", typed("json"))
    argparse.ArgumentParser(prog=typed("json"), description=text[0], epilog=text[2], usage=usage,
                            formatter_class=argparse.RawDescriptionHelpFormatter).parse_args(arguments)
    for number, line in enumerate(sys.stdin.buffer, 1):
        try:
            found = read(line.decode().rstrip("\n"))
        except ValueError as error:
            raise ValueError("line %d: %s" % (number, error)) from None
        sys.stdout.write(json.dumps(found) + "\n")
        sys.stdout.flush()
    return 0
