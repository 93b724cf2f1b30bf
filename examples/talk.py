#!/usr/bin/env python3
"""Plays a game with the program through a pipe, and chooses each line by the answer to the one before: the vertex that
owes most borrows, until nobody owes anything.

    examples/talk.py [FILE]"""
import argparse
import os
import sys

HERE = os.path.dirname(os.path.abspath(__file__))
# Where the package is in a clone, and in the unpacked tarball; otherwise it is installed.
sys.path[:0] = [os.path.join(HERE, "..", "python"), os.path.join(HERE, "..", "..", "..", "dollar", "python")]
import dollar


def play(table, turns=1000):
    """The lines of a game and their answers. First borrows who owes most, and of several the first."""
    amounts = table.divisor
    with table.serve() as session:
        while min(amounts.values()) < 0 and turns:
            line, turns = "borrow " + min(amounts, key=amounts.get), turns - 1
            answer = session.ask(line)
            amounts = answer.amounts or amounts
            yield line, answer
        yield "claim", session.ask("claim")


def main():
    reader = argparse.ArgumentParser(description="Plays a game with the program, in which the vertex that owes most borrows.")
    reader.add_argument("file", metavar="FILE", nargs="?", default=os.path.join(HERE, "triangle.json"), help="a table; without it the triangle")
    try:
        for line, answer in play(dollar.Table.read(reader.parse_args().file)):
            print("%-12s %s" % (line, answer))
    except (OSError, ValueError, dollar.Fault) as fault:
        sys.exit("talk.py: %s" % fault)


if __name__ == "__main__":
    main()
