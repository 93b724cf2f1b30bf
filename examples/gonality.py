#!/usr/bin/env python3
"""The gonality of graphs, each on a line: the least degree of a divisor whose rank is at least 1. So many dollars can be placed so that any
one of them may be lost.

    examples/gonality.py FILE

FILE is a table, or has one on each line. What the vertices hold does not matter."""
import argparse
import json
import os
import sys

HERE = os.path.dirname(os.path.abspath(__file__))
# Where the package is in a clone, and in the unpacked tarball; otherwise it is installed.
sys.path[:0] = [os.path.join(HERE, "..", "python"), os.path.join(HERE, "..", "..", "..", "dollar", "python")]
import dollar


def tables_of(text):
    """The table that a text is, or those on its lines."""
    try:
        return [dollar.Table(json.loads(text))]
    except json.JSONDecodeError as fault:
        if fault.msg != "Extra data":
            raise
    return [dollar.Table(json.loads(line)) for line in text.splitlines()]


def main():
    reader = argparse.ArgumentParser(description="Prints the gonality of graphs, each on a line.")
    reader.add_argument("file", metavar="FILE", help="a table, or tables a line each")
    try:
        with open(reader.parse_args().file) as file:
            tables = tables_of(file.read())
        for table in tables:
            print(table.gonality())
    except (OSError, ValueError, dollar.Fault) as fault:
        sys.exit("gonality.py: %s" % fault)


if __name__ == "__main__":
    main()
