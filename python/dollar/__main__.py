"""The commands of the package.

    python3 -m dollar board [FILE]           a board to play on, in a browser, for one player or for a class
    python3 -m dollar draw FILE              a picture of a table and of its verdict
    python3 -m dollar replay FILE STEPS      a page that shows a game
    python3 -m dollar sweep judge FILE CSV   the verdicts on the tables of a file, or other answers, by all processors
    python3 -m dollar json                   the program's lines from a pipe, as lines of JSON
    python3 -m dollar names                  a page of all names of the package

Each has --help. In a clone where the package is not installed, `python3 python/dollar` does the same."""

import argparse
import importlib
import os
import sys

if not __package__:
    # Python was given the folder, and not the name of the package.
    sys.dont_write_bytecode = True
    sys.path[0] = os.path.dirname(os.path.dirname(os.path.abspath(__file__)))

from dollar import _program as program
from dollar._commands import judge
from dollar._drawing import verdict_picture
from dollar._table import shown_name, text_of

COMMANDS = {"board": "dollar.board.play", "replay": "dollar.board.replay", "sweep": "dollar._cluster",
            "json": "dollar._as_json", "names": "dollar._names"}


def draw(words: "list[str]") -> int:
    """Prints the picture of a table."""
    reader = argparse.ArgumentParser(
        prog=program.typed("draw"), usage="%(prog)s [--places PLACES] FILE > PICTURE.svg",
        description="Draws a table and its verdict. A vertex has its name and its dollars; one in debt is red and hatched, and q has a "
        "double ring. Below a vertex is how often the script lets it lend or borrow. Vertices that burn are orange, with their number in the order.")
    reader.add_argument("--places", metavar="PLACES",
                        help="a file with a line 'name x y' for the place of each vertex; x goes to the right, and y down")
    reader.add_argument("file", metavar="FILE")
    given = reader.parse_args(words)
    own = None if given.places is None else text_of(given.places)
    verdict = judge(given.file)
    sys.stdout.write(verdict_picture(shown_name(given.file), verdict.judged(), verdict, own))
    return 0


def board() -> int:
    """The command `dollar-board`."""
    return main(["board", *sys.argv[1:]])


def main(words: "list[str]") -> int:
    if words in (["-h"], ["--help"]):
        print(__doc__)
        return 0
    if not words or words[0] not in ("draw", *COMMANDS):
        print(__doc__, file=sys.stderr)
        return 2
    program.may_build = True
    try:
        command = draw if words[0] == "draw" else importlib.import_module(COMMANDS[words[0]]).main
        status: int = command(words[1:])
        sys.stdout.flush()
        return status
    except BrokenPipeError:
        os.dup2(os.open(os.devnull, os.O_WRONLY), sys.stdout.fileno())
        return 1
    except (OSError, ValueError, TypeError, RecursionError, program.Fault) as error:
        print("%s: %s" % (program.typed(words[0]), " ".join(str(error).split())), file=sys.stderr)
        return 1
    except KeyboardInterrupt:
        return 130


if __name__ == "__main__":
    sys.exit(main(sys.argv[1:]))
