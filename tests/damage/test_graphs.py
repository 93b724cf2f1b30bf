"""Extreme graphs: many edges, few, long and heavy, with amounts at both limits. Each verdict is checked by its definition, in
whole numbers without bounds; each rank test by making all trials."""
import itertools
import json
import resource

from runs import TRIANGLE, checked
from dollar import answer, flaw
from model import Game

LIMIT, VALENCE, VERTICES, STACK = 1000000, 63, 16, 1 << 20


def table(size, edges, amounts, q=0):
    names = "abcdefghijklmnop"[:size]
    return {"vertices": list(names), "edges": [[names[u], names[v], count] for u, v, count in edges], "amounts": list(amounts),
            "q": names[q]}


def path(size, heavy, light):
    """A path whose edges are in turn heavy and light."""
    return [(v, v + 1, (heavy, light)[v % 2]) for v in range(size - 1)]


def cycle(size, count):
    return [(v, (v + 1) % size, count) for v in range(size)]


def complete(size, count):
    return [(u, v, count) for v in range(size) for u in range(v)]


def tree(size, odd, even):
    """A tree in which each vertex has two below it, one by so many edges and one by so many."""
    return [((v - 1) // 2, v, odd if v % 2 else even) for v in range(1, size)]


def comb(size, heavy):
    """A path of single edges, and from each vertex of it a heavy edge to a leaf."""
    back = (size + 1) // 2
    return [(v, v + 1, 1) for v in range(back - 1)] + [(v - back, v, heavy) for v in range(back, size)]


def small_graphs():
    """Graphs of up to four vertices, for all patterns of signs."""
    yield "one vertex", 1, []
    for count in range(1, VALENCE + 1):
        yield "banana of %d" % count, 2, [(0, 1, count)]
    for size in (3, 4):
        for heavy, light in ((1, 1), (1, 62), (62, 1), (31, 32)):
            yield "path of %d, %d and %d" % (size, heavy, light), size, path(size, heavy, light)
        for count in (1, 2, 31):
            yield "cycle of %d times %d" % (size, count), size, cycle(size, count)
        for count in {1, 2, VALENCE // (size - 1)}:
            yield "complete graph of %d times %d" % (size, count), size, complete(size, count)
        yield "star of %d" % size, size, [(0, v, VALENCE // (size - 1)) for v in range(1, size)]
    yield "a heavy triangle with a tail", 4, [(0, 1, 31), (1, 2, 31), (0, 2, 31), (2, 3, 1)]


def large_graphs():
    """Graphs of more vertices."""
    for size in range(5, VERTICES + 1):
        for heavy, light in ((1, 1), (62, 1), (1, 62), (32, 31), (2, 61)):
            yield "path of %d, %d and %d" % (size, heavy, light), size, path(size, heavy, light)
        for count in (1, 31):
            yield "cycle of %d times %d" % (size, count), size, cycle(size, count)
        for count in {1, VALENCE // (size - 1)}:
            yield "complete graph of %d times %d" % (size, count), size, complete(size, count)
        yield "star of %d" % size, size, [(0, v, VALENCE // (size - 1)) for v in range(1, size)]
        for odd, even in ((1, 1), (21, 21), (31, 1), (1, 31)):
            yield "tree of %d, %d and %d" % (size, odd, even), size, tree(size, odd, even)
        yield "comb of %d" % size, size, comb(size, 61)
        yield "two dense halves and an edge, of %d" % size, size, (
            complete(size // 2, 62 // max(size // 2 - 1, 1)) + [(0, size // 2, 1)]
            + [(u + size // 2, v + size // 2, count) for u, v, count in complete(size - size // 2, 62 // (size - size // 2 - 1))])


def patterns(size):
    """Amounts at the limits, in some patterns of signs."""
    yield [LIMIT] * size
    yield [-LIMIT] * size
    yield [LIMIT * (-1) ** v for v in range(size)]
    yield [-LIMIT * (-1) ** v for v in range(size)]
    yield [LIMIT if v < size // 2 else -LIMIT for v in range(size)]
    yield [-LIMIT if v < size // 2 else LIMIT for v in range(size)]
    yield [LIMIT] + [-LIMIT // (size - 1)] * (size - 1)
    yield [-LIMIT] + [0] * (size - 2) + [LIMIT]
    yield [0] * (size - 1) + [LIMIT - 1]
    yield [1 - LIMIT] + [LIMIT // 7 * (-1) ** v for v in range(1, size)]


def judge(checks, what, board):
    """Has the program judge the table. The script is fired, and the divisor burnt, in python/dollar/_checks.py: that its verdict
    has no flaw proves it, and there is only one such."""
    run = checks.brief("judge", checks.put("board", json.dumps(board).encode()))
    said = run.output.decode("latin-1")
    fine = run.status == 0 and not run.faults and said.endswith("\n") and flaw(board, answer(said[:-1])) is None
    checks.holds("%s with %s for %s" % (what, board["amounts"], board["q"]), fine, run)


def verdicts(checks):
    for what, size, edges in small_graphs():
        for q in range(size):
            for amounts in itertools.product((-LIMIT, 0, LIMIT) if size < 4 else (-LIMIT, LIMIT), repeat=size):
                judge(checks, what, table(size, edges, amounts, q))
    for what, size, edges in large_graphs():
        for number, amounts in enumerate(patterns(size)):
            judge(checks, what, table(size, edges, amounts, (0, size - 1, size // 2)[number % 3]))


def rank_of(game, amounts, most):
    """The rank by its definition, up to a degree; -1 where nothing can be won."""
    return next((degree - 1 for degree in range(most + 1) if game.first_loss(amounts, degree) is not None), most)


def ranks(checks):
    """Rank tests on small graphs, with amounts at the limits that leave a small degree, and small ones."""
    boards = [
        (2, [(0, 1, 63)]), (2, [(0, 1, 5)]), (3, path(3, 62, 1)), (3, cycle(3, 31)), (3, cycle(3, 2)), (3, complete(3, 1)),
        (4, path(4, 1, 62)), (4, cycle(4, 1)), (4, complete(4, 1)), (4, complete(4, 21))]
    for size, edges in boards:
        given = [[LIMIT, -LIMIT] + [0] * (size - 2), [-LIMIT] + [0] * (size - 2) + [LIMIT], [3 - LIMIT, LIMIT] + [0] * (size - 2),
                 [LIMIT] + [-LIMIT] * (size - 1), [1] * size, [2] + [0] * (size - 1), [0] * (size - 1) + [4], [5, -2] + [1] * (size - 2)]
        for amounts in given:
            board = table(size, edges, amounts)
            game, place = Game(board), checks.put("board", json.dumps(board).encode())
            for degree in range(5):
                run = checks.brief("rank", place, str(degree))
                fine = run.status == 0 and not run.faults and game.is_rank(run.output.decode()[:-1], degree)
                checks.holds("rank %d of %s" % (degree, board), fine, run)
            both_ranks(checks, board, place)


def both_ranks(checks, board, place):
    """The four numbers of a small table: the ranks up to 4 by all trials."""
    game = Game(board)
    dual = [sum(row) - 2 - amount for row, amount in zip(game.edges, board["amounts"])]
    degree, genus = sum(board["amounts"]), sum(count for *_, count in board["edges"]) - len(board["vertices"]) + 1
    if max(map(abs, dual)) > LIMIT:
        return
    run = checks.brief("rr", place)
    numbers = [int(line.split(" ")[1]) for line in run.output.decode().splitlines()]
    if run.status:
        checks.same("rr of %s" % board, (3, b"dollar: too many trials\n"), (run.status, run.faults))
        return
    checks.same("rr of %s: degree and genus" % board, [degree, genus], numbers[:2])
    checks.same("rr of %s: the ranks" % board, [min(rank_of(game, board["amounts"], 4), 4), min(rank_of(game, dual, 4), 4)],
                [min(rank, 4) for rank in numbers[2:]])


def small_stacks(checks):
    """The least stack that docs/formats.md tells is enough for the deepest texts and the largest graphs."""
    def limited():
        resource.setrlimit(resource.RLIMIT_STACK, (STACK, resource.RLIM_INFINITY))

    deep = {"arrays": b"[" * 127 + b"]" * 127, "objects": b'{"a":' * 127 + b"1" + b"}" * 127}
    full = json.dumps(table(VERTICES, complete(VERTICES, 4), [LIMIT] * VERTICES)).encode()
    steps, script = checks.put("steps", b"1 look\n1 commit\n1 look\n1 rank 1\n"), checks.put("script", b"look\ncommit\nlook\nrank 1\n")
    for what, text in (*deep.items(), ("sixteen vertices", full), ("a triangle", TRIANGLE)):
        board = checks.put("board", text)
        for words in (("judge", board), ("rank", board, "1"), ("rank", board, "630"), ("rank", board, "1", "--workers", "16"),
                      ("rr", board), ("greedy", board, "3"),
                      ("rehearse", board, steps), ("party", board, script), ("judge", "--lines", board), ("rr", "--lines", "--workers", "16", board)):
            checks.same("%s of %s with a stack of 1 MiB" % (words[0], what), checks.run(*words), checks.run(*words, before=limited))
        checks.same("serve of %s with a stack of 1 MiB" % what, checks.run("serve", board, typed=b"look\ncommit\nlook\nrank 1\n"),
                    checks.run("serve", board, typed=b"look\ncommit\nlook\nrank 1\n", before=limited))
    # These tests of many dollars walk deep, or would if they might.
    for edges, amounts, degree in (([(0, 1, 1), (1, 2, 40), (2, 3, 1)], [9, 118, 3, 0], "96"),
                                   ([(0, 1, 11), (0, 2, 1), (2, 3, 1), (2, 4, 1)], [9, 0, 32, 2, 0], "42"),
                                   ([(0, 1, 1), (1, 2, 40)], [3, 560, 0], "491"), ([(0, 1, 1), (0, 2, 30)], [2, 700, 0], "630")):
        board = checks.put("board", json.dumps(table(len(amounts), edges, amounts)).encode())
        checks.same("rank %s of %s with a stack of 1 MiB" % (degree, edges), checks.run("rank", board, degree),
                    checks.run("rank", board, degree, before=limited))
    for words in (("--help",), ("--version",), ("help", "serve"), ("judge",), ("nothing",)):
        checks.same("%s with a stack of 1 MiB" % " ".join(words), checks.run(*words), checks.run(*words, before=limited))


load_tests = checked(small_stacks, verdicts, ranks)
