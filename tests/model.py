"""A model of the game, which knows the rules as the pages have them and nothing of the program: what tests compare answers
with. A verdict is checked by its definition, a rank test by making the trials."""
import itertools
import re

from dollar._grammar import GRAMMAR, limit

COMMANDS, KINDS = GRAMMAR["commands"], GRAMMAR["kinds"]
MOST_EDGES, MOST_AMOUNT, MOST_GIFT = limit("dg_graph::MAX_VALENCE"), limit("dg_chips::MAX_AMOUNT"), limit("dg_rules::MAX_GIFT")
MOST_DEGREE, MOST_TRIALS = limit("dg_rank::MAX_DEGREE"), limit("dg_rank::MAX_TRIALS")


class Bad(Exception):
    """A line is no command; the text is its answer."""


def parse(line, names):
    """The command of a line as a list: its word and what each word after it tells, names as vertices. Raises Bad."""
    word, *given = line.split(" ")
    if word not in COMMANDS:
        raise Bad("bad word")
    kinds = COMMANDS[word]
    if len(given) != len(kinds) or "" in given:
        raise Bad("bad form")
    named = [named_in(kind, text) for kind, text in zip(kinds, given)]
    if any(len(set(each)) < len(each) or not set(each) <= set(names) for each in named):
        raise Bad("bad name")
    return [word, *(told(kind, text, [names.index(name) for name in each]) for kind, text, each in zip(kinds, given, named))]


def named_in(kind, text):
    """The names in a word of the kind."""
    if kind in ("dollars", "degree"):
        return []
    items = [text] if kind == "vertex" else text.split(",")
    return [item.split("=")[0] for item in items] if kind == "script" else items


def told(kind, text, vertices):
    """What a word of the kind tells, whose names are those of the vertices."""
    def number(digits):
        if not re.fullmatch("0|-?[1-9][0-9]*", digits) or not KINDS[kind]["least"] <= int(digits) <= KINDS[kind]["most"]:
            raise Bad("bad number")
        return int(digits)

    if kind == "vertex":
        return vertices[0]
    if kind == "vertices":
        return vertices
    if kind == "script":
        return {v: number(item.partition("=")[2]) for v, item in zip(vertices, text.split(","))}
    return number(text)


# A word of each kind, as somebody may draw it.
DRAWN = {
    "vertex": lambda rng, names: rng.choice(names),
    "vertices": lambda rng, names: ",".join(rng.sample(names, rng.randint(1, 2))),
    "script": lambda rng, names: ",".join(f"{name}={rng.randint(-2, 2)}" for name in rng.sample(names, rng.randint(1, 2))),
    "dollars": lambda rng, names: str(rng.randint(-2, 2)),
    "degree": lambda rng, names: "1",
}


def some_command(rng, names):
    """A line with a command of any kind; looks and what needs them come more often."""
    word = rng.choice([*COMMANDS, "look", "commit"])
    return " ".join([word, *(DRAWN[kind](rng, list(names)) for kind in COMMANDS[word])])


class Game:
    """The one-player game on a table: edges, amounts, the count of accepted gifts, levies and joins, and the rules."""

    def __init__(self, table):
        self.names, self.amounts, self.gifts = table["vertices"], list(table["amounts"]), 0
        self.q, self.size = self.names.index(table["q"]), len(self.names)
        self.edges = [[0] * self.size for _ in self.names]
        for u, v, count in table["edges"]:
            u, v = self.names.index(u), self.names.index(v)
            self.edges[u][v] += count
            self.edges[v][u] += count
        self.kept = {}

    def pairs(self, amounts):
        return " ".join("%s=%d" % pair for pair in zip(self.names, amounts))

    def fired(self, amounts, script):
        """The amounts after each vertex v has lent script[v] times: a dollar along each edge each time."""
        return [x + sum(e * (script[w] - script[v]) for w, e in enumerate(self.edges[v])) for v, x in enumerate(amounts)]

    def act(self, command):
        """The text of the reply to a move, a gift, a join, a look or a claim."""
        word = command[0]
        if word == "join":
            return self.join(*command[1:])
        if word == "look":
            return "looked %d %s" % (self.gifts, self.pairs(self.amounts))
        if word == "claim":
            return "won" if min(self.amounts) >= 0 else "not won"
        if word == "gift":
            if not 1 <= abs(command[2]) <= MOST_GIFT:
                return "refused gift"
            after = list(self.amounts)
            after[command[1]] += command[2]
        else:
            moved = [command[1]] if word in ("lend", "borrow") else command[1]
            lends = moved if word == "script" else dict.fromkeys(moved, -1 if word == "borrow" else 1)
            after = self.fired(self.amounts, [lends.get(v, 0) for v in range(self.size)])
        if max(map(abs, after)) > MOST_AMOUNT:
            return "refused range"
        self.amounts = after
        if word == "gift":
            self.gifts += 1
            return "given %d %s" % (self.gifts, self.pairs(after))
        return "moved " + self.pairs(after)

    def join(self, u, v):
        """The text of the reply to a join of two vertices."""
        if u == v:
            return "refused loop"
        if max(sum(self.edges[u]), sum(self.edges[v])) >= MOST_EDGES:
            return "refused valence"
        self.edges[u][v] += 1
        self.edges[v][u] += 1
        self.kept.clear()
        self.gifts += 1
        return "joined %d %s" % (self.gifts, self.pairs(self.amounts))

    def unburnt(self, amounts):
        """What is left when all has burnt from q that may: a vertex burns that more edges join to burnt ones than it holds."""
        left = set(range(self.size)) - {self.q}
        while True:
            burns = [v for v in left if sum(e for w, e in enumerate(self.edges[v]) if w not in left) > amounts[v]]
            if not burns:
                return left
            left -= set(burns)

    def reduced(self, amounts):
        """The amounts without debt off q, and of which all burns, that moves lead to."""
        script = [0] * self.size
        while True:
            now = self.fired(amounts, script)
            poor = [v for v in range(self.size) if v != self.q and now[v] < 0]
            left = self.unburnt(now)
            if poor:
                v = min(poor, key=lambda v: now[v])
                script[v] -= -(now[v] // sum(self.edges[v]))
            elif left:
                out = {v: sum(e for w, e in enumerate(self.edges[v]) if w not in left) for v in left}
                times = min(now[v] // out[v] for v in left if out[v])
                script = [x + times * (v in left) for v, x in enumerate(script)]
            else:
                return now

    def is_winnable(self, amounts):
        return self.reduced(amounts)[self.q] >= 0

    def first_loss(self, amounts, degree):
        """The first list of amounts without debts, of this degree, that can't be taken away and the rest still won."""
        amounts = tuple(self.reduced(amounts))
        if (amounts, degree) not in self.kept:
            trials = (t for t in itertools.product(range(degree + 1), repeat=self.size) if sum(t) == degree)
            self.kept[amounts, degree] = next(
                (t for t in trials if not self.is_winnable([x - y for x, y in zip(amounts, t)])), None)
        return self.kept[amounts, degree]

    def is_reply(self, command, text, gifts):
        """Whether a text is the right reply to a command, which is played; `gifts` is the count at the seat's last look."""
        if command[0] not in ("commit", "rank"):
            return text == self.act(command)
        if gifts != self.gifts:
            return text == "stale %d" % self.gifts
        return self.is_verdict(text) if command[0] == "commit" else self.is_rank(text, command[1])

    def is_verdict(self, text):
        """Whether a text is a right verdict on the position: each sentence of the definition is tested."""
        parts = re.fullmatch("(un)?winnable by (.*) to (.*)", text)
        if not parts:
            return False
        script, end = ([int(pair.partition("=")[2]) for pair in part.split(" ")] for part in parts.groups()[1:])
        return (text == "%swinnable by %s to %s" % (parts[1] or "", self.pairs(script), self.pairs(end))
                and script[self.q] == 0 and self.fired(self.amounts, script) == end
                and all(x >= 0 for v, x in enumerate(end) if v != self.q) and not self.unburnt(end)
                and (parts[1] is None) == (end[self.q] >= 0))

    def is_rank(self, text, degree):
        """Whether a text is the right answer to the rank test on the position."""
        loss = self.first_loss(self.amounts, degree)
        return text == ("rank at least %d" % degree if loss is None else "rank below %d at %s" % (degree, self.pairs(loss)))


def trials(size, degree):
    """How many trials a rank test makes, or None where that is past the limits."""
    count = 1
    for i in range(1, size):
        count = count * (degree + i) // i
    return count if degree <= MOST_DEGREE and count <= MOST_TRIALS else None


class Session:
    """A session on a table, with so many seats or with one that lines do not name: the game, the number of the next entry, and
    of each seat that has a look the number of its entry and the count of changes then."""

    def __init__(self, table, seats=None):
        self.game, self.seats, self.number, self.looks = Game(table), seats, 0, {}

    def command(self, seat, line):
        """The command of a line. Raises Bad for one that makes no entry: also a commit or a rank test of a seat that has no
        look, and a rank test past the limits, which leaves the look."""
        command = parse(line, self.game.names)
        if command[0] in ("commit", "rank") and seat not in self.looks:
            raise Bad("bad look")
        if command[0] == "rank" and trials(self.game.size, command[1]) is None:
            raise Bad("bad trials")
        return command

    def look(self, seat, command):
        """Keeps the look of a seat, or gives the one that the command uses up."""
        if command[0] == "look":
            self.looks[seat] = self.number, self.game.gifts
        return self.looks.pop(seat) if command[0] in ("commit", "rank") else (0, 0)

    def enter(self, seat, command, reply):
        """Whether a text is the right reply to a command, which is entered."""
        _, gifts = self.look(seat, command)
        self.number += 1
        return self.game.is_reply(command, reply, gifts)

    def is_answer(self, line, text):
        """Whether a text is the right answer to a line, which is played."""
        seat, space, rest = line.partition(" ") if self.seats else ("1", " ", line)
        if not space or seat not in map(str, range(1, (self.seats or 1) + 1)):
            return text == "bad seat"
        try:
            command = self.command(seat, rest)
        except Bad as fault:
            return text == str(fault)
        start = "%d " % self.number
        return self.enter(seat, command, text[len(start):]) and text.startswith(start)


def entries(table, script):
    """The lines of a script that make entries, each with its command."""
    session = Session(table)
    for line in script:
        try:
            command = session.command(1, line)
        except Bad:
            continue
        session.look(1, command)
        yield line, command
