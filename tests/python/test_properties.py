"""Tables and answers of every kind, as hypothesis finds them."""
import json

import dollar
from dollar import Table
from helpers import Test, needed

needed("hypothesis")
from hypothesis import given, settings
from hypothesis import strategies as some

NAMES = some.from_regex(r"[A-Za-z0-9_]{1,16}", fullmatch=True)
AMOUNTS = some.integers(-1_000_000, 1_000_000)
QUICK = settings(max_examples=150, deadline=None, database=None, derandomize=True)


@some.composite
def tables(draw, most=6, amounts=AMOUNTS):
    """Connected tables: a tree and some more edges."""
    names = draw(some.lists(NAMES, min_size=1, max_size=most, unique=True))
    edges = [[names[draw(some.integers(0, v - 1))], names[v], draw(some.integers(1, 4))] for v in range(1, len(names))]
    if len(names) > 1:
        for _ in range(draw(some.integers(0, 4))):
            u, v = draw(some.lists(some.sampled_from(names), min_size=2, max_size=2, unique=True))
            edges.append([u, v, draw(some.integers(1, 3))])
    return {"vertices": names, "edges": edges, "amounts": [draw(amounts) for _ in names], "q": draw(some.sampled_from(names))}


GRAPH6 = some.integers(0, 9).flatmap(lambda size: some.tuples(some.just(size), some.lists(
    some.booleans(), min_size=size * (size - 1) // 2, max_size=size * (size - 1) // 2)))


JSON = some.recursive(some.none() | some.booleans() | some.integers(-3, 3) | some.floats() | some.text(max_size=3),
                      lambda inner: some.lists(inner, max_size=3) | some.dictionaries(some.text(max_size=3), inner, max_size=2), max_leaves=8)


def taken_or_refused(thing, amounts=None):
    """A table is made of a thing, or it is a TypeError or ValueError."""
    try:
        table = Table(thing, amounts)
    except (TypeError, ValueError):
        return
    assert Table(json.loads(table.to_json())) == table


class OfProperties(Test):
    @QUICK
    @given(tables())
    def test_a_table_is_what_it_was_made_of(self, given_table):
        table = Table(given_table)
        self.assertEqual(table.to_dict(), given_table)
        self.assertEqual(json.loads(table.to_json()), given_table)
        self.assertTrue(Table(table) == table == Table(given_table, table.divisor))
        self.assertEqual(hash(table), hash(Table(given_table)))
        self.assertEqual(dict(table, amounts=[0] * len(table.vertices))["amounts"], [0] * len(table.vertices))

    @QUICK
    @given(tables(), some.data())
    def test_other_amounts_make_another_table(self, given_table, data):
        name = data.draw(some.sampled_from(given_table["vertices"]))
        amount = data.draw(AMOUNTS)
        table = Table(given_table, dict(Table(given_table).divisor, **{name: amount}))
        self.assertEqual(table == Table(given_table), amount == Table(given_table).divisor[name])

    @QUICK
    @given(tables())
    def test_a_verdict_is_right_and_can_be_handed_back(self, given_table):
        verdict = dollar.judge(given_table)
        verdict.check()
        self.assertEqual(dollar.answer(str(verdict)), verdict)
        limits = all(abs(amount) <= 1_000_000 for amount in verdict.reduced.values())
        if limits:
            self.assertEqual(dollar.judge(Table(given_table, verdict.reduced)), (verdict[0], dict.fromkeys(verdict.script, 0), verdict.reduced))

    @QUICK
    @given(some.dictionaries(NAMES, some.integers(), min_size=1), some.integers(0))
    def test_texts_are_read_as_they_are_printed(self, amounts, number):
        for entry in (dollar.Entry("moved", amounts=amounts), dollar.Entry("given", number, amounts), dollar.Entry("stale", number)):
            self.assertEqual(dollar.answer(str(entry)), entry)
        for found in (dollar.Verdict(True, amounts, amounts), dollar.RankTest(False, number, amounts), dollar.RankTest(True, number)):
            self.assertEqual(dollar.answer(str(found)), found)

    @QUICK
    @given(some.text(max_size=60))
    def test_no_text_is_taken_for_another(self, text):
        try:
            self.assertEqual(str(dollar.answer(text)), text)
        except ValueError as error:
            self.assertIn("no answer of the program", str(error))

    @QUICK
    @given(GRAPH6)
    def test_graph6(self, given_graph):
        """By the definition of the format: the upper triangle column by column, six bits a letter."""
        size, bits = given_graph
        padded = bits + [False] * (-len(bits) % 6)
        letters = [sum(bit << 5 - at for at, bit in enumerate(padded[start:start + 6])) for start in range(0, len(padded), 6)]
        line = "".join(chr(63 + code) for code in [size, *letters])
        if size == 0:
            with self.assertRaisesRegex(ValueError, "there is no vertex"):
                Table.graph6(line)
            return
        pairs = [(u, v) for v in range(size) for u in range(v)]
        edges = tuple((u, v, 1) for (u, v), bit in zip(pairs, bits) if bit)
        self.assertTrue(Table.graph6(line).edges == Table.graph6((">>graph6<<%s\n" % line).encode()).edges == edges)

    @QUICK
    @given(JSON, JSON)
    def test_nonsense_is_taken_or_refused(self, thing, amounts):
        taken_or_refused(thing)
        taken_or_refused({"vertices": ["a", "b"], "edges": [["a", "b", 1]], "amounts": [0, 0], "q": "a"}, amounts)

    @QUICK
    @given(some.fixed_dictionaries({"vertices": JSON | some.just(["a", "b"]), "edges": JSON | some.just([["a", "b", 1]]),
                                    "amounts": JSON | some.just([0, 0]), "q": JSON | some.just("a")}))
    def test_members_that_are_nonsense_are_taken_or_refused(self, members):
        taken_or_refused(members)

    @QUICK
    @given(JSON)
    def test_a_sweep_over_nonsense(self, thing):
        """What is no dict is a TypeError; what is one, whatever is in it, has a row."""
        whole = {"vertices": ["a"], "edges": [], "amounts": [0], "q": "a"}
        if not isinstance(thing, dict):
            with self.assertRaisesRegex(TypeError, "table 1: "):
                list(dollar.judge_all([whole, thing]))
            return
        first, second, third = dollar.judge_all([whole, thing, dict(whole, amounts=thing)])
        self.assertTrue(first.winnable)
        self.assertTrue(isinstance(second, dollar.Refused))
        self.assertTrue(isinstance(third, dollar.Refused))
