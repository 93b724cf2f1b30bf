"""The examples in Sage's own file of sandpiles, with its methods replaced by calls of the package: what is printed is what they say."""
import ast
import contextlib
import doctest
import io
import re
import sys
import traceback

import dollar
from dollar import Table
from helpers import Test, needed

sage_all = needed("sage.all")
sandpiles = needed("sage.sandpiles.sandpile")
preparse = needed("sage.repl.preparse").preparse
vector = sage_all.vector

LEFT_OUT = re.compile(r"#.*\b(optional|long time|random|not tested|known bug)\b")
LIKE = doctest.NORMALIZE_WHITESPACE | doctest.ELLIPSIS | doctest.IGNORE_EXCEPTION_DETAIL
# How many examples at least concern the package, and how many of these it answers: others have a directed graph, or one with loops.
CONCERNED, ANSWERED = 145, 121
REPLACED = []


class Asked:
    """What was asked in an example: how many calls the package answered, and whether one could not be expressed."""

    def __init__(self):
        self.answered, self.lost = 0, False


asked = Asked()


def replaces(kind, name):
    """Has a function stand for a method of Sage, whose own is called if the table can't be expressed."""
    def of(function):
        own = getattr(kind, name)

        def method(self, *given, **more):
            try:
                table = table_of(self)
            except ValueError:
                asked.lost = True
                return own(self, *given, **more)
            asked.answered += 1
            return function(table, own, self, *given, **more)

        REPLACED.append((kind, name, method))
        return function
    return of


def table_of(thing):
    if isinstance(thing, sandpiles.Sandpile):
        return Table(thing)
    sandpile = thing.sandpile()
    return Table(sandpile, {v: thing[v] for v in sandpile.vertices() if v in thing})


def like(thing, table):
    """A configuration or a divisor with the amounts of a table."""
    if isinstance(thing, sandpiles.SandpileDivisor):
        return sandpiles.SandpileDivisor(thing.sandpile(), dict(table.divisor))
    sandpile = thing.sandpile() if isinstance(thing, sandpiles.SandpileConfig) else thing
    return sandpiles.SandpileConfig(sandpile, {v: table.divisor[v] for v in sandpile.nonsink_vertices()})


def in_the_order_of(found, wanted):
    """Sage's list, if it has just what was found."""
    assert sorted(map(str, found)) == sorted(map(str, wanted)), (found, wanted)
    return wanted


for each in (sandpiles.SandpileConfig, sandpiles.SandpileDivisor):
    replaces(each, "fire_vertex")(lambda table, own, self, v: like(self, table.lend(v)))
    replaces(each, "fire_script")(lambda table, own, self, script: like(self, table.fire(
        dict(script) if hasattr(script, "keys") else dict(zip(self.sandpile().vertices() if len(script) == len(table.vertices)
                                                              else self.sandpile().nonsink_vertices(), script)))))
    replaces(each, "fire_unstable")(lambda table, own, self: like(self, table.fire(set(self.unstable()))))
    replaces(each, "deg")(lambda table, own, self: sage_all.ZZ(table.degree))


@replaces(sandpiles.Sandpile, "genus")
def genus(table, own, self):
    return table.genus


@replaces(sandpiles.Sandpile, "canonical_divisor")
def canonical_divisor(table, own, self):
    return sandpiles.SandpileDivisor(self, dict(table.canonical().divisor))


@replaces(sandpiles.Sandpile, "superstables")
def superstables(table, own, self, verbose=True):
    found = [like(self, each) for each in table.reduced_divisors(0)]
    return in_the_order_of(found if verbose else [each.values() for each in found], own(self, verbose))


@replaces(sandpiles.Sandpile, "recurrents")
def recurrents(table, own, self, verbose=True):
    found = [self.max_stable() - like(self, each) for each in table.reduced_divisors(0)]
    return in_the_order_of(found if verbose else [each.values() for each in found], own(self, verbose))


@replaces(sandpiles.SandpileConfig, "is_superstable")
def is_superstable(table, own, self):
    return table.is_reduced()


@replaces(sandpiles.SandpileConfig, "is_recurrent")
def is_recurrent(table, own, self):
    return table_of(self.sandpile().max_stable() - self).is_reduced()


@replaces(sandpiles.SandpileConfig, "equivalent_superstable")
def equivalent_superstable(table, own, self, with_firing_vector=False):
    verdict = dollar.judge(table)
    found = like(self, Table(table, verdict.reduced))
    return [found, vector([verdict.script[v] for v in self.sandpile().nonsink_vertices()])] if with_firing_vector else found


@replaces(sandpiles.SandpileConfig, "equivalent_recurrent")
def equivalent_recurrent(table, own, self, with_firing_vector=False):
    most = self.sandpile().max_stable()
    verdict = dollar.judge(table_of(most - self))
    found = most - like(self, Table(table, verdict.reduced))
    return [found, vector([-verdict.script[v] for v in self.sandpile().nonsink_vertices()])] if with_firing_vector else found


@replaces(sandpiles.SandpileDivisor, "q_reduced")
def q_reduced(table, own, self, verbose=True):
    found = like(self, table.reduced())
    return found if verbose else found.values()


@replaces(sandpiles.SandpileDivisor, "is_q_reduced")
def is_q_reduced(table, own, self):
    return table.is_reduced()


@replaces(sandpiles.SandpileDivisor, "is_linearly_equivalent")
def is_linearly_equivalent(table, own, self, other, with_firing_vector=False):
    there = dict(other) if hasattr(other, "keys") else list(other)
    if not with_firing_vector:
        return table.is_equivalent(there)
    if not table.is_equivalent(there):
        return vector([])
    script = table.script_to(there)
    return vector([script[v] for v in self.sandpile().vertices()])


@replaces(sandpiles.SandpileDivisor, "effective_div")
def effective_div(table, own, self, verbose=True, with_firing_vectors=False):
    found = [like(self, each) for each in table.linear_system()]
    wanted = own(self, verbose, with_firing_vectors)
    in_the_order_of([each if verbose else each.values() for each in found], [each[0] if with_firing_vectors else each for each in wanted])
    if with_firing_vectors:
        for there, fired in wanted:
            assert table.fire(list(map(int, fired))).divisor == dict(zip(table.vertices, map(int, there.values() if verbose else there)))
    return wanted


@replaces(sandpiles.SandpileDivisor, "rank")
def rank(table, own, self, with_witness=False):
    if not with_witness:
        return table.rank()
    found, witness = own(self, True)
    assert found == table.rank() and sum(witness.values()) == found + 1 and not dollar.judge(table - dict(witness))
    return (found, witness)


def examples():
    """The examples of each description in Sage's file: each is run in names of its own."""
    with open(sandpiles.__file__, encoding="utf-8") as file:
        tree = ast.parse(file.read())
    for node in ast.walk(tree):
        if isinstance(node, (ast.Module, ast.ClassDef, ast.FunctionDef)):
            text = re.sub(r"(?m)^( *)sage: ", r"\1>>> ", re.sub(r"(?m)^( *)\.\.\.\.: ?", r"\1... ", ast.get_docstring(node) or ""))
            if ">>> " in text:
                yield getattr(node, "name", "the file"), doctest.DocTestParser().get_examples(text)


def printed(source, names):
    """What an example prints, or the last line of its error."""
    out = io.StringIO()
    with contextlib.redirect_stdout(out):
        try:
            exec(compile(preparse(source), "an example", "single"), names)
        except Exception as error:
            return "Traceback (most recent call last):\n" + traceback.format_exception_only(type(error), error)[-1]
    return out.getvalue()


def is_right(wanted, said):
    if wanted.startswith("Traceback"):
        return said.startswith("Traceback") and wanted.strip().split("\n")[-1].split(":")[0] == said.strip().split("\n")[-1].split(":")[0]
    return doctest.OutputChecker().check_output(wanted, said, LIKE) or "".join(wanted.split()) == "".join(said.split())


class OfTheSuite(Test):
    def test_each_example_is_printed_as_it_says(self):
        manager = needed("sage.repl.rich_output").get_display_manager()
        manager.switch_backend(needed("sage.repl.rich_output.backend_doctest").BackendDoctest())
        before, sys.displayhook = sys.displayhook, manager.displayhook
        own = [(kind, name, getattr(kind, name)) for kind, name, _ in REPLACED]
        for kind, name, method in REPLACED:
            setattr(kind, name, method)
        try:
            concerned, lost, wrong = self.played()
        finally:
            sys.displayhook = before
            for kind, name, method in own:
                setattr(kind, name, method)
        self.assertEqual(wrong, [], "\n".join(map(str, wrong)))
        self.assertGreaterEqual(concerned, CONCERNED)
        self.assertGreaterEqual(concerned - lost, ANSWERED)

    def played(self):
        global asked
        concerned = lost = 0
        wrong = []
        for name, some in examples():
            names = dict(vars(sage_all))
            for example in some:
                if LEFT_OUT.search(example.source):
                    continue
                asked = Asked()
                said = printed(example.source, names)
                if not (asked.answered or asked.lost):
                    continue
                concerned += 1
                lost += asked.lost
                if not asked.lost and not is_right(example.want, said):
                    wrong.append((name, example.source, example.want, said))
        return concerned, lost, wrong
