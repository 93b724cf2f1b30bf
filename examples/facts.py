#!/usr/bin/env python3
"""Published facts about chip-firing, each beside what the program finds, and one that is known without a source. It takes networkx.

    examples/facts.py

prints a line for each: its source, and what was found. One that does not hold is an AssertionError."""
import collections
import itertools
import math
import os
import random
import sys

import networkx

sys.path.insert(0, os.path.join(os.path.dirname(os.path.abspath(__file__)), "..", "python"))
import dollar
from dollar import Table

FACTS = []
SMALL = [graph for graph in networkx.graph_atlas_g()[1:] if len(graph) <= 6 and networkx.is_connected(graph)]


def fact(source, says):
    """Has a function be one of the facts: it is True if it holds."""
    def of(holds):
        FACTS.append((source, says, holds))
        return holds
    return of


def multigraphs(count, most, seed):
    """Random connected multigraphs of 2 vertices to so many."""
    rng = random.Random(seed)
    for _ in range(count):
        size = rng.randint(2, most)
        near = [[0] * size for _ in range(size)]
        for v in range(1, size):
            u = rng.randrange(v)
            near[u][v] = near[v][u] = 1
        for _ in range(rng.randint(0, size + 1)):
            u, v = rng.sample(range(size), 2)
            near[u][v] = near[v][u] = near[u][v] + 1
        yield Table(near, [rng.randint(-2, 4) for _ in range(size)])


def random_tree(size, seed):
    """A random tree of 3 vertices or more."""
    rng = random.Random(seed)
    return networkx.from_prufer_sequence([rng.randrange(size) for _ in range(size - 2)])


def classes(table, degree, rank):
    """The divisors, one of each class of a degree, that may have such a rank: they have as many dollars at q."""
    some = Table(table, {table.q: rank})
    return (some + each for each in some.reduced_divisors(degree - rank, winnable=True))


def count_of(table, degree, rank):
    """How many classes of a degree have at least such a rank."""
    return sum(map(bool, dollar.rank_test_all(table, rank, divisors=classes(table, degree, rank), errors="raise")))


def gonality(graph, rank=1):
    """The least degree of a divisor of such a rank."""
    table = graph if isinstance(graph, Table) else Table(graph)
    return next(degree for degree in itertools.count(rank)
                if any(dollar.rank_test_all(table, rank, divisors=classes(table, degree, rank), errors="raise")))


def chain(lengths):
    """A chain of loops, each a cycle of so many vertices, of which two neighbours belong to the next loops too."""
    graph, last = networkx.MultiGraph(), 0
    for length in lengths:
        ring = [last, *range(len(graph) or 1, (len(graph) or 1) + length - 1)]
        graph.add_edges_from(zip(ring, [*ring[1:], last]))
        last = ring[1]
    return Table(graph)


def theta(*lengths):
    """Two vertices that are joined by paths of these lengths."""
    graph = networkx.MultiGraph()
    for at, length in enumerate(lengths):
        networkx.add_path(graph, ["u", *((at, step) for step in range(length - 1)), "v"])
    return Table(graph)


def divided(table, times):
    """The same divisor on the graph in which each edge is a path of so many."""
    graph = networkx.MultiGraph()
    for u, v, count in table.edges:
        for at in range(count):
            networkx.add_path(graph, [u, *((u, v, at, step) for step in range(times - 1)), v])
    return Table(graph, table.divisor)


def by_degree(table):
    """How many reduced divisors have so many dollars off q."""
    found = collections.Counter(-each.amounts[each.place(each.q)] for each in table.reduced_divisors(0))
    return [found[degree] for degree in range(table.genus + 1)]


BN = "Baker, Norine 2007"


@fact(BN, "r(D) - r(K - D) = deg(D) + 1 - g, on 300 multigraphs")
def riemann_roch():
    tables = list(multigraphs(300, 7, 1))
    sides = dollar.rr_all([*tables, *(table.residual() for table in tables)], errors="raise").columns().rank
    return all(sides[at] - sides[at + 300] == table.degree + 1 - table.genus for at, table in enumerate(tables))


@fact(BN, "r(K) = g - 1, on all 143 connected graphs of up to 6 vertices")
def canonical():
    found = dollar.rr_all(Table(graph).canonical() for graph in SMALL).columns()
    return found.count == 143 and all(rank == genus - 1 for rank, genus in zip(found.rank, found.genus))


@fact(BN, "r(D + D') is at least r(D) + r(D')")
def sums():
    pairs = [(table, table + [random.Random(at).randint(-1, 2) for _ in table.vertices]) for at, table in enumerate(multigraphs(150, 6, 2))]
    ranks = [dollar.rr_all(tables).columns().rank for tables in ([a for a, _ in pairs], [b for _, b in pairs], [a + b for a, b in pairs])]
    return all(both >= one + other for one, other, both in zip(*ranks) if min(one, other) >= 0)


@fact(BN, "Clifford's theorem for all special effective divisors on the graphs of up to 5 vertices")
def clifford():
    for table in (Table(graph) for graph in SMALL if len(graph) <= 5):
        for degree in range(2 * table.genus - 1):
            found = dollar.rr_all(table, divisors=table.reduced_divisors(degree, winnable=True)).columns()
            if any(2 * rank > degree for rank, dual in zip(found.rank, found.dual) if dual >= 0):
                return False
    return True


@fact(BN, "of each degree from g on all classes can be won, and some of degree g - 1 can't")
def from_the_genus_on():
    return all(sum(1 for _ in table.reduced_divisors(table.genus, winnable=True)) == table.reduced_divisors(0).count
               > sum(1 for _ in table.reduced_divisors(table.genus - 1, winnable=True)) for table in map(Table, SMALL))


@fact(BN, "the multiples of a vertex of K4 have the ranks 0 0 0 1 2 2 3")
def weierstrass():
    return [Table(networkx.complete_graph(4), {0: times}).rank() for times in range(7)] == [0, 0, 0, 1, 2, 2, 3]


@fact("Dhar 1990; Kirchhoff 1847", "as many reduced divisors as spanning trees: Petersen's graph 2,000, the cube 384")
def trees():
    return [sum(1 for _ in Table(graph).reduced_divisors(0)) for graph in (networkx.petersen_graph(), networkx.cubical_graph())] == [2000, 384]


@fact("Cayley 1889", "complete graphs have n^(n-2) classes of each degree, to K7")
def cayley():
    return all(sum(1 for _ in Table(networkx.complete_graph(n)).reduced_divisors(5)) == n ** (n - 2) for n in range(2, 8))


@fact("Merino 1997", "superstables by degree are T(1, y): of K4, K5 and cycles")
def merino():
    return (by_degree(Table(networkx.complete_graph(4))), by_degree(Table(networkx.complete_graph(5)))) == (
        [1, 3, 6, 6], [1, 4, 10, 20, 30, 36, 24]) and all(by_degree(Table(networkx.cycle_graph(n))) == [1, n - 1] for n in range(3, 9))


@fact("Benson, Chakrabarty, Tetali 2010", "maximal superstables are the acyclic orientations with one source: (n-1)! on K_n, 704 on Petersen's graph")
def maximal():
    return [by_degree(Table(networkx.complete_graph(n)))[-1] for n in range(3, 8)] == [math.factorial(n - 1) for n in range(3, 8)] and by_degree(
        Table(networkx.petersen_graph()))[-1] == 704


@fact("Corry, Perkinson 2018", "on a tree the rank is the degree; a cycle of n vertices has n classes of each degree")
def trees_and_cycles():
    found = [Table(random_tree(9, seed), {0: 3, 5: -1, 8: seed}) for seed in range(20)]
    return all(table.rank() == table.degree for table in found) and all(
        Table(networkx.cycle_graph(n)).reduced_divisors(4).count == n for n in range(3, 17))


@fact("Baker 2008", "gonality of trees 1, of cycles 2, of two vertices with 2 edges or more 2")
def easy_gonalities():
    return {gonality(random_tree(8, seed)) for seed in range(5)} == {1} and {
        gonality(networkx.cycle_graph(n)) for n in range(3, 17)} | {gonality(Table([[0, n], [n, 0]])) for n in range(2, 8)} == {2}


@fact("Baker 2008", "gonality of complete graphs n - 1, to K10")
def complete_graphs():
    return [gonality(networkx.complete_graph(n)) for n in range(2, 11)] == list(range(1, 10))


@fact("van Dobben de Bruyn 2012", "gonality of complete bipartite graphs: the lesser part, to K7,7")
def bipartite():
    return all(gonality(networkx.complete_bipartite_graph(m, n)) == min(m, n) for m in range(1, 8) for n in range(m, 8))


@fact("van Dobben de Bruyn, Gijswijt 2014", "gonality of complete multipartite graphs: n minus the largest part")
def multipartite():
    return all(gonality(networkx.complete_multipartite_graph(*parts)) == sum(parts) - max(parts)
               for parts in ((1, 1, 2), (1, 2, 2), (2, 2, 2), (1, 2, 3), (1, 1, 4), (2, 2, 3), (1, 1, 1, 2)))


@fact("van Dobben de Bruyn, Gijswijt 2014", "gonality of grids: the lesser side, to 4 x 4; n minus the independence number is never less")
def grids():
    def independent(graph):
        return max(map(len, networkx.find_cliques(networkx.complement(graph))))

    return all(gonality(networkx.grid_2d_graph(m, n)) == min(m, n) for m in range(2, 5) for n in range(m, 5)) and all(
        gonality(graph) <= len(graph) - independent(graph) for graph in SMALL[1:] if len(graph) <= 5)


@fact("Speeter 2022", "gonality of rook's graphs: 2 x 4 has 4, 3 x 3 has 6, 3 x 4 has 8")
def rooks():
    def rook(m, n):
        return networkx.cartesian_product(networkx.complete_graph(m), networkx.complete_graph(n))

    return [gonality(rook(m, n)) for m, n in ((2, 4), (3, 3), (3, 4))] == [4, 6, 8]


@fact("Beougher and others 2023", "gonality of the tetrahedron 3, the cube 4, the octahedron 4, the icosahedron 9")
def platonic():
    return [gonality(graph) for graph in (networkx.tetrahedral_graph(), networkx.cubical_graph(), networkx.octahedral_graph(),
                                          networkx.icosahedral_graph())] == [3, 4, 4, 9]


@fact("Cages and cubes, no source", "gonality of Petersen's graph 4, Heawood's 5, of Moebius and Kantor 6, the cube of 4 dimensions 8")
def cages():
    return [gonality(graph) for graph in (networkx.petersen_graph(), networkx.heawood_graph(), networkx.moebius_kantor_graph(),
                                          networkx.hypercube_graph(4))] == [4, 5, 6, 8]


@fact("Baker, Norine 2009", "genus 2 is hyperelliptic: all thetas with paths of up to 4, and just one class on theta(2, 2, 3)")
def genus_two():
    thetas = [theta(*lengths) for lengths in itertools.combinations_with_replacement(range(1, 5), 3)]
    return all(table.genus == 2 and gonality(table) == 2 for table in thetas) and count_of(theta(2, 2, 3), 2, 1) == 1


@fact("Baker, Norine 2009", "a bridge that is contracted keeps ranks")
def bridges():
    rng = random.Random(3)
    for _ in range(30):
        one, other = networkx.cycle_graph(rng.randint(3, 5)), networkx.complete_graph(rng.randint(2, 4))
        held = [rng.randint(-1, 2) for _ in range(len(one) + len(other))]
        apart = networkx.disjoint_union(one, other)
        apart.add_edge(0, len(one))
        whole = Table(apart, held)
        contracted = networkx.contracted_nodes(apart, 0, len(one), self_loops=False)
        amounts = {v: held[v] + (held[len(one)] if v == 0 else 0) for v in contracted.nodes}
        if Table(networkx.Graph(contracted.edges), amounts).rank() != whole.rank():
            return False
    return True


@fact("Baker 2008, conjecture 3.9", "a divisor of degree d and rank r exists if g - (r + 1)(g - d + r) is at least 0, to 5 vertices")
def existence():
    return all(gonality(table, rank) <= degree for table in (Table(graph) for graph in SMALL if 1 < len(graph) <= 5) for rank in (1, 2)
               for degree in range(rank, table.genus + rank) if table.genus >= (rank + 1) * (table.genus - degree + rank))


@fact("Cools, Draisma, Payne, Robeva 2012", "generic chains of 3 to 6 loops have the gonality 3, 3, 4, 4; with loops of 2 vertices 2")
def chains():
    return [gonality(chain([2, *[4] * (genus - 2), 2])) for genus in (3, 4, 5, 6)] == [3, 3, 4, 4] and gonality(chain([2] * 5)) == 2


@fact("Cools, Draisma, Payne, Robeva 2012", "such a chain has 2 classes g^1_3 for genus 4, and 5 classes g^1_4 for genus 6, as tableaux count")
def tableaux():
    return (count_of(chain([2, 4, 4, 2]), 3, 1), count_of(chain([2, 4, 4, 4, 4, 2]), 4, 1)) == (2, 5)


@fact("Hladky, Kral, Norine 2013", "ranks stay if each edge becomes a path of 2 or of 3, on 60 multigraphs")
def subdivisions():
    few = [table for table in multigraphs(200, 5, 4) if 2 * sum(count for _, _, count in table.edges) + len(table.vertices) <= 16][:60]
    return len(few) == 60 and all([divided(table, 2).rank(), divided(table, 3).rank()] == [table.rank()] * 2 for table in few)


@fact("Atanasov, Ranganathan 2018", "gonality at most (g + 3)/2, rounded down, to genus 5")
def bound():
    return all(gonality(table) <= (table.genus + 3) // 2 for table in multigraphs(150, 7, 5) if table.genus <= 5)


@fact("Cools, Panizzut 2017", "gonality sequences of K4, K5 and K6")
def sequences_of_complete_graphs():
    def wanted(n, rank):
        if rank >= (n - 1) * (n - 2) // 2:
            return rank + (n - 1) * (n - 2) // 2
        k = next(k for k in itertools.count(1) if k * (k + 3) // 2 >= rank)
        return k * n - (k * (k + 3) // 2 - rank)

    return all(gonality(networkx.complete_graph(n), rank) == wanted(n, rank) for n, most in ((4, 5), (5, 6), (6, 3)) for rank in range(1, most))


@fact("Cools, D'Adderio, Jensen, Panizzut 2019", "gonality sequences of K3,3 and K3,4")
def sequences_of_bipartite_graphs():
    def wanted(m, n, rank):
        if rank >= (m - 1) * (n - 1):
            return rank + (m - 1) * (n - 1)
        return min(a * m + b * n - h for a in range(n - 1) for b in range(m - 1) for h in [(a + 1) * (b + 1) - rank - 1] if h >= 0)

    return all(gonality(networkx.complete_bipartite_graph(m, n), rank) == wanted(m, n, rank) for m, n in ((3, 3), (3, 4)) for rank in range(1, 8))


@fact("Cori, Le Borgne 2016", "ranks on K3 to K6 are a sum over the amounts of the reduced divisor")
def ranks_by_a_sum():
    rng = random.Random(6)
    for table in (Table(networkx.complete_graph(n), [rng.randint(-2, 4) for _ in range(n)]) for n in range(3, 7) for _ in range(40)):
        last, *rest = table.reduced().amounts
        a, b = divmod(last + 1, len(rest))
        found = -1 if last < 0 else sum(max(0, a - i + 1 + amount + (i <= b)) for i, amount in enumerate(sorted(rest), 1)) - 1
        if found != table.rank():
            return False
    return True


def main():
    for source, says, holds in FACTS:
        assert holds(), (source, says)
        print("%s: %s" % (source, says), flush=True)
    print("%d facts hold" % len(FACTS))


if __name__ == "__main__":
    main()
