"""What stands here for what users of Sage, networkx and other packages look for, and what a file has."""

from __future__ import annotations


# What is said of a name that a table does not have.
NAMES: dict[str, str] = {
    "adjacency": "dollar.edges(t) has the neighbours of each vertex",
    "betti": "t.genus is the first Betti number",
    "break_divisors": "the reduced divisors of the degree t.genus represent the same classes: t.reduced_divisors(t.genus)",
    "borrowing_move": "t.borrow(v) lets a vertex borrow",
    "canonical_divisor": "t.canonical() is the canonical divisor",
    "class_group": "t.reduced_divisors(0) are the elements of the Jacobian group",
    "config": "a configuration is a divisor without its amount at q: t.amounts has all amounts",
    "critical_group": "t.reduced_divisors(0) are its elements; for its structure see Sage's Sandpile.invariant_factors()",
    "deg": "t.degree is the degree",
    "dhar": "t.burning_order() is the order of burning",
    "effective_div": "t.linear_system() has the effective divisors that are equivalent to t",
    "ewd": "t.judge() decides whether t can be won, and has the script for that",
    "fire_script": "t.fire(script) fires a dict, a list or a set",
    "fire_set": "t.fire({u, v}) fires a set",
    "fire_vertex": "t.lend(v) fires a vertex",
    "firing_script": "t.judge().script leads to the reduced divisor, and t.script_to(d) to any other",
    "group_order": "len(t.reduced_divisors(0)) is the number of spanning trees",
    "invariant_factors": "t.reduced_divisors(0) are the elements of the group; for its structure see Sage's Sandpile.invariant_factors()",
    "is_linearly_equivalent": "t.is_equivalent(d) decides whether a script leads from t to d",
    "is_q_reduced": "t.is_reduced() is about the table's q",
    "is_superstable": "t.is_reduced() decides it, whatever is at q",
    "jacobian": "t.reduced_divisors(0) are the elements of the Jacobian group",
    "lending_move": "t.lend(v) lets a vertex lend",
    "linearly_equivalent": "t.is_equivalent(d) decides whether a script leads from t to d",
    "nodes": "t.vertices are the vertices",
    "number_of_spanning_trees": "len(t.reduced_divisors(0)) is the number of spanning trees",
    "picard": "t.reduced_divisors(k) has one divisor of each class of degree k",
    "q_reduced": "t.reduced() is the divisor that is reduced at q, and t.reduced(v) at v",
    "r": "t.rank() is the rank",
    "reduced_laplacian": "t.laplacian() without the row and the column t.place(t.q)",
    "riemann_roch": "t.rr() has the degree, the genus and both ranks",
    "set_fire": "t.fire({u, v}) fires a set",
    "sink": "t.q is the sink",
    "spanning_trees": "len(t.reduced_divisors(0)) is the number of spanning trees",
    "stabilize": "chips of a sandpile topple as long as they can; t.reduced() is the divisor that is reduced at q",
    "superstables": "t.reduced_divisors(0) are the superstables, with an amount at q more",
    "topple": "t.lend(v) topples a vertex",
    "to_numpy": "numpy.array(t.amounts), and numpy.array(t.laplacian())",
    "unfire": "t.borrow(v) is the inverse of t.lend(v)",
    "weierstrass_points": "v is one if dollar.Table(t, {v: t.genus}).rank() is at least 1",
    "winnable": "t.is_winnable() decides it, and t.judge() says how",
    "zero_div": "0 * t is the divisor without dollars",
    "zero": "0 * t is the divisor without dollars",
}


def of_name(name: str) -> str:
    """What is said of a name that a table does not have, after that.

    >>> of_name("jacobian"), of_name("nonsense")
    (': t.reduced_divisors(0) are the elements of the Jacobian group', '')
    """
    hint = NAMES.get(name)
    return "" if hint is None else ": " + hint
