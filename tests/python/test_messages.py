"""Wrong calls: each names the argument, its value, and what is possible."""
import json
import types

import dollar
from dollar import Table
from helpers import Test

N = {"vertices": ["a", "b", "c"], "edges": [["a", "b", 1], ["b", "c", 1], ["a", "c", 1]], "amounts": [2, -1, -1], "q": "a"}
FILES = {"rich.json": json.dumps(dict(N, amounts=[2000000, 0, 0])), "noq.json": json.dumps(dict(N, q="z")), "bad.json": "{",
         "long.json": " " * 2000000}
# A call, its error, and how what is said begins.
CALLS = """
t.rank(1)
    TypeError: rank() takes 1 positional argument but 2 were given
dollar.judge_all(t, [[2,-1,-1]])
    TypeError: judge_all() takes 1 positional argument but 2 were given
dollar.rank_test_all(t, 1, [[1,2,3]])
    TypeError: rank_test_all() takes 2 positional arguments but 3 were given
t.linear_system(2)
    TypeError: linear_system() takes 1 positional argument but 2 were given
dollar.judge(t, "b")
    TypeError: judge() takes 1 positional argument but 2 were given
t.is_reduced("b")
    TypeError: is_reduced() takes 1 positional argument but 2 were given
dollar.rank(t, 1)
    TypeError: rank() takes 1 positional argument but 2 were given
dollar.rank_test_all(t, 1)
    TypeError: many tables are asked about, as a list of them, or as `divisors` of one table; and not Table(<3 vertices, 3 edges>
dollar.rr_all(t)
    TypeError: many tables are asked about, as a list of them, or as `divisors` of one table; and not Table(<3 vertices, 3 edges>
dollar.judge_all("tables.txt")
    TypeError: many tables are asked about, as a list of them, or as `divisors` of one table; and not 'tables.txt'
dollar.judge_all(N)
    TypeError: many tables are asked about, as a list of them, or as `divisors` of one table; and not {'vertices': ['a', 'b',
dollar.judge_all([t], divisors=[[1,2,3]])
    TypeError: with `divisors` one table is asked about, and not a list of 1
dollar.judge(big(17))
    Fault: number of vertices: 17, and only 1 to 16 is possible (status 3)
dollar.judge(Table(t, [10000000, 0, 0]))
    Fault: amount of vertex 0: 10000000, and only -1000000 to 1000000 is possible (status 3)
dollar.judge(Table([[0, 70], [70, 0]]))
    Fault: valence of vertex 0: 70 edges, and only 0 to 63 is possible (status 3)
dollar.greedy(t, -1)
    ValueError: the number of turns: -1, and only 0 to 65536 is possible
dollar.greedy(t, 65537)
    ValueError: the number of turns: 65537, and only 0 to 65536 is possible
dollar.greedy(t, 1.5)
    TypeError: the number of turns is not a whole number: 1.5
dollar.rank_test(t, -1)
    ValueError: the degree: -1, and only 0 to 4294967295 is possible
dollar.rank_test(t, 2**32)
    ValueError: the degree: 4294967296, and only 0 to 4294967295 is possible
dollar.rank_test(t, "1")
    TypeError: the degree is not a whole number: '1'
dollar.rank_test(t, 1, workers=17)
    ValueError: workers: 17, and only 1 to 16 is possible
dollar.rank_test(t, 1, workers=0)
    ValueError: workers: 0, and only 1 to 16 is possible
dollar.judge_all([t], workers=17)
    ValueError: workers: 17, and only 1 to 16 is possible
t.serve(seats=0)
    ValueError: seats: 0, and only 1 to 64 is possible
t.serve(seats=65)
    ValueError: seats: 65, and only 1 to 64 is possible
t.serve(cap=0)
    ValueError: cap: 0, and only 1 to 65536 is possible
t.serve(cap=65537)
    ValueError: cap: 65537, and only 1 to 65536 is possible
t.serve(workers=99)
    ValueError: workers: 99, and only 1 to 16 is possible
t.serve(patience=0)
    ValueError: patience: 0, and only more than 0 seconds, or None, is possible
t.serve(seats="2")
    TypeError: seats is not a whole number: '2'
t.serve(program="/nowhere/dollar")
    ProgramNotFound: the parameter `program` names /nowhere/dollar, and no program is there
dollar.judge(t, program="/bin/true")
    ValueError: /bin/true: no answer of the program: ''
sum([1, t])
    TypeError: amounts are a list in the order of the vertices, or a dict, and not 1
t + 1
    TypeError: amounts are a list in the order of the vertices, or a dict, and not 1
t + [1, 2]
    ValueError: there are 2 amounts for 3 vertices
t - {"z": 1}
    ValueError: there is no vertex 'z': the vertices are a, b, c
t + big(3)
    ValueError: the two divisors are on different graphs
1.5 * t
    TypeError: how often a divisor is taken is not a whole number: 1.5
t * "2"
    TypeError: how often a divisor is taken is not a whole number: '2'
Table(t, {"z": 1})
    ValueError: there is no vertex 'z': the vertices are a, b, c
Table(t, [1, 2])
    ValueError: there are 2 amounts for 3 vertices
Table(t, {"a": 1.5})
    TypeError: the amount of vertex a is not a whole number: 1.5
Table(t, "abc")
    TypeError: amounts are a list in the order of the vertices, or a dict, and not 'abc'
Table(t, {1, 2})
    TypeError: amounts are a list in the order of the vertices, or a dict, and not {1, 2}
Table(t, 5)
    TypeError: amounts are a list in the order of the vertices, or a dict, and not 5
Table(t, q="z")
    ValueError: there is no vertex 'z': the vertices are a, b, c
Table(t, q=7)
    ValueError: there is no vertex 7: the vertices are a, b, c
Table([[0, 1], [2, 0]])
    ValueError: a directed graph has no table: from 0 to 1 there are 1 edges, and 2 back
Table([[0, 1, 2]])
    ValueError: an adjacency matrix has as many columns as rows: row 0 has 3, and there are 1 rows
Table([[1]])
    ValueError: the edge from 0 to 0 is a loop
Table([[0, -1], [-1, 0]])
    ValueError: the number of edges from 0 to 1 is -1
Table([[0, 1.0], [1.0, 0]])
    TypeError: the number of edges from 0 to 1 is not a whole number: 1.0
Table(5)
    TypeError: a table is made of a graph, a matrix or a table, and not of 5
Table("file.json")
    TypeError: Table.read reads a file, and Table.graph6 a line of graph6: 'file.json' is neither a graph nor a matrix
Table({"a": 1})
    ValueError: a table has the members vertices, edges, amounts and q, and not a
Table(dict(N, edges=[["a", "b"]]))
    ValueError: edge 0 is not a list of two names and a number: ['a', 'b']
Table(dict(N, edges=[["a", "z", 1]]))
    ValueError: the edge from a to z has no vertex
Table(dict(N, edges=[["a", "b", 0]]))
    ValueError: the weight of the edge from a to b is not a number of edges: 0
Table(dict(N, q="z"))
    ValueError: there is no vertex 'z': the vertices are a, b, c
Table(N, names=lambda v: "x y")
    ValueError: the parameter `names` gives vertex a the name 'x y': a name has 1 to 16 letters from a to z or A to Z, digits
Table(N, names=lambda v: "x")
    ValueError: the vertices 'a' and 'b' have the same name, x
Table.graph6("zz")
    ValueError: not a line of graph6: 'zz'
Table.read("nosuch.json")
    FileNotFoundError: [Errno 2] No such file or directory: 'nosuch.json'
Table.read("bad.json")
    ValueError: bad.json: Expecting property name enclosed in double quotes: line 1 column 2 (char 1)
dollar.judge("nosuch.json")
    FileNotFoundError: [Errno 2] No such file or directory: 'nosuch.json'
dollar.judge("rich.json")
    Fault: amount of vertex 0: 2000000, and only -1000000 to 1000000 is possible, in rich.json (status 3)
dollar.judge("noq.json")
    Fault: no vertex q: 'z', and only one of the vertices is possible, in noq.json (status 3)
dollar.judge("bad.json")
    Fault: not JSON: in bad.json (status 3)
dollar.judge("long.json")
    Fault: file too long: only 1048576 bytes are possible, in long.json (status 3)
dollar.judge(dict(N, edges=[["a", "b", 1]]))
    Fault: not connected (status 3)
dollar.judge(dict(N, edges=[["a", "a", 1]]))
    Fault: edge 0 is a loop: ['a', 'a', 1] (status 3)
dollar.judge(dict(N, amounts=[1, 2]))
    Fault: number of amounts: 2, and only one for each vertex is possible (status 3)
dollar.judge(dict(N, vertices=["a", "b", "New York"]))
    Fault: name of vertex 2: 'New York', and only 1 to 16 letters, digits and _ are possible (status 3)
dollar.judge(7)
    TypeError: a table is a Table, a dict or a SandpileDivisor, and not of the type int: Table(graph, amounts) makes one
dollar.judge(None)
    TypeError: a table is a Table, a dict or a SandpileDivisor, and not of the type NoneType: Table(graph, amounts) makes one
t.fire([1, 2])
    ValueError: there are 2 lendings for 3 vertices
t.fire({"z": 1})
    ValueError: there is no vertex 'z': the vertices are a, b, c
t.fire(3)
    TypeError: lendings are a list in the order of the vertices, or a dict, and not 3
t.fire({"a", "z"})
    ValueError: there is no vertex 'z': the vertices are a, b, c
t.fire({"a": 0.5})
    TypeError: the lending of vertex a is not a whole number: 0.5
t.lend("z")
    ValueError: there is no vertex 'z': the vertices are a, b, c
t.lend("a", 1.5)
    TypeError: the lending of vertex a is not a whole number: 1.5
t.borrow("a", "2")
    TypeError: how often a vertex borrows is not a whole number: '2'
dollar.fired(t, {"z": 1})
    ValueError: there is no vertex 'z': the vertices are a, b, c
dollar.burnt(t, [1])
    ValueError: there are 1 amounts for 3 vertices
t.script_to([9, 0, 0])
    ValueError: the divisors are not equivalent, so no script leads to [9, 0, 0]
t.script_to([1, -1, 0])
    ValueError: the divisors are not equivalent, so no script leads to [1, -1, 0]
t.is_equivalent("abc")
    TypeError: amounts are a list in the order of the vertices, or a dict, and not 'abc'
t.effective_divisors(1.5)
    TypeError: the degree is not a whole number: 1.5
t.reduced_divisors("2")
    TypeError: the degree is not a whole number: '2'
t.reduced("z")
    ValueError: there is no vertex 'z': the vertices are a, b, c
t.place("z")
    ValueError: there is no vertex 'z': the vertices are a, b, c
dollar.rehearse(t, ["1 lend z"])
    Fault: line 1: bad name: '1 lend z' (status 3)
dollar.rehearse(t, ["1 look", "1 jump"])
    Fault: line 2: bad word: '1 jump' (status 3)
dollar.rehearse(t, ["1 commit"])
    Fault: step 1: no look: '1 commit' (status 3)
dollar.rehearse(t, "1 look")
    TypeError: lines are a list of texts, and not one text: '1 look'
dollar.rehearse(t, ["1 look\\n"])
    ValueError: line 0 has a newline in it: '1 look\\n'
dollar.rehearse(t, [1])
    TypeError: line 0 is a text, and not 1
dollar.party(t)
    ValueError: the number of scripts: 0, and only 1 to 64 is possible
dollar.party(t, *[["look"]] * 65)
    ValueError: the number of scripts: 65, and only 1 to 64 is possible
dollar.party(t, ["look"], cap=0)
    ValueError: cap: 0, and only 1 to 65536 is possible
next(dollar.judge_all([5]))
    TypeError: table 0: a table is a Table, a dict or a SandpileDivisor, and not of the type int: Table(graph, amounts) makes
list(dollar.judge_all(t, divisors=[[1, 2]]))
    ValueError: divisor 0: there are 2 amounts for 3 vertices
list(dollar.judge_all(t, divisors=[[1, 2, 2.5]]))
    TypeError: divisor 0: the amount of vertex c is not a whole number: 2.5
list(dollar.judge_all(t, divisors=[2, -1, -1]))
    TypeError: divisor 0: amounts are a list in the order of the vertices, or a dict, and not 2
list(dollar.judge_all(t, divisors=[[9999999, 0, 0]], errors="raise"))
    Fault: table 0: amount of vertex 0: 9999999, and only -1000000 to 1000000 is possible (status 3)
dollar.judge_all(t, divisors=[[9999999, 0, 0]]).columns()
    Fault: table 0: amount of vertex 0: 9999999, and only -1000000 to 1000000 is possible (status 3)
dollar.judge_all([t], errors="ignore")
    ValueError: errors are either 'row' or 'raise', and not 'ignore'
dollar.judge_all([t], ahead=0)
    ValueError: ahead: 0, and only 1 to 9223372036854775807 is possible
dollar.judge_all([t]).columns()
    ValueError: columns by vertices are for `divisors` of one table
dollar.judge_all(t, divisors=[[1, 2, 3]]).columns("pandas")
    TypeError: columns() takes 1 positional argument but 2 were given
dollar.to_csv(dollar.rr(t), "kept.csv")
    TypeError: a CSV file has what judge_all, rank_test_all or rr_all give, or columns of that, and not a thing of the type RiemannRoch
dollar.to_csv([t], "kept.csv")
    TypeError: a CSV file has what judge_all, rank_test_all or rr_all give, or columns of that, and not a thing of the type list
dollar.judge(Table(t, [10 ** 30, 0, 0]))
    Fault: shape of amounts: 1000000000000000000000000000000 at vertex a, and only -1000000 to 1000000 is possible (status 3)
dollar.judge(Table(t, [0, -10 ** 5000, 0]))
    Fault: shape of amounts: a number of 5001 digits at vertex b, and only -1000000 to 1000000 is possible (status 3)
dollar.judge(dict(N, amounts=[0, 2 ** 63, 0]))
    Fault: shape of amounts: 9223372036854775808 at vertex b, and only -1000000 to 1000000 is possible (status 3)
list(dollar.judge_all([Table(t, [0, 0, 10 ** 400])], errors="raise"))
    Fault: table 0: shape of amounts: a number of 401 digits at vertex c, and only -1000000 to 1000000 is possible (status 3)
list(dollar.judge_all(t, divisors=[[0, 0, 10 ** 5000]], errors="raise"))
    Fault: table 0: shape of amounts: a number of 5001 digits at vertex c, and only -1000000 to 1000000 is possible (status 3)
dollar.greedy(t, 10 ** 5000)
    ValueError: the number of turns: a number of 5001 digits, and only 0 to 65536 is possible
Table({"vertices": [["a"], "b"], "edges": [], "amounts": [0, 0], "q": "b"})
    TypeError: ['a'] can't be a vertex: a vertex is a text, a number, a tuple, or whatever has a hash
Table(dict(N, vertices=None))
    TypeError: the member vertices is a list, and not None
Table(dict(N, edges="ab"))
    TypeError: the member edges is a list, and not 'ab'
Table(dict(N, edges=[None]))
    ValueError: edge 0 is not a list of two names and a number: None
Table(dict(N, edges=[[["a"], "b", 1]]))
    ValueError: the edge from ['a'] to b has no vertex
Table(dict(N, amounts={"a": 1}))
    TypeError: the member amounts is a list, and not {'a': 1}
Table(dict(N, q=None))
    ValueError: the member q is a vertex, and not None
Table([(0, 1), (1, 2), (2, 0)])
    ValueError: Table.of_edges takes pairs of vertices
Table.of_edges([("a", "b"), "bc"])
    ValueError: edge 1 is not a pair of vertices, nor one with a number: 'bc'
t["vertices"]
    KeyError: there is no vertex 'vertices': the vertices are a, b, c; t.to_dict() has the members of a table file
dollar.run("judge", types.SimpleNamespace(nodes=[], edges=[]))
    TypeError: a word is a text, a number, a place, a list of lines or a Table, and not of the type SimpleNamespace
t.serve(patience="x")
    ValueError: patience: 'x', and only more than 0 seconds, or None, is possible
dollar.rr(N, patience=-1)
    ValueError: patience: -1, and only more than 0 seconds, or None, is possible
dollar.picture(t, [1, 2])
    ValueError: there are 2 lendings for 3 vertices
t.jacobian()
    AttributeError: a table has no attribute 'jacobian': t.reduced_divisors(0) are the elements of the Jacobian group
(lambda a: (list(a), list(a)))(dollar.judge_all([t]))
    ValueError: the answers were taken already: ask again for more
(lambda a: (a.columns(), a.columns()))(dollar.rr_all([t]))
    ValueError: the sweep has begun: ask again for columns
t.serve().ask("look\\nlook")
    ValueError: a line has a newline in it: 'look\\nlook'
t.serve().ask("x" * 1025)
    ValueError: a line has 1025 bytes, and only 1024 are possible
t.serve().ask(7)
    TypeError: a line is a text, and not 7
t.serve(seats=2).ask_seat("1", "look")
    TypeError: a seat is not a whole number: '1'
Table(t, [9999999, 0, 0]).serve().ask("look")
    Ended: the session has ended with status 3: amount of vertex 0: 9999999, and only -1000000 to 1000000 is possible
dollar.Verdict(True, {"a": 0}, {"a": 0}).check(t)
    ValueError: the vertices are others, or the script is not 0 at q
dollar.RankTest(True, 1).check()
    ValueError: an answer from a history knows no table: say which one it is about
dollar.example("nosuch")
    FileNotFoundError: there is no example nosuch beside this package:
dollar.find_program("/nowhere/dollar")
    ProgramNotFound: the parameter `program` names /nowhere/dollar, and no program is there
dollar.history(["1 won"])
    ValueError: no history: ['1 won']
dollar.answer("lent a")
    ValueError: no answer of the program: 'lent a'
dollar.run("rank", t, "x")
    Fault: error: invalid value 'x' for '<K>': a whole number from 0 to 4294967295 (status 2)
dollar.run("judge", "nosuch.json")
    Fault: read fault: in nosuch.json (status 5)
dollar.run("judge", "rich.json")
    Fault: amount of vertex 0: only -1000000 to 1000000 is possible, in rich.json (status 3)
dollar.run("judge", Table(t, [10000000, 0, 0]))
    Fault: amount of vertex 0: 10000000, and only -1000000 to 1000000 is possible (status 3)
dollar.Session("rich.json").ask("look")
    Ended: the session has ended with status 3: amount of vertex 0: 2000000, and only -1000000 to 1000000 is possible, in rich.json
dollar.picture(5)
    TypeError: a table is a Table or a dict, and not 5
(10 * Table(t, [999999, 999999, 999999])).rank()
    Fault: amount of vertex 0: 9999990, and only -1000000 to 1000000 is possible (status 3)
Table(types.SimpleNamespace(nodes=[0, 1], edges=[(0, 1, 2)]))
    ValueError: an edge is a pair of vertices, and not (0, 1, 2)
Table(dict(N, vertices=["a", "b", "a"], edges=[["a", "b", 1]]))
    ValueError: the vertex 'a' is given twice
list(dollar.judge_all([t, "x"]))
    TypeError: table 1: a table is a Table, a dict or a SandpileDivisor, and not of the type str: Table(graph, amounts) makes
dollar.fired(5, [1])
    TypeError: a table is a Table or a dict, and not 5
dollar.edges(None)
    TypeError: a table is a Table or a dict, and not None
"""


class OfMessages(Test):
    def test_each_names_what_is_wrong(self):
        self.go_to(self.folder())
        for name, text in FILES.items():
            with open(name, "w") as file:
                file.write(text)
        names = {"dollar": dollar, "Table": Table, "N": N, "t": Table(N), "types": types,
                 "big": lambda size: Table([[int(u != v) for v in range(size)] for u in range(size)])}
        lines = CALLS.strip().split("\n")
        self.assertGreater(len(lines), 2 * 120)
        for call, wanted in zip(lines[::2], lines[1::2]):
            with self.subTest(call):
                with self.assertRaises(Exception) as caught:
                    eval(call, names)
                kind, _, text = wanted.strip().partition(": ")
                self.assertEqual(type(caught.exception).__name__, kind)
                self.assertIn(text, str(caught.exception))
