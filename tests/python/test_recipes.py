"""The recipes of docs/tools.md that take another package; tests/pages plays the others. And the service of examples/."""
import concurrent.futures
import importlib.util
import json

import dollar
from helpers import EXAMPLES, ROOT, Test, each, needed
from test_pages import block

PAGE = (ROOT / "docs" / "tools.md").read_text(encoding="utf-8")
TRIANGLE = dollar.example("triangle")
REFUSED = [
    ({}, "a table has the members vertices, edges, amounts and q, and not "),
    (dict(TRIANGLE.to_dict(), vertices=[["a"], "b", "c"]), "['a'] can't be a vertex"),
    (dict(TRIANGLE.to_dict(), amounts=None), "the member amounts is a list, and not None"),
    (dict(TRIANGLE.to_dict(), amounts=[10 ** 30, 0, 0]), "1000000000000000000000000000000 at vertex a, and only -1000000 to 1000000 is possible"),
    (dict(TRIANGLE.to_dict(), q=None), "the member q is a vertex, and not None"),
    (dict(TRIANGLE.to_dict(), edges=[["a", "b", 1]]), "not connected"),
]


class OfRecipes(Test):
    def test_a_picture_of_ranks(self):
        needed("numpy")
        needed("matplotlib").use("Agg")
        names = {}
        exec(block(PAGE, "import dollar, random").replace("20_000", "300"), names)
        found = names["found"]
        self.assertTrue((found["rank"] - found.dual == found.degree + 1 - found.genus).all())
        self.assertEqual(names["pyplot"].gca().get_xlabel(), "degree")
        names["pyplot"].close()


class OfTheService(Test):
    def client(self):
        client = needed("fastapi.testclient").TestClient
        place = importlib.util.spec_from_file_location("service", EXAMPLES / "service.py")
        service = importlib.util.module_from_spec(place)
        place.loader.exec_module(service)
        found = client(service.app)
        found.__enter__()
        self.addCleanup(found.__exit__, None, None, None)
        return found

    def test_verdicts_ranks_and_a_game(self):
        client = self.client()
        self.assertEqual(client.post("/judge", json=TRIANGLE.to_dict()).json()["script"], {"a": 0, "b": -1, "c": -1})
        self.assertEqual(client.post("/rank", json=TRIANGLE.to_dict()).json(), {"rank": 0})
        game = client.post("/games", json=TRIANGLE.to_dict()).json()["game"]
        self.assertEqual([client.post("/games/%d/%s" % (game, line)).json()["word"] for line in ("lend a", "join a b", "jump", "claim")],
                         ["moved", "joined", "bad word", "won"])
        now = client.get("/games/%d" % game).json()
        self.assertEqual((now["amounts"], now["edges"]), ([0, 0, 0], [["a", "b", 2], ["b", "c", 1], ["a", "c", 1]]))
        self.assertEqual((client.get("/games/9").status_code, client.post("/games/%d/a%%0Ab" % game).status_code), (422, 422))

    @each(REFUSED)
    def test_what_is_wrong_is_told_by_the_name_of_the_member(self, table, said):
        for path in ("/judge", "/rank"):
            answer = self.client().post(path, content=json.dumps(table))
            self.assertEqual(answer.status_code, 422)
            self.assertIn(said, answer.json()["refused"])

    def test_many_at_once(self):
        client = self.client()
        games = [client.post("/games", json=TRIANGLE.to_dict()).json()["game"] for _ in range(5)]
        with concurrent.futures.ThreadPoolExecutor(20) as pool:
            told = list(pool.map(lambda at: client.post("/games/%d/claim" % games[at % 5]).json()["number"], range(200)))
        self.assertEqual(sorted(told), sorted(list(range(40)) * 5))
