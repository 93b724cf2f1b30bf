"""What a class keeps of its pupils: their seats, by a word from any device, and what each has done, also when the disk is full."""
import csv
import io
import json
import re
import resource
import tempfile
from pathlib import Path

from common import EXAMPLES, addresses, played, started, waited
from helpers import equal, expect, tests_of
from visitors import Place, Pupil, a_class, watcher

EACH = "--rooms", "1"


def by_a_word(folder):
    """The word of a seat, which the teacher sees, leads its pupil back from any device; wrong ones are few, and a page that is open stays."""
    with a_class(folder, 4, "Ann", "Ben") as (_, place, desk, ann, ben):
        page = watcher(desk)
        for listener in page, ben:
            listener.until(lambda listener: listener.states and len(listener.states[-1]["names"]) == 2, "the names do not come")
        word = page.states[-1]["names"]["1"]["word"]
        equal([len(word), "word" in json.dumps(ben.states[-1]["names"])], [4, False], "the word, which the teacher alone is told")

        def join(name, **more):
            return place.post("join", {"name": name, "browser": "c" * 24, **more})

        equal(join("ANN", word=word), (200, {"seat": 1, "key": ann.key, "name": "Ann", "word": word}), "who knows the word")
        equal(join("Ben", word=word), (409, "That is not the word of this seat. Ask your teacher for it."), "the word of another seat")
        ann.leave()
        ann.until(lambda _: not page.states[-1]["names"]["1"]["here"], "who is away is not told")
        equal([join("ann", word="")[1], join("Cem", word="")[1]["name"]], [{"away": "Ann"}, "Cem"], "whether somebody of a name is away")
        equal(place.post("join", {"name": "Ann", "browser": "d" * 24})[1]["name"], "Ann 2", "another Ann")
        place.source = "127.0.0.77", 0
        wrong = [join("Ann", word=f"x{number}")[0] for number in range(60)]
        equal(set(wrong), {409, 429}, "many wrong words")
        place.source = None
        equal(join("Ann", word=word)[0], 200, "the word from another address meanwhile")
        page.leave()


def sheet(desk):
    """The results, as rows."""
    return list(csv.reader(io.StringIO(desk.get("results.csv")[1].lstrip("\ufeff"))))[1:]


def results(folder):
    """Who did what is the server's: it outlasts tables, those who leave, and an accident; who comes next begins at nothing."""
    words = [EXAMPLES / "houses.json", EXAMPLES / "kind_houses.json", "--class", "3", *EACH, "--keep", Path(folder, "kept")]
    child = started(*words)
    pupils, teacher = addresses(child)
    desk = Place(teacher)
    ann, jo, bob = (Pupil(pupils, name) for name in ("=Ann", "J\u00fcrgen", "Bob"))
    for line in "lend cyd", "lend bob", "lend cyd":
        ann.play(line)
    for line in "lend cyd", "lend ann", "borrow ann", "lend cyd", "lend bob":
        jo.play(line)
    place = ann.place
    equal(place.post("cant", {"key": bob.key})[1], {"cant": False}, "a wrong answer")
    expect(waited(lambda: [row[6] for row in sheet(desk)[:2]] == ["3", "3"]), "the fewest moves that there can be")
    rows = sheet(desk)
    expect(re.fullmatch(r"20\d\d-\d\d-\d\d \d\d:\d\d:\d\d", rows[0][0]), f"when it was: {rows[0]}")
    equal([row[1:] for row in rows], [
        ["'=Ann", "1", "houses.json", "yes", "3", "3", "0", "0", "0", "3"], ["J\u00fcrgen", "2", "houses.json", "yes", "5", "3", "0", "0", "0", "5"],
        ["Bob", "3", "houses.json", "no", "", "", "0", "1", "0", "0"]], "what each has done")
    equal(place.post("leave", {"key": jo.key}), (200, {}), "who leaves")
    zed = Pupil(pupils, "Zed")
    zed.until(lambda pupil: pupil.states, "who comes next is told nothing")
    equal([zed.seat, [*zed.entries], zed.play("lend ann")[1]], [2, [], "0 moved ann=-3 bob=2 cyd=3 dan=-1"], "who takes the seat begins at nothing")
    desk.post("table", {"named": "kind_houses.json"})
    equal(place.post("cant", {"key": ann.key})[1], {"cant": True}, "a right answer")
    child.kill()
    child.communicate()
    with played(*words) as (_, _):
        found = [row[1:6] for row in sheet(desk)]
        past = [["J\u00fcrgen", "2", "houses.json", "yes", "5"], ["'=Ann", "1", "houses.json", "yes", "3"],
                ["Zed", "2", "houses.json", "no", ""], ["Bob", "3", "houses.json", "no", ""]]
        equal(found, [*past, ["'=Ann", "1", "kind_houses.json", "yes", "can't be done"]], "the results after an accident")
        german = desk.get("results.csv?lang=de")[1].splitlines()
        equal([german[0].startswith('\ufeff"wann";"wer";'), '"J\u00fcrgen";"2";"houses.json";"ja";"5"' in german[1]], [True, True],
              "the file in German")
        equal(place.get("results.csv"), (404, "there is nothing here"), "the results for a pupil")


def a_full_disk(folder):
    """When the disk takes no more, the game goes on, and the terminal and the teacher are told, but no pupil."""
    kept = Path(folder, "kept")
    child = started(EXAMPLES / "houses.json", "--class", "2", *EACH, "--keep", kept)
    pupils, teacher = addresses(child)
    page, ann = watcher(Place(teacher)), Pupil(pupils, "ann")
    ann.play("lend cyd")
    resource.prlimit(child.pid, resource.RLIMIT_FSIZE, (20, 20))
    equal([ann.play("lend cyd")[0] for _ in range(2)], [200, 200], "moves that are not kept")
    page.until(lambda page: "File too large" in page.states[-1]["fault"], "the teacher is not told of a full disk")
    equal([state["fault"] for state in ann.states if state["fault"]], [], "what pupils are told of it")
    child.terminate()
    _, said = child.communicate()
    expect("room1.jsonl: File too large: the class is kept no more" in said, f"what the terminal says: {said}")


load_tests = tests_of(by_a_word, results, a_full_disk, given=tempfile.TemporaryDirectory)
