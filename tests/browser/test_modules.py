"""What the pages' modules do without a page (pure.js), and what a compiler says of them."""
import json
import re
import shutil
import subprocess
import tempfile
import unittest
from pathlib import Path

from common import PATIENCE, text_of, written
from dollar.board.pages import MADE, ROOTS, one_script, part
from dollar.board.texts import TABLES, WEB
from helpers import equal, tests_of

TEXTS = TABLES["en"]
# What is put into a text, by its number, its name, or a word of the language.
PLACE = re.compile(r"{(.*?)}")
# What two words in quotes are that nobody reads: selectors, classes, keys; and where a script puts what is read.
UNREAD = re.compile(r'"(?:#|\(|tr:|(?:input|dollar|name|amount|says|graph)\b|(?:%s)")' % "|".join(TEXTS["faults"]))
READ = r"""(?:(?:textContent|title|placeholder) = |\b(?:note|tell|notice|sure|button|Option)\(|\b(?:made|say)\("[\w-]+", )["'`]\w.*"""


def ran(program, *words, **given):
    """What a program of JavaScript does, or the test is left out."""
    if not shutil.which(program):
        raise unittest.SkipTest(f"tests of the pages' modules, for want of {program}")
    return subprocess.run([program, *words], capture_output=True, text=True, timeout=PATIENCE, **given)


def copied(folder):
    """A copy of the modules, and of their tests, in a folder."""
    place = shutil.copytree(WEB, Path(folder, "web"))
    for name in MADE:
        written(place, name, part(name))
    written(place, "package.json", '{"type": "module"}')
    shutil.copy(Path(__file__).with_name("pure.js"), place)
    return place


def whole_scripts(folder):
    """The modules of a page as one script are a module, in which no name is given twice."""
    for name in (*ROOTS, "replay.js"):
        done = ran("node", "--check", written(folder, name.replace(".js", ".mjs"), one_script(name, exports=name in ROOTS)))
        equal((done.returncode, done.stderr), (0, ""), f"the script of {name}")


def types(folder):
    """A compiler that only checks finds nothing in the modules."""
    options = "--checkJs --allowJs --noEmit --target es2022 --moduleResolution node --lib es2022,dom,dom.iterable".split()
    done = ran("tsc", *options, *(place for place in copied(folder).glob("*.js") if place.name != "pure.js"))
    equal((done.returncode, done.stdout), (0, ""), "what a compiler says")


def texts(_):
    """All that people read is in the table, and all that is in the table is read."""
    sources = {place.name: re.sub(r"/\*[\s\S]*?\*/|^\s*//.*$|^import .*$", "", text_of(place), flags=re.M)
               for place in [*Path(WEB).glob("*.html"), *Path(WEB).glob("*.js"), *Path(WEB).parent.glob("*.py")]}
    for name, text in sources.items():
        if name.endswith(".html"):
            found = re.findall(r' (?:title|placeholder|[a-z-]*label)="[^"]+"|[A-Za-z]+(?=[^<>]*<)', re.sub(r"{{.*?}}", "", text))
        elif name.endswith(".js"):
            words = re.findall(r"\"[^\"\n]*\"|`[^`]*`", text)
            found = re.findall(READ, text) + [each for each in words if not UNREAD.match(each) and re.search(
                r"[A-Za-z]{2}[,.:;!?]* [A-Za-z]{2}", re.sub(r"\$\{[^}]*\}?", "", each))]
        else:
            found = re.findall(r"Refused\(\d+, (?!t\(|str\(|with_value\().*", text)
        equal(found, [], f"what {name} says beside the table")
    whole, table = "".join(sources.values()), {f"{group}.{key}" for group, texts in TEXTS.items() for key in texts}
    used = set(re.findall(r"""["{](\w+\.(?!css|csv|err|html|js|txt)[\w #-]+)["}]""", whole))
    computed = {"words", *re.findall(r"""["`](\w+)\.(?:\$\{|" \+)""", whole)}
    equal({name for name in used - table if name.partition(".")[0] in TEXTS}, set(), "names of no text")
    equal({name for name in table - used if name.partition(".")[0] not in computed}, set(), "texts that nobody says")


def languages(_):
    """Each language has the texts of each other, with the same put into them, and words for all that it says of vertices and edges."""
    for name, table in TABLES.items():
        equal(table["page"]["language"], name, "what a language says that it is")
        equal([{key: sorted(texts) for key, texts in each.items() if key != "words"} for each in (table, TEXTS)][0],
              {key: sorted(texts) for key, texts in TEXTS.items() if key != "words"}, f"the texts of {name}")
        said = set()
        for group, texts in table.items():
            for key, text in texts.items() if group != "words" else ():
                own, other = ({place for form in (each if isinstance(each, list) else [each]) for place in PLACE.findall(form)}
                              for each in (text, TEXTS[group][key]))
                said |= own
                equal(own - set(table["words"]), other - set(TEXTS["words"]), f"what is put into {group}.{key} of {name}")
        equal(set(table["words"]) - said, set(), f"words of {name} that nobody says")


def modules(folder):
    told = "import('./pure.js').then((tests) => console.log(JSON.stringify(tests.failures())))"
    done = ran("node", "-e", told, cwd=copied(folder))
    equal((json.loads(done.stdout or "null"), done.stderr), ([], ""), "the modules in node")


load_tests = tests_of(modules, texts, languages, types, whole_scripts, given=tempfile.TemporaryDirectory)
