"""The pages and their parts, as they stand in the folder `web`."""
from __future__ import annotations

import functools
import html
import json
import os
import re
from typing import Callable, Mapping

from dollar.board.server import Answer, Nothing, Request
from dollar.board.texts import TABLES, WEB, in_html, spoken, t, texts
from dollar._grammar import GRAMMAR
from dollar._table import text_of

KINDS = {"css": "text/css", "js": "text/javascript"}
# The modules that pages have as their scripts.
ROOTS = {"alone.js", "class.js"}
# Modules that are made of data: what they export.
MADE: dict[str, tuple[str, Callable[[], object]]] = {"grammar.js": ("GRAMMAR", lambda: GRAMMAR), "table.js": ("TEXTS", texts)}
ASSETS = {*MADE, *(name for name in os.listdir(WEB) if name.rpartition(".")[2] in KINDS)}


def part(name: str) -> str:
    """The text of a file of the pages."""
    return "export const %s = %s;\n" % (MADE[name][0], json.dumps(MADE[name][1]())) if name in MADE else text_of(os.path.join(WEB, name))


IMPORT = re.compile(r'^import [^;]*? from "\./([\w.]+)";\n', re.M)


def one_script(name: str, exports: bool = False) -> str:
    """A module after all that it needs, as one, so their names are all different. With `exports` it still exports what it does."""
    return script_in(spoken.get(), name, exports)


@functools.lru_cache(maxsize=None)
def script_in(_: str, name: str, exports: bool) -> str:
    """A script in the language that is spoken."""
    needed = []

    def visit(module: str) -> None:
        text = part(module)
        for other in IMPORT.findall(text):
            if other not in needed:
                visit(other)
        if module not in needed:
            needed.append(module)
        sources[module] = IMPORT.sub("", text)

    sources: dict[str, str] = {}
    visit(name)
    return "\n" + "\n".join(sources[module] if exports and module == name else re.sub(r"^export ", "", sources[module], flags=re.M)
                            for module in needed)


def filled(name: str, words: Mapping[str, str]) -> str:
    """A page with what is given, texts of the table, or else other parts of pages, in the places of their names."""
    def text_of_name(found: re.Match[str]) -> str:
        name = found[1]
        return words[name] if name in words else in_html(name) if "." in name else filled(name + ".html", words)

    return re.sub("{{([a-z.-]+)}}", text_of_name, part(name))


def asset(name: str) -> Answer:
    """A script or a style as an answer. The script of a page has all its modules in it, so that a page needs few requests."""
    if name not in ASSETS:
        raise Nothing
    text = one_script(name, exports=True) if name in ROOTS else part(name)
    return 200, KINDS[name.rpartition(".")[2]], text.encode()


def page(name: str, status: int = 200) -> Answer:
    """A page as an answer."""
    given = {"title": html.escape(t("page.title")), "look": '<link rel="stylesheet" href="page.css">'}
    return status, "text/html", filled(name, given).encode()


def forward(request: Request, secret: str) -> Answer:
    """A page that leads on, for an address without its last slash, or a short one."""
    if request.method != "GET":
        raise Nothing
    asked = "?lang=%s" % request.query["lang"] if request.query.get("lang") in TABLES else ""
    return 200, "text/html", ('<!doctype html><meta http-equiv="refresh" content="0; url=%s/%s">\n' % (secret, asked)).encode()
