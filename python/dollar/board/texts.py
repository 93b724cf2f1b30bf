"""What people read: the texts of the tables in `web`, one for each language, by a group and a key, as the pages and the server say them."""
from __future__ import annotations

import html
import json
import os
import re
from contextvars import ContextVar
from typing import Any

from dollar._table import text_of

WEB = os.path.join(os.path.dirname(os.path.abspath(__file__)), "web")
LANGUAGES = {"en": "texts.json", "de": "texts.de.json"}
TABLES: dict[str, dict[str, dict[str, Any]]] = {name: json.loads(text_of(os.path.join(WEB, file))) for name, file in LANGUAGES.items()}
# The language of the request that is being answered.
spoken = ContextVar("spoken", default="en")


def speak(asked: str, accepted: str) -> None:
    """Answers in the language that was asked for, or else in the first of the browser's that there is."""
    wanted = [asked, *(word.strip().partition(";")[0].partition("-")[0].lower() for word in accepted.split(","))]
    spoken.set(next((word for word in wanted if word in TABLES), "en"))


def texts() -> dict[str, dict[str, Any]]:
    return TABLES[spoken.get()]


def t(name: str, *given: Any, houses: bool = False) -> str:
    """A text with what is put in its places, in the words of the field, or in those of the handout."""
    group, _, key = name.partition(".")
    return str(texts()[group][key]).format(*given, **{word: both[houses] for word, both in texts()["words"].items()})


def in_html(name: str) -> str:
    """A text as it stands in a page. One that has words from which somebody chooses can be found again by its name."""
    group, _, key = name.partition(".")
    text = re.sub("`(.*?)`", r"<code>\1</code>", html.escape(t(name)))
    return '<span data-text="%s">%s</span>' % (name, text) if "{" in texts()[group][key] else text
