"""The grammar of lines and answers as data: commands with the kinds of their words, replies, refusals, faults, limits. tools/words.py
reads them off the proved code; docs/formats.md says what the file holds."""

from __future__ import annotations

import json
import pkgutil
from typing import Any

GRAMMAR: dict[str, Any] = json.loads(pkgutil.get_data("dollar", "grammar.json") or b"")


def limit(name: str) -> int:
    """A limit by the name of its constant.

    >>> limit("dg_graph::MAX_VERTICES")
    16
    """
    number: int = GRAMMAR["limits"][name]
    return number
