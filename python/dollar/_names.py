"""Prints a page of all public names of the package, made of their descriptions."""

from __future__ import annotations

import argparse
import inspect
from collections.abc import Iterator
from typing import Any

import dollar
from dollar._program import typed


def told(thing: Any) -> str:
    """The first paragraph of a description."""
    return " ".join((inspect.getdoc(thing) or "").split("\n\n")[0].split())


def shown(name: str, thing: Any) -> str:
    """A name with its parameters, if it can be called."""
    if not inspect.isroutine(thing):
        return name
    signature = inspect.signature(thing)
    given = [each.replace(annotation=each.empty) for each in signature.parameters.values() if each.name not in ("self", "cls")]
    return name + str(signature.replace(parameters=given, return_annotation=signature.empty))


def members(kind: Any) -> Iterator[tuple[str, Any]]:
    """The public methods and properties of a class, in the order of its code, and those that it has from others of the package."""
    kinds = [kind, *(each for each in kind.__mro__[1:] if each.__module__.startswith("dollar."))]
    for name, value in {name: value for each in reversed(kinds) for name, value in vars(each).items()}.items():
        if not name.startswith("_") and (inspect.isroutine(value) or isinstance(value, property)):
            yield name, getattr(value, "__func__", value)


def page() -> Iterator[str]:
    """The lines of the page."""
    yield "# The names of the Python package\n\n`help(dollar.NAME)` has each with examples.\n"
    for name in dollar.__all__:
        thing = getattr(dollar, name)
        yield "## `%s`\n\n%s\n" % (shown(name, thing), told(thing))
        if inspect.isclass(thing):
            lines = ["- `%s`: %s\n" % (shown(*each), told(each[1])) for each in members(thing) if told(each[1])]
            yield "".join(lines + ["\n"] if lines else [])


def main(words: list[str]) -> int:
    reader = argparse.ArgumentParser(prog=typed("names"), description="Prints a page of all names of the package, from their descriptions.")
    reader.parse_args(words)
    print("\n".join(page()).replace("\n\n\n", "\n\n"), end="")
    return 0
