"""Reads a TOML file, and tells the line of a key, which tomllib doesn't."""

import re
import tomllib
from pathlib import Path
from typing import Any

from debcheck_tools.errors import READ, USAGE, Fault

Where = tuple[str | int, ...]


def has(tree: Any, where: Where) -> bool:
    """Whether a document has something at a path."""
    for step in where:
        try:
            tree = tree[step]
        except (KeyError, IndexError, TypeError):
            return False
    return True


def line_of(text: str, where: Where) -> int:
    """The line where the statement begins that gives a document what stands at a path; 1 where none does."""
    lines = text.splitlines(keepends=True)
    before = 0
    for count in range(1, len(lines) + 1):
        try:
            tree = tomllib.loads("".join(lines[:count]))
        except tomllib.TOMLDecodeError:
            continue
        if has(tree, where):
            return before + 1
        before = count
    return 1


def read_toml(path: Path) -> tuple[str, dict[str, Any]]:
    """A file's text and what it says."""
    try:
        text = path.read_text(encoding="utf-8")
        return text, tomllib.loads(text)
    except OSError as error:
        raise Fault(READ, f"{path}: {error.strerror or error}") from None
    except UnicodeDecodeError as error:
        line = error.object[: error.start].count(b"\n") + 1
        raise Fault(USAGE, f"{path}:{line}: this is no text in UTF-8") from None
    except tomllib.TOMLDecodeError as error:
        place = re.search(r" \(at line (\d+), column \d+\)$", str(error))
        line = int(place[1]) if place else len(text.splitlines())
        told = str(error)[: place.start()] if place else str(error).removesuffix(" (at end of document)")
        raise Fault(USAGE, f"{path}:{line}: no TOML: {told}") from None
