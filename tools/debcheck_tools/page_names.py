"""The files and addresses of the pages."""

import hashlib
import re
from functools import lru_cache
from urllib.parse import quote

from debcheck_tools.page_history import Cell

LONGEST_NAME = 200


@lru_cache(maxsize=None)
def file_of(folder: str, name: str) -> str:
    """The file of a page: the name where a file may be called so, else a part of it and a sum of all of it."""
    plain = re.sub("[^A-Za-z0-9+.~_-]", "_", name)
    if plain != name or len(name) > LONGEST_NAME:
        plain = f"{plain[:LONGEST_NAME]}~{hashlib.sha256(name.encode()).hexdigest()[:12]}"
    return f"{folder}/{plain}.html"


@lru_cache(maxsize=None)
def address_of(file: str) -> str:
    """A file as a link says it."""
    return quote(file)


def package_file(name: str, kind: str) -> str:
    """The file of a package's page, or of that of a source that can't be built."""
    return file_of("build" if kind == "sources" else "package", name)


def wrong_file(wrong: str) -> str:
    """The file of the page of what is wrong."""
    return file_of("wrong", wrong.replace(": ", "-", 1))


def cell_file(cell: Cell) -> str:
    """The file of a cell's page."""
    return file_of("cell", cell_name(cell).replace(", ", "-").replace(" ", "-"))


def row_name(cell: Cell) -> str:
    """What the row of a cell is called."""
    return cell.suite + (", sources" if cell.kind == "sources" else "")


def cell_name(cell: Cell) -> str:
    """What a cell is called."""
    return f"{cell.suite} {cell.architecture}" + (", sources" if cell.kind == "sources" else "")
