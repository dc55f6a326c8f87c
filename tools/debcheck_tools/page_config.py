"""The configuration of the pages: a TOML file, whose faults name key and line."""

import re
from collections.abc import Callable
from dataclasses import dataclass
from pathlib import Path
from typing import Any

from debcheck_tools.errors import USAGE, Fault
from debcheck_tools.page_toml import Where, line_of, read_toml

PLAIN_NAME = re.compile(r"[A-Za-z0-9][A-Za-z0-9+._-]*")
DEFAULT_DAYS = 366


@dataclass(frozen=True)
class Suite:
    """One row of the matrix, or two where sources are checked, too: on the architectures `sources`, or on `any`."""

    name: str
    suite: str
    components: tuple[str, ...]
    architectures: tuple[str, ...]
    background: tuple[str, ...]
    files: tuple[str, ...]
    background_files: tuple[str, ...]
    sources: tuple[str, ...]
    source_files: tuple[str, ...]
    profiles: tuple[str, ...]
    newest: bool


@dataclass(frozen=True)
class Config:
    """All that a configuration says. Paths are those of the file's folder where they are relative."""

    title: str
    address: str
    history: Path
    output: Path
    mirror: Path | None
    days: int
    suites: tuple[Suite, ...]


@dataclass(frozen=True)
class Key:
    """What a key's value has to be."""

    what: str
    is_one: Callable[[Any], bool]


def is_text(value: Any) -> bool:
    """Whether a value is a text that isn't empty."""
    return isinstance(value, str) and value != ""


def is_texts(value: Any) -> bool:
    """Whether a value is a list of texts, none of which is empty."""
    return isinstance(value, list) and bool(value) and all(is_text(one) for one in value)


def is_name(value: Any) -> bool:
    """Whether a value may stand in the names of files and addresses as it is."""
    return isinstance(value, str) and PLAIN_NAME.fullmatch(value) is not None


def is_days(value: Any) -> bool:
    """Whether a value is a count of days."""
    return isinstance(value, int) and not isinstance(value, bool) and 1 <= value <= 36600


TEXT = Key("a text", is_text)
TEXTS = Key("a list of texts, in brackets", is_texts)
NAME = Key("letters, digits and + - . _, the first a letter or digit", is_name)
NAMES = Key(
    "a list of names of letters, digits and + - . _",
    lambda value: is_texts(value) and all(is_name(one) for one in value),
)
BACKGROUND = Key(
    'a list of texts "SUITE/COMPONENT"',
    lambda value: is_texts(value) and all(0 < one.rfind("/") < len(one) - 1 for one in value),
)
ADDRESS = Key(
    "an address that begins with http:// or https://",
    lambda value: is_text(value) and value.startswith(("http://", "https://")),
)
TRUTH = Key("true or false", lambda value: isinstance(value, bool))
SOURCES = Key("true, false or a list of architectures", lambda value: isinstance(value, bool) or NAMES.is_one(value))
DAYS = Key("a number of days, 1 to 36600", is_days)

TOP = {
    "title": TEXT,
    "address": ADDRESS,
    "history": TEXT,
    "output": TEXT,
    "mirror": TEXT,
    "days": DAYS,
    "newest": TRUTH,
    "suite": Key(
        "a table [[suite]] for each row",
        lambda value: isinstance(value, list) and bool(value) and all(isinstance(one, dict) for one in value),
    ),
}
ROW = {
    "name": NAME,
    "suite": TEXT,
    "components": TEXTS,
    "architectures": NAMES,
    "background": BACKGROUND,
    "files": TEXTS,
    "background-files": TEXTS,
    "sources": SOURCES,
    "source-files": TEXTS,
    "profiles": NAMES,
    "newest": TRUTH,
}


class Reader:
    """One configuration file while it is read."""

    def __init__(self, path: Path) -> None:
        self.path = path
        self.text, self.tree = read_toml(path)

    def fault(self, where: Where, told: str) -> Fault:
        """A fault of what stands at a path."""
        return Fault(USAGE, f"{self.path}:{line_of(self.text, where)}: {told}")

    def table(self, tree: dict[str, Any], where: Where, keys: dict[str, Key]) -> None:
        """Looks whether a table has known keys alone, each with a value of its kind."""
        for key, value in tree.items():
            if key not in keys:
                raise self.fault(
                    (*where, key), f"{key}: there is no such key here; there are {', '.join(sorted(keys))}"
                )
            if not keys[key].is_one(value):
                raise self.fault((*where, key), f"{key}: this has to be {keys[key].what}")

    def beside(self, value: str) -> Path:
        """A path, which is that of the configuration's folder where it is relative."""
        return self.path.absolute().parent / value

    def refuse(self, tree: dict[str, Any], where: Where, mirror: bool) -> None:
        """Raises the fault of a suite whose keys don't go together."""
        if "name" not in tree:
            raise self.fault(where, "name: each suite has one")
        has_files = "files" in tree
        if has_files and "architectures" not in tree:
            raise self.fault((*where, "files"), "architectures: a suite of files names them")
        if not has_files and not mirror:
            raise self.fault(where, "files: a suite names its files where no mirror is named")
        for key in ("suite", "components", "background"):
            if has_files and key in tree:
                raise self.fault((*where, key), f"{key}: this is of a mirror, and this suite names files")
        for key in ("background-files", "source-files"):
            if not has_files and key in tree:
                raise self.fault((*where, key), f"{key}: this is of files, and this suite names none")
        if "profiles" in tree and not (tree.get("sources") or "source-files" in tree):
            raise self.fault((*where, "profiles"), "profiles: these are of sources, which this suite doesn't check")
        if has_files and tree.get("sources") and "source-files" not in tree:
            raise self.fault((*where, "sources"), "sources: a suite of files names them by source-files")

    def row(self, number: int, tree: dict[str, Any], newest: bool, mirror: bool) -> Suite:
        """One suite."""
        where: Where = ("suite", number)
        self.table(tree, where, ROW)
        self.refuse(tree, where, mirror)
        sources = tree.get("sources", "source-files" in tree)

        def listed(key: str) -> tuple[str, ...]:
            return tuple(dict.fromkeys(tree.get(key, ())))

        def paths(key: str) -> tuple[str, ...]:
            return tuple(str(self.beside(one)) for one in listed(key))

        return Suite(
            name=tree["name"],
            suite=tree.get("suite", tree["name"]),
            components=listed("components"),
            architectures=listed("architectures"),
            background=listed("background"),
            files=paths("files"),
            background_files=paths("background-files"),
            sources=("any",) if sources is True else tuple(sources or ()),
            source_files=paths("source-files"),
            profiles=listed("profiles"),
            newest=tree.get("newest", newest),
        )


def address_of(named: str) -> str:
    """The address of the folder of the pages, which ends with a slash; empty where none is named."""
    folder = named.removesuffix("index.html")
    return folder if folder.endswith("/") or not folder else folder + "/"


def read(path: Path) -> Config:
    """The configuration of a file; `Fault` where it has a fault."""
    reader = Reader(path)
    tree = reader.tree
    reader.table(tree, (), TOP)
    for key in ("title", "history", "output", "suite"):
        if key not in tree:
            raise Fault(USAGE, f"{path}:1: {key}: this key has to be there")
    suites: list[Suite] = []
    for number, one in enumerate(tree["suite"]):
        suites.append(reader.row(number, one, tree.get("newest", False), "mirror" in tree))
        if any(earlier.name == suites[-1].name for earlier in suites[:-1]):
            raise reader.fault(("suite", number, "name"), f"name: there are two suites {suites[-1].name}")
    history, output = reader.beside(tree["history"]), reader.beside(tree["output"])
    if history == output:
        raise reader.fault(("output",), "output: this is the history's file")
    return Config(
        title=tree["title"],
        address=address_of(tree.get("address", "")),
        history=history,
        output=output,
        mirror=reader.beside(tree["mirror"]) if "mirror" in tree else None,
        days=tree.get("days", DEFAULT_DAYS),
        suites=tuple(suites),
    )
