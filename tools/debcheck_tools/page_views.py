"""What the pages show: cells, packages, wrongs and sources, as the history has them after a run."""

import json
from collections import Counter
from collections.abc import Sequence
from dataclasses import dataclass, field
from datetime import datetime
from functools import cached_property
from operator import itemgetter
from typing import Any

from markupsafe import Markup

from debcheck_tools.page_history import IS_CELL, Cell, History, Json, key, unpacked
from debcheck_tools.page_names import address_of, cell_file, cell_name, row_name
from debcheck_tools.page_plot import plot
from debcheck_tools.page_walk import Line


def moment_of(text: str) -> datetime:
    """A moment of the history."""
    return datetime.fromisoformat(text)


@dataclass
class CellView:
    """One cell of the matrix, with what its page shows."""

    cell: Cell
    number: int
    fault: str | None = None
    as_of: str = ""
    asked: int | None = None
    broken: int | None = None
    is_first: bool = False
    new: list[str] = field(default_factory=list)
    mended: list[str] = field(default_factory=list)
    gone: list[str] = field(default_factory=list)
    rows: list[Json] = field(default_factory=list)
    packages: list[Json] = field(default_factory=list)
    names: frozenset[str] = frozenset()
    plot: Markup = Markup("")

    @property
    def kind(self) -> str:
        """Packages or sources."""
        return self.cell.kind

    @cached_property
    def row(self) -> str:
        """The name of its row."""
        return row_name(self.cell)

    @cached_property
    def label(self) -> str:
        """What links to it are called."""
        return cell_name(self.cell)

    @cached_property
    def file(self) -> str:
        """The file of its page."""
        return cell_file(self.cell)

    @cached_property
    def address(self) -> str:
        """Its page, as a link says it."""
        return address_of(self.file)

    @property
    def state(self) -> str:
        """How it stands against the day before."""
        if self.fault is not None:
            return "old"
        if self.new:
            return "worse"
        if not self.broken:
            return "fine"
        if self.mended or self.gone:
            return "better"
        return "first" if self.is_first else "same"

    @property
    def sign(self) -> str:
        """The sign of its state."""
        return {"old": "!", "worse": "▲", "better": "▼", "fine": "✓", "first": "•", "same": "="}[self.state]

    @property
    def change(self) -> str:
        """What changed, in a few characters."""
        if self.fault is not None:
            return f"of {self.as_of[:10]}" if self.as_of else "no answer"
        if self.is_first:
            return "first"
        ended = len(self.mended) + len(self.gone)
        parts = ([f"+{len(self.new)}"] if self.new else []) + ([f"−{ended}"] if ended else [])
        return " ".join(parts) or "no change"


class Views:
    """All that a run's pages show, over the cells in their order."""

    def __init__(self, history: History, cells: Sequence[Cell]) -> None:
        self.db = history.db
        self.run, self.began = self.db.execute("SELECT id, began FROM run ORDER BY id DESC LIMIT 1").fetchone()
        found = self.db.execute(
            "SELECT id, began FROM run WHERE date(began) < date(?) ORDER BY id DESC LIMIT 1", (self.began,)
        ).fetchone()
        before: tuple[int, str] = found or (0, "")
        self.before, self.before_began = before
        self.cells = [self.cell(one) for one in cells]
        self.by_cell = {one.cell: one for one in self.cells}
        self.counts = Counter(one.row for one in self.cells)

    def cell(self, cell: Cell) -> CellView:
        """One cell."""
        number, first = self.db.execute(f"SELECT id, first FROM cell WHERE {IS_CELL}", key(cell)).fetchone()
        (fault,) = self.db.execute("SELECT fault FROM count WHERE cell = ? AND run = ?", (number, self.run)).fetchone()
        view = CellView(cell, number, fault)
        answer = self.db.execute(
            "SELECT began, document FROM answer JOIN run ON run.id = run WHERE cell = ?", (number,)
        ).fetchone()
        if answer is None:
            return view
        view.as_of, document = answer[0], unpacked(answer[1])
        view.asked, view.broken, view.rows = document["asked"], document["broken"], document["rows"]
        since = self.since(number, first)
        packages: list[Json] = document["packages"]
        view.packages = sorted([{**one, **since[one["package"]]} for one in packages], key=itemgetter("package"))
        view.names = frozenset(since)
        view.is_first = first > self.before
        if not view.is_first:
            self.compare(view)
        counts = self.db.execute(
            "SELECT began, broken FROM count JOIN run ON run.id = run WHERE cell = ? AND fault IS NULL ORDER BY run",
            (number,),
        )
        what = "sources that can't be built" if view.kind == "sources" else "broken packages"
        view.plot = plot(
            [(moment_of(began), broken) for began, broken in counts], f"{view.label}: {what} over time", what
        )
        return view

    def since(self, number: int, first: int) -> dict[str, Json]:
        """Since when each broken name of a cell is broken, and whether that was so at its first answer."""
        rows = self.db.execute(
            "SELECT text, began, since FROM broken JOIN name ON name.id = package JOIN run ON run.id = since"
            " WHERE cell = ? AND until IS NULL",
            (number,),
        )
        return {text: {"since": began, "is_first": since == first} for text, began, since in rows}

    def compare(self, view: CellView) -> None:
        """What is newly broken since the day before, and what ended."""
        rows = self.db.execute(
            "SELECT text, is_gone FROM broken JOIN name ON name.id = package"
            " WHERE cell = ? AND since <= ? AND (until IS NULL OR until > ?) ORDER BY text",
            (view.number, self.before, self.before),
        )
        then = dict(rows)
        view.new = sorted(view.names - then.keys())
        view.mended = [name for name, is_gone in then.items() if name not in view.names and not is_gone]
        view.gone = [name for name, is_gone in then.items() if name not in view.names and is_gone]

    def where(self, cells: Sequence[CellView]) -> str:
        """The cells of a list in a few words: each row with its architectures, or `all`."""
        told: dict[str, list[str]] = {}
        for one in cells:
            archs = told.setdefault(one.row, [])
            if one.cell.architecture not in archs:
                archs.append(one.cell.architecture)
        return "; ".join(
            f"{row}: {'all' if 1 < len(archs) == self.counts[row] else ', '.join(archs)}" for row, archs in told.items()
        )

    def packages(self) -> list[Json]:
        """Each broken name with its cells, and with its walks, alike ones once."""
        found: dict[tuple[str, str], list[tuple[CellView, Json]]] = {}
        for cell in self.cells:
            for entry in cell.packages:
                found.setdefault((entry["package"], cell.kind), []).append((cell, entry))
        return [self.package(name, kind, places, found.keys()) for (name, kind), places in sorted(found.items())]

    def package(self, name: str, kind: str, places: list[tuple[CellView, Json]], known: Any) -> Json:
        """What the page of a package shows."""
        entries = [entry for _, entry in places]
        since, is_later = min([(str(entry["since"]), not entry["is_first"]) for entry in entries])
        other = "packages" if kind == "sources" else "sources"
        return {
            "name": name,
            "kind": kind,
            "places": places,
            "sources": sorted({entry["source"] for entry in entries if entry["source"] and kind != "sources"}),
            "maintainers": sorted({entry["maintainer"] for entry in entries if entry["maintainer"]}),
            "where": self.where([cell for cell, _ in places]),
            "since": since,
            "is_first": not is_later,
            "other": other if (name, other) in known else "",
            "groups": self.groups(places),
        }

    def groups(self, places: Sequence[tuple[CellView, Json]]) -> list[Json]:
        """The walks of a package's entries, alike ones once with all their cells."""
        found: dict[tuple[str, str], Json] = {}
        for cell, entry in places:
            group = found.setdefault((entry["version"], entry["walks"]), {"cells": [], "broken": []})
            group["cells"].append(cell)
            group["broken"].append(self.broken_packages(cell.cell))
        for (version, walks), group in found.items():
            group.update(version=version, walks=[[Line(*line) for line in walk] for walk in json.loads(walks)])
        return list(found.values())

    def broken_packages(self, cell: Cell) -> frozenset[str]:
        """The names that are broken as packages where a cell is."""
        sister = self.by_cell.get(Cell(cell.suite, "packages", cell.architecture))
        return sister.names if sister else frozenset()

    def wrongs(self) -> list[Json]:
        """Each thing that is wrong with the cells and packages that it breaks, those that break the most first."""
        found: dict[str, Json] = {}
        for cell in self.cells:
            for row in cell.rows:
                for name in row["wrongs"]:
                    one = found.setdefault(name, {"name": name, "places": [], "broken": {}, "sources": {}})
                    one["places"].append((cell, row))
                    one["sources"].update(dict.fromkeys(row["sources"]))
                    for package in row["broken"]:
                        one["broken"].setdefault((package, cell.kind), []).append(cell)
        for one in found.values():
            one["packages"] = [(name, kind, self.where(cells)) for (name, kind), cells in sorted(one["broken"].items())]
            one["sources"] = list(one["sources"])
            one["where"] = self.where([cell for cell, _ in one["places"]])
        return sorted(found.values(), key=lambda one: (-len(one["packages"]), one["name"]))

    def sources(self) -> list[Json]:
        """Each source that has to act, with what is wrong with what it needs, those that break the most first."""
        found: dict[str, Json] = {}
        for cell in self.cells:
            for row in cell.rows:
                broken = [(package, cell.kind) for package in row["broken"]]
                for name in row["sources"]:
                    one = found.setdefault(name, {"name": name, "wrongs": {}, "broken": set(), "cells": []})
                    one["wrongs"].update(dict.fromkeys(row["wrongs"]))
                    one["broken"].update(broken)
                    one["cells"].append(cell)
        for one in found.values():
            one.update(breaks=len(one["broken"]), wrongs=list(one["wrongs"]), where=self.where(one["cells"]))
        return sorted(found.values(), key=lambda one: (-one["breaks"], one["name"]))
