"""The history of the pages: runs, counts, and since when what is broken, in one file of SQLite."""

import json
import re
import sqlite3
import zlib
from collections.abc import Iterable, Mapping
from dataclasses import dataclass
from importlib import resources
from pathlib import Path
from typing import Any

from debcheck_tools.errors import DATA, WRITE, Fault

Json = dict[str, Any]

IS_CELL = "suite = ? AND kind = ? AND architecture = ?"


@dataclass(frozen=True, order=True)
class Cell:
    """One square of the matrix: a suite's packages or its sources on an architecture."""

    suite: str
    kind: str
    architecture: str


@dataclass(frozen=True)
class Answer:
    """What a run found of a cell: what is wrong with each broken name, and which names no package has any more."""

    digest: str
    document: Json
    causes: Mapping[str, Iterable[str]]
    gone: frozenset[str]


@dataclass(frozen=True)
class Unchanged:
    """A cell whose inputs are those of its last answer."""


@dataclass(frozen=True)
class NoAnswer:
    """Why a cell has no answer."""

    status: int
    told: str


Outcome = Answer | Unchanged | NoAnswer


def parts() -> list[str]:
    """The parts of the schema, one for each version."""
    text = resources.files("debcheck_tools").joinpath("history.sql").read_text(encoding="utf-8")
    return re.split(r"^-- version \d+\n", text, flags=re.MULTILINE)[1:]


def packed(document: Json) -> bytes:
    """A document as it is kept."""
    return zlib.compress(json.dumps(document, separators=(",", ":")).encode(), 6)


def unpacked(blob: bytes) -> Json:
    """A document that was kept."""
    document: Json = json.loads(zlib.decompress(blob))
    return document


class History:
    """An open history."""

    def __init__(self, path: Path) -> None:
        try:
            self.db = sqlite3.connect(path, isolation_level=None, timeout=30)
            self.db.execute("PRAGMA foreign_keys = ON")
            self.ids: dict[str, int] = {}
            self._bring_up(path)
        except sqlite3.Error as error:
            raise Fault(WRITE, f"{path}: no history can be kept there: {error}") from error

    def close(self) -> None:
        """Lets the file go."""
        self.db.close()

    def _bring_up(self, path: Path) -> None:
        """Brings the file to the version of the schema."""
        steps = parts()
        (version,) = self.db.execute("PRAGMA user_version").fetchone()
        if version > len(steps):
            raise Fault(
                DATA,
                f"{path}: this history is of version {version}, and this program knows {len(steps)}: take a newer one",
            )
        if version == 0 and self.db.execute("SELECT count(*) FROM sqlite_schema").fetchone() != (0,):
            raise Fault(DATA, f"{path}: this is a database of something else")
        for number in range(version, len(steps)):
            self.db.executescript(f"BEGIN IMMEDIATE;\n{steps[number]}\nPRAGMA user_version = {number + 1};\nCOMMIT;")

    def cells(self) -> list[Cell]:
        """The cells of earlier runs."""
        return [Cell(*row) for row in self.db.execute("SELECT suite, kind, architecture FROM cell ORDER BY id")]

    def digest(self, cell: Cell) -> str:
        """Of which inputs a cell's last answer is; empty where there is none."""
        row = self.db.execute(
            f"SELECT digest FROM answer JOIN cell ON cell.id = cell WHERE {IS_CELL}", key(cell)
        ).fetchone()
        return str(row[0]) if row else ""

    def broken_names(self, cell: Cell) -> frozenset[str]:
        """The names that are broken in a cell, as its last answer has them."""
        rows = self.db.execute(
            "SELECT name.text FROM broken JOIN name ON name.id = package JOIN cell ON cell.id = broken.cell"
            f" WHERE until IS NULL AND {IS_CELL}",
            key(cell),
        )
        return frozenset(text for (text,) in rows)

    def record(self, began: str, outcomes: Mapping[Cell, Outcome], days: int) -> int:
        """Keeps what a run found, all of it or nothing, and lets go of what ended more than so many days before."""
        with self.db:
            self.db.execute("BEGIN IMMEDIATE")
            (run,) = self.db.execute("INSERT INTO run (began) VALUES (?) RETURNING id", (began,)).fetchone()
            self.ids = dict(self.db.execute("SELECT text, id FROM name"))
            for cell, outcome in outcomes.items():
                self._record(run, cell, outcome)
            self._forget(began, days)
        return int(run)

    def _record(self, run: int, cell: Cell, outcome: Outcome) -> None:
        """Keeps what a run found of one cell."""
        self.db.execute("INSERT OR IGNORE INTO cell (suite, kind, architecture) VALUES (?, ?, ?)", key(cell))
        (place,) = self.db.execute(f"SELECT id FROM cell WHERE {IS_CELL}", key(cell)).fetchone()
        if isinstance(outcome, NoAnswer):
            self.db.execute("INSERT INTO count (run, cell, fault) VALUES (?, ?, ?)", (run, place, outcome.told))
            return
        if isinstance(outcome, Answer):
            self.db.execute("UPDATE cell SET first = ? WHERE id = ? AND first IS NULL", (run, place))
            self.db.execute(
                "INSERT OR REPLACE INTO answer VALUES (?, ?, ?, ?)",
                (place, run, outcome.digest, packed(outcome.document)),
            )
            self._record_broken(run, place, outcome)
            numbers = outcome.document["asked"], outcome.document["broken"]
        else:
            self.db.execute("UPDATE answer SET run = ? WHERE cell = ?", (run, place))
            last = "SELECT asked, broken FROM count WHERE cell = ? AND fault IS NULL ORDER BY run DESC LIMIT 1"
            numbers = self.db.execute(last, (place,)).fetchone()
        self.db.execute("INSERT INTO count (run, cell, asked, broken) VALUES (?, ?, ?, ?)", (run, place, *numbers))

    def _record_broken(self, run: int, cell: int, answer: Answer) -> None:
        """Opens and ends what began and what ended with an answer."""
        ids = self.ids
        for text in sorted((answer.causes.keys() | set().union(*answer.causes.values())) - ids.keys()):
            (ids[text],) = self.db.execute("INSERT INTO name (text) VALUES (?) RETURNING id", (text,)).fetchone()
        gone = {ids[text] for text in answer.gone if text in ids}
        now = {ids[package] for package in answer.causes}
        before = {
            package
            for (package,) in self.db.execute("SELECT package FROM broken WHERE cell = ? AND until IS NULL", (cell,))
        }
        self.db.executemany(
            "INSERT INTO broken (cell, package, since) VALUES (?, ?, ?)",
            ((cell, one, run) for one in sorted(now - before)),
        )
        self.db.executemany(
            "UPDATE broken SET until = ?, is_gone = ? WHERE cell = ? AND package = ? AND until IS NULL",
            ((run, one in gone, cell, one) for one in sorted(before - now)),
        )
        wrong_now = {(ids[package], ids[wrong]) for package, wrongs in answer.causes.items() for wrong in wrongs}
        wrong_before = set(
            self.db.execute("SELECT package, wrong FROM cause WHERE cell = ? AND until IS NULL", (cell,))
        )
        self.db.executemany(
            "INSERT INTO cause (cell, package, wrong, since) VALUES (?, ?, ?, ?)",
            ((cell, *one, run) for one in sorted(wrong_now - wrong_before)),
        )
        self.db.executemany(
            "UPDATE cause SET until = ? WHERE cell = ? AND package = ? AND wrong = ? AND until IS NULL",
            ((run, cell, *one) for one in sorted(wrong_before - wrong_now)),
        )

    def _forget(self, began: str, days: int) -> None:
        """Takes away what ended long before."""
        old = "SELECT id FROM run WHERE julianday(began) < julianday(?) - ?"
        for table, column in (("broken", "until"), ("cause", "until"), ("count", "run")):
            self.db.execute(f"DELETE FROM {table} WHERE {column} IN ({old})", (began, days))
        self.db.execute("DELETE FROM cell WHERE id NOT IN (SELECT cell FROM count)")
        used = "SELECT package FROM broken UNION SELECT package FROM cause UNION SELECT wrong FROM cause"
        self.db.execute(f"DELETE FROM name WHERE id NOT IN ({used})")
        used = "SELECT first FROM cell WHERE first IS NOT NULL UNION SELECT run FROM answer"
        used += " UNION SELECT since FROM broken UNION SELECT since FROM cause"
        self.db.execute(f"DELETE FROM run WHERE id IN ({old}) AND id NOT IN ({used})", (began, days))


def key(cell: Cell) -> tuple[str, str, str]:
    """A cell as the table has it."""
    return cell.suite, cell.kind, cell.architecture
