"""The history of the pages: since when, one transaction for each run, and older files brought up."""

import sqlite3
from pathlib import Path

import pytest

from debcheck_tools.errors import DATA, WRITE, Fault
from debcheck_tools.page_history import Answer, Cell, History, NoAnswer, Outcome, Unchanged, parts

SID = Cell("sid", "packages", "amd64")
ARM = Cell("sid", "packages", "arm64")


def answer(digest: str, gone: str = "", **causes: str) -> Answer:
    """An answer in which each of the named packages is broken by the wrongs behind it."""
    split = {package: wrongs.split() for package, wrongs in causes.items()}
    document = {"asked": 9, "broken": len(causes), "rows": [], "packages": []}
    return Answer(digest, document, split, frozenset(gone.split()))


def record(history: History, day: int, outcome: Outcome, cell: Cell = SID) -> int:
    return history.record(f"2026-11-{day:02}T06:00:00Z", {cell: outcome}, 366)


def spans(history: History, table: str = "broken") -> list[tuple[str, int, int | None]]:
    column = "package" if table == "broken" else "wrong"
    return history.db.execute(
        f"SELECT text, since, until FROM {table} JOIN name ON name.id = {column} ORDER BY since, text"
    ).fetchall()


def test_since_when_is_kept(tmp_path: Path) -> None:
    history = History(tmp_path / "h")
    record(history, 1, answer("1", a="x", b="x y"))
    record(history, 2, Unchanged())
    record(history, 3, answer("3", gone="b", a="x z"))
    record(history, 4, answer("4", a="z", b="x"))
    assert spans(history) == [("a", 1, None), ("b", 1, 3), ("b", 4, None)]
    gone = history.db.execute("SELECT since, is_gone FROM broken WHERE until IS NOT NULL").fetchall()
    assert gone == [(1, 1)]
    assert spans(history, "cause") == [("x", 1, 4), ("x", 1, 3), ("y", 1, 3), ("z", 3, None), ("x", 4, None)]
    assert history.digest(SID) == "4" and history.digest(ARM) == ""
    assert history.broken_names(SID) == {"a", "b"} and history.broken_names(ARM) == frozenset()
    counts = history.db.execute("SELECT run, broken FROM count ORDER BY run").fetchall()
    assert counts == [(1, 2), (2, 2), (3, 1), (4, 2)]


def test_a_cell_without_an_answer_keeps_what_was(tmp_path: Path) -> None:
    history = History(tmp_path / "h")
    record(history, 1, answer("1", a="x"))
    record(history, 2, NoAnswer(67, "cut off"))
    assert spans(history) == [("a", 1, None)] and history.digest(SID) == "1"
    assert history.db.execute("SELECT broken, fault FROM count WHERE run = 2").fetchall() == [(None, "cut off")]
    record(history, 3, Unchanged())
    assert history.db.execute("SELECT broken, fault FROM count WHERE run = 3").fetchall() == [(1, None)]


def test_a_run_is_kept_whole_or_not_at_all(tmp_path: Path) -> None:
    history = History(tmp_path / "h")
    record(history, 1, answer("1", a="x"))
    before = list(history.db.iterdump())
    bad = Answer("2", {"asked": None, "broken": 0}, {"b": ["y"]}, frozenset())
    with pytest.raises(sqlite3.IntegrityError):
        history.record("2026-11-02T06:00:00Z", {ARM: answer("2", c="y"), SID: bad}, 366)
    assert list(history.db.iterdump()) == before


def test_what_ended_long_ago_goes(tmp_path: Path) -> None:
    history = History(tmp_path / "h")
    for month, causes in ((1, {"a": "x", "b": "y"}), (2, {"a": "x"}), (9, {"a": "x"}), (12, {"a": "x"})):
        history.record(f"2026-{month:02}-01T06:00:00Z", {SID: answer(str(month), **causes)}, 200)
    assert spans(history) == [("a", 1, None)]
    assert history.db.execute("SELECT text FROM name ORDER BY text").fetchall() == [("a",), ("x",)]
    assert history.db.execute("SELECT run FROM count ORDER BY run").fetchall() == [(3,), (4,)]
    assert history.db.execute("SELECT id FROM run ORDER BY id").fetchall() == [(1,), (3,), (4,)]
    assert history.db.execute("PRAGMA foreign_key_check").fetchall() == []


def test_a_cell_that_is_checked_no_more_goes(tmp_path: Path) -> None:
    history = History(tmp_path / "h")
    history.record("2026-01-01T06:00:00Z", {ARM: answer("1", a="x")}, 100)
    history.record("2026-12-01T06:00:00Z", {SID: answer("1", b="y")}, 100)
    assert history.cells() == [SID]
    assert history.db.execute("SELECT text FROM name ORDER BY text").fetchall() == [("b",), ("y",)]


def test_an_older_file_is_brought_up(tmp_path: Path) -> None:
    path = tmp_path / "h"
    for version in range(1, len(parts())):
        path.unlink(missing_ok=True)
        old = sqlite3.connect(path)
        for part in parts()[:version]:
            old.executescript(part)
        old.executescript(
            f"""PRAGMA user_version = {version};
            INSERT INTO run VALUES (1, '2026-11-01T06:00:00Z');
            INSERT INTO cell (id, suite, kind, architecture) VALUES (7, 'sid', 'packages', 'amd64');
            INSERT INTO name VALUES (1, 'a');
            INSERT INTO count (run, cell, asked, broken) VALUES (1, 7, 9, 1);
            INSERT INTO broken (cell, package, since) VALUES (7, 1, 1);"""
        )
        old.close()
        history = History(path)
        assert history.db.execute("PRAGMA user_version").fetchone() == (len(parts()),)
        record(history, 2, answer("2", a="x", b="y"))
        assert spans(history) == [("a", 1, None), ("b", 2, None)]
        assert spans(history, "cause") == [("x", 2, None), ("y", 2, None)]
        history.close()
        fresh = History(tmp_path / "fresh")
        schema = "SELECT name, sql FROM sqlite_schema ORDER BY name"
        assert History(path).db.execute(schema).fetchall() == fresh.db.execute(schema).fetchall()


def test_files_that_are_no_history(tmp_path: Path) -> None:
    newer = sqlite3.connect(tmp_path / "newer")
    newer.execute("PRAGMA user_version = 99")
    newer.close()
    with pytest.raises(Fault, match="version 99") as fault:
        History(tmp_path / "newer")
    assert fault.value.status == DATA
    other = sqlite3.connect(tmp_path / "other")
    other.execute("CREATE TABLE mine (a)")
    other.close()
    with pytest.raises(Fault, match="something else"):
        History(tmp_path / "other")
    (tmp_path / "text").write_text("no database, but a text that is long enough to be looked at" * 9)
    with pytest.raises(Fault, match="no history can be kept there") as fault:
        History(tmp_path / "text")
    assert fault.value.status == WRITE


def test_foreign_keys_hold(tmp_path: Path) -> None:
    history = History(tmp_path / "h")
    with pytest.raises(sqlite3.IntegrityError):
        history.db.execute("INSERT INTO count (run, cell, asked, broken) VALUES (5, 5, 1, 1)")
