"""debcheck-archive page over a mirror: which cells there are, of which files, and backgrounds of other suites."""

from pathlib import Path

import pytest
from conftest import Write, stanza
from page_html import Page, broken_links
from page_small import run

from debcheck_tools import page_run

CONFIG = """title = "Mirror"
history = "history.sqlite"
output = "pages"
mirror = "mirror"

[[suite]]
name = "s"
components = ["main"]
sources = true

[[suite]]
name = "s-contrib"
suite = "s"
components = ["contrib"]
background = ["s/main"]

[[suite]]
name = "s-backports"
suite = "backports"
background = ["s/main", "s/contrib"]
"""
RELEASE = """Architectures: all amd64 arm64 riscv64
Components: main contrib
No-Support-for-Architecture-all: Packages
"""


def put(write: Write) -> None:
    """A mirror of two architectures, though Release names three; backports have one, and of main alone."""
    write("page.toml", CONFIG)
    for suite in ("s", "backports"):
        write(f"mirror/dists/{suite}/Release", RELEASE)
    base = stanza("base") + stanza("build-essential") + stanza("old", Depends="gone")
    for arch in ("amd64", "arm64"):
        write(f"mirror/dists/s/main/binary-{arch}/Packages", base.replace("amd64", arch))
        extra = stanza("extra", Depends="base") + stanza("lost", Depends="old")
        write(f"mirror/dists/s/contrib/binary-{arch}/Packages", extra.replace("amd64", arch))
    write("mirror/dists/backports/main/binary-amd64/Packages", stanza("old", "2", Depends="base, extra"))
    source = "Package: src\nVersion: 1\nArchitecture: any\nFormat: 3.0\nBuild-Depends: old\n\n"
    write("mirror/dists/s/main/source/Sources", source)


def test_cells_are_those_of_the_mirror(write: Write, tmp_path: Path) -> None:
    put(write)
    answer = run(tmp_path, 0)
    assert answer.out.startswith("7 cells, 0 of them unchanged, 0 without an answer; ")
    matrix = Page(tmp_path / "pages/index.html")
    assert matrix.row("Suite") == ["Suite", "amd64", "arm64"]
    assert matrix.row("s") == ["s", "amd641 • first", "arm641 • first"]
    assert matrix.row("s, sources") == ["s, sources", "amd641 • first", "arm641 • first"]
    # Backports mend `old`, and contrib asks about its own packages alone.
    assert matrix.row("s-contrib") == ["s-contrib", "amd641 • first", "arm641 • first"]
    assert matrix.row("s-backports") == ["s-backports", "amd640 ✓ first", ""]
    assert "1 of 2 packages" in Page(tmp_path / "pages/cell/s-contrib-amd64.html").text()
    assert broken_links(tmp_path / "pages") == []
    again = run(tmp_path, 1)
    assert again.out.startswith("7 cells, 7 of them unchanged, ")


def test_what_a_mirror_lost(write: Write, tmp_path: Path) -> None:
    put(write)
    run(tmp_path, 0)
    folder = tmp_path / "mirror/dists/s/main/binary-arm64"
    (folder / "Packages").unlink()
    folder.rmdir()
    (tmp_path / "mirror/dists/backports/Release").unlink()
    answer = run(tmp_path, 1, 67)
    assert "s arm64: " in answer.err and "s-contrib arm64: " in answer.err and "s-backports amd64: " in answer.err
    assert "dists/backports: has no Release file" in answer.err
    assert answer.out.startswith("7 cells, 3 of them unchanged, 4 without an answer; ")
    matrix = Page(tmp_path / "pages/index.html")
    assert matrix.row("s") == ["s", "amd641 = no change", "arm641 ! of 2026-11-18"]


def test_sources_that_several_cells_are_asked_about(write: Write, tmp_path: Path) -> None:
    put(write)
    path = write("mirror/dists/s/main/source/Sources", "<!DOCTYPE html>")
    answer = run(tmp_path, 0, 65)
    told = f"{path}: is a web page, such as a server's error page; fetch it again"
    assert answer.err.splitlines() == [f"debcheck-archive: s {arch}, sources: {told}" for arch in ("amd64", "arm64")]
    assert answer.out.startswith("7 cells, 0 of them unchanged, 2 without an answer; ")


def test_a_check_that_is_killed(write: Write, tmp_path: Path, monkeypatch: pytest.MonkeyPatch) -> None:
    put(write)
    monkeypatch.setattr(page_run, "check_group", lambda group: ()[0])
    answer = run(tmp_path, 0, 70)
    assert "s amd64: its check was killed: there may be too little memory" in answer.err
    assert Page(tmp_path / "pages/index.html").row("s")[1] == "amd64none yet ! no answer"
