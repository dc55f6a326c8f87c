"""debcheck-archive page where something is wrong: files, texts, names, and the place of the pages."""

import fcntl
import os
import xml.etree.ElementTree as ElementTree
from collections.abc import Callable
from pathlib import Path

import pytest
from conftest import Answer, Write, stanza
from page_html import Page, all_pages, broken_links
from page_small import CONFIG, MAIN, SOURCES, WELL, put, run

FAULTS = {
    "missing": (None, "No such file or directory", 67),
    "cut off": (MAIN[:-20], "cut off", 65),
    "of another architecture": (WELL.replace("amd64", "riscv64"), "riscv64", 65),
    "a web page": ("<!DOCTYPE html><p>404</p>", "is a web page", 65),
    "empty": ("", "is empty", 65),
}


@pytest.mark.parametrize("name", FAULTS)
def test_a_cell_without_an_answer(write: Write, tmp_path: Path, name: str) -> None:
    pages = tmp_path / "pages"
    text, told, status = FAULTS[name]
    put(write)
    run(tmp_path, 0)
    if text is None:
        (pages.parent / "main/amd64/Packages").unlink()
    else:
        write("main/amd64/Packages", text)
    answer = run(tmp_path, 1, status)
    assert "debcheck-archive: local amd64: " in answer.err and told in answer.err
    assert "3 without an answer" in answer.out
    matrix = Page(pages / "index.html")
    assert matrix.row("local") == ["local", "amd642 ! of 2026-11-18", "arm640 ✓ no change"]
    assert told in matrix.text("dd")
    assert told in Page(pages / "cell/local-amd64.html").text()
    assert Page(pages / "cell/local-amd64.html").row("app")[3] == "2026-11-18 or before"
    assert broken_links(pages) == []
    put(write)
    run(tmp_path, 2)
    assert Page(pages / "index.html").row("local")[1] == "amd642 = no change"


def test_a_cell_that_never_had_an_answer(write: Write, tmp_path: Path) -> None:
    pages = tmp_path / "pages"
    put(write, "Package: app\nVersion: 1\n\n")
    run(tmp_path, 0, 65)
    assert Page(pages / "index.html").row("local")[1] == "amd64none yet ! no answer"
    assert "no answer of an earlier run either" in Page(pages / "cell/local-amd64.html").text()
    assert broken_links(pages) == []


def test_hostile_texts_are_shown_as_text(write: Write, tmp_path: Path) -> None:
    pages = tmp_path / "pages"
    script = "<script>alert('1')</script>\"'&amp;"
    maintainer = script.encode() + b" \xff\xfe <a@example.org>"
    hostile = stanza("app", Depends="gone", Source=script.replace(" ", ""), Maintainer="M", Description=script)
    write(
        "main/amd64/Packages", WELL.encode() + hostile.encode().replace(b"Maintainer: M", b"Maintainer: " + maintainer)
    )
    write("main/arm64/Packages", stanza(f"x{script}", architecture="arm64"))
    write("extra/Packages", stanza("more", script))
    write("extra/Sources", SOURCES)
    write("page.toml", CONFIG)
    answer = run(tmp_path, 0, 65)
    assert "bad name" in answer.err and "bad version" in answer.err
    for path, page in all_pages(pages).items():
        scripts = [named for tag, named in page.tags if tag == "script"]
        assert [named.get("defer", "no") for named in scripts] == [None], path
        assert "<script>alert" not in path.read_text(), path
    assert script + " �� <a@example.org>" in Page(pages / "package/app.html").text()
    assert f"x{script}" in Page(pages / "index.html").text()
    assert broken_links(pages) == []
    ElementTree.parse(pages / "feed.atom")


def test_names_that_are_no_names_of_files(write: Write, tmp_path: Path) -> None:
    pages = tmp_path / "pages"
    long = "n" * 300
    put(write, WELL + stanza(long, Depends="gone") + stanza("a+b.c_d", Depends=f"{long} (>= 2)"))
    run(tmp_path, 0)
    assert broken_links(pages) == []
    assert (pages / "package/a+b.c_d.html").is_file()
    assert 'href="../package/a%2Bb.c_d.html"' in (pages / "cell/local-amd64.html").read_text()


def test_newest_versions_alone(write: Write, tmp_path: Path) -> None:
    pages = tmp_path / "pages"
    put(write, MAIN + stanza("app", "2") + stanza("app", "1.5", Depends="gone"))
    run(tmp_path, 0)
    assert Page(pages / "index.html").row("local")[1].startswith("amd642 ")
    write("page.toml", CONFIG.replace("address", "newest = true\naddress"))
    run(tmp_path, 1)
    assert Page(pages / "index.html").row("local")[1].startswith("amd640 ")


def test_a_place_that_has_something_else(write: Write, tmp_path: Path) -> None:
    pages = tmp_path / "pages"
    put(write)
    kept = write("pages/mine.txt", "mine")
    answer = run(tmp_path, 0, 68)
    assert "name a place where nothing is" in answer.err and Path(kept).read_text() == "mine"
    assert not (pages.parent / "history.sqlite").exists()
    Path(kept).unlink()
    run(tmp_path, 0)
    first = os.readlink(pages)
    run(tmp_path, 1)
    left = [path.name for path in pages.parent.iterdir() if "pages" in path.name]
    assert sorted(left) == sorted(["pages", os.readlink(pages)]) and os.readlink(pages) != first
    assert oct((pages.parent / os.readlink(pages)).stat().st_mode)[-3:] == "755"


def test_one_run_at_a_time_has_the_history(write: Write, tmp_path: Path) -> None:
    put(write)
    with open(tmp_path / "history.sqlite.lock", "w") as other:
        fcntl.flock(other, fcntl.LOCK_EX)
        answer = run(tmp_path, 0, 68)
    assert answer.err == f"debcheck-archive: {tmp_path}/history.sqlite: another run has it; wait until that ends\n"
    assert not (tmp_path / "pages").exists() and not (tmp_path / "history.sqlite").exists()


def test_a_faulty_configuration_changes_nothing(archive: Callable[..., Answer], write: Write, tmp_path: Path) -> None:
    path = write("page.toml", CONFIG.replace("files =", "file =", 1))
    answer = archive("page", "page.toml")
    assert answer.status == 64 and answer.err.startswith("debcheck-archive: page.toml:9: file: there is no such key")
    assert [one.name for one in tmp_path.iterdir()] == [Path(path).name]
