"""debcheck-archive page on a small archive: what is written, and what a run tells of the one before."""

import xml.etree.ElementTree as ElementTree
from pathlib import Path

from conftest import Write, stanza
from page_html import Page, all_pages, broken_links
from page_small import MAIN, SOURCES, WELL, put, run


def test_each_kind_of_page(write: Write, tmp_path: Path) -> None:
    pages = tmp_path / "pages"
    put(write)
    answer = run(tmp_path, 0)
    assert answer.out.startswith("4 cells, 0 of them unchanged, 0 without an answer; 0 newly broken; ")
    assert not answer.err
    files = sorted(str(path.relative_to(pages)) for path in pages.rglob("*") if path.is_file())
    assert files == [
        "build/extra-src.html",
        "cell/extra-amd64-sources.html",
        "cell/extra-amd64.html",
        "cell/local-amd64.html",
        "cell/local-arm64.html",
        "feed.atom",
        "filter.js",
        "icon.svg",
        "index.html",
        "package/app.html",
        "package/more.html",
        "package/tool.html",
        "packages.html",
        "sources.html",
        "style.css",
        "wrong/missing-gone.html",
        "wrong/missing-lib___other~" + files[16].partition("~")[2],
        "wrongs.html",
    ]
    matrix = Page(pages / "index.html")
    assert matrix.row("Suite") == ["Suite", "amd64", "arm64"]
    assert matrix.row("local") == ["local", "amd642 • first", "arm640 ✓ first"]
    assert matrix.row("extra, sources") == ["extra, sources", "amd641 • first", ""]
    cell = Page(pages / "cell/local-amd64.html")
    assert cell.row("app") == ["app", "1", "app-src", "2026-11-18 or before", "missing: lib | other"]
    assert cell.row("2") == ["2", "2", "missing: lib | other lib (>= 2) | other", "app-src", "lib 1"]
    assert "2 of 5 packages" in cell.text()
    package = Page(pages / "package/tool.html")
    assert package.row("local amd64") == ["local amd64", "1", "2026-11-18 or before", "missing: lib | other"]
    assert "1 Depends: app app 1 Depends: lib (>= 2) | other missing" in package.text()
    assert "Ann <ann@example.org>" in Page(pages / "package/app.html").text()
    build = Page(pages / "build/extra-src.html")
    assert "extra-src 1 Build-Depends-Indep: gone missing" in build.text()
    assert Page(pages / "sources.html").row("app-src")[1] == "3"
    wrong = Page(pages / files[16])
    assert wrong.row("extra amd64")[:3] == ["extra amd64", "1", "1"]
    assert wrong.row("tool") == ["tool", "local: amd64"]


def test_pages_are_whole(write: Write, tmp_path: Path) -> None:
    pages = tmp_path / "pages"
    put(write)
    run(tmp_path, 0)
    put(write, MAIN + stanza("late", Depends="lib (>= 7)"))
    run(tmp_path, 1)
    assert broken_links(pages) == []
    for path, page in all_pages(pages).items():
        tags = [tag for tag, _ in page.tags]
        assert tags.count("h1") == tags.count("title") - tags.count("svg") == 1, path
        assert " – Small & <b>new</b>" in page.text("title"), path
        assert "b" not in tags and tags.count("script") == 1, path
        assert all(named.get("scope") in ("col", "row") for tag, named in page.tags if tag == "th"), path
        assert tags.count("caption") == tags.count("table"), path
        assert ("html", {"lang": "en"}) in page.tags, path
        assert not any(name.startswith("on") or name == "style" for _, named in page.tags for name in named), path
        assert not any("://" in link for link in page.links), path
    matrix = (pages / "index.html").read_text()
    assert "cell/local-amd64.html" in matrix


def test_an_archive_in_which_nothing_is_broken(write: Write, tmp_path: Path) -> None:
    pages = tmp_path / "pages"
    put(write, WELL)
    write("extra/Packages", stanza("more"))
    write("extra/Sources", SOURCES.replace("gone", "base"))
    run(tmp_path, 0)
    assert Page(pages / "index.html").row("local") == ["local", "amd640 ✓ first", "arm640 ✓ first"]
    assert "What is wrong, the most" not in Page(pages / "cell/local-amd64.html").text()
    assert broken_links(pages) == []


def test_change_is_told(write: Write, tmp_path: Path) -> None:
    pages = tmp_path / "pages"
    put(write)
    run(tmp_path, 0)
    run(tmp_path, 1)
    assert Page(pages / "index.html").row("local") == ["local", "amd642 = no change", "arm640 ✓ no change"]
    put(write, MAIN.replace("Package: tool", "Package: tools") + stanza("other", Depends="gone"))
    answer = run(tmp_path, 2)
    assert "4 cells, 1 of them unchanged" in answer.out and "; 2 newly broken; " in answer.out
    assert Page(pages / "index.html").row("local")[1] == "amd643 ▲ +2 −1"
    cell = Page(pages / "cell/local-amd64.html")
    assert cell.text("h2").startswith("Newly broken Gone Over time What is wrong")
    assert cell.row("other")[3] == "2026-11-20" and cell.row("app")[3] == "2026-11-18 or before"
    put(write, MAIN.replace("lib (>= 2)", "lib (>= 1)"))
    run(tmp_path, 3)
    assert Page(pages / "index.html").row("local")[1] == "amd640 ✓ −3"
    assert "Mended" in Page(pages / "cell/local-amd64.html").text("h2")
    put(write, MAIN)
    run(tmp_path, 4)
    assert Page(pages / "cell/local-amd64.html").row("app")[3] == "2026-11-22"
    feed = ElementTree.parse(pages / "feed.atom").getroot()
    atom = "{http://www.w3.org/2005/Atom}"
    entries = feed.findall(f"{atom}entry")
    titles = [entry.findtext(f"{atom}title") for entry in entries]
    assert titles == [
        "2026-11-22: 3 newly broken",
        "2026-11-21: 2 mended, 2 gone",
        "2026-11-20: 2 newly broken, 1 gone",
    ]
    text = str(entries[2].findtext(f"{atom}content"))
    assert "local amd64: 2 newly broken: other, tools" in text and "local amd64: 1 gone: tool" in text
    for part in (feed, *entries):
        for name in ("id", "title", "updated"):
            assert part.findtext(f"{atom}{name}"), name
    assert len({entry.findtext(f"{atom}id") for entry in entries}) == 3
    links = [link.get("href") for link in feed.iter(f"{atom}link")]
    assert all(str(link).startswith("https://qa.example.org/small/") for link in links) and len(links) == 5
