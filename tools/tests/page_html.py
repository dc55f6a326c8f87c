"""Reads written pages: what they link to, their headings, tables and texts."""

from html.parser import HTMLParser
from pathlib import Path
from urllib.parse import unquote, urldefrag

# Elements that have no end.
VOID = {"meta", "link", "input", "br", "img"}


class Page(HTMLParser):
    """One page."""

    def __init__(self, path: Path) -> None:
        super().__init__(convert_charrefs=True)
        self.path = path
        self.open: list[str] = []
        self.tags: list[tuple[str, dict[str, str | None]]] = []
        self.ids: set[str] = set()
        self.links: list[str] = []
        self.texts: list[tuple[str, str]] = []
        self.rows: list[list[str]] = []
        self.feed(path.read_text(encoding="utf-8"))
        assert not self.open, f"{path}: {self.open} isn't closed"

    def handle_starttag(self, tag: str, attrs: list[tuple[str, str | None]]) -> None:
        named = dict(attrs)
        self.tags.append((tag, named))
        if named.get("id"):
            assert named["id"] not in self.ids, f"{self.path}: two elements {named['id']}"
            self.ids.add(str(named["id"]))
        if "href" in named or "src" in named:
            self.links.append(str(named.get("href") or named.get("src")))
        if tag == "tr":
            self.rows.append([])
        if tag in ("th", "td"):
            self.rows[-1].append("")
        if tag not in VOID:
            self.open.append(tag)

    def handle_startendtag(self, tag: str, attrs: list[tuple[str, str | None]]) -> None:
        self.tags.append((tag, dict(attrs)))

    def handle_endtag(self, tag: str) -> None:
        assert self.open and self.open.pop() == tag, f"{self.path}: </{tag}> closes another element"

    def handle_data(self, data: str) -> None:
        inside = self.open[-1] if self.open else ""
        self.texts.append((inside, data))
        if {"td", "th"} & set(self.open):
            self.rows[-1][-1] += data

    def text(self, tag: str = "") -> str:
        """All texts, or those that stand in elements of this name."""
        return " ".join(" ".join(data for inside, data in self.texts if tag in ("", inside)).split())

    def row(self, first: str) -> list[str]:
        """The row of a table that begins so."""
        return next([" ".join(one.split()) for one in row] for row in self.rows if row and row[0].strip() == first)


def all_pages(folder: Path) -> dict[Path, Page]:
    """Each page of a folder by its file."""
    return {path.resolve(): Page(path) for path in sorted(folder.rglob("*.html"))}


def broken_links(folder: Path) -> list[str]:
    """The links of all pages that lead nowhere, or away from the pages."""
    pages = all_pages(folder)
    broken = []
    for path, page in pages.items():
        for link in page.links:
            address, fragment = urldefrag(link)
            target = (path.parent / unquote(address)).resolve() if address else path
            is_there = "://" not in link and target.is_file() and target.is_relative_to(folder.resolve())
            if not is_there or fragment and unquote(fragment) not in pages[target].ids:
                broken.append(f"{path.name}: {link}")
    return broken
