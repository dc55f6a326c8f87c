"""Writes the pages beside those that stand, and puts them in their place at once."""

import os
import shutil
import tempfile
import uuid
from collections.abc import Iterable, Iterator, Mapping, Sequence
from functools import cache
from importlib import resources
from pathlib import Path
from typing import NamedTuple

from jinja2 import Environment, PackageLoader, StrictUndefined

from debcheck_tools.errors import WRITE, Fault
from debcheck_tools.page_config import Config
from debcheck_tools.page_feed import entries
from debcheck_tools.page_history import History, Json
from debcheck_tools.page_names import package_file, wrong_file
from debcheck_tools.page_parts import FILTERS
from debcheck_tools.page_views import Views

AS_THEY_ARE = ("style.css", "filter.js", "icon.svg")
# No page has it.
HOLE = "\0"
FOLDERS = ("build", "cell", "package", "wrong")


class Page(NamedTuple):
    """One file of the pages: its template, and what that shows."""

    file: str
    template: str
    shown: Json


@cache
def environment() -> Environment:
    """The templates, with all that they show escaped."""
    made = Environment(
        loader=PackageLoader("debcheck_tools"),
        autoescape=True,
        undefined=StrictUndefined,
        trim_blocks=False,
        auto_reload=False,
    )
    made.filters.update(FILTERS)
    return made


def site_of(config: Config, views: Views, program: str) -> Json:
    """What stands on each page."""
    return {
        "title": config.title,
        "address": config.address,
        "id": config.address or uuid.uuid5(uuid.NAMESPACE_URL, config.title).urn,
        "began": views.began,
        "program": program,
        "against": f" since {views.before_began[:10]}" if views.before else "",
    }


def pages(config: Config, history: History, views: Views, site: Json) -> Iterator[Page]:
    """All pages."""
    architectures = list(dict.fromkeys(one.cell.architecture for one in views.cells))
    labels = list(dict.fromkeys(one.row for one in views.cells))
    placed = {(one.row, one.cell.architecture): one for one in views.cells}
    rows = [{"label": row, "cells": [(arch, placed.get((row, arch))) for arch in architectures]} for row in labels]
    news = [one for one in views.cells if one.new]
    faults = [one for one in views.cells if one.fault is not None]
    shown: Json = {"architectures": architectures, "rows": rows, "news": news, "faults": faults}
    yield Page("index.html", "matrix.html", shown)
    for cell in views.cells:
        yield Page(cell.file, "cell.html", {"cell": cell})
    packages, wrongs = views.packages(), views.wrongs()
    yield Page("packages.html", "packages.html", {"packages": packages})
    for package in packages:
        yield Page(package_file(package["name"], package["kind"]), "package.html", {"package": package})
    yield Page("wrongs.html", "wrongs.html", {"wrongs": wrongs})
    for wrong in wrongs:
        yield Page(wrong_file(wrong["name"]), "wrong.html", {"wrong": wrong})
    yield Page("sources.html", "sources.html", {"sources": views.sources()})
    days = entries(history, views.began, [one.cell for one in views.cells], site["id"])
    yield Page("feed.atom", "feed.atom", {"entries": days})


def frame(site: Json, root: str) -> list[str]:
    """What stands before, between and behind the title, the title as heading, and the content of each page."""
    return environment().get_template("base.html").render(site=site, root=root, hole=HOLE).split(HOLE)


def rendered(page: Page, site: Json, frames: Mapping[str, Sequence[str]]) -> str:
    """The text of a page."""
    template = environment().get_template(page.template)
    if not page.file.endswith(".html"):
        return template.render(site=site, **page.shown)
    context = template.new_context({"site": site, **page.shown})
    title, content = ("".join(template.blocks[name](context)) for name in ("title", "content"))
    before, between, above, behind = frames["../" * page.file.count("/")]
    return "".join((before, title, between, title, above, content, behind))


def write_all(folder: Path, site: Json, all_pages: Iterable[Page]) -> int:
    """Writes all pages to a folder; gives how many there are."""
    for name in FOLDERS:
        folder.joinpath(name).mkdir()
    for name in AS_THEY_ARE:
        folder.joinpath(name).write_bytes(resources.files("debcheck_tools").joinpath("templates", name).read_bytes())
    frames = {root: frame(site, root) for root in ("", "../")}
    count = 0
    for count, page in enumerate(all_pages, 1):
        with open(f"{folder}/{page.file}", "wb") as file:
            file.write(rendered(page, site, frames).encode("utf-8", "replace"))
    return count


def write(config: Config, history: History, views: Views, program: str) -> int:
    """Writes all pages and puts them in place; gives how many there are."""
    output = config.output
    check_place(output)
    site = site_of(config, views, program)
    try:
        output.parent.mkdir(parents=True, exist_ok=True)
        fresh = Path(tempfile.mkdtemp(prefix=beside(output), dir=output.parent))
        fresh.chmod(0o755)
        try:
            count = write_all(fresh, site, pages(config, history, views, site))
        except BaseException:
            shutil.rmtree(fresh, ignore_errors=True)
            raise
        put_in_place(output, fresh)
    except OSError as error:
        raise Fault(WRITE, f"{error.filename or output}: the pages can't be written: {error.strerror}") from error
    return count


def beside(output: Path) -> str:
    """What the names of the folders begin with to which the output is a link."""
    return f".{output.name}.pages-"


def check_place(output: Path) -> None:
    """Refuses a place that has something other than pages."""
    is_empty = output.is_dir() and not any(output.iterdir())
    is_ours = output.is_symlink() and os.readlink(output).startswith(beside(output))
    if os.path.lexists(output) and not is_ours and not (is_empty and not output.is_symlink()):
        raise Fault(WRITE, f"{output}: this isn't of an earlier run: name a place where nothing is, or an empty folder")


def put_in_place(output: Path, fresh: Path) -> None:
    """Makes the output a link to the new folder, in one step for whoever reads; what earlier runs left goes."""
    if output.is_dir() and not output.is_symlink():
        output.rmdir()
    link = fresh.with_name(f"{fresh.name}.link")
    link.symlink_to(fresh.name)
    os.replace(link, output)
    for other in output.parent.iterdir():
        if other.name.startswith(beside(output)) and other != fresh:
            if other.is_symlink():
                other.unlink()
            else:
                shutil.rmtree(other, ignore_errors=True)
