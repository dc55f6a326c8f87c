"""What several pages show alike, as HTML in which each text is escaped: links, dates and walks."""

from collections.abc import Callable, Container, Sequence
from functools import cache
from urllib.parse import quote

from markupsafe import Markup, escape

from debcheck_tools.page_history import Json
from debcheck_tools.page_names import address_of, package_file, wrong_file
from debcheck_tools.page_views import CellView, moment_of
from debcheck_tools.page_walk import Line


@cache
def link(address: str, text: str) -> Markup:
    """A link."""
    return Markup(f'<a href="{address}">{escape(text)}</a>')


@cache
def package_link(name: str, root: str, kind: str, text: str = "") -> Markup:
    """A link to the page of a package, or of a source that can't be built."""
    return link(root + address_of(package_file(name, kind)), text or name)


def package_if_broken(name: str, root: str, cell: CellView) -> Markup:
    """The name of a package, with a link where it is broken in a cell."""
    return package_link(name, root, cell.kind) if name in cell.names else escape(name)


def cell_link(cell: CellView, root: str) -> Markup:
    """A link to the page of a cell."""
    return link(root + cell.address, cell.label)


def some_of(links: Sequence[str], most: int) -> Markup:
    """Links one behind the other; of more than so many the first ones, and how many more there are."""
    shown = links[:most] if 0 < most < len(links) - 1 else links
    more = f" and {len(links) - len(shown)} more" if len(shown) < len(links) else ""
    return Markup(", ".join(shown) + more)


def cell_links(cells: Sequence[CellView], root: str) -> Markup:
    """Links to the pages of cells."""
    return some_of([cell_link(cell, root) for cell in cells], 0)


def wrong_links(wrongs: Sequence[str], root: str, most: int = 0) -> Markup:
    """Links to the pages of what is wrong."""
    return some_of([link(root + address_of(wrong_file(wrong)), wrong) for wrong in wrongs], most)


def source_links(names: Sequence[str], root: str) -> Markup:
    """Links to sources in the list of these."""
    return some_of([link(f"{root}sources.html#{quote(name)}", name) for name in names], 3)


@cache
def time(moment: str, is_day: bool = False) -> Markup:
    """A moment of the history, or its day."""
    shown = moment[:10] if is_day else f"{moment_of(moment):%Y-%m-%d %H:%M} UTC"
    return Markup(f'<time datetime="{escape(moment)}">{shown}</time>')


def since(entry: Json) -> Markup:
    """Since which day something is broken."""
    return time(entry["since"], True) + (" or before" if entry["is_first"] else "")


def state(cell: CellView, is_short: bool = False) -> Markup:
    """How a cell stands against the day before, by a sign and in words, which are shown unless the sign says it all."""
    words = escape(cell.change)
    if is_short and not cell.fault and not (cell.new or cell.mended or cell.gone):
        words = Markup(f'<span class="unseen">{words}</span>')
    return Markup(f'<span class="sign" aria-hidden="true">{cell.sign}</span> {words}')


def walk(lines: Sequence[Line], broken: Sequence[Container[str]], own: str) -> Markup:
    """The lines of a walk on the page of a package, with links to the others that are broken in the same cells."""
    told = []
    for depth, kind, package, rest in lines:
        is_linked = package != own and any(package in names for names in broken)
        name = package_link(package, "../", "packages") if is_linked else escape(package)
        told.append(f'<li class="{kind} in{depth}">{name}{" " if package else ""}{escape(rest)}</li>\n')
    return Markup(f'<ul class="walk">\n{"".join(told)}</ul>')


FILTERS: dict[str, Callable[..., Markup]] = {
    "package_link": package_link,
    "package_if_broken": package_if_broken,
    "cell_link": cell_link,
    "cell_links": cell_links,
    "wrong_links": wrong_links,
    "source_links": source_links,
    "time": time,
    "since": since,
    "state": state,
    "walk": walk,
}
