"""The overview as lines of at most 100 columns."""

import functools
import itertools
import textwrap
from collections.abc import Iterator, Sequence

import apt_pkg

from debcheck_tools.change import Change
from debcheck_tools.near import Near
from debcheck_tools.overview import Row
from debcheck_tools.program import Json
from debcheck_tools.sources import PREFIX
from debcheck_tools.wrongs import BY, CONFLICT

WIDTH = 100
CAN = {"packages": "be installed", "sources": "be built"}
WHAT = 36  # columns of what is wrong, where it isn't longer by itself


def counted(number: int, one: str, several: str) -> str:
    return f"{number:,} {one if number == 1 else several}"


def change_lines(found: Change, newly: Sequence[Row], further: Sequence[Row], asked: str) -> Iterator[str]:
    """The lines of what changed: what is newly broken, further causes, what is mended and what is gone."""
    broken, wrong = len(found.newly), counted(len(newly), "thing is", "things are")
    yield f"{broken:,} of {found.rest['asked']:,} {asked} newly can't {CAN[asked]}; {wrong} wrong."
    yield from table(newly)
    if further:
        yield f"Broken before, and now by more ({len(found.further):,}):"
        yield from table(further)
    for title, members in (("Mended", found.mended), ("Gone", found.gone)):
        if members:
            names = ", ".join(f"{member.package.removeprefix(PREFIX)} {member.version}" for member in members)
            yield from textwrap.wrap(
                f"{title} ({len(members):,}): {names}", WIDTH, subsequent_indent="  ", break_on_hyphens=False
            )


def lines(rest: Json, rows: Sequence[Row], asked: str) -> Iterator[str]:
    """The lines of an overview: a title, and a line for each wrong."""
    can = CAN[asked]
    wrong = counted(len(rows), "thing is", "things are")
    yield f"{rest['broken']:,} of {rest['asked']:,} {asked} can't {can}; {wrong} wrong."
    yield from table(rows)


def table(rows: Sequence[Row]) -> Iterator[str]:
    if rows:
        by_whom = rows[0].wrong.kind == BY
        what = "who needs it  what is missing" if by_whom else "what is missing, or in conflict  sources that need it"
        yield f"Freed of broken  {what}  [what stands near]"
    width = max((len(f"{len(row.wrong.broken):,}") for row in rows), default=0)
    for row in rows:
        yield line(row, width)


def line(row: Row, width: int) -> str:
    """One wrong, with numbers of this width. Where there is no room, first fewer sources are named, and then the text
    of what is near, and that of what is wrong, is cut."""
    head = f"{row.wrong.frees:>{width},} of {len(row.wrong.broken):>{width},}  "
    room, near, marks = WIDTH - len(head), near_text(row), marks_text(row)
    least = len(sources_text(row, 0)) + len(marks) + 2
    what = what_text(row)
    if len(what) > WHAT:
        what = cut(what, max(WHAT, room - least - (len(near) + 2 if near else 0)))
    room -= max(len(what), WHAT) + 2
    near = cut(near, room - least) if room - least > 12 else ""
    sources = sources_text(row, room - len(marks) - (len(near) + 2 if near else 0))
    return (f"{head}{what:{WHAT}}  {sources}{marks}" + (f"  {near}" if near else "")).rstrip()


def cut(text: str, width: int) -> str:
    """A text of at most so many columns; one in brackets keeps both."""
    if len(text) <= width:
        return text
    end = "..]" if text.endswith("]") else ".."
    return text[: max(0, width - len(end))].rstrip(" ,|") + end


def what_text(row: Row) -> str:
    """What is wrong: the relation, or the names with the span of bounds."""
    if row.wrong.kind == CONFLICT:
        one, other = row.wrong.names
        return f"two versions of {one}" if one == other else f"{one} against {other}"
    if row.wrong.kind == BY:
        return row.wrong.names[0]
    if len(row.relations) == 1:
        return row.relations[0]
    if len(row.wrong.keys) == 1 and len(row.wrong.keys[0].names) == 1:
        return spanned(row.wrong.keys[0].names[0], row.relations)
    return ", ".join(row.wrong.names)


def spanned(name: str, relations: Sequence[str]) -> str:
    """A name with the lowest and highest version that relations ask for, by operator."""
    bounds: dict[str, set[str]] = {}
    for relation in relations:
        for _, version, operator in apt_pkg.parse_depends(relation, True)[0]:
            bounds.setdefault(operator, set()).add(version)
    texts = []
    for operator, versions in bounds.items():
        if operator:
            low, *more = sorted(versions, key=functools.cmp_to_key(apt_pkg.version_compare))
            sign = {"<": "<<", ">": ">>"}.get(operator, operator)
            texts.append(f"{sign} {low} .. {more[-1]}" if more else f"{sign} {low}")
    return f"{name} ({', '.join(texts)})" if texts else name


def sources_text(row: Row, width: int) -> str:
    """The first three sources, fewer where there is no room, and how many more there are."""
    names = row.relations if row.wrong.kind == BY else list(row.sources)
    more, text = "", ""
    for count in range(min(3, len(names)), 0, -1):
        more = f" +{len(names) - count}" if len(names) > count else ""
        text = ", ".join(names[:count]) + more
        if len(text) <= width:
            return text
    return cut(names[0], max(14, width - len(more))) + more if names else ""


def marks_text(row: Row) -> str:
    """What is true of the packages that need it."""
    marks = []
    if row.superseded:
        marks.append("superseded" if row.superseded == len(row.wrong.broken) else f"{row.superseded} superseded")
    if row.leftovers:
        marks.append("leftover" if len(row.leftovers) == len(row.wrong.needs) else f"{len(row.leftovers)} left over")
    return f" ({', '.join(marks)})" if marks else ""


def near_text(row: Row) -> str:
    """What met it before, else the nearest of what is there."""
    if row.was:
        return "[was: " + ", ".join(f"{member.package} {member.version}" for member in row.was[:2]) + "]"
    if not row.near:
        return ""
    first = row.near[0]
    if first.version:
        same = itertools.takewhile(lambda near: near.name == first.name and near.version, row.near)
        return f"[there: {', '.join(near.version for near in itertools.islice(same, 2))}]"
    if first.package and any(first.name in key.names for key in row.wrong.keys):
        return f"[there: {first.package}]"
    return f"[{near_name(first)}]"


def near_name(near: Near) -> str:
    return f"source {near.source}" if near.source else near.name
