"""What changed since an earlier state: each state over its own background, and packages compared by their names."""

from collections.abc import Callable, Collection, Iterator
from dataclasses import dataclass, field
from typing import Optional

import apt_pkg

from debcheck_tools.inputs import Inputs
from debcheck_tools.near import Names
from debcheck_tools.overview import Packages, Row, rows
from debcheck_tools.program import Json, Program
from debcheck_tools.wrongs import CONFLICT, Gathered, Key, Member, lines_of

WORDS = ("--failures", "--all-reasons")


@dataclass
class Before:
    """The broken packages of the earlier state, and of each name what was wrong with it."""

    members: list[Member] = field(default_factory=list)
    wrong: dict[str, set[Key]] = field(default_factory=dict)


@dataclass
class Change:
    """What is newly broken; new causes of what was broken before; what is mended, and what is gone."""

    rest: Json
    broken: list[Member]
    newly: Gathered
    further: Gathered
    mended: list[Member]
    gone: list[Member]

    @property
    def is_news(self) -> bool:
        return bool(self.newly.alike or self.further.alike)


def keys_of(core: list[Json]) -> set[Key]:
    return {key for key, _ in lines_of(core)}


def before(program: Program, earlier: Inputs, names: Optional[list[str]]) -> Before:
    """What was broken; of names that are asked about those that there were."""
    if names is not None:
        there = {stanza.package for stanza in earlier.index.stanzas}
        names = [name for name in names if name in there]
        if not names:
            return Before()
    found = Before()
    for package in program.check(earlier.arch, earlier.index, earlier.background, WORDS, names).packages():
        found.members.append(Member(package["package"], package["version"]))
        known = found.wrong.setdefault(package["package"], set())
        known.update(*(keys_of(core) for core in (package["reasons"], *package["also"])))
    return found


def change(
    program: Program,
    asked: Inputs,
    earlier: Inputs,
    names: Optional[list[str]],
    owner: Optional[Callable[[Member], str]] = None,
    fresh: Collection[str] = (),
) -> Change:
    """The change of what is asked since the earlier state; packages of `fresh` names are news if they are broken."""
    was = before(program, earlier, names)
    for name in fresh:
        was.wrong.pop(name, None)
    newly, further, broken = Gathered(owner), Gathered(owner), list[Member]()
    report = program.check(asked.arch, asked.index, asked.background, WORDS, names)
    for package in report.packages():
        member = Member(package["package"], package["version"])
        broken.append(member)
        if member.package not in was.wrong:
            newly.add(package)
            continue
        cores = (package["reasons"], *package["also"])
        news = [core for core in cores if not keys_of(core) & was.wrong[member.package]]
        if news:
            further.add({**package, "reasons": news[0], "also": news[1:]})
    still = {member.package for member in broken}
    there = {stanza.package for stanza in asked.index.stanzas if stanza.architecture in (asked.arch, "all")}
    well = [member for member in was.members if member.package not in still]
    mended = [member for member in well if member.package in there]
    return Change(
        report.rest, broken, newly, further, mended, [member for member in well if member.package not in there]
    )


def changed_rows(found: Gathered, packages: Packages, earlier: Names) -> Iterator[Row]:
    """What is wrong, each with what met it in the earlier state and isn't there any more."""
    for row in rows(found, packages):
        if row.wrong.kind != CONFLICT:
            row.was = list(dict.fromkeys(met_before(row, earlier, packages)))
        yield row


def met_before(row: Row, earlier: Names, packages: Packages) -> Iterator[Member]:
    lines = [line for lines in row.wrong.needs.values() for line in lines if line["kind"] == "missing"]
    for relation in dict.fromkeys(line["relation"] for line in lines):
        for name, version, operator in apt_pkg.parse_depends(relation, True)[0]:
            for stanza, own in earlier.having(name):
                member = Member(stanza.package, stanza.version)
                met = not operator or bool(own) and apt_pkg.check_dep(own, operator, version)
                if met and packages.stanza_of(member) is None:
                    yield member
