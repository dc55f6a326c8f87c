"""Walks the reasons of a broken package from the package on, as the program does with --why (docs/meaning.md)."""

from collections.abc import Sequence
from typing import Any, NamedTuple

Json = dict[str, Any]
Member = tuple[str, str]
DEEPEST = 20


class Line(NamedTuple):
    """One line of a walk: how many steps in, its kind, the package that it begins with, and what stands behind that."""

    depth: int
    kind: str
    package: str
    rest: str


def member(one: Json) -> Member:
    """A package by name and version."""
    return one["package"], one["version"]


class Walk:
    """A core while it is walked."""

    def __init__(self, package: str, version: str, reasons: Sequence[Json]) -> None:
        self.own: dict[Member, list[Json]] = {}
        for reason in reasons:
            if "package" in reason:
                self.own.setdefault(member(reason), []).append(reason)
        self.told: set[Member] = set()
        self.lines: list[Line] = []
        self.follow([({"package": package, "version": version}, 0)], is_asked=True)
        for reason in reasons:
            if reason["kind"] == "essential":
                named = [{"package": one[0], "version": one[1]} for one in self.own if one[0] == reason["name"]]
                self.tell(Line(0, "essential", "", f"essential: {reason['name']}{self.above(named)}"))
                self.follow([(one, len(named) > 1) for one in named if not self.is_told(named)])
        for reason in reasons:
            if reason["kind"] == "versions":
                listed = ", ".join(
                    f"{one['package']} {one['version']}{self.above([one])}" for one in reason["versions"]
                )
                self.tell(Line(0, "versions", "", f"versions: {listed}"))
        self.follow([({"package": one[0], "version": one[1]}, 0) for one in self.own if one not in self.told])

    def tell(self, line: Line) -> None:
        """Adds a line."""
        self.lines.append(line)

    def is_told(self, members: Sequence[Json]) -> bool:
        """Whether there are packages and all were told before."""
        return bool(members) and all(member(one) in self.told for one in members)

    def above(self, members: Sequence[Json]) -> str:
        """The mark of what was told before."""
        return " (above)" if self.is_told(members) else ""

    def follow(self, members: Sequence[tuple[Json, int]], is_asked: bool = False) -> None:
        """Walks packages, each so many steps in, depth first, without a call in a call: chains may be of any length."""
        ahead: list[tuple[Json, int]] = list(reversed(members))
        while ahead:
            one, depth = ahead.pop()
            if "kind" in one:
                ahead += reversed(self.reason(one, depth))
                continue
            if not is_asked or member(one) not in self.own:
                self.package(one, depth)
            is_asked = False
            if member(one) not in self.told:
                self.told.add(member(one))
                ahead += [(reason, depth) for reason in reversed(self.own.get(member(one), []))]

    def package(self, one: Json, depth: int) -> None:
        """A package's own line, where it has one."""
        provides = f" (provides {', '.join(one['provides'])})" if "provides" in one else ""
        above = self.above([one])
        if provides or above or member(one) not in self.own:
            self.tell(Line(depth, "package", one["package"], f"{one['version']}{provides}{above}"))

    def reason(self, one: Json, depth: int) -> list[tuple[Json, int]]:
        """The line of a reason, and the packages that it leads to."""
        said = f"{one['version']} {one['field']}: {one['relation']}"
        if one["kind"] == "missing":
            self.tell(Line(depth, "missing", one["package"], f"{said} missing"))
        elif one["kind"] == "conflict":
            hits = ", ".join(f"{hit['package']} {hit['version']}{self.above([hit])}" for hit in one["hits"])
            self.tell(Line(depth, "conflict", one["package"], f"{said} hits {hits}"))
        else:
            met_by = one["met-by"]
            self.tell(Line(depth, "depends", one["package"], f"{said}{self.above(met_by)}"))
            if not self.is_told(met_by):
                step = min(depth + (len(met_by) > 1), DEEPEST)
                return [(found, step) for found in met_by]
        return []


def walked(package: str, version: str, reasons: Sequence[Json]) -> list[Line]:
    """The lines of a core as --why has them, without what stands near a missing name."""
    return Walk(package, version, reasons).lines
