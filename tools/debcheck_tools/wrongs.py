"""What is wrong, whoever needs it: gathered from the reasons of all broken packages, and counted over them."""

import functools
from collections.abc import Callable, Iterable, Iterator
from dataclasses import dataclass, field
from typing import NamedTuple, Optional

import apt_pkg

from debcheck_tools.program import Json


class Member(NamedTuple):
    """A package of an index by its name and version."""

    package: str
    version: str


@functools.cache
def names_of(relation: str) -> tuple[str, ...]:
    """The names of the alternatives of a relation that the program printed."""
    return tuple(atom[0] for group in apt_pkg.parse_depends(relation, True) for atom in group)


class Key(NamedTuple):
    """Which wrong it is: the alternatives `names` are lacking, the two `names` conflict, or one name has to act."""

    kind: str
    names: tuple[str, ...]


LACKS, CONFLICT, BY = "lacks", "conflict", "by"


def lines_of(core: list[Json]) -> Iterator[tuple[Key, Json]]:
    """The wrongs of one core, each with a line that says so.

    That two versions of a name are needed counts only where nothing is lacking; those who need them say so.
    """
    lacks = any(reason["kind"] == "missing" for reason in core)
    for reason in core:
        if reason["kind"] == "missing":
            yield Key(LACKS, names_of(reason["relation"])), reason
        elif reason["kind"] == "conflict":
            first, second = sorted((reason["package"], names_of(reason["relation"])[0]))
            yield Key(CONFLICT, (first, second)), reason
        elif reason["kind"] == "versions" and not lacks:
            name = reason["name"]
            for need in core:
                if need["kind"] == "depends" and name in names_of(need["relation"]):
                    yield Key(CONFLICT, (name, name)), need


@dataclass
class Wrong:
    """One or several keys that the same packages need and that break the same packages.

    `needs` has, for each relation that says so, who says it; `broken` the packages with a cause of it, and `frees` how
    many of them have no other.
    """

    keys: list[Key]
    needs: dict[Member, list[Json]]
    broken: list[Member]
    frees: int

    @property
    def kind(self) -> str:
        return self.keys[0].kind

    @property
    def names(self) -> list[str]:
        """What is lacking, each with its alternatives; both names of a conflict; who has to act."""
        return [" | ".join(key.names) for key in self.keys] if self.kind == LACKS else list(self.keys[0].names)


# The causes of a package: of each the numbers of the wrongs that it is of.
Causes = tuple[frozenset[int], ...]


@dataclass
class Gathered:
    """The wrongs of packages as they come, and which causes each package has.

    With an owner they are grouped by who has to act: by what the owner of a package is that says what is wrong.
    """

    owner: Optional[Callable[[Member], str]] = None
    numbers: dict[Key, int] = field(default_factory=dict)
    needs: list[dict[Member, dict[str, Json]]] = field(default_factory=list)
    alike: dict[Causes, list[Member]] = field(default_factory=dict)

    def __len__(self) -> int:
        """How many packages there are."""
        return sum(map(len, self.alike.values()))

    def add(self, package: Json) -> Causes:
        """Takes in a broken package with the reasons of all its causes."""
        causes = tuple(self.cause(core) for core in (package["reasons"], *package["also"]))
        self.alike.setdefault(causes, []).append(Member(package["package"], package["version"]))
        return causes

    def cause(self, core: list[Json]) -> frozenset[int]:
        numbers = []
        for key, line in lines_of(core):
            member = Member(line["package"], line["version"])
            key = Key(BY, (self.owner(member),)) if self.owner else key
            number = self.numbers.setdefault(key, len(self.numbers))
            if number == len(self.needs):
                self.needs.append({})
            numbers.append(number)
            self.needs[number].setdefault(member, {}).setdefault(line["relation"], line)
        return frozenset(numbers)

    def wrongs(self) -> list[Wrong]:
        """All that is wrong: what frees the most first, then what breaks the most."""
        kinds = list(self.alike.items())
        where: list[set[int]] = [set() for _ in self.numbers]
        for place, (causes, _) in enumerate(kinds):
            for number in frozenset[int]().union(*causes):
                where[number].add(place)
        merged: dict[object, list[Key]] = {}
        for key, number in self.numbers.items():
            same = (frozenset(self.needs[number]), frozenset(where[number])) if key.kind == LACKS else key
            merged.setdefault(same, []).append(key)
        found = [self.wrong(keys, kinds, where) for keys in merged.values()]
        return sorted(found, key=lambda wrong: (-wrong.frees, -len(wrong.broken), wrong.names))

    def wrong(self, keys: list[Key], kinds: list[tuple[Causes, list[Member]]], where: list[set[int]]) -> Wrong:
        numbers = frozenset(self.numbers[key] for key in keys)
        broken: list[Member] = []
        frees = 0
        for place in sorted(set[int]().union(*(where[number] for number in numbers))):
            causes, members = kinds[place]
            broken += members
            if all(cause & numbers for cause in causes):
                frees += len(members)
        needs: dict[Member, list[Json]] = {}
        for number in sorted(numbers):
            for member, lines in self.needs[number].items():
                needs.setdefault(member, []).extend(lines.values())
        return Wrong(sorted(keys), needs, sorted(broken), frees)


def gathered(packages: Iterable[Json], owner: Optional[Callable[[Member], str]] = None) -> Gathered:
    """The wrongs of these packages of a report with all reasons."""
    found = Gathered(owner)
    for package in packages:
        found.add(package)
    return found
