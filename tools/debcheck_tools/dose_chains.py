"""The shortest ways from a package to what breaks it, over the needs of its core."""

import itertools
from collections import deque
from collections.abc import Iterable, Iterator
from typing import Any, NamedTuple

Json = dict[str, Any]
Member = tuple[str, str]


class Step(NamedTuple):
    """A package of a way, and its relation that the next package meets."""

    member: Member
    relation: str


class Missing(NamedTuple):
    """A package, and its relation that no package meets."""

    member: Member
    relation: str


class Conflict(NamedTuple):
    """Two packages that can't be together, and the relation of the first that says so."""

    member: Member
    relation: str
    other: Member


def member_of(package: Json) -> Member:
    return package["package"], package["version"]


class Chains:
    """A broken package with its core, as --why has it."""

    def __init__(self, root: Member, core: Iterable[Json]) -> None:
        self.core = list(core)
        self.before: dict[Member, Step] = {}
        self.root = root
        needs: dict[Member, list[Json]] = {}
        for reason in self.core:
            if reason["kind"] == "depends":
                needs.setdefault(member_of(reason), []).append(reason)
        met = {root}
        queue = deque(met)
        while queue:
            member = queue.popleft()
            for reason in needs.get(member, ()):
                for other in map(member_of, reason["met-by"]):
                    if other not in met:
                        met.add(other)
                        self.before[other] = Step(member, reason["relation"])
                        queue.append(other)

    def way(self, member: Member) -> list[Step]:
        """The steps from the root to a package; none to itself, nor where no need leads, as to an essential package."""
        steps = []
        while member in self.before:
            steps.append(self.before[member])
            member = steps[-1].member
        return steps[::-1]

    def missing(self) -> Iterator[Missing]:
        for reason in self.core:
            if reason["kind"] == "missing":
                yield Missing(member_of(reason), reason["relation"])

    def conflicts(self) -> Iterator[Conflict]:
        """The conflicts of the core, with each package that one hits, and the pairs of versions of a name."""
        for reason in self.core:
            if reason["kind"] == "conflict":
                for hit in reason["hits"]:
                    yield Conflict(member_of(reason), reason["relation"], member_of(hit))
            elif reason["kind"] == "versions":
                versions = [member_of(version) for version in reason["versions"]]
                for place, version in enumerate(versions):
                    for other in itertools.islice(versions, place + 1, None):
                        yield Conflict(version, reason["name"], other)
