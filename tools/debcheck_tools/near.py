"""What stands near a name that is missing: its versions that are there, newer names, and sources that build it."""

import bisect
import functools
import re
from collections.abc import Iterable, Iterator
from typing import NamedTuple, Optional

import apt_pkg

from debcheck_tools.index import Index
from debcheck_tools.stanza import Stanza

MOST = 10  # of the names that are told near one
# A number in a name, with what counts as part of it: 1.3.9d, 3t64, 2.5.
NUMBER = r"\d+(?:\.\d+)*(?:t64)?(?:[a-z](?![a-z]))?"
# A part behind a hyphen that is the sum of an interface: gwzp3, 825c0b8.
SUM = r"(?<=-)(?=[a-z]*\d)(?:[a-z0-9]{5}|[0-9a-f]{7,40})(?![^-])"
COUNTED = re.compile(f"{SUM}|{NUMBER}")


class Near(NamedTuple):
    """A package that is there: by a name, of a version, where it provides the name only, of that package."""

    name: str
    version: str = ""
    package: str = ""
    source: str = ""


@functools.lru_cache(1 << 18)
def stem(name: str) -> tuple[str, tuple[str, ...]]:
    """A name without its numbers, and these."""
    return COUNTED.sub("#", name), tuple(COUNTED.findall(name))


def order(one: tuple[str, ...], other: tuple[str, ...]) -> int:
    """Whether the numbers of one name are below those of another, as versions are compared."""
    return next((sign for a, b in zip(one, other) if (sign := apt_pkg.version_compare(a, b))), 0)


def names_in_order(one: str, other: str) -> int:
    return order(stem(one)[1], stem(other)[1])


def distance(one: tuple[str, ...], other: tuple[str, ...]) -> tuple[int, int]:
    """In how many numbers two names differ, and how far to the front they do."""
    places = [place for place, (a, b) in enumerate(zip(one, other)) if a != b]
    return len(places), -places[0] if places else 0


class Names:
    """All names that indexes have or provide for an architecture."""

    def __init__(self, indexes: Iterable[Index], arch: str, building: Optional[dict[str, list[str]]] = None) -> None:
        self.stanzas = [stanza for index in indexes for stanza in index.own(arch)]
        self.building = building or {}
        # The first of each name; few have several.
        self.first = {stanza.package: stanza for stanza in reversed(self.stanzas)}
        self.more: dict[str, list[Stanza]] = {}
        if len(self.first) < len(self.stanzas):
            for stanza in self.stanzas:
                if self.first[stanza.package] is not stanza:
                    self.more.setdefault(stanza.package, []).append(stanza)

    @functools.cached_property
    def providers(self) -> dict[str, list[Stanza]]:
        """Who provides each name."""
        found: dict[str, list[Stanza]] = {}
        for stanza in self.stanzas:
            for name, _ in provided(stanza) if stanza.provides else ():
                known = found.setdefault(name, [])
                if not known or known[-1] is not stanza:
                    known.append(stanza)
        return found

    @functools.cached_property
    def sorted(self) -> list[str]:
        return sorted([*sorted(self.first), *sorted(self.providers.keys() - self.first.keys())])

    def called(self, name: str) -> list[Stanza]:
        """The packages of a name."""
        return [self.first[name], *self.more.get(name, ())] if name in self.first else []

    def having(self, name: str) -> Iterator[tuple[Stanza, str]]:
        """The packages that have or provide a name, each with the version of it."""
        for stanza in self.called(name):
            yield stanza, stanza.version
        for stanza in self.providers.get(name, ()):
            if stanza.package != name:
                yield from ((stanza, version) for other, version in provided(stanza) if other == name)

    def near(self, names: Iterable[str]) -> list[Near]:
        """What is near to a missing name, or to its alternatives: the nearest first."""
        found: dict[Near, None] = {}
        for name in names:
            found.update(dict.fromkeys(told(name, *pair) for pair in self.having(name)))
        for name in names:
            alike = (told(like, *next(self.having(like))) for like in self.alike(name))
            found.update(dict.fromkeys(near._replace(version="") for near in alike))
        for name in names:
            found.update(dict.fromkeys(Near(name, source=source) for source in self.building.get(name, ())))
        return list(found)[:MOST]

    def alike(self, name: str) -> list[str]:
        """The names that differ in numbers alone: in the fewest and last numbers first, and newer ones before older."""
        form, numbers = stem(name)
        begin, hash_sign, end = form.partition("#")
        if not hash_sign or not begin:
            return []
        end = end.rpartition("#")[2]
        place, behind = (bisect.bisect_left(self.sorted, bound) for bound in (begin, begin + "\x7f"))
        among = (other for other in self.sorted[place:behind] if other.endswith(end) and other != name)
        found = [other for other in among if stem(other)[0] == form]
        found.sort(key=functools.cmp_to_key(names_in_order))
        newer = [other for other in found if order(numbers, stem(other)[1]) < 0]
        older = [other for other in reversed(found) if order(numbers, stem(other)[1]) >= 0]
        return sorted(newer + older, key=lambda other: distance(numbers, stem(other)[1]))[:MOST]


def told(name: str, stanza: Stanza, version: str) -> Near:
    """A package by a name that it has or provides in this version."""
    return Near(name, version, "" if stanza.package == name else stanza.package)


def provided(stanza: Stanza) -> list[tuple[str, str]]:
    """The names that a stanza provides, with their versions; none where apt can't read them."""
    try:
        return [atom[:2] for group in apt_pkg.parse_depends(stanza.provides, True) for atom in group]
    except ValueError:
        return []
