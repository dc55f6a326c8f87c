"""Sources as packages: each depends on what it build-depends on, so that it can be installed where it can be built.

Debian Policy 4.2 (build-essential), 7.1 (architectures and profiles in brackets), 7.7 (Build-Depends and its kin).
"""

import itertools
import os
import re
from collections.abc import Iterator, Sequence
from typing import NamedTuple, Optional

import apt_pkg

from debcheck_tools.errors import DATA, Fault
from debcheck_tools.index import Index
from debcheck_tools.index_files import SOURCES, IndexFile, in_memory
from debcheck_tools.stanza import BUILD_FIELDS, Stanza

# No name of Debian's has "_", so a package of this name can only be a source.
PREFIX = "src_"
DEPENDS, CONFLICTS = BUILD_FIELDS[2:5], BUILD_FIELDS[5:]
# The field of a dependency that each source has without saying so.
IMPLIED = "build-essential"
OPERATORS = {"<": "<<", ">": ">>"}


# A line of the program's report that tells what a source asks for, without what stands behind the relation.
LINE = re.compile(rf"{PREFIX}(\S+) (\S+) (Depends|Conflicts): (.+?)(?=$| missing\b| hits | \(above\))", re.M)


class Building(NamedTuple):
    """How sources are to be built; with `text_alone` those with Extra-Source-Only count, too."""

    arch: str
    profiles: Sequence[str] = ()
    indep: bool = True
    arch_only: bool = True
    first_alternative: bool = False
    text_alone: bool = False

    def places(self, fields: Sequence[str]) -> list[int]:
        """Where those of three fields that count stand among BUILD_FIELDS."""
        plain, indep, arch = map(BUILD_FIELDS.index, fields)
        return [plain, *([indep] if self.indep else []), *([arch] if self.arch_only else [])]


class Sources:
    """The sources that build on an architecture, as an index of packages `src_NAME`, and back."""

    def __init__(self, index: Index, building: Building) -> None:
        self.building = building
        self.needing, self.clashing = building.places(DEPENDS), building.places(CONFLICTS)
        os.environ.pop("DEB_BUILD_PROFILES", None)
        apt_pkg.config.set("APT::Build-Profiles", ",".join(building.profiles))
        self.built: dict[str, bool] = {}
        self.printed = Printed(building)
        sources = list(self.counted(index))
        texts = [self.stanza(source).encode() for source in sources]
        ends = list(itertools.accumulate(map(len, texts), initial=0))
        file = IndexFile(", ".join(file.name for file in index.files), in_memory(b"".join(texts)), ends[-1], SOURCES)
        stanzas = [
            Stanza(PREFIX + source.package, source.version, "all", file, begin, end, source.package)
            for source, begin, end in zip(sources, ends, ends[1:])
        ]
        self.known = {(PREFIX + source.package, source.version): source for source in reversed(sources)}
        self.index = Index([file], stanzas)

    def counted(self, index: Index) -> Iterator[Stanza]:
        """The sources of an index that are built on the architecture; some are there for their text alone."""
        for stanza in all_of(index):
            if (self.building.text_alone or not stanza.is_text_alone) and self.is_built(stanza.architecture):
                yield stanza

    def is_built(self, architectures: str) -> bool:
        """Whether an Architecture field has `all`, the architecture, or a wildcard that stands for it."""
        if architectures not in self.built:
            words = architectures.split()
            self.built[architectures] = "all" in words or any(self.printed[f"x [{word}]"] for word in words)
        return self.built[architectures]

    def groups(self, source: Stanza, places: Sequence[int]) -> list[str]:
        """Each dependency of these fields that counts, or conflict, as the program prints it."""
        printed, building = self.printed, source.building
        asked = ",".join([building[place] for place in places if building[place]])
        try:
            return [text for part in asked.split(",") if (text := printed[part])] if asked else []
        except ValueError:
            for place in places if places[1:] else ():
                self.groups(source, [place])
            name = f"{source.file.name}: source {source.package} {source.version}"
            raise Fault(DATA, f"{name}: {BUILD_FIELDS[places[0]]} can't be read") from None

    def stanza(self, source: Stanza) -> str:
        needs = ", ".join([IMPLIED, *self.groups(source, self.needing)])
        conflicts = ", ".join(self.groups(source, self.clashing))
        text = f"Package: {PREFIX}{source.package}\nVersion: {source.version}\nArchitecture: all\nDepends: {needs}\n"
        return f"{text}Conflicts: {conflicts}\n\n" if conflicts else f"{text}\n"

    def source_of(self, package: str, version: str) -> Optional[Stanza]:
        """The source that a package of this index stands for."""
        return self.known.get((package, version))

    def in_text(self, report: bytes) -> bytes:
        """The program's report with each source by its own name, and with the fields that asked."""

        def asked(found: re.Match[str]) -> str:
            source = self.source_of(PREFIX + found[1], found[2])
            return f"src:{found[1]} {found[2]} {self.field_of(source, found[4]) if source else found[3]}: {found[4]}"

        text = LINE.sub(asked, report.decode())
        return re.sub(rf"^((?:   - |  package: | +- )){PREFIX}", r"\1src:", text, flags=re.M).encode()

    def field_of(self, source: Stanza, relation: str) -> str:
        """The field that asked for a relation as the program prints it."""
        places = self.needing + self.clashing
        asked = (BUILD_FIELDS[place] for place in places if relation in self.groups(source, [place]))
        return IMPLIED if relation == IMPLIED else next(asked, DEPENDS[0])


def all_of(index: Index) -> list[Stanza]:
    """The sources of an index, which apt has to be able to read to its end."""
    if index.unread:
        last = next((f"behind source {one.package}" for one in reversed(index.stanzas) if one.file is index.unread), "")
        fault = f"{index.unread.name}: {last or 'there'} stands what is no source; it was cut off, or is damaged"
        raise Fault(DATA, f"{fault}: fetch it again")
    return index.stanzas


class Printed(dict[str, str]):
    """Groups of alternatives, by what stands between two commas: as the program prints them, empty where none counts.

    Most stand in many sources.
    """

    def __init__(self, building: Building) -> None:
        super().__init__()
        self.building = building

    def __missing__(self, part: str) -> str:
        atoms = [atom for group in apt_pkg.parse_src_depends(part, False, self.building.arch) for atom in group]
        if self.building.first_alternative and atoms[1:]:
            atoms = [atom for atom in atoms if plain(atom) == plain(atoms[0])]
        self[part] = text = " | ".join(map(printed, atoms)) if atoms[1:] else printed(atoms[0]) if atoms else ""
        return text


def plain(atom: tuple[str, str, str]) -> str:
    """The name without its qualifier."""
    return atom[0].partition(":")[0]


def printed(atom: tuple[str, str, str]) -> str:
    """An atom as the program prints it; `:native` is the plain name, as no other architecture is built for."""
    name, version, operator = atom
    return name.removesuffix(":native") + (f" ({OPERATORS.get(operator, operator)} {version})" if operator else "")
