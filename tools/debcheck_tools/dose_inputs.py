"""The files of a run in dose's words: what is asked about, what may be used, and what stanzas say of their packages."""

import argparse
import mmap
import os
import re
from collections.abc import Callable, Iterable, Iterator, Sequence
from typing import BinaryIO, Optional, cast

import apt_pkg

from debcheck_tools.dose_chains import Member
from debcheck_tools.dose_report import Own
from debcheck_tools.dose_words import BUILDCHECK
from debcheck_tools.errors import DATA, USAGE, Fault
from debcheck_tools.index import Index, kept
from debcheck_tools.index_files import PACKAGES, SOURCES, IndexFile, open_index
from debcheck_tools.sources import Building, Sources
from debcheck_tools.tag_file import Section, native, tags_of, values

Say = Callable[[str, str, str], None]
SCHEMES = {"deb://": PACKAGES, "debsrc://": SOURCES}
FIELDS = ("Version", "Architecture", "Essential", "Pre-Depends", "Depends", "Provides")
ARCHITECTURE = re.compile(r"(?!(?:all|any)$)[A-Za-z0-9-]+")
NAME = re.compile(rb'"package":"([^"]*)"')


class Inputs:
    """`asked` is what is asked about, `ground` what else may be used, `sources` those sources that stand in `asked`."""

    def __init__(self, command: str, options: argparse.Namespace, say: Say) -> None:
        self.say, self.command = say, command
        if command == BUILDCHECK:
            asked, ground = [self.opened(options.files[-1], SOURCES)], options.files[:-1]
        else:
            asked, ground = [self.opened(name, PACKAGES) for name in options.files], options.bg
        self.ground = Index([self.opened(name, PACKAGES) for name in ground])
        packages = [file for file in asked if file.kind == PACKAGES]
        self.arch: str = options.deb_native_arch or first_architecture([*packages, *self.ground.files])
        self.sources = self.read_sources([file for file in asked if file.kind == SOURCES], options)
        self.asked = Index(packages + [sources.index.files[0] for sources in self.sources])
        if options.latest:
            blank_older(self.asked.files, self.arch, options.latest)

    def opened(self, name: str, kind: str) -> IndexFile:
        """A file by its name, with deb:// or debsrc:// before it or without."""
        scheme = next((scheme for scheme in SCHEMES if name.startswith(scheme)), "")
        name, kind = name.removeprefix(scheme), SCHEMES.get(scheme, kind)
        self.say("I", "Dose_deb", f"Parsing {kind} file {name}...")
        by = "the last file" if self.command == BUILDCHECK else f"debsrc://{name}, or ask dose-builddebcheck"
        file = open_index(name, kind, may_be_empty=True, sources_by=by)
        if not file.size:
            self.say("W", "Dose_common", f"Input file {file.name} is empty")
        return file

    def read_sources(self, files: list[IndexFile], options: argparse.Namespace) -> list[Sources]:
        if not files:
            return []
        if options.deb_native_arch is None:
            raise Fault(USAGE, f"{files[0].name}: name the architecture by --deb-native-arch")
        building = Building(self.arch)
        if self.command == BUILDCHECK:
            building = Building(
                self.arch,
                options.deb_profiles,
                not options.deb_drop_b_d_indep,
                not options.deb_drop_b_d_arch,
                options.deb_emulate_sbuild,
                options.deb_include_extra_source,
            )
        return [Sources(Index(files), building)]

    def together(self) -> Index:
        """All of it as one index, in which each package can be asked about."""
        return Index(self.asked.files + self.ground.files)

    def sections(self, file: IndexFile) -> Iterator[Section]:
        """The stanzas of a file as apt reads them."""
        tags = tags_of(file.text)
        try:
            while tags.step():
                yield tags.section
        except apt_pkg.Error:
            raise Fault(DATA, f"{file.name}: a stanza there has no form that apt knows") from None

    def names(self) -> set[str]:
        """The names of all packages."""
        files = self.asked.files + self.ground.files
        return {values(section, ("Package",))[0] for file in files for section in self.sections(file)}

    def own(self, report: BinaryIO, with_needs: bool) -> dict[Member, Own]:
        """What stanzas say of each package that a report tells of, of several alike the first."""
        with mmap.mmap(report.fileno(), 0, access=mmap.ACCESS_READ) as text:
            names = {found[1] for found in NAME.finditer(text)}
        fields = FIELDS if with_needs else FIELDS[:3]
        known: dict[Member, Own] = {}
        for file in self.asked.files + self.ground.files:
            for section in self.sections(file):
                package = section.get("Package")
                if package in names:
                    version, architecture, essential, *needs = values(section, fields)
                    if architecture in (self.arch, "all"):
                        member = package.decode(), version
                        known.setdefault(member, Own(architecture, essential == "yes", *needs))
        for sources in self.sources:
            for member, own in known.items():
                source = sources.source_of(*member)
                if source:
                    known[member] = own._replace(architecture=",".join(source.architecture.split()))
        return known


Place = tuple[IndexFile, int, int]


def blank_older(files: Sequence[IndexFile], arch: str, count: int) -> None:
    """Overwrites with empty lines each stanza whose version so many newer ones of its name exceed, in any of the files.

    Other architectures' stanzas stay. Where apt can't read on, all stay: the program tells why.
    """
    first: dict[Optional[bytes], Place] = {}
    several: dict[bytes, list[Place]] = {}
    try:
        for file in files:
            tags, begin = tags_of(file.text), 0
            while tags.step():
                name, place = tags.section.get("Package"), (file, begin, tags.offset())
                if first.setdefault(name, place) is not place and name:
                    several.setdefault(name, [first[name]]).append(place)
                begin = place[2]
    except apt_pkg.Error:
        return
    for places in several.values():
        for file, begin, end in older(places, arch, count):
            os.pwrite(file.text.fileno(), b"\n" * (end - begin), begin)


def older(places: Sequence[Place], arch: str, count: int) -> Iterator[Place]:
    """Of the stanzas of a name those of the architecture that aren't among so many newest versions."""
    versions: dict[Place, str] = {}
    for place in places:
        file, begin, end = place
        section = cast(Section, apt_pkg.TagSection(os.pread(file.text.fileno(), end - begin, begin), bytes=True))
        version, architecture = values(section, FIELDS[:2])
        if version and architecture in (arch, "all"):
            versions[place] = version
    least = kept(list(versions.values()), count) if versions else ""
    return (place for place, version in versions.items() if apt_pkg.version_compare(version, least) < 0)


def is_architecture(text: str) -> bool:
    """Whether the program takes it as the architecture to check."""
    return ARCHITECTURE.fullmatch(text) is not None


def first_architecture(files: Iterable[IndexFile]) -> str:
    """That of the first stanza that has one besides `all`, else this machine's."""
    for file in files:
        tags = tags_of(file.text)
        try:
            while tags.step():
                (architecture,) = values(tags.section, ("Architecture",))
                if is_architecture(architecture):
                    return architecture
        except apt_pkg.Error:
            continue
    return native()
