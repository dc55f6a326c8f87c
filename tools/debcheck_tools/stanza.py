"""The stanzas of an index file, each a package or a source."""

import os
from collections.abc import Iterator, Sequence
from typing import NamedTuple

from debcheck_tools.index_files import SOURCES, IndexFile
from debcheck_tools.tag_file import rows_of, section_of, values

# What a source says of its building, which no binary package does.
BUILD_FIELDS = (
    "Binary",
    "Extra-Source-Only",
    *("Build-Depends", "Build-Depends-Indep", "Build-Depends-Arch"),
    *("Build-Conflicts", "Build-Conflicts-Indep", "Build-Conflicts-Arch"),
)


class Stanza(NamedTuple):
    """A package, or a source, as its index has it; `begin` and `end` are its bytes in the file's text.

    `building` has of a source the values of BUILD_FIELDS.
    """

    package: str
    version: str
    architecture: str
    file: IndexFile
    begin: int
    end: int
    source: str = ""
    provides: str = ""
    building: Sequence[str] = ()

    @property
    def source_name(self) -> str:
        """The source package that it is built from."""
        return self.source.split(None, 1)[0] if self.source else self.package

    @property
    def source_version(self) -> str:
        """The version of that source."""
        return self.source.partition("(")[2].rstrip(") ") or self.version

    @property
    def is_text_alone(self) -> bool:
        """Whether a source is there for its text alone, as that of a binary which took parts of it: it isn't built."""
        return self.building[1] == "yes"

    @property
    def maintainer(self) -> str:
        text = os.pread(self.file.text.fileno(), self.end - self.begin, self.begin)
        return values(section_of(text), ("Maintainer",))[0]


COMMON = ("Package", "Version", "Architecture")


def stanzas_of(file: IndexFile) -> Iterator[Stanza]:
    """The stanzas of a file as apt reads them; it raises apt_pkg.Error where apt can't read on."""
    begin = 0
    if file.kind == SOURCES:
        for end, (package, version, architecture, *building) in rows_of(file.text, COMMON + BUILD_FIELDS):
            yield Stanza(package, version, architecture, file, begin, end, building=building)
            begin = end
        return
    for end, (package, version, architecture, source, provides) in rows_of(file.text, COMMON + ("Source", "Provides")):
        yield Stanza(package, version, architecture, file, begin, end, source, provides)
        begin = end
