"""apt's reading of control files, with the calls that its types don't name."""

import os
from collections.abc import Iterator
from typing import Any, BinaryIO, Optional, Protocol, cast

import apt_pkg

apt_pkg.init()


class Section(Protocol):
    """One stanza."""

    def get(self, key: str, default: Optional[object] = None) -> Optional[bytes]:
        ...

    def keys(self) -> list[str]:
        ...


class Tags(Protocol):
    """The stanzas of a file: `section` is the one that the last step went to, which ends at `offset`."""

    section: Section

    def step(self) -> bool:
        ...

    def offset(self) -> int:
        ...


def tags_of(text: BinaryIO) -> Tags:
    """The stanzas of a text from its first byte on; a step raises apt_pkg.Error where apt can't read on."""
    text.seek(0)
    return cast(Tags, apt_pkg.TagFile(text, bytes=True))


def native() -> str:
    """The architecture of this machine."""
    return str(apt_pkg.config.find("APT::Architecture"))


def values(section: Section, fields: tuple[str, ...]) -> list[str]:
    """The values of these fields, empty where there is none; bytes that are no UTF-8 are replaced."""
    return [value.decode("utf-8", "replace") if value else "" for value in map(section.get, fields)]


def rows_of(text: BinaryIO, fields: tuple[str, ...]) -> Iterator[tuple[int, list[str]]]:
    """Of each stanza of a text where it ends, and the same values; it raises apt_pkg.Error where apt can't read on."""
    text.seek(0)
    tags: Any = apt_pkg.TagFile(text)
    begin = 0
    while tags.step():
        get, end = tags.section.get, tags.offset()
        try:
            row = [get(field, "") for field in fields]
        except UnicodeDecodeError:
            row = values(section_of(os.pread(text.fileno(), end - begin, begin)), fields)
        yield end, row
        begin = end


def section_of(stanza: bytes) -> Section:
    """A stanza that was cut out of a text."""
    return cast(Section, apt_pkg.TagSection(stanza, bytes=True))
