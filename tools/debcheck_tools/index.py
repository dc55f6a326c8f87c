"""One index of several files: its stanzas with the file that each came from, and its one text."""

import functools
import operator
import os
from collections import Counter
from collections.abc import Iterable, Iterator, Sequence
from typing import BinaryIO, Optional

import apt_pkg

from debcheck_tools.errors import DATA, USAGE, Fault
from debcheck_tools.index_files import IndexFile, in_memory
from debcheck_tools.stanza import Stanza, stanzas_of
from debcheck_tools.tag_file import native


class Index:
    """Files that are read as one index, and those of their stanzas that count."""

    def __init__(self, files: Sequence[IndexFile], stanzas: Optional[Sequence[Stanza]] = None) -> None:
        self.files = list(files)
        self.is_whole = stanzas is None
        self.chosen = list(stanzas or ())

    @functools.cached_property
    def parsed(self) -> tuple[list[Stanza], Optional[IndexFile]]:
        """The stanzas, which are read when they are first asked for, and the first file that apt can't read on."""
        found, unread = list(self.chosen), None
        for file in self.files if self.is_whole else ():
            try:
                found.extend(stanzas_of(file))
            except apt_pkg.Error:
                unread = unread or file
        return found, unread

    @property
    def stanzas(self) -> list[Stanza]:
        return self.parsed[0]

    @property
    def unread(self) -> Optional[IndexFile]:
        """A file that apt can't read to its end: the program is asked about the whole text, and tells why."""
        return self.parsed[1]

    def pieces(self) -> Iterator[tuple[IndexFile, int, int]]:
        """What its text is made of: longest runs of bytes of its files."""
        if self.is_whole:
            yield from ((file, 0, file.size) for file in self.files)
            return
        last: Optional[tuple[IndexFile, int, int]] = None
        for stanza in self.stanzas:
            if last and last[0] is stanza.file and last[2] == stanza.begin:
                last = (last[0], last[1], stanza.end)
                continue
            if last:
                yield last
            last = (stanza.file, stanza.begin, stanza.end)
        if last:
            yield last

    def text(self) -> BinaryIO:
        """Its one plain text, with an empty line between two pieces."""
        pieces = list(self.pieces())
        if len(pieces) == 1 and pieces[0][1:] == (0, pieces[0][0].size):
            pieces[0][0].text.seek(0)
            return pieces[0][0].text
        whole = in_memory()
        for file, begin, end in pieces:
            append(whole, file, begin, end)
        whole.seek(0)
        return whole

    def own(self, arch: str) -> list[Stanza]:
        """The stanzas of an architecture, and of `all`."""
        return [stanza for stanza in self.stanzas if stanza.architecture in (arch, "all")]

    def place_of(self, number: int) -> tuple[IndexFile, list[bytes]]:
        """The file and the lines of the stanza that the program counts so, from 1, in the text."""
        count = 0
        for file, begin, end in self.pieces():
            for lines in paragraphs(file, begin, end):
                count += 1
                if count == number:
                    return file, lines
        raise IndexError(number)


def joined(indexes: Sequence[Index]) -> Index:
    """One index of several."""
    if len(indexes) == 1:
        return indexes[0]
    files = [file for index in indexes for file in index.files]
    if any(index.unread for index in indexes):
        return Index(files)
    return Index(files, [stanza for index in indexes for stanza in index.stanzas])


def append(whole: BinaryIO, file: IndexFile, begin: int, end: int) -> None:
    while begin < end:
        begin += os.sendfile(whole.fileno(), file.text.fileno(), begin, end - begin)
    whole.write(b"\n\n")


def paragraphs(file: IndexFile, begin: int, end: int) -> Iterator[list[bytes]]:
    """The runs of lines between blank ones, comments left out: the stanzas as the program counts them."""
    file.text.seek(begin)
    lines: list[bytes] = []
    for line in file.text.read(end - begin).split(b"\n"):
        if line.startswith(b"#"):
            continue
        if line.strip(b" \t"):
            lines.append(line)
        elif lines:
            yield lines
            lines = []
    if lines:
        yield lines


def architecture_of(indexes: Sequence[Index], named: Optional[str]) -> str:
    """The architecture to check: the one that is named, else the one that all files have besides `all`.

    A file that has others, and not this one, is refused by its name.
    """
    owners: dict[str, str] = {}
    for file, counts in counted(indexes):
        own = [arch for arch, _ in counts.most_common() if arch not in ("", "all")]
        if named and own and named not in counts:
            raise Fault(DATA, f"{file.name}: has packages of {' and '.join(own[:3])}, none of {named}{spelled(named)}")
        for arch in own:
            owners.setdefault(arch, file.name)
    if named is not None:
        return named
    if any(index.unread for index in indexes):
        return next(iter(owners), native())
    if len(owners) == 1:
        return next(iter(owners))
    if not owners:
        raise Fault(USAGE, "the files have packages of the architecture all alone: name one by --arch")
    raise Fault(USAGE, "name one by --arch: " + ", ".join(f"{name} has {arch}" for arch, name in owners.items()))


# What other systems call Debian's architectures.
SPELLINGS = {
    "x86_64": "amd64",
    "x64": "amd64",
    "aarch64": "arm64",
    "i686": "i386",
    "x86": "i386",
    "armv7l": "armhf",
    "ppc64le": "ppc64el",
}


def spelled(arch: str) -> str:
    real = SPELLINGS.get(arch.lower(), arch.lower())
    return f"; Debian calls it {real}" if real != arch else ""


def counted(indexes: Iterable[Index]) -> Iterator[tuple[IndexFile, Counter[str]]]:
    """Each file with how many stanzas it has of each architecture."""
    for index in indexes:
        counts: dict[int, Counter[str]] = {id(file): Counter() for file in index.files}
        for stanza in index.stanzas:
            counts[id(stanza.file)][stanza.architecture] += 1
        for file in index.files:
            yield file, counts[id(file)]


def latest(indexes: Sequence[Index], arch: Optional[str] = None, count: int = 1) -> list[Index]:
    """The indexes without each stanza whose version so many newer ones of its name exceed, whichever index has them.

    With an architecture only what is of it, or of `all`, is compared; other stanzas stay.
    """
    compare = apt_pkg.version_compare

    def counts(stanza: Stanza) -> bool:
        return bool(stanza.package and stanza.version) and (arch is None or stanza.architecture in (arch, "all"))

    stanzas = [stanza for index in indexes for stanza in index.stanzas if counts(stanza)]
    times = Counter(map(operator.attrgetter("package"), stanzas))
    versions: dict[str, list[str]] = {}
    for stanza in stanzas:
        if times[stanza.package] > 1:
            known = versions.setdefault(stanza.package, [])
            if stanza.version not in known:
                known.append(stanza.version)
    least = {name: kept(known, count) for name, known in versions.items()}

    def stays(stanza: Stanza) -> bool:
        bound = least.get(stanza.package)
        return bound is None or not counts(stanza) or compare(stanza.version, bound) >= 0

    return [index if index.unread else Index(index.files, list(filter(stays, index.stanzas))) for index in indexes]


def kept(versions: Sequence[str], count: int) -> str:
    """The least of so many newest versions; those that are equal count as one."""
    newest = (
        sorted(versions, key=functools.cmp_to_key(apt_pkg.version_compare), reverse=True) if versions[1:] else versions
    )
    for version, following in zip(newest, newest[1:]):
        count -= apt_pkg.version_compare(version, following) > 0
        if not count:
            return version
    return newest[-1]
