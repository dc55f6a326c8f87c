"""Opens the files that an archive has, whatever they are compressed with, and tells what each is."""

import bz2
import gzip
import lzma
import os
import shutil
import subprocess
import sys
import zlib
from collections.abc import Callable, Iterable, Iterator
from typing import BinaryIO, NamedTuple, NoReturn, cast

import apt_pkg

from debcheck_tools.errors import DATA, READ, Fault
from debcheck_tools.tag_file import tags_of

PACKAGES, SOURCES = "Packages", "Sources"


class IndexFile(NamedTuple):
    """A file by the name that messages give it, its plain text in memory, and what it is: PACKAGES or SOURCES."""

    name: str
    text: BinaryIO
    size: int
    kind: str


def in_memory(text: bytes = b"") -> BinaryIO:
    """A file without a name, which other programs can be handed; it has no buffer, so that its place is theirs."""
    file = cast(BinaryIO, os.fdopen(os.memfd_create("debcheck"), "w+b", buffering=0))
    file.write(text)
    file.seek(0)
    return file


EMPTY = "is empty; see whether what wrote it failed"


def open_index(name: str, kind: str = PACKAGES, may_be_empty: bool = False, sources_by: str = "--sources") -> IndexFile:
    """Opens a file, or standard input by the name "-", that has to be an index of this kind.

    Where it is one of sources in place of packages the fault says how these are named.
    """
    shown = "standard input" if name == "-" else name
    text = unpacked(shown, raw(name, shown), name == "-")
    size = text.seek(0, os.SEEK_END)
    file = IndexFile(shown, text, size, kind)
    found = what_it_is(file)
    if found != kind and not (found == EMPTY and may_be_empty):
        refuse(shown, found, sources_by)
    return file


def raw(name: str, shown: str) -> BinaryIO:
    try:
        if name == "-" and sys.stdin is None:
            raise Fault(READ, f"{shown}: is closed")
        if name == "-":
            source = in_memory()
            with open(0, "rb", buffering=0, closefd=False) as given:
                shutil.copyfileobj(given, source, 1 << 20)
            source.seek(0)
            return source
        return open(name, "rb")
    except OSError as fault:
        tells = "is a folder; name the files in it" if isinstance(fault, IsADirectoryError) else fault.strerror
        raise Fault(READ, f"{shown}: {tells}") from None


def blocks_of(source: BinaryIO) -> Iterator[bytes]:
    return iter(lambda: source.read(1 << 20), b"")


def with_program(words: list[str]) -> Callable[[BinaryIO], Iterable[bytes]]:
    """Unpacks by another program, for what Python doesn't read."""

    def unpack(source: BinaryIO) -> Iterable[bytes]:
        os.lseek(source.fileno(), 0, os.SEEK_SET)
        try:
            done = subprocess.run(words, stdin=source, stdout=subprocess.PIPE, stderr=subprocess.DEVNULL, check=True)
        except FileNotFoundError:
            raise Fault(
                READ, f"it is compressed by {words[0]}, which isn't installed: apt-get install {words[0]}"
            ) from None
        return [done.stdout]

    return unpack


def with_library(unpack: Callable[..., object]) -> Callable[[BinaryIO], Iterable[bytes]]:
    return lambda source: blocks_of(cast(BinaryIO, unpack(source)))


def with_lzma(source: BinaryIO) -> Iterator[bytes]:
    """Unpacks one stream or several, in larger blocks than LZMAFile's, which take a tenth more time."""
    stream = lzma.LZMADecompressor()
    for block in blocks_of(source):
        while block:
            if stream.eof:
                stream = lzma.LZMADecompressor()
            yield stream.decompress(block)
            block = stream.unused_data.lstrip(b"\0")
    if not stream.eof:
        raise EOFError


# What a compressed file begins with.
FORMS: tuple[tuple[bytes, Callable[[BinaryIO], Iterable[bytes]]], ...] = (
    (b"\xfd7zXZ\0", with_lzma),
    (b"]\0\0", with_lzma),
    (b"\x1f\x8b", with_library(gzip.open)),
    (b"BZh", with_library(bz2.BZ2File)),
    (b"\x28\xb5\x2f\xfd", with_program(["zstd", "-dcq"])),
    (b"\x04\x22\x4d\x18", with_program(["lz4", "-dcq"])),
)


def unpacked(shown: str, source: BinaryIO, is_in_memory: bool) -> BinaryIO:
    """The plain text of a file, which is itself where it is plain and in memory."""
    try:
        begin = source.read(6)
        source.seek(0)
        unpack = next((unpack for magic, unpack in FORMS if begin.startswith(magic)), blocks_of)
        if is_in_memory and unpack is blocks_of:
            return source
        with source:
            text = in_memory()
            text.writelines(unpack(source))
            return text
    except EOFError:
        raise Fault(
            READ, f"{shown}: ends in the midst of its compressed text: it was cut off; fetch it again"
        ) from None
    except (lzma.LZMAError, zlib.error, subprocess.CalledProcessError) as fault:
        raise Fault(READ, f"{shown}: can't be unpacked, it is damaged or cut off; fetch it again ({fault})") from None
    except Fault as fault:
        raise Fault(fault.status, f"{shown}: {fault.line}") from None
    except OSError as fault:
        raise Fault(READ, f"{shown}: {fault.strerror or fault}") from None


# Fields that a source has, and no binary package.
SOURCE_FIELDS = {"format", "directory", "build-depends", "build-depends-indep", "build-depends-arch", "build-conflicts"}

# What files begin with that are no index, and what to do with each.
STRANGERS = (
    (b"<", "is a web page, such as a server's error page; fetch it again"),
    (b"-----BEGIN PGP", "is a signed file, as InRelease or a .dsc; name the Packages file"),
    (b"!<arch>\n", "is a binary package; ask about it by debcheck-archive debfile"),
    (b"\xef\xbb\xbf", "begins with a byte order mark; take it out by dos2unix"),
)


def what_it_is(file: IndexFile) -> str:
    """PACKAGES, SOURCES, or what makes it none of both."""
    file.text.seek(0)
    begin = file.text.read(4096)
    if not begin.strip():
        return EMPTY
    for magic, tells in STRANGERS:
        if begin.startswith(magic):
            return tells
    if b"\r\n" in begin:
        return "has line ends of DOS (CR and LF); change them by dos2unix"
    tags = tags_of(file.text)
    try:
        keys = {key.lower() for key in tags.section.keys()} if tags.step() else set()
    except apt_pkg.Error:
        return PACKAGES
    if "package" not in keys and keys & {"codename", "suite", "sha256", "md5sum"}:
        return "is a Release file; name the Packages file"
    if "package" in keys and "filename" not in keys and keys & SOURCE_FIELDS:
        return SOURCES
    return PACKAGES


def refuse(shown: str, found: str, sources_by: str) -> NoReturn:
    if found == SOURCES:
        found = f"is an index of sources; name it by {sources_by}"
    elif found == PACKAGES:
        found = "is an index of binary packages, not of sources"
    raise Fault(DATA, f"{shown}: {found}")
