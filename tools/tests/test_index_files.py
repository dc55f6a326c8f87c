"""Files of each form are opened, and what is no index is refused by name with what to do."""

import bz2
import gzip
import lzma
import subprocess

import pytest
from conftest import Write, stanza

from debcheck_tools.errors import DATA, READ, Fault
from debcheck_tools.index import Index
from debcheck_tools.index_files import SOURCES, open_index

TEXT = stanza("a") + stanza("b", Depends="a")


def by(*words: str) -> bytes:
    return subprocess.run(words, input=TEXT.encode(), stdout=subprocess.PIPE, check=True).stdout


@pytest.mark.parametrize(
    "packed",
    [
        TEXT.encode(),
        lzma.compress(TEXT.encode()),
        gzip.compress(TEXT.encode()),
        bz2.compress(TEXT.encode()),
        by("zstd"),
        by("lz4"),
        lzma.compress(TEXT[:60].encode()) + b"\0" * 8 + lzma.compress(TEXT[60:].encode()) + b"\0" * 4,
        lzma.compress(TEXT.encode(), lzma.FORMAT_ALONE),
    ],
    ids=["plain", "xz", "gz", "bz2", "zst", "lz4", "two-xz", "lzma"],
)
def test_each_form_is_unpacked_whatever_its_name(write: Write, packed: bytes) -> None:
    file = open_index(write("Packages", packed))
    assert file.size == len(TEXT)
    assert [(s.package, s.version) for s in Index([file]).stanzas] == [("a", "1"), ("b", "1")]
    assert Index([file]).text().read() == TEXT.encode()


BAD = {
    "empty": ("", DATA, "is empty"),
    "blank": ("\n \n", DATA, "is empty"),
    "page": ("<!DOCTYPE html>\n", DATA, "is a web page"),
    "Release": ("Origin: Debian\nCodename: sid\nComponents: main\n", DATA, "is a Release file"),
    "InRelease": ("-----BEGIN PGP SIGNED MESSAGE-----\n", DATA, "is a signed file"),
    "dos": (TEXT.replace("\n", "\r\n"), DATA, "line ends of DOS"),
    "marked": ("\ufeff" + TEXT, DATA, "byte order mark"),
    "a.deb": (b"!<arch>\ndebian-binary", DATA, "debcheck-archive debfile"),
    "Sources": ("Package: a\nBinary: a\nVersion: 1\nFormat: 1.0\nDirectory: x\n", DATA, "--sources"),
    "cut.xz": (lzma.compress(TEXT.encode())[:-20], READ, "cut off"),
    "between.xz": (lzma.compress(TEXT.encode()) + lzma.compress(b"")[:9], READ, "cut off"),
    "behind.xz": (lzma.compress(TEXT.encode()) + b"nonsense of twelve", READ, "damaged"),
    "cut.gz": (gzip.compress(TEXT.encode())[:-12], READ, "cut off"),
    "damaged.gz": (gzip.compress(TEXT.encode())[:20] + b"xxxxxxxxxxxxxx", READ, "damaged"),
    "cut.zst": (by("zstd")[:-9], READ, "damaged"),
}


@pytest.mark.parametrize("name", BAD)
def test_what_is_no_index_is_refused(write: Write, name: str) -> None:
    text, status, says = BAD[name]
    path = write(name, text)
    with pytest.raises(Fault) as fault:
        open_index(path)
    assert fault.value.status == status
    assert fault.value.line.startswith(path + ": ") and says in fault.value.line


def test_packages_are_no_sources(write: Write) -> None:
    with pytest.raises(Fault, match="index of binary packages"):
        open_index(write("Packages", TEXT), SOURCES)


def test_a_file_that_is_not_there_and_a_folder(tmp_path: object) -> None:
    with pytest.raises(Fault, match="No such file") as fault:
        open_index(f"{tmp_path}/nowhere")
    assert fault.value.status == READ
    with pytest.raises(Fault, match="is a folder"):
        open_index(str(tmp_path))
