"""Several files are one index; each stanza keeps its file, and the newest versions can be picked."""

import pytest
from conftest import Write, stanza

from debcheck_tools.errors import DATA, USAGE, Fault
from debcheck_tools.index import Index, architecture_of, latest
from debcheck_tools.index_files import open_index


def index(write: Write, *texts: str) -> Index:
    return Index([open_index(write(f"file{number}", text)) for number, text in enumerate(texts)])


def names(index: Index) -> list[str]:
    return [f"{stanza.package} {stanza.version}" for stanza in index.stanzas]


def test_texts_are_parted_by_an_empty_line(write: Write) -> None:
    both = index(write, stanza("a").rstrip("\n"), stanza("b"))
    assert both.text().read().split() == (stanza("a") + stanza("b")).encode().split()
    assert names(Index([open_index(write("both", both.text().read()))])) == ["a 1", "b 1"]


def test_source_and_its_version(write: Write) -> None:
    text = stanza("a") + stanza("b", "1+b1", Source="x") + stanza("c", "1+b1", Source="y (1)")
    found = index(write, text).stanzas
    assert [(s.source_name, s.source_version) for s in found] == [("a", "1"), ("x", "1+b1"), ("y", "1")]


def test_bytes_that_are_no_text_are_read(write: Write) -> None:
    found = Index([open_index(write("latin", b"Package: a\nVersion: 1\nArchitecture: all\nMaintainer: J\xf6rg\n"))])
    assert found.stanzas[0].maintainer == "J\ufffdrg"


def test_latest_over_all_files(write: Write) -> None:
    one = index(
        write,
        stanza("a", "1:1") + stanza("b", "2") + stanza("c", "1.0", "arm64"),
        stanza("a", "9") + stanza("b", "10") + stanza("d", "1.0"),
    )
    two = Index([open_index(write("two", stanza("d", "1.00") + stanza("b", "10~rc1") + stanza("c", "0.9")))])
    kept, kept_two = latest([one, two], "amd64")
    assert names(kept) == ["a 1:1", "c 1.0", "b 10", "d 1.0"]
    assert names(kept_two) == ["d 1.00", "c 0.9"]
    assert names(Index([open_index(write("text", kept.text().read()))])) == names(kept)


def test_the_architecture_need_not_be_named(write: Write) -> None:
    assert architecture_of([index(write, stanza("a") + stanza("b", architecture="all"))], None) == "amd64"


def test_two_architectures_are_refused_by_file(write: Write) -> None:
    with pytest.raises(Fault, match="file0 has amd64, .*file1 has arm64") as fault:
        architecture_of([index(write, stanza("a"), stanza("a", architecture="arm64"))], None)
    assert fault.value.status == USAGE


def test_another_architecture_is_told_with_the_one_there_is(write: Write) -> None:
    with pytest.raises(Fault, match="file0: has packages of amd64, none of amd46") as fault:
        architecture_of([index(write, stanza("a"))], "amd46")
    assert fault.value.status == DATA
    with pytest.raises(Fault, match="none of aarch64; Debian calls it arm64"):
        architecture_of([index(write, stanza("a") + stanza("b", architecture="all"))], "aarch64")
