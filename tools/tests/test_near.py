"""What stands near a missing name: the nearest first, with letters behind a number as part of it."""

import pytest
from conftest import Write, stanza

from debcheck_tools.index import Index
from debcheck_tools.index_files import open_index
from debcheck_tools.near import Near, Names


def names(write: Write, *there: str) -> Names:
    return Names([Index([open_index(write("Packages", "".join(map(stanza, there))))])], "amd64")


@pytest.mark.parametrize(
    "missing, there, wanted",
    [
        (
            "libx264-164",
            ["libx11-6", "libx86-1", "libx264-165", "libx264-163"],
            ["libx264-165", "libx264-163", "libx86-1"],
        ),
        ("proftpd-abi-1.3.9d", ["proftpd-abi-1.3.9e", "proftpd-core"], ["proftpd-abi-1.3.9e"]),
        ("libcoq-elpi-gwzp3", ["libcoq-elpi-5btd8", "libcoq-elpi"], ["libcoq-elpi-5btd8"]),
        ("libopenmpi3t64", ["libopenmpi40", "libopenmpi-dev"], ["libopenmpi40"]),
        ("a-2", ["a-10", "a-1", "a-3"], ["a-3", "a-10", "a-1"]),
        ("python3-gone", ["python3-other"], []),
        ("2ping", ["3ping"], []),
        ("gone", ["gome"], []),
    ],
)
def test_nearest_first(write: Write, missing: str, there: list[str], wanted: list[str]) -> None:
    assert names(write, *there).alike(missing)[: len(wanted) or None] == wanted


def test_versions_that_are_there_come_first(write: Write) -> None:
    text = stanza("a1", "2") + stanza("p", Provides="a1 (= 3), a2") + stanza("a3", architecture="arm64")
    found = Names([Index([open_index(write("Packages", text))])], "amd64", {"a1": ["s"]})
    assert found.near(["a1"]) == [Near("a1", "2"), Near("a1", "3", "p"), Near("a2", "", "p"), Near("a1", source="s")]


def test_provides_that_cannot_be_read(write: Write) -> None:
    text = stanza("a", Provides="b (") + stanza("c")
    assert Names([Index([open_index(write("Packages", text))])], "amd64").sorted == ["a", "c"]
