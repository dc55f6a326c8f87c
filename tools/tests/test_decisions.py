"""The questions before a decision: what would be newly broken."""

import json
import subprocess
from collections.abc import Callable
from pathlib import Path

import pytest
from conftest import Answer, Write, stanza

Archive = Callable[..., Answer]

# In testing foo is 1, and both plugins need just that; in unstable it is 2, and one plugin follows.
TESTING = (
    stanza("libfoo1", "1", Source="foo")
    + stanza("foo-data", "1", "all", Source="foo")
    + stanza("plugin", "1", Depends="libfoo1")
    + stanza("other", "1", Depends="foo-data (<< 2)")
)
UNSTABLE = (
    stanza("libfoo1", "1", Source="foo (1)")
    + stanza("libfoo2", "2+b1", Source="foo (2)")
    + stanza("foo-data", "2", "all", Source="foo")
    + stanza("plugin", "2", Depends="libfoo2")
    + stanza("other", "1", Depends="foo-data (<< 2)")
)


@pytest.fixture
def suites(write: Write) -> tuple[str, str]:
    return write("unstable", UNSTABLE), write("testing", TESTING)


def test_would_migrate(archive: Archive, suites: tuple[str, str]) -> None:
    unstable, testing = suites
    answer = archive("would-migrate", "foo", "--from", unstable, "--to", testing)
    assert answer.status == 1
    assert answer.lines() == [
        "2 of 4 packages newly can't be installed; 2 things are wrong.",
        "Freed of broken  what is missing, or in conflict  sources that need it  [what stands near]",
        "1 of 1  foo-data (<< 2)                       other  [was: foo-data 1]",
        "1 of 1  libfoo1                               plugin  [was: libfoo1 1]",
    ]
    assert archive("would-migrate", "plugin", "--from", unstable, "--to", testing).status == 1
    assert archive("would-migrate", "other", "--from", unstable, "--to", testing).status == 0


def test_only_the_newest_binaries_of_a_source_migrate(archive: Archive, suites: tuple[str, str]) -> None:
    """What is left over in unstable of an older source doesn't come along."""
    unstable, testing = suites
    found = json.loads(archive("would-migrate", "foo", "--from", unstable, "--to", testing, "--format", "json").out)
    assert found["asked"] == 4 and found["newly-broken"] == 2


def test_partial_upgrade(archive: Archive, suites: tuple[str, str]) -> None:
    unstable, testing = suites
    answer = archive("partial-upgrade", "plugin", "--from", testing, "--to", unstable)
    assert answer.status == 1
    assert answer.lines()[2] == "1 of 1  libfoo2                               plugin  [libfoo1]"
    assert archive("partial-upgrade", "plugin", "libfoo2", "--from", testing, "--to", unstable).status == 0
    answer = archive("partial-upgrade", "nosuch", "--from", testing, "--to", unstable)
    assert (answer.status, answer.out) == (66, "") and f"{unstable}: no package is called 'nosuch'" in answer.err


def test_without(archive: Archive, suites: tuple[str, str]) -> None:
    _, testing = suites
    answer = archive("without", "libfoo1", "--index", testing)
    assert answer.lines()[2] == "1 of 1  libfoo1                               plugin  [was: libfoo1 1]"
    assert archive("without", "plugin", "other", "--index", testing).status == 0
    assert archive("without", "nosuch", "--index", testing).status == 66


def test_by_suites_of_a_mirror(archive: Archive, write: Write, tmp_path: Path) -> None:
    for suite, text in (("unstable", UNSTABLE), ("testing", TESTING)):
        write(f"dists/{suite}/Release", "Architectures: amd64\nComponents: main\n")
        write(f"dists/{suite}/main/binary-amd64/Packages", text)
    words = ("--mirror", str(tmp_path))
    answer = archive("would-migrate", "foo", "--from", "unstable", "--to", "testing", *words)
    assert answer.status == 1 and answer.lines()[0].startswith("2 of 4")
    assert archive("without", "libfoo1", *words, "--suite", "testing").status == 1
    assert archive("would-migrate", "foo", "--from", "unstable", "testing", "--to", "testing", *words).status == 64


def deb(folder: Path, text: str) -> str:
    name = text.split()[1]
    (folder / name / "DEBIAN").mkdir(parents=True)
    (folder / name / "DEBIAN" / "control").write_text(text.rstrip("\n") + "\nMaintainer: x <x@x>\nDescription: x\n")
    path = folder / f"{name}.deb"
    subprocess.run(["dpkg-deb", "--build", folder / name, path], check=True, stdout=subprocess.DEVNULL)
    return str(path)


def test_debfile(archive: Archive, suites: tuple[str, str], tmp_path: Path) -> None:
    _, testing = suites
    good, bad = deb(tmp_path, stanza("new", Depends="plugin")), deb(tmp_path, stanza("worse", Depends="gone"))
    assert archive("debfile", good, "--index", testing).lines() == [
        "0 of 5 packages newly can't be installed; 0 things are wrong."
    ]
    answer = archive("debfile", good, bad, "--index", testing)
    assert answer.status == 1 and answer.lines()[2] == "1 of 1  gone                                  worse"
    data = deb(tmp_path, stanza("foo-data", "3", "all"))
    assert archive("debfile", data, "--index", testing).lines()[2].startswith("1 of 1  foo-data (<< 2)  ")


def test_a_deb_that_was_broken_before_is_told(archive: Archive, write: Write, tmp_path: Path) -> None:
    path = deb(tmp_path, stanza("p", "2", Depends="gone"))
    answer = archive(
        "debfile", path, "--index", write("Packages", stanza("p", Depends="gone") + stanza("q", Depends="p"))
    )
    assert answer.status == 1 and answer.lines()[0].startswith("1 of 2 packages newly")


def test_slips(archive: Archive, write: Write) -> None:
    good, broken = write("good", stanza("a")), write("broken", stanza("a") + "Package: b\nVersion: 1\nArchi")
    cases = (
        (["without", "a"], 64, "name index files"),
        (["debfile", good, "--index", good], 67, "good: is no binary package"),
        (["debfile", "nowhere.deb", "--index", good], 67, "nowhere.deb: No such file"),
        (["would-migrate", "s", "--from", good, "--to", good], 66, "no package is built from a source 's'"),
        (["would-migrate", "a", "--from", broken, "--to", good], 65, "broken: package b: bad line"),
        (["partial-upgrade", "a", "--from", broken, "--to", good], 65, "broken: package b: bad line"),
    )
    for words, status, says in cases:
        answer = archive(*words)
        assert (answer.status, answer.out) == (status, "") and says in answer.err
