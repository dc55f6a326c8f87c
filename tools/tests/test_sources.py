"""Sources are packages that depend on what they build-depend on, after the brackets are taken away."""

import pytest
from conftest import Write

from debcheck_tools.errors import Fault
from debcheck_tools.index import Index
from debcheck_tools.index_files import SOURCES, open_index
from debcheck_tools.sources import Building, Sources


def source(name: str, architecture: str = "any", **fields: str) -> str:
    lines = [
        f"Package: {name}",
        f"Binary: {name}",
        "Version: 1-1",
        f"Architecture: {architecture}",
        "Format: 1.0",
        "Directory: x",
    ]
    return "\n".join([*lines, *(f"{field.replace('_', '-')}: {value}" for field, value in fields.items()), "", ""])


def sources(write: Write, text: str, building: Building = Building("amd64")) -> Sources:
    return Sources(Index([open_index(write("Sources", text), SOURCES)]), building)


def depends(write: Write, value: str, building: Building = Building("amd64"), field: str = "Build_Depends") -> str:
    lines = sources(write, source("a", **{field: value}), building).index.text().read().decode().splitlines()
    return next(line for line in lines if line.startswith("Depends: ")).removeprefix("Depends: ")


@pytest.mark.parametrize(
    "value, wanted",
    [
        ("b, c (>= 1) | d", "b, c (>= 1) | d"),
        ("b (<< 1), c (>> 1), d (< 1), e (> 1), f (= 1)", "b (<< 1), c (>> 1), d (<= 1), e (>= 1), f (= 1)"),
        ("b [amd64], c [arm64], d [!amd64], e [!arm64 !i386], f [linux-any], g [any-i386]", "b, e, f"),
        ("b [arm64] | c, d | e [arm64], f [arm64]", "c, d"),
        ("b <!nocheck>, c <nocheck>, d <!nodoc> <nocheck>, e <!nocheck !nodoc>", "b, d, e"),
        ("b:native (>= 2), c:any, d:amd64", "b (>= 2), c:any, d:amd64"),
        ("b,\n c\n ,", "b, c"),
        ("", ""),
    ],
)
def test_what_counts(write: Write, value: str, wanted: str) -> None:
    assert depends(write, value) == ", ".join(filter(None, ["build-essential", wanted]))


def test_profiles(write: Write) -> None:
    given = Building("amd64", ["nocheck", "nodoc"])
    assert (
        depends(write, "b <!nocheck>, c <nocheck>, d <!nodoc> <cross>, e <nocheck nodoc>", given)
        == "build-essential, c, e"
    )


def test_the_environment_has_no_profiles(write: Write, monkeypatch: pytest.MonkeyPatch) -> None:
    monkeypatch.setenv("DEB_BUILD_PROFILES", "nocheck")
    assert depends(write, "b <!nocheck>") == "build-essential, b"


def test_first_alternative(write: Write) -> None:
    first = Building("amd64", first_alternative=True)
    assert (
        depends(write, "a (>= 2) | b | a (<< 1), c [arm64] | d | e", first) == "build-essential, a (>= 2) | a (<< 1), d"
    )


def test_fields_of_one_architecture_or_all(write: Write) -> None:
    text = source(
        "a",
        Build_Depends="b",
        Build_Depends_Indep="c",
        Build_Depends_Arch="d",
        Build_Conflicts="x",
        Build_Conflicts_Indep="y",
        Build_Conflicts_Arch="z",
    )
    whole = sources(write, text).index.text().read().decode()
    assert "Depends: build-essential, b, c, d\nConflicts: x, y, z\n" in whole
    part = sources(write, text, Building("amd64", indep=False)).index.text().read().decode()
    assert "Depends: build-essential, b, d\nConflicts: x, z\n" in part
    part = sources(write, text, Building("amd64", arch_only=False)).index.text().read().decode()
    assert "Depends: build-essential, b, c\nConflicts: x, y\n" in part


def test_which_sources_count(write: Write) -> None:
    words = [
        "any",
        "all",
        "amd64 arm64",
        "arm64",
        "linux-any",
        "any-amd64",
        "kfreebsd-any",
        "arm64 all",
        "hurd-any any-arm64",
    ]
    text = "".join(source(f"s{number}", word) for number, word in enumerate(words)) + source(
        "extra", Extra_Source_Only="yes"
    )
    found = sources(write, text)
    assert [s.package for s in found.index.stanzas] == ["src_s0", "src_s1", "src_s2", "src_s4", "src_s5", "src_s7"]


def test_the_field_that_asked(write: Write) -> None:
    found = sources(
        write, source("a", Build_Depends="b", Build_Depends_Indep="c (>= 1) | d <!nocheck>", Build_Conflicts_Arch="e")
    )
    one = found.source_of("src_a", "1-1")
    assert one is not None and one.package == "a"
    relations = ["b", "c (>= 1) | d", "e", "build-essential"]
    assert [found.field_of(one, text) for text in relations] == [
        "Build-Depends",
        "Build-Depends-Indep",
        "Build-Conflicts-Arch",
        "build-essential",
    ]


def test_what_is_cut_off_is_refused(write: Write) -> None:
    with pytest.raises(
        Fault, match="Sources: behind source a stands what is no source; it was cut off, or is damaged: fetch"
    ):
        sources(write, source("a") + source("b").removesuffix(": x\n\n"))


def test_a_field_that_cannot_be_read(write: Write) -> None:
    with pytest.raises(Fault, match="Sources: source a 1-1: Build-Depends-Arch can't be read"):
        sources(write, source("a", Build_Depends_Arch="b (>="))
