"""A suite's files are found by its Release file, and those of another size are refused."""

from collections.abc import Callable
from pathlib import Path

import pytest
from conftest import Write, stanza

from debcheck_tools.errors import DATA, READ, USAGE, Fault
from debcheck_tools.index_files import PACKAGES, SOURCES
from debcheck_tools.mirror import suite


def mirror(write: Write, tmp_path: Path, more: str = "") -> str:
    write("dists/sid/Release", f"Suite: unstable\nArchitectures: all amd64 arm64\nComponents: main contrib\n{more}")
    for folder in ("main/binary-amd64", "main/binary-arm64", "main/binary-all", "contrib/binary-amd64"):
        write(f"dists/sid/{folder}/Packages", stanza("a"))
    write("dists/sid/main/source/Sources.xz", "x")
    return str(tmp_path)


def shown(paths: list[str], top: str) -> list[str]:
    return [path.removeprefix(top + "/dists/sid/") for path in paths]


def test_files_of_all_components_with_all_apart(write: Write, tmp_path: Path) -> None:
    top = mirror(write, tmp_path)
    found = shown(suite(top, "sid").files(PACKAGES, "amd64"), top)
    assert found == ["main/binary-amd64/Packages", "main/binary-all/Packages", "contrib/binary-amd64/Packages"]
    assert shown(suite(top, "sid").files(SOURCES, "amd64"), top) == ["main/source/Sources.xz"]


def test_all_is_in_each(write: Write, tmp_path: Path) -> None:
    top = mirror(write, tmp_path, "No-Support-for-Architecture-all: Packages\n")
    assert shown(suite(top, "sid").files(PACKAGES, "amd64", ["main"]), top) == ["main/binary-amd64/Packages"]


def test_what_is_not_there(write: Write, tmp_path: Path) -> None:
    top = mirror(write, tmp_path)
    calls: list[tuple[Callable[[], object], int, str]] = [
        (lambda: suite(top, "forky"), READ, "dists has sid"),
        (lambda: suite(top + "/dists", "sid"), READ, "has no dists"),
        (
            lambda: suite(top, "sid").files(PACKAGES, "amd64", ["non-free"]),
            USAGE,
            "has no component non-free, but main",
        ),
        (lambda: suite(top, "sid").files(PACKAGES, "s390x"), USAGE, "has no architecture s390x, but amd64, arm64"),
        (
            lambda: suite(top, "sid").files(PACKAGES, "arm64", ["contrib"]),
            READ,
            "contrib/binary-arm64: has no Packages",
        ),
        (lambda: suite(top, "sid").files(SOURCES, "", ["contrib"]), READ, "contrib/source: has no Sources"),
    ]
    for call, status, says in calls:
        with pytest.raises(Fault, match=says) as fault:
            call()
        assert fault.value.status == status


def test_a_file_of_another_size(write: Write, tmp_path: Path) -> None:
    top = mirror(write, tmp_path, f"SHA256:\n 00 {len(stanza('a')) + 1} main/binary-amd64/Packages\n")
    with pytest.raises(
        Fault, match="main/binary-amd64/Packages: has 43 bytes, and Release says 44: it was cut off"
    ) as fault:
        suite(top, "sid").files(PACKAGES, "amd64")
    assert fault.value.status == DATA
