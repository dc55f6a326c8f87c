"""What dose-builddebcheck says of small indexes of sources."""

import pytest
from conftest import Write, stanza
from dose_runs import BUILDCHECK, counts, names, run

from conftest import Answer

PACKAGES = stanza("build-essential") + stanza("b") + stanza("c", "2") + stanza("n", Depends="gone")


def source(name: str, architecture: str = "any", version: str = "1-1", **fields: str) -> str:
    lines = [
        f"Package: {name}",
        f"Binary: {name}",
        f"Version: {version}",
        f"Architecture: {architecture}",
        "Format: 1.0",
    ]
    return "\n".join([*lines, *(f"{field.replace('_', '-')}: {value}" for field, value in fields.items()), "", ""])


SOURCES = (
    source("ok", Build_Depends="b")
    + source("plain", "any all", Build_Depends="gone (>= 1) | c (>> 2)")
    + source("indep", Build_Depends_Indep="gone", Build_Depends="b")
    + source("arch", Build_Depends_Arch="gone", Build_Depends="b")
    + source("clash", Build_Depends="b", Build_Conflicts="b")
    + source("check", Build_Depends="b, gone <!nocheck>")
    + source("second", Build_Depends="gone | b")
    + source("other", "arm64", Build_Depends="gone")
    + source("extra", Build_Depends="gone", Extra_Source_Only="yes")
)


def build(write: Write, *words: str, sources: str = SOURCES, packages: str = PACKAGES, profiles: str = "") -> Answer:
    files = write("P", packages), write("S", sources)
    return run(BUILDCHECK, "--deb-native-arch=amd64", *words, *files, env={"DEB_BUILD_PROFILES": profiles})


REPORT = """\
output-version: 1.2
native-architecture: amd64
host-architecture: amd64
report:
 -
  package: plain
  version: 1-1
  architecture: any,all
  type: src
  status: broken
  reasons:
   -
    missing:
     pkg:
      package: plain
      version: 1-1
      architecture: any,all
      type: src
      unsat-dependency: gone:amd64 (>= 1) | c:amd64 (> 2)
 -
  package: deep
  version: 1-1
  architecture: linux-any
  type: src
  status: broken
  reasons:
   -
    missing:
     pkg:
      package: n
      version: 1
      architecture: amd64
      unsat-dependency: gone:amd64
     depchains:
      -
       depchain:
        -
         package: deep
         version: 1-1
         architecture: linux-any
         type: src
         depends: n:amd64
@
binary-packages: 6
source-packages: 2
broken-packages: 2
""".replace(
    "@", " "
)


def test_report(write: Write) -> None:
    sources = source("plain", "any all", Build_Depends="gone (>= 1) | c (>> 2)")
    sources += source("deep", "linux-any", Build_Depends="n:native")
    assert build(write, "-e", "-f", sources=sources).out == REPORT


@pytest.mark.parametrize(
    "words, broken",
    [
        ([], ["plain", "indep", "arch", "clash", "check"]),
        (["--deb-drop-b-d-indep"], ["plain", "arch", "clash", "check"]),
        (["--deb-drop-b-d-arch"], ["plain", "indep", "clash", "check"]),
        (["--deb-profiles=nodoc,nocheck"], ["plain", "indep", "arch", "clash"]),
        (["-P", "nocheck"], ["plain", "indep", "arch", "clash"]),
        (["--deb-emulate-sbuild"], ["plain", "indep", "arch", "clash", "check", "second"]),
        (["--deb-include-extra-source"], ["plain", "indep", "arch", "clash", "check", "extra"]),
        (["--deb-defaulted-m-a-foreign"], ["plain", "indep", "arch", "clash", "check"]),
        (["--deb-host-arch=amd64", "--deb-foreign-archs=amd64"], ["plain", "indep", "arch", "clash", "check"]),
        (["--checkonly", "ok, plain (= 1-1), check (= 2)"], ["plain"]),
    ],
)
def test_words(write: Write, words: list[str], broken: list[str]) -> None:
    answer = build(write, "-f", *words)
    assert names(answer) == broken and answer.status == 1
    assert counts(answer)["broken-packages"] == len(broken)


def test_profiles_of_the_environment(write: Write) -> None:
    assert "check" not in names(build(write, "-f", profiles="nodoc nocheck"))
    assert "check" in names(build(write, "-f", "--deb-profiles=nodoc", profiles="nocheck"))


def test_latest_leaves_out_older_sources_alone(write: Write) -> None:
    sources = source("a", Build_Depends="gone") + source("a", version="2-1", Build_Depends="c (= 1)")
    answer = build(write, "-f", "--latest=1", sources=sources, packages=PACKAGES + stanza("c"))
    assert answer.status == 0 and counts(answer) == {"binary-packages": 6, "source-packages": 1, "broken-packages": 0}


def test_no_build_essential(write: Write) -> None:
    answer = build(write, "-e", "-f", sources=source("a"), packages=stanza("b"))
    assert "      unsat-dependency: build-essential:amd64\n" in answer.out


def test_several_packages_files(write: Write) -> None:
    files = (
        write("one", stanza("build-essential")),
        write("two", stanza("b")),
        write("S", source("a", Build_Depends="b")),
    )
    answer = run(BUILDCHECK, "-s", "--deb-native-arch=amd64", *files)
    assert names(answer) == ["a"] and answer.status == 0
    schemes = ["deb://" + files[0], "deb://" + files[1], "debsrc://" + files[2]]
    assert run(BUILDCHECK, "-s", "--deb-native-arch=amd64", *schemes).out == answer.out


def test_faults_name_the_file(write: Write) -> None:
    packages, sources = write("P", PACKAGES), write("S", source("a", Build_Depends="b ("))
    answer = run(BUILDCHECK, "-f", "--deb-native-arch=amd64", packages, sources)
    assert (answer.status, answer.out) == (65, "")
    assert answer.err == f"dose-builddebcheck: {sources}: source a 1-1: Build-Depends can't be read\n"
    swapped = run(BUILDCHECK, "-f", "--deb-native-arch=amd64", sources, packages)
    assert (swapped.status, swapped.out) == (65, "")
