"""--summary counts reasons, and names those that break several packages."""

import yaml
from conftest import Write, stanza
from dose_runs import BUILDCHECK, DEBCHECK, names, run

TEXT = (
    stanza("a", Depends="gone")
    + stanza("b", Depends="a")
    + stanza("c", Depends="a")
    + stanza("d", Depends="e")
    + stanza("e", Depends="x (= 1), x (= 2)")
    + stanza("f", Depends="e")
    + stanza("x")
    + stanza("x", "2")
    + stanza("y", Depends="a | e")
)


SUMMARY = """\
total-packages: 9
broken-packages: 7
missing-packages: 4
conflict-packages: 4
unique-missing-packages: 1
unique-conflict-packages: 1
unique-self-conflicting-packages: 1
conflict-missing-ratio:
 0-1: 3
 1-0: 3
 1-1: 1
summary:
 -
  conflict:
   pkg1:
    package: x
    version: 1
    architecture: amd64
   pkg2:
    package: x
    version: 2
    architecture: amd64
   breaks: 4
   packages:
    -
     package: d
     version: 1
     architecture: amd64
    -
     package: e
     version: 1
     architecture: amd64
    -
     package: f
     version: 1
     architecture: amd64
    -
     package: y
     version: 1
     architecture: amd64
 -
  missing:
   pkg:
    package: a
    version: 1
    architecture: amd64
    unsat-dependency: gone:amd64
   breaks: 3
   packages:
    -
     package: b
     version: 1
     architecture: amd64
    -
     package: c
     version: 1
     architecture: amd64
    -
     package: y
     version: 1
     architecture: amd64
"""


def test_rows_and_counts(write: Write) -> None:
    out = run(DEBCHECK, "-f", "-e", "--summary", "--deb-native-arch=amd64", write("P", TEXT)).out
    begin = out.index("total-packages")
    assert out[begin:] == SUMMARY


def test_a_summary_explains_but_names_no_packages_without_the_word(write: Write) -> None:
    path = write("P", TEXT)
    answer = run(DEBCHECK, "-f", "--summary", path)
    assert "  reasons:\n" in answer.out and "   breaks: 3\n" in answer.out and "   packages:\n" not in answer.out
    alone = run(DEBCHECK, "--summary", path)
    assert names(alone) == [] and "report:" not in alone.out and "missing-packages: 4\n" in alone.out
    good = run(DEBCHECK, "-s", "--summary", path)
    assert names(good) == ["x", "x"] and "conflict-packages: 4\n" in good.out


def test_nothing_breaks_several(write: Write) -> None:
    out = run(DEBCHECK, "-f", "-e", "--summary", write("P", stanza("a", Depends="gone"))).out
    document = yaml.safe_load(out)
    assert document["summary"] is None and document["conflict-missing-ratio"] == {"0-1": 1}


def test_of_sources(write: Write) -> None:
    lines = "Package: {0}\nBinary: {0}\nVersion: 1\nArchitecture: any\nFormat: 1.0\nBuild-Depends: a\n\n"
    files = write("P", TEXT + stanza("build-essential")), write("S", lines.format("s") + lines.format("t"))
    out = run(BUILDCHECK, "-f", "--summary", "--deb-native-arch=amd64", *files).out
    assert "reasons:" not in out and "missing-packages: 2\n" in out and out.endswith("   breaks: 2\n")
