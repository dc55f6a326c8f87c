"""What dose-debcheck says of small indexes: keys, their order and their values, as dose 7.0.0 writes them."""

import pytest
import yaml
from conftest import Write, stanza
from dose_runs import DEBCHECK, Node, names, run

NATIVE = "--deb-native-arch=amd64"
LACK = stanza("a", Depends="b (>> 1) | v") + stanza("b", architecture="all") + stanza("c", "2", Depends="a, p:any")
ESSENTIAL = stanza("e", Essential="yes") + stanza("x", Conflicts="e") + stanza("y", Depends="x", Pre_Depends="e")


def report(write: Write, text: str, *words: str) -> str:
    return run(DEBCHECK, *words, write("Packages", text)).out


def read(write: Write, text: str, *words: str) -> dict[str, Node]:
    """The packages of the report by their names, as a YAML library reads them."""
    document = yaml.load(report(write, text, NATIVE, *words), yaml.BaseLoader)
    return {package["package"]: package for package in document["report"]}


MISSING = """\
output-version: 1.2
native-architecture: amd64
report:
 -
  package: a
  version: 1
  architecture: amd64
  status: broken
  reasons:
   -
    missing:
     pkg:
      package: a
      version: 1
      architecture: amd64
      unsat-dependency: b:amd64 (> 1) | v:amd64
 -
  package: c
  version: 2
  architecture: amd64
  status: broken
  reasons:
   -
    missing:
     pkg:
      package: a
      version: 1
      architecture: amd64
      unsat-dependency: b:amd64 (> 1) | v:amd64
     depchains:
      -
       depchain:
        -
         package: c
         version: 2
         architecture: amd64
         depends: a:amd64
@
total-packages: 4
broken-packages: 2
""".replace(
    "@", " "
)


def test_missing_with_its_chain(write: Write) -> None:
    text = LACK + stanza("p", Multi_Arch="allowed")
    assert report(write, text, NATIVE, "-f", "-e") == MISSING


def test_conflict_of_two_versions_with_both_chains(write: Write) -> None:
    needs = stanza("r", Depends="s, t") + stanza("s", Depends="d (= 1)") + stanza("t", Depends="d (= 2)")
    found = read(write, needs + stanza("d") + stanza("d", "2"), "-f", "-e")
    first, second = (
        [
            {
                "depchain": [
                    {"package": "r", "version": "1", "architecture": "amd64", "depends": f"{name}:amd64"},
                    {"package": name, "version": "1", "architecture": "amd64", "depends": f"d:amd64 (= {version})"},
                ]
            }
        ]
        for name, version in (("s", "1"), ("t", "2"))
    )
    assert list(found) == ["r"]
    assert found["r"]["reasons"] == [
        {
            "conflict": {
                "pkg1": {"package": "d", "version": "1", "architecture": "amd64", "unsat-conflict": "d:amd64"},
                "pkg2": {"package": "d", "version": "2", "architecture": "amd64"},
                "depchain1": first,
                "depchain2": second,
            }
        }
    ]


def test_conflict_with_an_essential_package(write: Write) -> None:
    found = read(write, ESSENTIAL, "-f", "-e")
    (reason,) = found["y"]["reasons"]
    assert reason["conflict"]["pkg1"]["unsat-conflict"] == "e:amd64"
    assert reason["conflict"]["pkg2"] == {"package": "e", "version": "1", "architecture": "amd64", "essential": "true"}
    assert [step["package"] for step in reason["conflict"]["depchain1"][0]["depchain"]] == ["y"]
    assert list(found["x"]["reasons"][0]["conflict"]) == ["pkg1", "pkg2"]


def test_essential_packages_ignored(write: Write) -> None:
    assert names(run(DEBCHECK, "-f", "--deb-ignore-essential", write("Packages", ESSENTIAL))) == ["y"]
    assert names(run(DEBCHECK, "-f", write("Packages", ESSENTIAL))) == ["x", "y"]


def test_installation_set(write: Write) -> None:
    needs = ESSENTIAL.replace("Conflicts: e", "Depends: z") + stanza("z", architecture="all")
    found = read(write, needs, "-s", "-e")
    assert list(found) == ["e", "x", "y", "z"]
    assert list(found["e"]) == ["package", "version", "architecture", "essential", "status", "installationset"]
    assert found["x"]["installationset"] == [
        {"package": "e", "version": "1", "architecture": "amd64", "essential": "true"},
        {"package": "x", "version": "1", "architecture": "amd64"},
        {"package": "z", "version": "1", "architecture": "all"},
    ]


def test_minimal_leaves_out_chains_and_names_the_package(write: Write) -> None:
    found = read(write, LACK, "-f", "-e", "-m")
    assert found["c"]["failure"] == "c:amd64 (= 2)" and list(found["c"])[3:] == ["failure", "status", "reasons"]
    assert [list(reason["missing"]) for reason in found["c"]["reasons"]] == [["pkg"]]
    assert "failure: c (= 2)\n" in report(write, LACK, "-f", "-m") and "reasons" not in report(write, LACK, "-f", "-m")


def test_minimal_keeps_of_a_set_what_the_package_leads_to(write: Write) -> None:
    text = stanza("e", Essential="yes", Depends="f") + stanza("f") + stanza("g", Provides="v (= 3)") + stanza("k")
    text += stanza("r", Pre_Depends="h (>= 1)", Depends="v (>= 2)") + stanza("h", Depends="f (>= 1)")
    found = read(write, text, "-s", "-e", "-m")
    assert found["r"]["success"] == "r:amd64 (= 1)"
    assert [one["package"] for one in found["r"]["installationset"]] == ["f", "g", "r", "h"]
    assert [one["package"] for one in found["k"]["installationset"]] == ["k"]


@pytest.mark.parametrize(
    "field, told, plain",
    [
        ("n", "n:amd64", "n"),
        ("n:any", "n", "n"),
        ("n:amd64 (>= 1)", "n:amd64 (>= 1)", "n:amd64 (>= 1)"),
        ("n:i386", "n:i386", "n:i386"),
        ("n (<< 1:2-3) | m:any (>> 1)", "n:amd64 (< 1:2-3) | m (> 1)", "n (< 1:2-3) | m (> 1)"),
        ("n (<= 1) | m (= 1)", "n:amd64 (<= 1) | m:amd64 (= 1)", "n (<= 1) | m (= 1)"),
    ],
)
def test_relations(write: Write, field: str, told: str, plain: str) -> None:
    text = stanza("a", Depends=field)
    assert f"      unsat-dependency: {told}\n" in report(write, text, NATIVE, "-f", "-e")
    assert f"      unsat-dependency: {plain}\n" in report(write, text, "-f", "-e")


def test_conflicts_stand_before_what_is_missing(write: Write) -> None:
    text = stanza("r", Depends="a | b") + stanza("a", Depends="gone") + stanza("b", Conflicts="r")
    found = read(write, text, "-f", "-e")
    assert [list(reason) for reason in found["r"]["reasons"]] == [["conflict"], ["missing"]]


@pytest.mark.parametrize(
    "words, shown, lines",
    [
        ([], [], ["output-version: 1.2", "total-packages: 3", "broken-packages: 2"]),
        (["-e"], [], ["output-version: 1.2", "total-packages: 3", "broken-packages: 2"]),
        (["-f"], ["a", "c"], None),
        (["-s"], ["b"], None),
        (["-fs"], ["a", "b", "c"], None),
        (["--failures", "--successes"], ["a", "b", "c"], None),
    ],
)
def test_what_is_shown(write: Write, words: list[str], shown: list[str], lines: list[str] | None) -> None:
    answer = run(DEBCHECK, *words, write("Packages", LACK))
    assert (answer.status, names(answer), answer.err) == (1, shown, "")
    assert lines is None or answer.lines() == lines


def test_nothing_to_show(write: Write) -> None:
    answer = run(DEBCHECK, "-f", write("Packages", stanza("a")))
    assert answer.status == 0
    assert answer.lines() == ["output-version: 1.2", "report:", " ", "total-packages: 1", "broken-packages: 0"]
