"""The program is found and run, its report is read, and its faults are told by file and package."""

import os
import stat
from pathlib import Path

import pytest
from conftest import Write, stanza

from debcheck_tools.errors import DATA, PROGRAM, UNKNOWN, Fault
from debcheck_tools.index import Index
from debcheck_tools.index_files import open_index
from debcheck_tools.program import Program


def index(write: Write, *texts: str, name: str = "file") -> Index:
    return Index([open_index(write(f"{name}{number}", text)) for number, text in enumerate(texts)])


def test_a_report_of_several_files_and_a_background(write: Write) -> None:
    report = Program().check(
        "amd64",
        index(write, stanza("a", Depends="x"), stanza("b", Depends="y")),
        index(write, stanza("x"), name="bg"),
        ["--failures", "--all-reasons"],
    )
    assert [(p["package"], p["reasons"][0]["relation"]) for p in report.read()] == [("b", "y")]
    assert (
        report.status,
        report.rest["asked"],
        report.rest["broken"],
        report.rest["background"],
        report.rest["format"],
    ) == (1, 2, 1, 1, 2)


def test_no_package_is_shown(write: Write) -> None:
    report = Program().check("amd64", index(write, stanza("a")), None, ["--failures", "--causes"])
    assert report.read() == [] and report.rest["causes"] == [] and report.status == 0


def test_causes_are_among_the_rest(write: Write) -> None:
    report = Program().check("amd64", index(write, stanza("a", Depends="x")), None, ["--failures", "--causes"])
    assert len(report.read()) == 1 and report.rest["causes"][0]["reasons"] == [{"kind": "missing", "relation": "x"}]


def test_only_some_names(write: Write) -> None:
    two = index(write, stanza("a", Depends="x") + stanza("b", Depends="y"))
    assert [p["package"] for p in Program().check("amd64", two, None, [], ["b"]).read()] == ["b"]
    with pytest.raises(Fault, match="no package is called c") as fault:
        Program().check("amd64", two, None, [], ["c"])
    assert fault.value.status == UNKNOWN


FAULTS = {
    "relation": (stanza("good") + stanza("b", Depends="x ("), "package b: bad relation in Depends"),
    "blanks": (
        "Package: x\nVersion: 1\nArchitecture: all\n \t\n# no stanza\n\n" + stanza("b", "1_2"),
        "package b: bad version",
    ),
    "cut": (
        stanza("good") + "Package: b\nVersion: 1\nArchi",
        "package b: bad line; the file ends there: it was cut off",
    ),
    "two": (stanza("good").rstrip("\n") + "\n" + stanza("b"), "package good: repeated field; there is no empty line"),
    "nameless": (
        stanza("good") + "Version: 1\nArchitecture: all\n",
        "a stanza without a package, which begins with 'Version: 1': missing field",
    ),
}


@pytest.mark.parametrize("name", FAULTS)
@pytest.mark.parametrize("where", ["alone", "second", "background"])
def test_faults_name_file_and_package(write: Write, name: str, where: str) -> None:
    text, says = FAULTS[name]
    good, bad = stanza("a"), write("bad", text)
    front = Index([open_index(write("good", good)), *([open_index(bad)] if where == "second" else [])])
    front = Index([open_index(bad)]) if where == "alone" else front
    background = Index([open_index(bad)]) if where == "background" else None
    with pytest.raises(Fault) as fault:
        Program().run("amd64", front, background, [])
    assert fault.value.status == DATA
    assert fault.value.line.startswith(f"{bad}: {says}")


def test_a_program_that_is_not_there(monkeypatch: pytest.MonkeyPatch, tmp_path: Path) -> None:
    monkeypatch.setenv("DEBCHECK", str(tmp_path / "nowhere"))
    with pytest.raises(Fault, match="DEBCHECK names .*nowhere") as fault:
        Program()
    assert fault.value.status == PROGRAM


def script(path: Path, text: str) -> str:
    path.write_text("#!/bin/sh\n" + text)
    path.chmod(path.stat().st_mode | stat.S_IXUSR)
    return str(path)


OTHERS = {
    "killed": ("kill -9 $$", "was killed by signal 9: there may be too little memory"),
    "older": (
        "echo \"error: unexpected argument '--all-reasons' found\" >&2; exit 64",
        "is another release than these tools",
    ),
    "earlier": ('echo \'{"architecture":"amd64","report":[\'', "its format is 1, and these tools read 2"),
    "newer": ('echo \'{"format":3,"report":[\'', "its format is 3, and these tools read 2"),
    "half": ('printf \'{"format":2,"architecture":"amd64","report":[\\n{"package":"a"},\\n\'', "isn't whole"),
    "another": ("echo hello", "isn't whole, or of another form"),
}


@pytest.mark.parametrize("name", OTHERS)
def test_another_program(monkeypatch: pytest.MonkeyPatch, tmp_path: Path, write: Write, name: str) -> None:
    """Programs that aren't debcheck, each wrong in its own way: nothing is decided by them."""
    text, says = OTHERS[name]
    monkeypatch.setenv("DEBCHECK", script(tmp_path / "other", text))
    with pytest.raises(Fault, match=says) as fault:
        Program().check("amd64", index(write, stanza("a")), None, ["--all-reasons"]).read()
    assert fault.value.status == PROGRAM
    assert os.environ["DEBCHECK"] in fault.value.line or name in ("earlier", "newer", "half", "another")
