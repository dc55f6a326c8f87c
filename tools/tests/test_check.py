"""debcheck-archive check: what it prints for each way to name files, each option and each slip."""

import json
import lzma
import os
import subprocess
from collections.abc import Callable

import pytest
from conftest import TOOLS, Answer, Write, stanza

Archive = Callable[..., Answer]

ZIP = stanza("librust-zip-dev", Source="rust-zip", Depends="librust-typed-path-0.12-dev")
TYPED = stanza("librust-typed-path-dev", Source="rust-typed-path (2)", Provides="librust-typed-path-0.13-dev (= 0.13)")
USER = stanza("user", architecture="all", Depends="librust-zip-dev")


def test_the_overview_has_a_line_for_each_wrong(archive: Archive, write: Write) -> None:
    answer = archive("check", write("Packages", ZIP + TYPED + USER + stanza("x", Depends="gone (>= 2)")))
    assert answer.status == 1 and answer.err == ""
    assert answer.lines() == [
        "3 of 4 packages can't be installed; 2 things are wrong.",
        "Freed of broken  what is missing, or in conflict  sources that need it  [what stands near]",
        "2 of 2  librust-typed-path-0.12-dev           rust-zip  [librust-typed-path-0.13-dev]",
        "1 of 1  gone (>= 2)                           x",
    ]


def test_nothing_is_wrong(archive: Archive, write: Write) -> None:
    answer = archive("check", write("Packages", stanza("a")))
    assert (answer.status, answer.lines()) == (0, ["0 of 1 packages can't be installed; 0 things are wrong."])


def test_bounds_are_one_line_and_versions_that_are_there_are_near(archive: Archive, write: Write) -> None:
    text = (
        stanza("six", "1.5") + stanza("a", Depends="six (>= 1.10)") + stanza("b", Depends="six (>= 1.9), six (<< 1.2)")
    )
    lines = archive("check", write("Packages", text)).lines()
    assert lines[2:] == ["2 of 2  six (>= 1.9 .. 1.10, << 1.2)          a, b  [there: 1.5]"]


def test_who_provides_a_name_without_a_version_is_near(archive: Archive, write: Write) -> None:
    text = stanza("openvox", Provides="puppet") + stanza("a", Depends="puppet (>= 4) | mcollective (>= 2)")
    lines = archive("check", write("Packages", text)).lines()
    assert lines[2:] == ["1 of 1  puppet (>= 4) | mcollective (>= 2)    a  [there: openvox]"]


def test_what_the_same_need_and_what_breaks_the_same_is_one_line(archive: Archive, write: Write) -> None:
    text = stanza("liba", Source="s", Depends="x, y") + stanza("b", Depends="liba") + stanza("c", Depends="z")
    lines = archive("check", write("Packages", text)).lines()
    assert lines[2:] == [
        "2 of 2  x, y                                  s",
        "1 of 1  z                                     c",
    ]


def test_conflicts_between_two_names(archive: Archive, write: Write) -> None:
    text = stanza("a", Depends="b, c") + stanza("b", Conflicts="c (<< 2)") + stanza("c") + stanza("d", Depends="b, c")
    two = stanza("l") + stanza("l", "2") + stanza("p", Depends="l (= 1), q") + stanza("q", Depends="l (= 2)")
    lines = archive("check", write("Packages", text + two)).lines()
    assert lines[2:] == [
        "2 of 2  b against c                           b",
        "1 of 1  two versions of l                     p, q",
    ]


def test_freed_only_where_all_causes_are_of_it(archive: Archive, write: Write) -> None:
    text = stanza("a", Depends="x, y") + stanza("b", Depends="x") + stanza("c", Depends="y") + stanza("d", Depends="y")
    lines = archive("check", write("Packages", text)).lines()
    assert lines[2:] == [
        "2 of 3  y                                     a, c, d",
        "1 of 2  x                                     a, b",
    ]


def test_files_of_any_form_and_backgrounds(archive: Archive, write: Write) -> None:
    contrib, main = write("contrib.xz", lzma.compress(USER.encode())), write("main", ZIP)
    more = write("more", stanza("t", Provides="librust-typed-path-0.12-dev"))
    assert archive("check", contrib, "--bg", main, "--bg", more, "--arch", "amd64").lines() == [
        "0 of 1 packages can't be installed; 0 things are wrong."
    ]
    assert archive("check", contrib, main, more).status == 0
    assert archive("check", "-", "--bg", more, stdin=USER + ZIP).status == 0


def test_a_mirror(archive: Archive, write: Write, tmp_path: object) -> None:
    write("dists/sid/Release", "Architectures: amd64 arm64\nComponents: main contrib\n")
    write("dists/sid/main/binary-amd64/Packages", ZIP + TYPED)
    write("dists/sid/contrib/binary-amd64/Packages.xz", lzma.compress(USER.encode()))
    mirror = ("check", "--mirror", str(tmp_path), "--suite", "sid")
    assert archive(*mirror, "--arch", "amd64").lines()[0].startswith("2 of 3 packages")
    assert archive(*mirror, "--arch", "amd64", "--component", "main").lines()[0].startswith("1 of 2 packages")
    answer = archive(*mirror)
    assert answer.status == 64 and "name one by --arch: amd64, arm64" in answer.err


def test_latest_and_superseded(archive: Archive, write: Write) -> None:
    path = write("Packages", stanza("a", "1", Depends="gone") + stanza("a", "2") + stanza("b", Depends="a (= 1)"))
    assert archive("check", path).lines()[2:] == ["2 of 2  gone                                  a (1 superseded)"]
    assert archive("check", "--latest", path).lines()[2:] == [
        "1 of 1  a (= 1)                               b  [there: 2]"
    ]


def test_leftovers(archive: Archive, write: Write) -> None:
    source = "Package: {}\nBinary: {}\nVersion: 2\nArchitecture: any\nFormat: 1.0\nDirectory: x\n"
    text_alone = source.format("t", "n") + "Extra-Source-Only: yes\n"
    sources = write("Sources", source.format("s", "new") + "\n" + text_alone)
    packages = write("Packages", stanza("old", Source="s (1)", Depends="gone") + stanza("n", Depends="new"))
    lines = archive("check", packages, "--built-by", sources).lines()
    assert lines[2:] == [
        "1 of 1  gone                                  s (leftover)",
        "1 of 1  new                                   n (leftover)  [source s]",
    ]


def test_json(archive: Archive, write: Write) -> None:
    answer = archive("check", "--format", "json", write("Packages", ZIP + TYPED + USER))
    found = json.loads(answer.out)
    assert (found["format"], found["architecture"], found["asked"], found["broken"]) == (1, "amd64", 3, 2)
    (wrong,) = found["wrongs"]
    assert (wrong["names"], wrong["packages"], wrong["frees"]) == (["librust-typed-path-0.12-dev"], 2, 2)
    assert wrong["sources"][0]["source"] == "rust-zip"
    assert wrong["sources"][0]["packages"][0]["field"] == "Depends"
    assert wrong["near"] == [{"name": "librust-typed-path-0.13-dev", "package": "librust-typed-path-dev"}]
    assert [(p["package"], p["source"]) for p in wrong["broken"]] == [("librust-zip-dev", "rust-zip"), ("user", "user")]


def test_by_source_and_by_maintainer(archive: Archive, write: Write) -> None:
    text = stanza("a", Source="s", Depends="x", Maintainer="Ann <a@x>") + stanza(
        "b", Depends="a, y", Maintainer="Ben <b@x>"
    )
    path = write("Packages", text + stanza("c", Source="s", Depends="y", Maintainer="Ann <a@x>"))
    assert archive("check", "--by", "source", path).lines()[1:] == [
        "Freed of broken  who needs it  what is missing  [what stands near]",
        "2 of 3  s                                     x, y",
        "0 of 1  b                                     y",
    ]
    assert archive("check", "--by", "maintainer", path).lines()[2].startswith("2 of 3  Ann <a@x>  ")


def test_the_report_in_json_has_source_and_file(archive: Archive, write: Write) -> None:
    one, two = write("one", ZIP), write("two", USER)
    answer = archive("check", "--report", "json", "--failures", "--explain", "--causes", one, two)
    found = json.loads(answer.out)
    assert [(p["package"], p["source"], p["file"]) for p in found["report"]] == [
        ("librust-zip-dev", "rust-zip", one),
        ("user", "user", two),
    ]
    assert found["report"][0]["reasons"][0]["kind"] == "missing" and len(found["causes"]) == 1
    assert list(found)[:4] == ["format", "options", "architecture", "report"] and answer.status == 1


def test_the_report_in_text(archive: Archive, write: Write) -> None:
    answer = archive("check", "--report", "text", "--failures", "--explain", write("Packages", ZIP))
    assert answer.lines()[:3] == ["architecture: amd64", "report:", " -"] and answer.status == 1


def test_checkonly(archive: Archive, write: Write) -> None:
    path = write("Packages", ZIP + USER)
    assert archive("check", path, "--checkonly", "user").lines()[0].startswith("1 of 1 packages")
    assert archive("check", path, "--checkonly", "librust-zip-dev user").lines()[0].startswith("2 of 2 packages")
    answer = archive("check", path, "--checkonly", "uesr")
    assert (answer.status, answer.out) == (66, "")
    assert answer.err == f"debcheck-archive: {path}: no package is called 'uesr'; similar: user\n"


def test_essential(archive: Archive, write: Write) -> None:
    path = write("Packages", stanza("base", Essential="yes", Depends="gone") + stanza("a"))
    assert archive("check", path).lines()[0].startswith("2 of 2")
    assert archive("check", path, "--ignore-essential").lines()[0].startswith("1 of 2")


SLIPS: dict[str, tuple[list[str], int, str]] = {
    "nothing": ([], 64, "name index files, or --mirror DIR --suite S, or --apt"),
    "both": (["GOOD", "--apt"], 64, "one of them"),
    "no suite": (["--mirror", "x"], 64, "--mirror needs --suite"),
    "no file": (["nowhere"], 67, "nowhere: No such file or directory"),
    "arch": (["GOOD", "--arch", "arm64"], 65, "has packages of amd64, none of arm64"),
    "spelled": (["GOOD", "--arch", "x86_64"], 65, "Debian calls it amd64"),
    "two": (["GOOD", "ARM"], 64, "name one by --arch: "),
    "bg": (["GOOD", "--bg", "ARM", "--arch", "amd64"], 65, "has packages of arm64, none of amd64"),
    "word": (["GOOD", "--explain"], 64, "--explain needs --report"),
    "json": (
        ["GOOD", "--json"],
        64,
        "unrecognized arguments: --json; similar: --format json; see debcheck-archive check --help",
    ),
    "misspelled": (["GOOD", "--lastest"], 64, "unrecognized arguments: --lastest; similar: --latest; see"),
    "one hyphen": (["-arch", "amd64", "GOOD"], 64, "; similar: --arch; see"),
    "no choice": (
        ["GOOD", "--by", "sources"],
        64,
        "argument --by: invalid choice: 'sources' (choose from 'source', 'main",
    ),
    "no name": (["GOOD", "--checkonly", ","], 64, "--checkonly names nothing"),
    "provided": (["GOOD", "--checkonly", "mta"], 66, "no package is called 'mta'; it is provided by a"),
    "cut": (["CUT"], 65, "CUT: package b: missing field; the file ends there: it was cut off; fetch it again"),
    "blanks": (["GOOD", "--checkonly", "a", "b"], 64, "b: there is no such file; put commas between the names"),
    "sources": (["SOURCES"], 65, "name it by --sources"),
}


@pytest.mark.parametrize("name", SLIPS)
def test_slips(archive: Archive, write: Write, name: str) -> None:
    words, status, says = SLIPS[name]
    files = {
        "GOOD": stanza("a", Provides="mta, gui (= 2)"),
        "CUT": stanza("a") + "Package: b\nVersion: 1",
        "ARM": stanza("a", architecture="arm64"),
        "SOURCES": "Package: a\nBinary: a\nFormat: 1.0\n",
    }
    answer = archive("check", *(write(word, files[word]) if word in files else word for word in words))
    assert (answer.status, answer.out) == (status, "")
    assert answer.err.startswith("debcheck-archive: ") and says in answer.err and answer.err.count("\n") == 1


def test_what_cannot_be_written(write: Write) -> None:
    """A full device is told; whoever closes a pipe has enough, and no word is said of it."""
    words = [str(TOOLS / "debcheck-archive"), "check", write("Packages", ZIP), "--format", "json"]
    with open("/dev/full", "wb") as full:
        done = subprocess.run(words, stdout=full, stderr=subprocess.PIPE, check=False)
    assert done.returncode == 68
    assert done.stderr == b"debcheck-archive: the answer can't be written: No space left on device\n"
    read, written = os.pipe()
    os.close(read)
    done = subprocess.run(words, stdout=written, stderr=subprocess.PIPE, check=False)
    os.close(written)
    assert (done.returncode, done.stderr) == (68, b"")
