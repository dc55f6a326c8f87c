"""Files as dose's commands take them, and what is asked about."""

import bz2
import gzip
import lzma
import subprocess
from pathlib import Path

import pytest
from conftest import TOOLS, Write, stanza
from dose_runs import DEBCHECK, counts, names, run

MAIN = stanza("a") + stanza("b", Depends="gone")
MORE = stanza("c", Depends="a") + stanza("d", Depends="b")


def test_standard_input(write: Write) -> None:
    wanted = run(DEBCHECK, "-f", "-e", write("Packages", MAIN)).out
    assert run(DEBCHECK, "-f", "-e", stdin=MAIN.encode()).out == wanted
    assert run(DEBCHECK, "-f", "-e", "-", stdin=MAIN.encode()).out == wanted
    assert run(DEBCHECK, "-f", "-e", "--fg", "-", stdin=MAIN.encode()).out == wanted
    assert run(DEBCHECK, "-f", "-e", stdin=gzip.compress(MAIN.encode())).out == wanted


PACKED = {
    "P.gz": gzip.compress(MAIN.encode()),
    "P.bz2": bz2.compress(MAIN.encode()),
    "P.xz": lzma.compress(MAIN.encode()),
}


@pytest.mark.parametrize("name", sorted(PACKED))
def test_compressed_files(write: Write, name: str) -> None:
    assert names(run(DEBCHECK, "-f", write(name, PACKED[name]))) == ["b"]


def test_several_files_are_one_index(write: Write) -> None:
    one, two = write("one", MAIN.rstrip("\n")), write("two", MORE)
    wanted = run(DEBCHECK, "-fs", one, two)
    assert names(wanted) == ["a", "b", "c", "d"] and counts(wanted) == {"total-packages": 4, "broken-packages": 2}
    assert run(DEBCHECK, "-fs", one, "--fg", two).out == run(DEBCHECK, "-fs", "--fg=" + one, "--fg=" + two).out
    assert run(DEBCHECK, "-fs", one, "--fg", two).out == wanted.out
    assert run(DEBCHECK, "-fs", "deb://" + one, "--fg", "deb://" + two).out == wanted.out


def test_words_may_stand_behind_files(write: Write) -> None:
    one, two = write("one", MAIN), write("two", MORE)
    assert run(DEBCHECK, one, "-f", two, "-e").out == run(DEBCHECK, "-fe", one, two).out


def test_background(write: Write) -> None:
    more, main, third = write("more", MORE), write("main", MAIN), write("third", stanza("gone"))
    answer = run(DEBCHECK, "-f", "--bg", main, more)
    assert names(answer) == ["d"]
    wanted = {"background-packages": 2, "foreground-packages": 2, "total-packages": 4, "broken-packages": 1}
    assert counts(answer) == wanted
    both = run(DEBCHECK, "-f", "--bg", main, "--bg=" + third, "--fg", more)
    assert both.status == 0 and counts(both)["background-packages"] == 3


def test_a_package_of_both_sides_is_counted_as_dose_counts_it(write: Write) -> None:
    main = write("main", MAIN)
    wanted = {"background-packages": 2, "foreground-packages": 2, "total-packages": 2, "broken-packages": 1}
    assert counts(run(DEBCHECK, "-f", "--bg", main, main)) == wanted


def test_latest(write: Write) -> None:
    versions = ["1", "2~rc1", "10", "1:0", "2"]
    text = "".join(stanza("a", version, Depends="gone") for version in versions) + stanza("b", "3")

    def shown(*words: str) -> list[str]:
        path = write("P", text)
        lines = run(DEBCHECK, "-fs", *words, path).lines()
        assert Path(path).read_text() == text
        return [line.removeprefix("  version: ") for line in lines if line.startswith("  version: ")]

    assert shown("--latest=1") == ["1:0", "3"]
    assert shown("--latest", "2") == ["10", "1:0", "3"]
    assert shown("--latest=3") == ["10", "1:0", "2", "3"]
    assert shown("--latest=9") == [*versions, "3"] == shown()


def test_latest_leaves_other_architectures_as_they_are(write: Write) -> None:
    text = stanza("a", "3", architecture="i386") + stanza("a", "2") + stanza("a", "1", architecture="all")
    answer = run(DEBCHECK, "-s", "--latest=1", "--deb-native-arch=amd64", write("P", text))
    assert "  version: 2\n" in answer.out and "Ignoring 1 packages" in answer.err
    assert counts(answer) == {"total-packages": 1, "broken-packages": 0}


def test_latest_leaves_the_background_as_it_is(write: Write) -> None:
    ground = write("ground", stanza("a") + stanza("a", "2"))
    asked = write("asked", stanza("x", Depends="a (= 1)") + stanza("x", "0", Depends="gone"))
    answer = run(DEBCHECK, "-f", "--latest=1", "--bg", ground, asked)
    assert answer.status == 0 and counts(answer)["total-packages"] == 3


def test_latest_goes_over_all_files_of_the_foreground(write: Write) -> None:
    one, two = write("one", stanza("a", Depends="gone")), write("two", stanza("a", "2"))
    assert run(DEBCHECK, "-f", "--latest=1", one, two).status == 0
    assert run(DEBCHECK, "-f", one, two).status == 1


def test_architecture_of_the_first_package_that_has_one(write: Write) -> None:
    text = stanza("x", architecture="all") + stanza("y", architecture="arm64", Depends="gone") + stanza("z")
    answer = run(DEBCHECK, "-f", write("P", text))
    assert names(answer) == ["y"] and counts(answer)["total-packages"] == 2
    assert "native-architecture" not in answer.out
    assert answer.err == "(W)Dose_deb: Ignoring 1 packages of architectures other than all,arm64\n"
    assert run(DEBCHECK, "-f", "--quiet", write("P", text)).err == ""
    assert names(run(DEBCHECK, "-f", "--deb-native-arch", "amd64", write("P", text))) == []


@pytest.mark.parametrize(
    "selector, shown",
    [
        ("b", ["b"]),
        ("b:amd64", ["b"]),
        ("c , b", ["b", "c"]),
        ("b, nobody", ["b"]),
        ("v (= 2)", ["v"]),
        ("v (>= 1), b", ["b", "v", "v"]),
        ("v (>> 1)", ["v"]),
        ("b:amd64 (= 1), v (= 9)", ["b"]),
    ],
)
def test_checkonly(write: Write, selector: str, shown: list[str]) -> None:
    ground = write("ground", stanza("v") + stanza("v", "2"))
    asked = write("asked", MAIN + MORE)
    answer = run(DEBCHECK, "-fs", "--deb-native-arch=amd64", "--checkonly", selector, "--bg", ground, asked)
    assert names(answer) == shown
    found = counts(answer)
    assert (found["foreground-packages"], found["background-packages"]) == (len(shown), 6 - len(shown))
    assert found["broken-packages"] == answer.status == int("b" in shown)


@pytest.mark.parametrize("selector", ["nobody", "b:i386", "b (= 2)", "nobody, b:i386", "nobody, nothing"])
def test_checkonly_of_nothing_is_a_fault(write: Write, selector: str) -> None:
    answer = run(DEBCHECK, "-f", "--deb-native-arch=amd64", "--checkonly", selector, write("P", MAIN))
    assert (answer.status, answer.out) == (66, "") and answer.err.startswith("dose-debcheck: no package ")


def test_sources_among_packages(write: Write) -> None:
    lines = ["Package: s", "Binary: s", "Version: 1-1", "Architecture: any all", "Format: 1.0", "Build-Depends: gone"]
    sources, packages = write("S", "\n".join(lines) + "\n"), write("P", MAIN + stanza("build-essential"))
    answer = run(DEBCHECK, "-f", "-e", "--deb-native-arch=amd64", packages, "debsrc://" + sources)
    assert names(answer) == ["b", "s"] and "  architecture: any,all\n  type: src\n  status: broken\n" in answer.out
    only = run(DEBCHECK, "-fm", "--deb-native-arch=amd64", "--checkonly", "src:s", packages, "debsrc://" + sources)
    assert names(only) == ["s"] and "  failure: src:s (= 1-1)\n" in only.out
    assert run(DEBCHECK, "-f", packages, "debsrc://" + sources).status == 64


def test_an_empty_file_is_told(write: Write) -> None:
    answer = run(DEBCHECK, "-f", write("P", MAIN), write("empty", ""))
    assert names(answer) == ["b"] and answer.err.startswith("(W)Dose_common: Input file /")
    assert run(DEBCHECK, write("empty", "")).status == 0


FAULTS = {
    "cut.xz": (lzma.compress(MAIN.encode() * 99)[:-60], 67),
    "damaged.gz": (b"\x1f\x8bnonsense" * 9, 67),
    "page": (b"<html>not found</html>\n", 65),
    "Sources": (b"Package: s\nBinary: s\nVersion: 1\nArchitecture: any\nFormat: 1.0\n", 65),
    "bad": (b"Package: a\nVersion: 1\nArchitecture: amd64\nDepends: b (\n", 65),
}


@pytest.mark.parametrize("name", sorted(FAULTS))
@pytest.mark.parametrize("word", ["", "--bg"])
def test_faults_name_the_file_and_begin_no_report(write: Write, name: str, word: str) -> None:
    content, status = FAULTS[name]
    path, good = write(name, content), write("good", MAIN)
    answer = run(DEBCHECK, "-f", "-e", *filter(None, [word]), path, good)
    assert (answer.status, answer.out) == (status, "")
    assert answer.err.startswith(f"dose-debcheck: {path}: ") and answer.err.count("\n") == 1


def test_a_file_that_is_not_there(tmp_path: Path) -> None:
    answer = run(DEBCHECK, "-f", "nowhere", cwd=tmp_path)
    assert (answer.status, answer.out) == (67, "")
    assert answer.err == "dose-debcheck: nowhere: No such file or directory\n"


def test_output_to_a_file(write: Write, tmp_path: Path) -> None:
    path = write("P", MAIN)
    wanted = run(DEBCHECK, "-f", path).out
    for words in (["-o", "one"], ["-otwo"], ["--outfile=three"], ["-d", str(tmp_path), "-o", "four"]):
        answer = run(DEBCHECK, "-f", *words, path, cwd=tmp_path)
        assert (answer.status, answer.out) == (1, "")
    assert [(tmp_path / name).read_text() for name in ("one", "two", "three", "four")] == [wanted] * 4
    answer = run(DEBCHECK, "-f", "-o", "no/such/folder", path, cwd=tmp_path)
    assert (answer.status, answer.err) == (
        68,
        "dose-debcheck: no/such/folder: can't be written: No such file or directory\n",
    )


@pytest.mark.parametrize(
    "end, status, said",
    [
        (">/dev/full", 68, "dose-debcheck: standard output: can't be written: No space left on device\n"),
        (">&-", 68, "dose-debcheck: standard output is closed\n"),
        ("- <&-", 67, "dose-debcheck: standard input: is closed\n"),
    ],
)
def test_streams_that_are_closed_or_full(write: Write, end: str, status: int, said: str) -> None:
    line = f"{TOOLS / DEBCHECK} -f {write('P', MAIN)} {end}"
    done = subprocess.run(["sh", "-c", line], stdout=subprocess.DEVNULL, stderr=subprocess.PIPE, text=True)
    assert (done.returncode, done.stderr) == (status, said)


def test_warnings_stay_off_the_report_where_standard_error_is_closed(write: Write) -> None:
    path = write("P", MAIN + stanza("z", architecture="i386"))
    done = subprocess.run(["sh", "-c", f"{TOOLS / DEBCHECK} -v {path} 2>&-"], stdout=subprocess.PIPE, text=True)
    assert done.stdout.splitlines() == ["output-version: 1.2", "total-packages: 2", "broken-packages: 1"]


def test_a_fault_writes_no_file(write: Write, tmp_path: Path) -> None:
    assert run(DEBCHECK, "-o", "report", write("bad", FAULTS["bad"][0]), cwd=tmp_path).status == 65
    assert not (tmp_path / "report").exists()
