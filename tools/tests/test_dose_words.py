"""Each word of dose's two commands is taken, or refused with 64 and a line that says why."""

import re
import shlex
from pathlib import Path

import pytest
from conftest import TOOLS, Write, stanza
from dose_runs import BUILDCHECK, DEBCHECK, run

from debcheck_tools.dose_options import parsed
from debcheck_tools.dose_words import BOTH, WORDS, Word, words_of
from debcheck_tools.errors import Fault

MANUAL = TOOLS.parent / "docs" / "debcheck-dose.7"
# A value for each word that takes one.
VALUES = {"-t": "deb", "--latest": "1", "--deb-foreign-archs": "amd64", "--deb-host-arch": "amd64"}
FILES = {DEBCHECK: ["P"], BUILDCHECK: ["P", "S", "--deb-native-arch", "amd64"]}
CASES = [
    pytest.param(command, word, name, id=f"{command} {name}")
    for command in BOTH
    for word in words_of(command)
    for name in word.names
    if name not in ("-h", "--help")
]


def spellings(word: Word, name: str) -> list[list[str]]:
    """The ways to write a word on a command line."""
    if not word.value:
        return [[name]]
    value = VALUES.get(word.names[-1], "amd64" if "arch" in name else "x")
    return [[name, value], [f"{name}={value}" if name.startswith("--") else name + value]]


@pytest.mark.parametrize("command, word, name", CASES)
def test_each_word_is_taken_or_refused(command: str, word: Word, name: str) -> None:
    for words in spellings(word, name):
        line = [*FILES[command], *words]
        if not word.refused:
            parsed(command, line if "--deb-native-arch" in line else [*line, "--deb-native-arch=amd64"])
            continue
        with pytest.raises(Fault, match=f"{name} isn't taken: {re.escape(word.refused)}") as fault:
            parsed(command, line)
        assert fault.value.status == 64


@pytest.mark.parametrize("command", BOTH)
def test_help_has_each_word(command: str) -> None:
    answer = run(command, "--help", env={"COLUMNS": "200"})
    assert (answer.status, answer.err) == (0, "")
    assert all(name in answer.out for word in words_of(command) for name in word.names)
    assert run(command, "-h", env={"COLUMNS": "200"}).out == answer.out


def test_version_begins_with_that_of_dose() -> None:
    assert run(DEBCHECK, "--version").out.startswith("7.0.0 over debcheck ")


def roff(text: str) -> str:
    return text.replace("\\", "\\e").replace("-", "\\-")


def test_the_manual_has_the_table_of_words() -> None:
    page = MANUAL.read_text()
    rows = re.findall(r"^T{\n\\fB(.*)\\fP\nT}\tT{\n(.*)\nT}\tT{\n(.*)\nT}$", page, re.M)
    which = {BOTH: "both", (DEBCHECK,): "debcheck", (BUILDCHECK,): "builddebcheck"}
    wanted = [
        (
            roff(word.spelled),
            roff(which[word.commands]),
            roff(f"refused: {word.refused}" if word.refused else word.meaning),
        )
        for word in WORDS
    ]
    assert rows == wanted


@pytest.mark.parametrize(
    "command, line, why",
    [
        (DEBCHECK, "--nope", "unrecognized arguments: --nope"),
        (DEBCHECK, "--fail", "unrecognized arguments: --fail"),
        (DEBCHECK, "--deb-host-arch=amd64", "unrecognized arguments: --deb-host-arch=amd64"),
        (DEBCHECK, "--latest", "expected one argument"),
        (DEBCHECK, "--latest=x", "--latest x: isn't a number"),
        (DEBCHECK, "--latest=0", "--latest 0: isn't a number"),
        (DEBCHECK, "--checkonly 'a (x'", "isn't a list of packages"),
        (DEBCHECK, "--checkonly 'a | b'", "isn't a list of packages"),
        (DEBCHECK, "--checkonly ''", "isn't a list of packages"),
        (DEBCHECK, "-t rpm", "-t rpm isn't taken"),
        (DEBCHECK, "-tdebsrc", "-t debsrc isn't taken"),
        (DEBCHECK, "--deb-native-arch=all", "isn't the name of an architecture"),
        (DEBCHECK, "--deb-foreign-archs=i386", "--deb-foreign-archs i386 isn't taken without --deb-native-arch"),
        (
            DEBCHECK,
            "--deb-native-arch=amd64 --deb-foreign-archs=amd64,i386",
            "--deb-foreign-archs i386 isn't taken beside",
        ),
        (BUILDCHECK, "P S", "name the architecture by --deb-native-arch"),
        (BUILDCHECK, "--deb-native-arch=amd64 S", "and behind them a Sources file"),
        (
            BUILDCHECK,
            "--deb-native-arch=amd64 --deb-host-arch=arm64 P S",
            "--deb-host-arch arm64 isn't taken beside amd64",
        ),
        (BUILDCHECK, "--deb-native-arch=amd64 --bg P P S", "unrecognized arguments: --bg"),
    ],
)
def test_what_is_refused(tmp_path: Path, command: str, line: str, why: str) -> None:
    answer = run(command, *shlex.split(line), cwd=tmp_path)
    assert (answer.status, answer.out) == (64, "")
    assert answer.err.startswith(f"{command}: ") and why in answer.err and answer.err.count("\n") == 1


def test_lines_on_standard_error(write: Write) -> None:
    path = write("P", stanza("a"))
    answer = run(DEBCHECK, "-v", "-f", "--timers", path)
    assert answer.err.splitlines()[:3] == [
        "(I)Doseparse: Parsing and normalizing...",
        f"(I)Dose_deb: Parsing Packages file {path}...",
        "(I)Dose_applications: Solving...",
    ]
    timers = "\n".join(answer.err.splitlines()[3:])
    assert re.fullmatch(r"Timer Solver: \d+\.\d{6}\.\nTimer Load: \d+\.\d{6}\.", timers)
    assert run(DEBCHECK, "-v", "--quiet", path).err == run(DEBCHECK, "--progress", "--lowmem", path).err == ""


def test_solving_is_the_last_line_before_the_report(write: Write) -> None:
    path = write("P", stanza("a") + stanza("b", architecture="i386"))
    answer = run(DEBCHECK, "--verbose", "--deb-native-arch=amd64", path)
    assert answer.err.splitlines()[-1] == "(I)Dose_applications: Solving..."
