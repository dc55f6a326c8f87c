"""The configuration of the pages: what it may say, and that each fault names key and line."""

from pathlib import Path

import pytest
from conftest import Write

from debcheck_tools.errors import READ, USAGE, Fault
from debcheck_tools.page_config import read

GOOD = """# The smallest one that names files.
title = "Small"
history = "history.sqlite"
output = "pages"

[[suite]]
name = "local"
architectures = ["amd64", "arm64"]
files = ["main/{arch}/Packages", "/srv/Packages"]
"""


def test_paths_are_beside_the_file(write: Write, tmp_path: Path) -> None:
    config = read(Path(write("page.toml", GOOD)))
    assert config.history == tmp_path / "history.sqlite"
    assert config.output == tmp_path / "pages"
    (suite,) = config.suites
    assert suite.files == (str(tmp_path / "main/{arch}/Packages"), "/srv/Packages")
    assert suite.suite == suite.name == "local"
    assert (suite.newest, suite.sources, config.days, config.address) == (False, (), 366, "")


@pytest.mark.parametrize(
    "given, kept",
    [
        ("https://a.example/x", "https://a.example/x/"),
        ("https://a.example/x/", "https://a.example/x/"),
        ("https://a.example/x/index.html", "https://a.example/x/"),
    ],
)
def test_the_address_is_that_of_a_folder(write: Write, given: str, kept: str) -> None:
    assert read(Path(write("page.toml", f'address = "{given}"\n' + GOOD))).address == kept


MIRROR = """title = "Mirror"
history = "h"
output = "o"
mirror = "/srv/mirror"
newest = true

[[suite]]
name = "contrib"
suite = "sid"
components = ["contrib"]
background = ["sid/main", "stable/updates/main"]
sources = true
profiles = ["nocheck"]

[[suite]]
name = "sid"
newest = false
sources = ["amd64"]
"""


def test_a_mirror_gives_the_files(write: Write) -> None:
    contrib, sid = read(Path(write("page.toml", MIRROR))).suites
    assert (contrib.suite, contrib.components, contrib.architectures) == ("sid", ("contrib",), ())
    assert contrib.background == ("sid/main", "stable/updates/main")
    assert (contrib.sources, sid.sources) == (("any",), ("amd64",))
    assert (contrib.newest, sid.newest) == (True, False)
    assert contrib.profiles == ("nocheck",)


def changed(old: str, new: str, text: str = GOOD) -> str:
    assert text.count(old) == 1
    return text.replace(old, new)


FAULTS = {
    "syntax": (changed('"Small"', '"Small'), "2: no TOML"),
    "cut off": (GOOD + "[[", "10: no TOML"),
    "unknown key": (changed("[[suite]]", "tittle = 1\n\n[[suite]]"), "6: tittle: there is no such key"),
    "unknown key of a suite": (GOOD + "architecture = 1\n", "10: architecture: there is no such key"),
    "no title": (changed('title = "Small"\n', ""), "1: title: this key has to be there"),
    "title is a number": (changed('"Small"', "7"), "2: title: this has to be a text"),
    "title is empty": (changed('"Small"', '""'), "2: title: this has to be a text"),
    "days": (changed("[[suite]]", "days = 0\n[[suite]]"), "6: days: this has to be a number"),
    "days are no number": (changed("[[suite]]", "days = true\n[[suite]]"), "6: days: this has to be"),
    "address": (changed("[[suite]]", 'address = "here"\n[[suite]]'), "6: address: this has to be an address"),
    "no suite": (GOOD[: GOOD.index("[[")], "1: suite: this key has to be there"),
    "suite is one table": (changed("[[suite]]", "[suite]"), "6: suite: this has to be a table [[suite]]"),
    "no name": (changed('name = "local"\n', ""), "6: name: each suite has one"),
    "bad name": (changed('"local"', '"../up"'), "7: name: this has to be letters"),
    "name of two": (GOOD + "[[suite]]" + GOOD.partition("[[suite]]")[2], "11: name: there are two suites local"),
    "list over lines": (
        changed('["amd64", "arm64"]', '[\n  "amd64", # one\n  3,\n]'),
        "8: architectures: this has to be a list",
    ),
    "files without architectures": (
        changed('architectures = ["amd64", "arm64"]\n', ""),
        "8: architectures: a suite of files names them",
    ),
    "neither files nor mirror": (
        changed('files = ["main/{arch}/Packages", "/srv/Packages"]\n', ""),
        "6: files: a suite names its files where no mirror is named",
    ),
    "component of files": (GOOD + 'components = ["main"]\n', "10: components: this is of a mirror"),
    "background of files": (GOOD + 'background = ["sid/main"]\n', "10: background: this is of a mirror"),
    "background without component": (
        changed('"stable/updates/main"', '"stable"', MIRROR),
        '11: background: this has to be a list of texts "SUITE/COMPONENT"',
    ),
    "files of a mirror": (
        changed('suite = "sid"', 'background-files = ["x"]', MIRROR),
        "9: background-files: this is of files",
    ),
    "profiles without sources": (
        changed("sources = true\n", "", MIRROR),
        "12: profiles: these are of sources",
    ),
    "sources of files": (GOOD + "sources = true\n", "10: sources: a suite of files names them by source-files"),
    "output is the history": (changed('"pages"', '"history.sqlite"'), "4: output: this is the history's file"),
}


@pytest.mark.parametrize("name", FAULTS)
def test_a_fault_names_key_and_line(write: Write, name: str) -> None:
    text, told = FAULTS[name]
    path = write("page.toml", text)
    with pytest.raises(Fault) as fault:
        read(Path(path))
    assert fault.value.line.startswith(f"{path}:{told}"), fault.value.line
    assert fault.value.status == USAGE
    assert "\n" not in fault.value.line


def test_a_file_that_is_no_text(write: Write, tmp_path: Path) -> None:
    path = write("page.toml", b'title = "a"\nhistory = "\xff"\n')
    with pytest.raises(Fault, match=":2: this is no text in UTF-8"):
        read(Path(path))
    with pytest.raises(Fault, match="No such file") as fault:
        read(tmp_path / "nowhere.toml")
    assert fault.value.status == READ
