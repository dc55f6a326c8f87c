"""A small archive of four cells for the tests of the pages, and runs over it on days that the tests name."""

import contextlib
import gc
import io
import os
import subprocess
from pathlib import Path
from unittest import mock

from conftest import Answer, Write, stanza

from debcheck_tools.command_line import main

CONFIG = """title = "Small & <b>new</b>"
history = "history.sqlite"
output = "pages"
address = "https://qa.example.org/small/"

[[suite]]
name = "local"
architectures = ["amd64", "arm64"]
files = ["main/{arch}/Packages"]

[[suite]]
name = "extra"
architectures = ["amd64"]
files = ["extra/Packages"]
background-files = ["main/{arch}/Packages"]
source-files = ["extra/Sources"]
"""
WELL = stanza("base") + stanza("build-essential")
MAIN = WELL + stanza("app", Depends="lib (>= 2) | other", Source="app-src (3)", Maintainer="Ann <ann@example.org>")
MAIN += stanza("tool", Depends="app") + stanza("lib", "1")
SOURCES = (
    "Package: extra-src\nVersion: 1\nArchitecture: any\nFormat: 3.0\nBuild-Depends: base\nBuild-Depends-Indep: gone\n\n"
)
DAY = 86400
FIRST = 1_795_000_000


def put(write: Write, amd64: str = MAIN, arm64: str = WELL) -> str:
    write("main/amd64/Packages", amd64)
    write("main/arm64/Packages", arm64.replace("amd64", "arm64"))
    write("extra/Packages", stanza("more", Depends="base, tool"))
    write("extra/Sources", SOURCES)
    return write("page.toml", CONFIG)


def run(folder: Path, day: int, status: int = 0) -> Answer:
    """The command on page.toml of a folder, in this process, which has all modules already."""
    out, err = io.StringIO(), io.StringIO()
    with contextlib.chdir(folder), contextlib.redirect_stdout(out), contextlib.redirect_stderr(err):
        with mock.patch.dict(os.environ, SOURCE_DATE_EPOCH=str(FIRST + day * DAY)):
            ended = main(["page", "page.toml"])
    gc.enable()
    assert ended == status, err.getvalue()
    return Answer(subprocess.CompletedProcess([], ended, out.getvalue(), err.getvalue()))
