"""Walks from JSON have the lines that the program writes with --why."""

import json
import re
import subprocess

import pytest
from conftest import stanza

from debcheck_tools import program
from debcheck_tools.page_walk import walked

INDEXES = {
    "missing": stanza("a", Depends="b") + stanza("b", Depends="gone (>= 2) | other"),
    "branches": stanza("a", Depends="x | y") + stanza("x", Depends="gone") + stanza("y", Depends="z, x") + stanza("z"),
    "provided": stanza("a", Depends="v")
    + stanza("x", Provides="v (= 3), w", Depends="gone")
    + stanza("y", Provides="v", Depends="x"),
    "conflict": stanza("a", Depends="b, c") + stanza("b", Conflicts="d") + stanza("c", Depends="d") + stanza("d"),
    "versions": stanza("a", Depends="b (= 1), c")
    + stanza("b", "1")
    + stanza("b", "2")
    + stanza("c", Depends="b (= 2)"),
    "essential": stanza("e", Essential="yes", Depends="f") + stanza("f", Conflicts="a") + stanza("a"),
    "two essential": stanza("e", Essential="yes", Conflicts="a")
    + stanza("e", "2", Essential="yes", Depends="gone")
    + stanza("a"),
    "deep": "".join(stanza(f"p{n}", Depends=f"p{n + 1}") for n in range(1500)) + stanza("p1500", Depends="gone"),
    "steps": "".join(
        stanza(f"p{n}", Depends=f"p{n + 1} | q{n + 1}") + stanza(f"q{n}", Depends="gone") for n in range(25)
    )
    + stanza("p25", Depends="gone")
    + stanza("q25", Depends="gone"),
}


def said(text: str, *words: str) -> str:
    line = [program.find(), "--arch", "amd64", "--quiet", "--failures", "--why", *words]
    done = subprocess.run(line, input=text, stdout=subprocess.PIPE, text=True, check=False)
    assert done.returncode == 1
    return done.stdout


@pytest.mark.parametrize("name", INDEXES)
def test_lines_are_those_of_the_program(name: str) -> None:
    # Of a deep chain one package is enough: the walks of all have as many lines as the square of its length.
    words = ["--checkonly", "p0"] if name == "deep" else []
    report = said(INDEXES[name], *words)
    blocks = re.findall(r"  package: (\S+)\n  version: (\S+)\n.*\n.*\n  why:\n((?:   .*\n)+)", report)
    told = {(package, version): lines for package, version, lines in blocks}
    packages = json.loads(said(INDEXES[name], *words, "--format", "json"))["report"]
    assert len(packages) == len(told) > 0
    for one in packages:
        lines = walked(one["package"], one["version"], one["reasons"])
        ours = "".join(
            f"   {'  ' * line.depth}- {line.package}{' ' * bool(line.package)}{line.rest}\n" for line in lines
        )
        without_near = re.sub(r" missing; (present|similar): .*", " missing", told[one["package"], one["version"]])
        assert ours == without_near
