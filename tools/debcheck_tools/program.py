"""Finds debcheck, runs it on composed indexes, and reads its report one package at a time."""

import io
import json
import os
import re
import shutil
import subprocess
from collections.abc import Iterator, Sequence
from typing import Any, BinaryIO, NoReturn, Optional, cast

from debcheck_tools.errors import BROKEN, DATA, OK, PROGRAM, UNKNOWN, USAGE, Fault
from debcheck_tools.index import Index
from debcheck_tools.index_files import SOURCES, in_memory
from debcheck_tools.sources import PREFIX

TOP = os.path.dirname(os.path.dirname(os.path.dirname(os.path.abspath(__file__))))
BUILT = os.path.join(TOP, "crates", "debcheck_program", "out", "debcheck_program")
STANZA_FAULT = re.compile(r"debcheck: (?:(background|earlier index): )?stanza (\d+): (.*)")

# The format that docs/report.schema.json describes.
FORMAT = 2

# As many workers as there are processors for this process.
WORKERS = ("--workers", str(min(64, len(os.sched_getaffinity(0)))))

Json = dict[str, Any]


def find() -> str:
    """The program: the one that DEBCHECK names, else the checkout's, else that of the path."""
    named = os.environ.get("DEBCHECK")
    if named:
        path = shutil.which(named)
        if path is None:
            raise Fault(PROGRAM, f"DEBCHECK names {named}, which is no program that can be run")
        return path
    path = BUILT if os.access(BUILT, os.X_OK) else shutil.which("debcheck")
    if path is None:
        way = (
            "build it by ./debcheck --version"
            if os.path.exists(os.path.join(TOP, "crates.txt"))
            else "apt-get install debcheck"
        )
        raise Fault(PROGRAM, f"there is no program debcheck: {way}, or name it by DEBCHECK")
    return path


class Report:
    """A report in JSON: `packages` gives those that it shows, one at a time and once; then `rest` has the others.

    `stanzas` is how many the texts have as apt counts them, where the program has to count as many.
    """

    def __init__(self, status: int, text: BinaryIO, stanzas: Optional[int] = None) -> None:
        self.status, self.stanzas = status, stanzas
        self.text = io.BufferedReader(cast(io.RawIOBase, text), 1 << 20)
        self.rest: Json = {}

    def packages(self) -> Iterator[Json]:
        try:
            yield from self.lines()
        except ValueError as fault:
            raise Fault(PROGRAM, f"the program's report isn't whole, or of another form: {fault}") from None

    def lines(self) -> Iterator[Json]:
        self.rest = json.loads(self.text.readline() + b"]}")
        if self.rest.get("format") != FORMAT:
            raise ValueError(f"its format is {self.rest.get('format', 1)}, and these tools read {FORMAT}")
        del self.rest["report"]
        for line in self.text:
            if line.startswith(b"],"):
                self.rest.update(json.loads(b"{" + line[2:] + self.text.read()))
                break
            yield json.loads(line.rstrip(b",\n"))
        else:
            raise ValueError("it has no end")
        if self.stanzas not in (None, self.rest["stanzas"]):
            fault = f"debcheck counts {self.rest['stanzas']} stanzas and apt {self.stanzas}"
            raise Fault(DATA, f"{fault}: there are comments, or lines of blanks, between stanzas; take them out")

    def read(self) -> list[Json]:
        """All that it shows at once."""
        return list(self.packages())


class Program:
    """debcheck as it was found, and the words that each of its runs gets."""

    def __init__(self, words: Sequence[str] = ()) -> None:
        self.path = find()
        self.words = list(words)

    def check(
        self,
        arch: str,
        index: Index,
        background: Optional[Index],
        words: Sequence[str],
        names: Optional[Sequence[str]] = None,
    ) -> Report:
        """The report in JSON on an index; where names are given, on the packages of these."""
        status, out = self.run(arch, index, background, [*words, "--format", "json"], names)
        return Report(status, out, len(index.stanzas) + (len(background.stanzas) if background else 0))

    def run(
        self,
        arch: str,
        index: Index,
        background: Optional[Index],
        words: Sequence[str],
        names: Optional[Sequence[str]] = None,
    ) -> tuple[int, BinaryIO]:
        """Its status, OK or BROKEN, and what it writes; any other end is a fault in the words of the files."""
        answer = self.ask(arch, index, background if background and background.stanzas else None, words, names)
        unread = index.unread or (background and background.unread)
        if unread:
            raise Fault(
                DATA, f"{unread.name}: debcheck can read it, and apt can't: a stanza there has no form that apt knows"
            )
        return answer

    def ask(
        self,
        arch: str,
        index: Index,
        background: Optional[Index],
        words: Sequence[str],
        names: Optional[Sequence[str]] = None,
    ) -> tuple[int, BinaryIO]:
        """The same without apt's reading of the texts."""
        handed = []
        line = [self.path, "--arch", arch, "--quiet", *self.words, *words]
        if background is not None:
            handed.append(background.text())
            line += ["--bg", f"/dev/fd/{handed[-1].fileno()}"]
        if names is not None:
            handed.append(in_memory("".join(f"{name}\n" for name in names).encode()))
            line += ["--checkonly", f"@/dev/fd/{handed[-1].fileno()}"]
        out, err = in_memory(), in_memory()
        try:
            done = subprocess.run(
                line,
                stdin=index.text(),
                stdout=out,
                stderr=err,
                pass_fds=[file.fileno() for file in handed],
                check=False,
            )
        except OSError as fault:
            raise Fault(PROGRAM, f"{self.path} can't be run: {fault.strerror}") from None
        out.seek(0)
        err.seek(0)
        if done.returncode in (OK, BROKEN):
            return done.returncode, out
        self.refuse(done.returncode, err.read().decode("utf-8", "replace").strip(), index, background)

    def refuse(self, status: int, said: str, index: Index, background: Optional[Index]) -> NoReturn:
        """Raises the program's fault, which names the file and the package in place of a stanza's number."""
        if status < 0:
            raise Fault(
                PROGRAM,
                f"{self.path} was killed by signal {-status}"
                + (": there may be too little memory" if status == -9 else ""),
            )
        found = STANZA_FAULT.match(said)
        if found:
            text = background if found[1] else index
            raise Fault(status, stanza_fault(text or index, int(found[2]), found[3]))
        if status == USAGE:
            first = said.splitlines()[0] if said else ""
            raise Fault(PROGRAM, f"{self.path} is another release than these tools, and refuses their words: {first}")
        if not DATA <= status <= PROGRAM:
            raise Fault(PROGRAM, f"{self.path} ended with status {status}: {said}")
        unknown = status == UNKNOWN and said.rpartition(" ")[2]
        raise Fault(status, f"no package is called {unknown}" if unknown else said.removeprefix("debcheck: "))


def stanza_fault(index: Index, number: int, text: str) -> str:
    """What is wrong with a stanza of an index, by its file and package."""
    file, lines = index.place_of(number)
    name = next(
        (line.partition(b":")[2].strip() for line in lines if line.lower().startswith(b"package:")), b""
    ).decode("utf-8", "replace")
    file.text.seek(0)
    whole = file.text.read()
    cut = not whole.endswith(b"\n") and whole.rstrip().endswith(lines[-1].rstrip())
    twice = sum(line.lower().startswith(b"package:") for line in lines) > 1
    ends = (
        "; the file ends there: it was cut off; fetch it again"
        if cut
        else "; there is no empty line before the next package"
        if twice
        else ""
    )
    which = f"source {name.removeprefix(PREFIX)}" if file.kind == SOURCES else f"package {name}"
    if not name:
        which = f"a stanza without a package, which begins with {lines[0].decode('utf-8', 'replace')[:60]!r}"
    return f"{file.name}: {which}: {text}{ends}"
