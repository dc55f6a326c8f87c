"""Checks cells: asks debcheck about their files, and makes of its answer what their pages show."""

import json
from collections import Counter
from collections.abc import Sequence
from contextlib import suppress
from functools import cache

from debcheck_tools.errors import Fault
from debcheck_tools.index import Index, architecture_of, joined, latest
from debcheck_tools.index_files import PACKAGES, SOURCES, open_index
from debcheck_tools.inputs import Inputs
from debcheck_tools.near import Near
from debcheck_tools.overview import Packages, Row, rows
from debcheck_tools.overview_text import marks_text, what_text
from debcheck_tools.page_cells import Asked, Plan
from debcheck_tools.page_history import Answer, Json, NoAnswer, Outcome
from debcheck_tools.page_walk import walked
from debcheck_tools.program import Program
from debcheck_tools.sources import PREFIX, Building, Sources
from debcheck_tools.wrongs import LACKS, Gathered, Member, Wrong

WORDS = ("--failures", "--all-reasons", "--why")
SOME_NEAR = 4


@cache
def index_of_file(path: str, kind: str) -> Index:
    """A file, which is read once for all cells of a process, and of those that it forks."""
    return Index([open_index(path, kind)])


def index_of(paths: Sequence[str], kind: str) -> Index:
    """Files as one index."""
    return joined([index_of_file(path, kind) for path in paths])


def read_shared(asked: Sequence[Asked]) -> None:
    """Reads the sources that several cells are asked about, before the processes are forked that check these."""
    counts = Counter(path for one in asked if one.plan.cell.kind == "sources" for path in one.plan.files)
    for path, count in counts.items():
        if count > 1:
            # A fault of it is told by each cell.
            with suppress(Fault):
                index_of_file(path, SOURCES).parsed


def check_group(group: Sequence[Asked]) -> list[Outcome]:
    """The outcomes of cells that share files."""
    program = Program(["--workers", "1"])
    return [outcome_of(asked, program) for asked in group]


def outcome_of(asked: Asked, program: Program) -> Outcome:
    """What a run finds of a cell."""
    try:
        return Check(asked, program).answer()
    except Fault as fault:
        return NoAnswer(fault.status, fault.line)


def titles(wrong: Wrong) -> list[str]:
    """What is wrong, by the kind's word of the program and the names."""
    if wrong.kind == LACKS:
        return sorted("missing: " + " | ".join(key.names) for key in wrong.keys)
    one, other = wrong.names
    return ["versions: " + one if one == other else f"conflict: {one}, {other}"]


def near_text(near: Sequence[Near]) -> str:
    """What is near to a missing name, in a few words."""
    told = []
    for one in near[:SOME_NEAR]:
        by = f" (of {one.package})" if one.package else f" (source {one.source})" if one.source else ""
        told.append(f"{one.name} {one.version}".rstrip() + by)
    return ", ".join(told) + (f" and {len(near) - SOME_NEAR} more" if len(near) > SOME_NEAR else "")


def inputs_of(plan: Plan) -> Inputs:
    """The indexes of a cell."""
    background = index_of(plan.background, PACKAGES) if plan.background else None
    named = plan.cell.architecture
    if plan.cell.kind == "sources":
        assert background is not None
        arch, sources = architecture_of([background], named), index_of(plan.files, SOURCES)
        if plan.suite.newest:
            (sources,), (background,) = latest([sources]), latest([background], arch)
        asked = Sources(sources, Building(arch, plan.suite.profiles))
        return Inputs(arch, asked.index, background, asked)
    both = [index_of(plan.files, PACKAGES), *([background] if background else [])]
    arch = architecture_of(both, named)
    index, *rest = latest(both, arch) if plan.suite.newest else both
    return Inputs(arch, index, rest[0] if rest else None)


class Check:
    """One cell while it is checked."""

    def __init__(self, asked: Asked, program: Program) -> None:
        self.digest, self.before = asked.digest, asked.before
        self.inputs = inputs_of(asked.plan)
        self.report = program.check(self.inputs.arch, self.inputs.index, self.inputs.background, WORDS)

    def answer(self) -> Answer:
        """What debcheck says of the cell."""
        lines, entries = self.told(self.report.read())
        causes: dict[str, set[str]] = {}
        for entry in entries:
            causes.setdefault(entry["package"], set()).update(entry["wrongs"])
        ended = self.before - causes.keys()
        if ended:
            ended -= {self.shown(stanza.package) for stanza in self.inputs.index.stanzas}
        numbers = {name: self.report.rest[name] for name in ("asked", "broken")}
        return Answer(self.digest, {**numbers, "rows": lines, "packages": entries}, causes, ended)

    def told(self, broken: Sequence[Json]) -> tuple[list[Json], list[Json]]:
        """What is wrong, and each broken package."""
        if not broken:
            return [], []
        gathered, packages = Gathered(), Packages(self.inputs)
        for one in broken:
            gathered.add(one)
        of_package: dict[tuple[str, str], list[str]] = {}
        lines = []
        for row in rows(gathered, packages):
            wrongs = titles(row.wrong)
            lines.append(self.line(row, wrongs))
            for member in row.wrong.broken:
                of_package.setdefault(member, []).extend(wrongs)
        return lines, [self.entry(one, of_package[one["package"], one["version"]], packages) for one in broken]

    def shown(self, name: str) -> str:
        """The name of a package, or of the source for which it stands."""
        return name.removeprefix(PREFIX) if self.inputs.sources else name

    def line(self, row: Row, wrongs: list[str]) -> Json:
        """A line of what is wrong."""
        return {
            "frees": row.wrong.frees,
            "packages": len(row.wrong.broken),
            "wrongs": wrongs,
            "what": what_text(row) if len(wrongs) == 1 else "",
            "marks": marks_text(row).strip(" ()"),
            "sources": list(row.sources),
            "near": near_text(row.near),
            "broken": sorted({self.shown(name) for name, _ in row.wrong.broken}),
        }

    def entry(self, one: Json, wrongs: Sequence[str], packages: Packages) -> Json:
        """A broken package."""
        member = Member(one["package"], one["version"])
        cores = [[self.reason(line, packages) for line in core] for core in (one["reasons"], *one["also"])]
        walks = [walked(*member, core) for core in cores]
        if self.inputs.sources:
            walks = [[line._replace(package=self.shown(line.package)) for line in walk] for walk in walks]
        return {
            "package": self.shown(member.package),
            "version": member.version,
            "source": packages.source_of(member),
            "maintainer": packages.maintainer_of(member),
            "marks": "superseded" if packages.is_superseded(member) else "",
            "wrongs": sorted(set(wrongs)),
            "walks": json.dumps(walks, separators=(",", ":")),
        }

    def reason(self, line: Json, packages: Packages) -> Json:
        """A reason with the field that a source has for it; a source keeps another name than any package's."""
        return {**line, "field": packages.reason(line)["field"]} if self.inputs.sources and "field" in line else line
