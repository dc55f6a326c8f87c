"""The overview: what is wrong, the most useful thing to mend first, with who needs it and what stands near."""

from collections.abc import Callable, Iterable, Iterator, Sequence
from dataclasses import dataclass, field
from typing import Optional

import apt_pkg

from debcheck_tools.inputs import Inputs
from debcheck_tools.near import Names, Near
from debcheck_tools.program import Json
from debcheck_tools.sources import PREFIX
from debcheck_tools.stanza import Stanza
from debcheck_tools.wrongs import BY, CONFLICT, LACKS, Gathered, Member, Wrong, names_of

FORMAT = 1
# Under which member the names of a wrong stand.
TITLES = {LACKS: "names", CONFLICT: "between", BY: "by"}


class Packages:
    """What the indexes tell of a package, or of a source that is asked about."""

    def __init__(self, inputs: Inputs) -> None:
        self.sources, self.building = inputs.sources, inputs.building
        indexes = [inputs.background] if inputs.sources else [inputs.index, inputs.background]
        self.names = Names([index for index in indexes if index is not None], inputs.arch, inputs.building)
        self.asked = Names([inputs.sources.index] if inputs.sources else [], inputs.arch)

    def stanza_of(self, member: Member) -> Optional[Stanza]:
        """The first stanza of a package."""
        return next((one for one in self.names.called(member.package) if one.version == member.version), None)

    def owner_of(self, by: str) -> Callable[[Member], str]:
        """Who has to act, by source or by maintainer."""
        return self.source_of if by == "source" else self.maintainer_of

    def source_of(self, member: Member) -> str:
        """The source package of a package; of a source itself."""
        if self.sources and member.package.startswith(PREFIX):
            return member.package.removeprefix(PREFIX)
        stanza = self.stanza_of(member)
        return stanza.source_name if stanza else member.package

    def maintainer_of(self, member: Member) -> str:
        source = self.sources.source_of(*member) if self.sources else None
        stanza = self.stanza_of(member)
        return source.maintainer if source else stanza.maintainer if stanza else ""

    def file_of(self, member: Member) -> str:
        """The file that a package, or a source, stands in."""
        found = self.sources.source_of(*member) if self.sources else None
        stanza = found or self.stanza_of(member)
        return stanza.file.name if stanza else ""

    def is_superseded(self, member: Member) -> bool:
        """Whether a newer version of the name is there, of a package or of a source that is asked about."""
        alike = self.asked.called(member.package) or self.names.called(member.package)
        return any(apt_pkg.version_compare(one.version, member.version) > 0 for one in alike)

    def is_leftover(self, member: Member) -> bool:
        """Whether no source builds the package any more, as far as sources are given."""
        return self.building is not None and member.package not in self.building and self.stanza_of(member) is not None

    def told(self, member: Member) -> Json:
        """A package in JSON, by its own name and source; a source is told as such."""
        if self.sources and member.package.startswith(PREFIX):
            name = member.package.removeprefix(PREFIX)
            return {"package": name, "version": member.version, "source": name, "type": "source"}
        return {"package": member.package, "version": member.version, "source": self.source_of(member)}

    def reason(self, line: Json) -> Json:
        """A line of a core with the source's own name and the field that asked."""
        if not self.sources or not line.get("package", "").startswith(PREFIX):
            return line
        source = self.sources.source_of(line["package"], line["version"])
        field = self.sources.field_of(source, line["relation"]) if source else line["field"]
        return {**line, "package": line["package"].removeprefix(PREFIX), "type": "source", "field": field}


@dataclass
class Row:
    """A wrong with all that is told of it; `sources` are those whose packages need it."""

    wrong: Wrong
    relations: list[str]
    sources: dict[str, list[Member]]
    near: list[Near]
    superseded: int
    leftovers: list[Member]
    was: list[Member] = field(default_factory=list)


def rows(found: Gathered, packages: Packages) -> Iterator[Row]:
    for wrong in found.wrongs():
        sources: dict[str, list[Member]] = {}
        for member in sorted(wrong.needs):
            sources.setdefault(packages.source_of(member), []).append(member)
        lines = [line for lines in wrong.needs.values() for line in lines]
        relations = dict.fromkeys(line["relation"] for line in lines)
        missing = dict.fromkeys(
            name for line in lines if line["kind"] == "missing" for name in names_of(line["relation"])
        )
        near = packages.names.near(missing)
        superseded = sum(map(packages.is_superseded, wrong.broken))
        leftovers = [member for member in sorted(wrong.needs) if packages.is_leftover(member)]
        yield Row(wrong, list(relations), sources, near, superseded, leftovers)


def row_in_json(row: Row, packages: Packages) -> Json:
    """A wrong as docs/overview.schema.json has it."""
    wrong = row.wrong
    sources = [
        {"source": source, "packages": [need for member in members for need in needs(wrong.needs[member], packages)]}
        for source, members in row.sources.items()
    ]
    told: Json = {TITLES[wrong.kind]: wrong.names}
    told |= {"packages": len(wrong.broken), "frees": wrong.frees, "relations": row.relations, "sources": sources}
    told["near"] = [{key: value for key, value in near._asdict().items() if value} for near in row.near]
    told |= {"superseded": row.superseded, "leftovers": [packages.told(member) for member in row.leftovers]}
    if row.was:
        told["was"] = [packages.told(member) for member in row.was]
    return told | {"broken": [packages.told(member) for member in wrong.broken]}


def needs(lines: Iterable[Json], packages: Packages) -> Iterator[Json]:
    for line in lines:
        told = packages.reason(line)
        yield {key: told[key] for key in ("package", "version", "type", "field", "relation") if key in told}


def in_json(arch: str, rest: Json, told: Sequence[Row], packages: Packages, more: Optional[Json] = None) -> Json:
    """The whole document."""
    counts = {"asked": rest["asked"], "broken": rest["broken"]}
    wrongs = [row_in_json(row, packages) for row in told]
    return {"format": FORMAT, "architecture": arch, **counts, **(more or {}), "wrongs": wrongs}
