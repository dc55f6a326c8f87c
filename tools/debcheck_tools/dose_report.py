"""A package of the program's report as dose tells it, with its keys in dose's order."""

import functools
import re
from collections.abc import Mapping, Sequence
from typing import NamedTuple, Optional

from debcheck_tools.dose_chains import Chains, Conflict, Member, Missing, Step
from debcheck_tools.dose_yaml import Node
from debcheck_tools.errors import DATA, Fault
from debcheck_tools.sources import PREFIX

ATOM = re.compile(r"([^:( ]+)(?::([^( ]+))?( \(.*\))?")


class Own(NamedTuple):
    """What a stanza says of its package that the program's report doesn't; a source has all its architectures."""

    architecture: str
    essential: bool
    pre_depends: str = ""
    depends: str = ""
    provides: str = ""


class Told:
    """How packages and relations are told: `native` is the architecture that was named, if one was."""

    def __init__(self, known: Mapping[Member, Own], native: Optional[str]) -> None:
        self.known, self.native = known, native
        self.relation = functools.cache(self.spelled)
        self.member = functools.cache(self.made)

    def made(self, member: Member) -> Node:
        """A package by itself, which is made once and not changed."""
        own = self.known.get(member)
        if own is None:
            name = " ".join(member)
            raise Fault(DATA, f"apt doesn't find {name}: there are comments, or lines of blanks, between stanzas")
        is_source = member[0].startswith(PREFIX)
        node: Node = {
            "package": member[0].removeprefix(PREFIX),
            "version": member[1],
            "architecture": own.architecture,
        }
        if own.essential:
            node["essential"] = "true"
        elif is_source:
            node["type"] = "src"
        return node

    def selector(self, member: Member) -> str:
        """A package with its version, as --explain-minimal names it."""
        name, version = member
        if name.startswith(PREFIX):
            name = "src:" + name.removeprefix(PREFIX)
        elif self.native:
            name += ":" + self.native
        return f"{name} (= {version})"

    def spelled(self, relation: str) -> str:
        """A relation with dose's operators, and an architecture behind each name but those with `:any`."""
        return " | ".join(map(self.atom, relation.split(" | ")))

    def atom(self, text: str) -> str:
        found = ATOM.fullmatch(text)
        assert found, text
        name, qualifier, bound = found[1], found[2] or self.native, found[3] or ""
        return (
            name
            + (f":{qualifier}" if qualifier and qualifier != "any" else "")
            + bound.replace("(<<", "(<").replace("(>>", "(>")
        )

    def steps(self, steps: Sequence[Step]) -> list[Node]:
        """The one chain of a list of chains."""
        chain: list[Node] = [{**self.member(step.member), "depends": self.relation(step.relation)} for step in steps]
        return [{"depchain": chain}]

    def missing(self, lack: Missing, way: Sequence[Step]) -> Node:
        node: Node = {"pkg": {**self.member(lack.member), "unsat-dependency": self.relation(lack.relation)}}
        if way:
            node["depchains"] = self.steps(way)
        return {"missing": node}

    def conflict(self, conflict: Conflict, way: Sequence[Step], other_way: Sequence[Step]) -> Node:
        node: Node = {
            "pkg1": {**self.member(conflict.member), "unsat-conflict": self.relation(conflict.relation)},
            "pkg2": self.member(conflict.other),
        }
        if way:
            node["depchain1"] = self.steps(way)
        if other_way:
            node["depchain2"] = self.steps(other_way)
        return {"conflict": node}

    def reasons(self, chains: Chains, minimal: bool) -> list[Node]:
        """Conflicts first, then what is missing, each with the chains to it unless it is to be minimal."""

        def way(member: Member) -> list[Step]:
            return [] if minimal else chains.way(member)

        conflicts = [
            self.conflict(conflict, way(conflict.member), way(conflict.other)) for conflict in chains.conflicts()
        ]
        return conflicts + [self.missing(lack, way(lack.member)) for lack in chains.missing()]

    def head(self, member: Member, status: str, minimal: bool) -> Node:
        """A package that is shown, without its explanation."""
        node = dict(self.member(member))
        if minimal:
            node["success" if status == "ok" else "failure"] = self.selector(member)
        node["status"] = status
        return node
