"""What --summary adds: how many reasons there are, and which of them break several packages."""

from collections import Counter
from collections.abc import Sequence
from typing import Union

from debcheck_tools.dose_chains import Chains, Conflict, Member, Missing
from debcheck_tools.dose_report import Told
from debcheck_tools.dose_yaml import Node

Reason = Union[Missing, Conflict]


class Summary:
    """Counts reasons as they come, a package at a time."""

    def __init__(self) -> None:
        self.missing = self.conflicts = 0
        self.ratio: Counter[tuple[int, int]] = Counter()
        self.broken_by: dict[tuple[str, ...], tuple[Reason, dict[Member, None]]] = {}

    def add(self, chains: Chains) -> None:
        root, conflicts, missing = chains.root, list(chains.conflicts()), list(chains.missing())
        self.conflicts += len(conflicts)
        self.missing += len(missing)
        self.ratio[len(conflicts), len(missing)] += 1
        for lack in missing:
            if lack.member != root:
                self.count((lack.relation,), lack, root)
        for conflict in conflicts:
            if root not in (conflict.member, conflict.other):
                self.count((*conflict.member, *conflict.other), conflict, root)

    def count(self, what: tuple[str, ...], reason: Reason, root: Member) -> None:
        self.broken_by.setdefault(what, (reason, {}))[1][root] = None

    def node(self, told: Told, with_packages: bool) -> Node:
        """The keys that stand behind those of the report."""
        kinds = [reason for reason, _ in self.broken_by.values()]
        conflicts = [reason for reason in kinds if isinstance(reason, Conflict)]
        several = [(reason, list(roots)) for reason, roots in self.broken_by.values() if len(roots) > 1]
        several.sort(key=lambda row: -len(row[1]))
        return {
            "missing-packages": self.missing,
            "conflict-packages": self.conflicts,
            "unique-missing-packages": len(kinds) - len(conflicts),
            "unique-conflict-packages": len(conflicts),
            "unique-self-conflicting-packages": sum(reason.member[0] == reason.other[0] for reason in conflicts),
            "conflict-missing-ratio": {f"{one}-{two}": count for (one, two), count in self.ratio.items()},
            "summary": [row(told, reason, roots, with_packages) for reason, roots in several],
        }


def row(told: Told, reason: Reason, roots: Sequence[Member], with_packages: bool) -> Node:
    """A reason that breaks several packages."""
    if isinstance(reason, Conflict):
        body: Node = {"pkg1": told.member(reason.member), "pkg2": told.member(reason.other)}
    else:
        body = {"pkg": {**told.member(reason.member), "unsat-dependency": told.relation(reason.relation)}}
    body["breaks"] = len(roots)
    if with_packages:
        body["packages"] = [told.member(root) for root in roots]
    return {"conflict" if isinstance(reason, Conflict) else "missing": body}
