"""The cells of the pages: which there are, of which files, and what debcheck answers about each."""

import hashlib
import os
from collections.abc import Sequence
from dataclasses import dataclass
from functools import cache
from pathlib import Path

from debcheck_tools import mirror
from debcheck_tools.errors import PROGRAM, READ, Fault
from debcheck_tools.index_files import PACKAGES, SOURCES
from debcheck_tools.page_config import Config, Suite
from debcheck_tools.page_history import Cell

# A change of what a document holds changes this, so that each cell is checked anew.
FORM = "1"


@dataclass(frozen=True)
class Plan:
    """A cell and the files that it is of, or why they can't be told."""

    cell: Cell
    suite: Suite
    files: tuple[str, ...] = ()
    background: tuple[str, ...] = ()
    fault: tuple[int, str] | None = None

    def packages(self) -> frozenset[str]:
        """Its files of packages."""
        return frozenset(self.background if self.cell.kind == "sources" else (*self.files, *self.background))


@dataclass(frozen=True)
class Asked:
    """A cell to check, with the digest of its files, and the names that were broken at its last answer."""

    plan: Plan
    digest: str
    before: frozenset[str]


def of_arch(names: Sequence[str], arch: str) -> list[str]:
    """Names of files with the architecture in the place of {arch}."""
    return [name.replace("{arch}", arch) for name in names]


@cache
def suite_of(root: Path, name: str) -> mirror.Suite:
    """A suite of the mirror, whose Release file is read once in a run."""
    return mirror.suite(str(root), name)


def background_files(config: Config, suite: Suite, arch: str) -> list[str]:
    """The files whose packages may be used and are not asked."""
    if suite.files:
        return of_arch(suite.background_files, arch)
    assert config.mirror is not None
    named = [one.rpartition("/") for one in suite.background]
    return [
        path
        for name, _, component in named
        for path in suite_of(config.mirror, name).files(PACKAGES, arch, [component])
    ]


def files_of(config: Config, suite: Suite, kind: str, arch: str) -> list[str]:
    """The files that are asked about."""
    if suite.files:
        return of_arch(suite.source_files if kind == SOURCES else suite.files, arch)
    assert config.mirror is not None
    return suite_of(config.mirror, suite.suite).files(kind, arch, suite.components)


def plan_of(config: Config, suite: Suite, kind: str, arch: str) -> Plan:
    """One cell with its files."""
    cell = Cell(suite.name, kind, arch)
    try:
        background = background_files(config, suite, arch)
        if kind == "sources":
            background = [*files_of(config, suite, PACKAGES, arch), *background]
            files = files_of(config, suite, SOURCES, arch)
        else:
            files = files_of(config, suite, PACKAGES, arch)
        return Plan(cell, suite, tuple(files), tuple(background))
    except Fault as fault:
        return Plan(cell, suite, fault=(fault.status, fault.line))


def architectures(config: Config, suite: Suite, known: Sequence[str]) -> Sequence[str]:
    """Those that are named, else those that the suite's Release file has and of which a folder is there, or was."""
    if suite.architectures:
        return suite.architectures
    assert config.mirror is not None
    try:
        found = suite_of(config.mirror, suite.suite)
    except Fault:
        if known:
            return known
        raise
    components = suite.components or found.components
    folders = {
        arch: [os.path.join(found.folder, name, f"binary-{arch}") for name in components]
        for arch in found.architectures
    }
    there = [arch for arch, paths in folders.items() if arch in known or any(map(os.path.isdir, paths))]
    if not there:
        raise Fault(READ, f"{found.folder}: has no folder binary-ARCH of {' or '.join(components)}")
    return there


def plans(config: Config, known: Sequence[Cell]) -> list[Plan]:
    """All cells of a configuration, row by row, where `known` are those of earlier runs."""
    suite_of.cache_clear()
    digest_of_file.cache_clear()
    found: list[Plan] = []
    for suite in config.suites:
        archs = architectures(
            config, suite, [cell.architecture for cell in known if cell.suite == suite.name and cell.kind == "packages"]
        )
        found += [plan_of(config, suite, "packages", arch) for arch in archs]
        found += [
            plan_of(config, suite, "sources", arch) for arch in archs if "any" in suite.sources or arch in suite.sources
        ]
    return found


@cache
def digest_of_file(path: str) -> str:
    """The digest of a file, which is read once in a run."""
    with open(path, "rb") as file:
        return hashlib.file_digest(file, "sha256").hexdigest()


def digest_of(plan: Plan, program: str) -> str:
    """Of which files and words a cell's answer is."""
    if plan.fault is not None:
        raise Fault(*plan.fault)
    whole = hashlib.sha256()
    words = [FORM, str(plan.suite.newest), *plan.suite.profiles, plan.cell.kind, plan.cell.architecture]
    whole.update(("\n".join(words) + "\n").encode())
    for role, paths in (("program", (program,)), ("asked", plan.files), ("background", plan.background)):
        for path in paths:
            try:
                whole.update(f"{role} {digest_of_file(path)}\n".encode())
            except OSError as error:
                raise Fault(PROGRAM if role == "program" else READ, f"{path}: {error.strerror}") from error
    return whole.hexdigest()


def groups(asked: Sequence[Asked]) -> list[list[Asked]]:
    """The cells that share files of packages, so that one process reads these once; the largest groups first."""
    found: list[list[Asked]] = []
    for one in asked:
        sharing = [group for group in found if any(one.plan.packages() & other.plan.packages() for other in group)]
        joined = [other for group in sharing for other in group] + [one]
        found = [group for group in found if group not in sharing] + [joined]
    return sorted(found, key=len, reverse=True)
