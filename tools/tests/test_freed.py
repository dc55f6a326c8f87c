"""What is counted as freed is counted again by really mending: what a wrong's packages say is taken out."""

from collections.abc import Iterable
from typing import NamedTuple

from hypothesis import HealthCheck, given, settings
from hypothesis import strategies as st

from debcheck_tools.index import Index
from debcheck_tools.index_files import PACKAGES, IndexFile, in_memory
from debcheck_tools.program import Json, Program
from debcheck_tools.wrongs import LACKS, Gathered, Member, Wrong, gathered

NAMES = ("a", "b", "c", "d", "e")
MISSING = ("x", "y", "z (>= 2)", "z (<< 1)")


class Drawn(NamedTuple):
    """A package with its dependencies, each of alternatives, and with the names that it conflicts with."""

    name: str
    depends: list[tuple[str, ...]]
    conflicts: list[str]


def as_group(alternatives: list[str]) -> tuple[str, ...]:
    return tuple(alternatives)


def drawn_package(name: str) -> st.SearchStrategy[Drawn]:
    needed = st.sampled_from(NAMES + MISSING)
    groups = st.lists(st.lists(needed, min_size=1, max_size=2, unique=True).map(as_group), max_size=3, unique=True)
    return st.builds(Drawn, st.just(name), groups, st.lists(st.sampled_from(NAMES), max_size=1))


def text_of(packages: Iterable[Drawn]) -> str:
    texts = []
    for package in packages:
        depends = ", ".join(" | ".join(group) for group in package.depends)
        fields = [("Depends", depends), ("Conflicts", ", ".join(package.conflicts))]
        lines = [f"Package: {package.name}", "Version: 1", "Architecture: all"]
        texts.append("\n".join([*lines, *(f"{field}: {value}" for field, value in fields if value), ""]))
    return "\n".join(texts)


def report(packages: Iterable[Drawn]) -> list[Json]:
    text = text_of(packages).encode()
    index = Index([IndexFile("drawn", in_memory(text), len(text), PACKAGES)])
    return Program().check("amd64", index, None, ["--failures", "--all-reasons"]).read()


def mended(packages: Iterable[Drawn], wrong: Wrong) -> list[Drawn]:
    """The packages without what the wrong says."""
    names = {key.names for key in wrong.keys}
    if wrong.kind == LACKS:
        return [
            p._replace(depends=[g for g in p.depends if tuple(a.split()[0] for a in g) not in names]) for p in packages
        ]
    return [p._replace(conflicts=[c for c in p.conflicts if tuple(sorted((p.name, c))) not in names]) for p in packages]


def has_one_way(found: Gathered) -> bool:
    """Whether each cause is of one wrong alone."""
    return all(len(cause) == 1 for causes in found.alike for cause in causes)


@settings(max_examples=60, deadline=None, suppress_health_check=list(HealthCheck))
@given(st.tuples(*map(drawn_package, NAMES)))
def test_freed_is_what_mending_frees(packages: tuple[Drawn, ...]) -> None:
    found = gathered(report(packages))
    for wrong in found.wrongs():
        still = {Member(p["package"], p["version"]) for p in report(mended(packages, wrong))}
        freed = len(set(wrong.broken) - still)
        assert freed <= wrong.frees <= len(wrong.broken)
        assert freed == wrong.frees or not has_one_way(found)
