"""What of an installation set the package itself leads to, and not the essential packages alone."""

import functools
from collections.abc import Iterable, Mapping

import apt_pkg

from debcheck_tools.dose_chains import Member
from debcheck_tools.dose_report import Own
from debcheck_tools.errors import DATA, Fault

Atom = tuple[str, str, str]


@functools.lru_cache(maxsize=None)
def groups(relations: str) -> list[list[Atom]]:
    """The groups of alternatives of a field, without qualifiers."""
    try:
        found: list[list[Atom]] = apt_pkg.parse_depends(relations, True)
        return found
    except ValueError:
        raise Fault(DATA, f"apt can't read the relations {relations}") from None


def meets(member: Member, own: Own, atom: Atom) -> bool:
    """Whether a package has an alternative's name, or provides it, in a version that fits."""
    name, bound, operator = atom
    named = [member] + [(provided, version) for ((provided, version, _),) in groups(own.provides)]
    return any(
        one == name and (not operator or version != "" and bool(apt_pkg.check_dep(version, operator, bound)))
        for one, version in named
    )


def cone(root: Member, chosen: Iterable[Member], known: Mapping[Member, Own]) -> list[Member]:
    """The members, in their order, that a way over dependencies leads to from the root."""
    members = list(chosen)
    by_name: dict[str, list[Member]] = {}
    for member in members:
        provided = [name for ((name, _, _),) in groups(known[member].provides)]
        for name in {member[0], *provided}:
            by_name.setdefault(name, []).append(member)
    met, waiting = {root}, [root]
    while waiting:
        own = known[waiting.pop()]
        for atom in (atom for group in groups(own.pre_depends) + groups(own.depends) for atom in group):
            for member in by_name.get(atom[0], ()):
                if member not in met and meets(member, known[member], atom):
                    met.add(member)
                    waiting.append(member)
    return [member for member in members if member in met]
