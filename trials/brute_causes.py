"""The causes of the broken packages of a small index: docs/meaning.md, written anew."""
import functools
import operator
import re
from typing import NamedTuple

from brute_force import NEED_KINDS, NearMiss

SIMILAR_LIMIT = 10
SUM_LENGTH = 5


class Cause(NamedTuple):
    """What is wrong, as constraints that say different things; `frees` counts the packages that have no other cause, and `needs` are the constraints
    of those who need what is missing. Of the others each is a list of packages, near misses or names."""
    reasons: list
    frees: int
    needs: list
    hits: list
    versions: list
    present: list
    similar: list
    broken: list


def said(index, core):
    """What the cause of a core says."""
    return frozenset(index.constraints[number].says() for number in index.cause_of(core))


def causes_of(index, cores):
    """The causes of the broken places, each with its cores; of more packages first, among equals in the order in which they were found."""
    found = {}
    for core in (core for each in cores.values() for core in each):
        found.setdefault(said(index, core), index.cause_of(core))
    return sorted((gathered(index, cores, *one) for one in found.items()), key=lambda cause: -len(cause.broken))


def gathered(index, cores, says, first):
    """All of one cause: what it says, and the first constraints that were found to say so."""
    reasons = first_of_each(index.constraints[number] for number in first)
    with_it = [core for each in cores.values() for core in each if said(index, core) == says]
    wanted = [name for one in reasons for name in one.wanted]
    return Cause(
        reasons, frees(index, cores, says), needs_of(index, with_it), index.members(hits_of(reasons)), versions_of(index, with_it),
        list(near_misses(index, wanted)), similar_names(index, wanted), [index.packages[place] for place in broken_by(index, cores, says)])


def first_of_each(constraints):
    """Of constraints that say the same the first alone."""
    kept = {}
    for one in constraints:
        kept.setdefault(one.says(), one)
    return list(kept.values())


def broken_by(index, cores, says):
    return [place for place, each in cores.items() if says in [said(index, core) for core in each]]


def frees(index, cores, says):
    """How many packages have this cause and no other."""
    return sum({said(index, core) for core in each} == {says} for each in cores.values())


def needs_of(index, cores):
    """The needs among the causes of the cores, in the order of the index."""
    needs = {number for core in cores for number in index.cause_of(core) if index.constraints[number].kind in NEED_KINDS}
    return [index.constraints[number] for number in sorted(needs)]


def row_of(index, core, kinds):
    """The places of all constraints of these kinds."""
    return functools.reduce(operator.or_, (index.constraints[number].row for number in core if index.constraints[number].kind in kinds), 0)


def hits_of(reasons):
    """The places that entries of these hit."""
    return functools.reduce(operator.or_, (one.row for one in reasons if one.kind == "conflict"), 0)


def versions_of(index, cores):
    """The packages that a need of some core asks for, where that core says that there may be one version of their name."""
    places = 0
    for core in cores:
        places |= row_of(index, core, ("versions",)) & row_of(index, core, NEED_KINDS)
    return index.members(places)


def near_misses(index, wanted):
    """The packages that have one of the names, or provide it."""
    for package in index.packages:
        entries = [entry.printed() for entry in package.provided(wanted)]
        if package.name in wanted:
            yield NearMiss(package, [])
        elif entries:
            yield NearMiss(package, entries)


def is_sum(word):
    return len(word) == SUM_LENGTH and re.search("[0-9]", word) is not None


def stem(name):
    """A name without its numbers."""
    return "-".join("" if is_sum(word) else re.sub("[0-9.]", "", word) for word in name.split("-"))


def has_stem(name):
    return stem(name).strip("-") != ""


def known_names(index):
    """The names of packages and of what they provide, each once, in the order of the index."""
    names = {}
    for package in index.packages:
        for name in [package.name] + [entry.name for entry in package.provides if entry.usable()]:
            names.setdefault(name)
    return list(names)


def is_other(name, wanted):
    return name not in wanted


def similar_to(index, wanted):
    """The first names with the stem of a wanted one, itself among them, where that has a byte that is no hyphen."""
    return [name for name in known_names(index) if has_stem(wanted) and stem(name) == stem(wanted)][:SIMILAR_LIMIT]


def similar_names(index, wanted):
    """Those of all wanted names, one after the other, without these."""
    names = dict.fromkeys(name for one in wanted for name in similar_to(index, one) if is_other(name, wanted))
    return list(names)[:SIMILAR_LIMIT]
