"""What debcheck has to find in a small index, by trying all sets of packages: docs/meaning.md, written anew."""
from typing import NamedTuple

ARCH = "amd64"
# Versions with their rank: equal ranks are equal versions in another spelling.
VERSIONS = {"0~~": 0, "0~1": 1, "1~rc1": 2, "1": 3, "1-0": 3, "1.9": 4, "1.10": 5, "1.18446744073709551616": 6, "1:0": 7}
OPERATORS = {
    "<<": lambda one, two: one < two, "<=": lambda one, two: one <= two, "=": lambda one, two: one == two,
    ">=": lambda one, two: one >= two, ">>": lambda one, two: one > two,
}
SPELLINGS = {"<": "<=", ">": ">="}
NEEDS, APARTS = ("Pre-Depends", "Depends"), ("Conflicts", "Breaks")
NEED_KINDS = ("missing", "depends")
MARKING = "allowed"


class Unknown(Exception):
    """A name that is asked for, and that no package of the foreground has."""


class Slip(Exception):
    """Why nothing is asked, where that is a fault."""


class Atom(NamedTuple):
    name: str
    qualifier: str
    operator: str
    version: str

    def usable(self):
        return self.qualifier in ("", "any", ARCH)

    def spelled(self, operator):
        qualifier = ":" + self.qualifier if self.qualifier else ""
        return self.name + qualifier + (" (%s %s)" % (operator, self.version) if operator else "")

    def printed(self):
        return self.spelled(SPELLINGS.get(self.operator, self.operator))

    def bound_holds(self, version):
        operator = SPELLINGS.get(self.operator, self.operator)
        return OPERATORS[operator](VERSIONS[version], VERSIONS[self.version])


class Package(NamedTuple):
    """`needs` has a list of groups for each field of NEEDS, `aparts` a list of atoms for each of APARTS."""
    name: str
    version: str
    arch: str
    essential: bool
    multi_arch: str
    needs: dict
    aparts: dict
    provides: list

    def meets(self, atom):
        if not atom.usable():
            return False
        if self.name == atom.name and (not atom.operator or atom.bound_holds(self.version)):
            return True
        return any(not atom.operator or (entry.operator and atom.bound_holds(entry.version)) for entry in self.provided({atom.name}))

    def meets_as_a_need(self, atom):
        return self.meets(atom) and (atom.qualifier != "any" or self.has_mark())

    def has_mark(self):
        return self.multi_arch.strip(" \t\n") == MARKING

    def provided(self, names):
        return [entry for entry in self.provides if entry.name in names and entry.usable()]

    def line(self):
        return "%s %s" % (self.name, self.version)

    def value(self):
        return {"package": self.name, "version": self.version}


class Constraint(NamedTuple):
    """A demand on sets of packages. `row` has the places (a bit mask) that meet a need, that an entry hits, or that have a name; `kind` is the word
    that begins its line, and parts the needs that no package meets from the others; `group` has the alternatives of a need."""
    kind: str
    row: int
    name: str = ""
    place: int = -1
    number: int = 0
    package: Package = None
    field: str = ""
    relation: str = ""
    group: tuple = ()

    @property
    def wanted(self):
        """The names of the alternatives, in their order."""
        return tuple(atom.name for atom in self.group)

    def holds(self, chosen):
        if self.kind == "essential":
            return chosen & self.row != 0
        if self.kind == "versions":
            return bin(chosen & self.row).count("1") <= 1
        if not chosen >> self.place & 1:
            return True
        return (chosen & self.row == 0) == (self.kind == "conflict")

    def says(self):
        """What it says is wrong, whoever needs it."""
        if self.kind in NEED_KINDS:
            return "need", self.relation
        return (self.kind, self.name) if self.package is None else (self.kind, self.place, self.number)

    def line(self):
        if self.package is None:
            return "%s: %s" % (self.kind, self.name)
        return "%s: %s %s: %s" % (self.kind, self.package.line(), self.field, self.relation)

    def value(self):
        if self.package is None:
            return {"kind": self.kind, "name": self.name}
        return {"kind": self.kind, **self.package.value(), "field": self.field, "relation": self.relation}


class NearMiss(NamedTuple):
    """`provides` is empty where the package has the name itself."""
    package: Package
    provides: list

    def line(self):
        return self.package.line() + (" (provides %s)" % ", ".join(self.provides) if self.provides else "")

    def value(self):
        return {**self.package.value(), **({"provides": self.provides} if self.provides else {})}


class Index:
    """The packages of a text and of a background behind it, and for each set of them (a bit mask) the constraints that fail in it (a bit mask)."""

    def __init__(self, text, background, essential):
        stanzas = text + background
        self.packages, self.foreground = [], 0
        for number, package in enumerate(stanzas):
            if is_kept(package) and not any((package.name, package.version) == (other.name, other.version) for other in self.packages):
                self.packages.append(package)
                self.foreground += number < len(text)
        kept = sum(map(is_kept, stanzas))
        self.stanzas, self.skipped, self.duplicates = len(stanzas), len(stanzas) - kept, kept - len(self.packages)
        self.constraints = list(self.all_constraints(essential))
        self.failing = [self.mask(number for number, one in enumerate(self.constraints) if not one.holds(chosen)) for chosen in range(1 << len(self.packages))]

    def mask(self, numbers):
        return sum(1 << number for number in numbers)

    def places(self, test):
        return self.mask(place for place, package in enumerate(self.packages) if test(place, package))

    def all_constraints(self, essential):
        """Each constraint, in the order of the list."""
        names = list(dict.fromkeys(package.name for package in self.packages))
        marked = {package.name for package in self.packages if package.essential and essential}
        rows = {name: self.places(lambda _, other: other.name == name) for name in names}
        yield from (Constraint("essential", rows[name], name) for name in names if name in marked)
        for place, package in enumerate(self.packages):
            yield from self.needs_of(place, package)
            yield from self.entries_of(place, package)
        yield from (Constraint("versions", rows[name], name) for name in names)

    def needs_of(self, place, package):
        for number, (field, group) in enumerate((field, group) for field in NEEDS for group in package.needs[field]):
            row = self.places(lambda _, other: any(other.meets_as_a_need(atom) for atom in group))
            relation = " | ".join(atom.printed() for atom in group)
            yield Constraint("depends" if row else "missing", row, "", place, number, package, field, relation, tuple(group))

    def entries_of(self, place, package):
        for number, (field, atom) in enumerate((field, atom) for field in APARTS for atom in package.aparts[field]):
            row = self.places(lambda other_place, other: other_place != place and other.meets(atom))
            yield Constraint("conflict", row, "", place, number, package, field, atom.printed())

    def asked(self, only):
        """The places of the foreground that have a listed name; all of it where there is no list."""
        known = [package.name for package in self.packages[:self.foreground]]
        for name in only or []:
            if name not in known:
                raise Unknown(name)
        return [place for place, name in enumerate(known) if only is None or name in only]

    def first_healthy_set(self, place):
        """The first healthy set with a place; of two sets the one that lacks the least number in which they differ is before the other."""
        count = len(self.packages)
        healthy = [chosen for chosen, failing in enumerate(self.failing) if chosen >> place & 1 and not failing]
        return min(healthy, key=lambda chosen: [chosen >> number & 1 for number in range(count)], default=None)

    def members(self, chosen):
        return [package for place, package in enumerate(self.packages) if chosen >> place & 1]

    def first_core(self, place, out):
        """The first constraints, none of them taken out, that fail together in each set with a place; None where some set meets all that are left."""
        failing = [self.failing[chosen] for chosen in range(1 << len(self.packages)) if chosen >> place & 1]
        core = (1 << len(self.constraints)) - 1 & ~out
        if not all(row & core for row in failing):
            return None
        for number in range(len(self.constraints)):
            without = core & ~(1 << number)
            if all(row & without for row in failing):
                core = without
        return [number for number in range(len(self.constraints)) if core >> number & 1]

    def cores(self, place):
        """The cores of all causes: the next is the first core of the constraints without the causes so far, as long as these admit no set with the place."""
        found, out = [], 0
        while (core := self.first_core(place, out)) is not None:
            found.append(core)
            out |= self.taken_out(core)
        return found

    def taken_out(self, core):
        """What is taken out of the constraints behind a core."""
        return self.mask(self.cause_of(core))

    def cause_of(self, core):
        """A core without the needs that some package meets."""
        return [number for number in core if self.constraints[number].kind != "depends"]


def is_kept(package):
    return package.arch in ("all", ARCH)
