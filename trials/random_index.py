"""Small random indexes and their texts."""
from typing import NamedTuple

from brute_force import APARTS, ARCH, MARKING, NEEDS, OPERATORS, SPELLINGS, VERSIONS, Atom, Package


class Naming(NamedTuple):
    """Names of packages, names that are only provided, names that nobody has, and how many entries of Provides a package has at most."""
    names: list
    virtual: list
    missing: list
    provides: int


PLAIN = Naming(["a", "b", "c", "d", "e"], ["v", "w"], ["zz", "y"], 2)
# Names that differ in numbers, some of them in sums of five bytes, and two of numbers and hyphens alone.
NUMBERED = Naming(["l1", "l-2", "l1.2", "l", "m-a1b2c"], ["l3", "m-0zzzz", "w", "2-3"], ["l4", "l-3", "m-x9xxx", "m-zzzzz", "m-abcdefg1", "4-5"], 2)
MANY = Naming(["l1", "l2", "l3", "l4", "l5"], ["l%d" % number for number in range(6, 20)], ["l0", "zz"], 5)
QUALIFIERS = ["any"] * 6 + [ARCH, ARCH, "i386", "all", "Any"]
# Values of Multi-Arch. The last one is folded, which takes nothing from it.
OTHERS, FOLDED = ["same", "foreign", "no", "Allowed", "ALLOWED", "allowed same", "allowed,", "any", ""], "\n allowed"


class Maker:
    """Random packages and their text."""

    def __init__(self, chance):
        self.chance = chance
        self.naming = chance.choice([PLAIN] * 4 + [NUMBERED] * 2 + [MANY])
        self.names = self.naming.names[:chance.randint(2, len(self.naming.names))]
        self.bounded, self.missing = chance.choice([0, 0.3, 0.6, chance.random()]), chance.choice([0, 0.05, 0.2, 0.4])
        self.qualified, self.marked = chance.choice([0, 0.1, 0.3, 0.6]), chance.choice([0, 0.3, 0.6])
        self.repeated = chance.choice([0.05, 0.05, 0.2])

    def some(self, most, make):
        return [make() for _ in range(self.chance.randint(0, most))]

    def atom(self, names, operators):
        operator = self.chance.choice(operators) if self.chance.random() < self.bounded else ""
        name = self.chance.choice(self.naming.missing if self.chance.random() < self.missing else names)
        qualifier = self.chance.choice(QUALIFIERS) if self.chance.random() < self.qualified else ""
        return Atom(name, qualifier, operator, self.chance.choice(list(VERSIONS)))

    def wanted(self):
        return self.atom(self.names + self.naming.virtual, list(OPERATORS) + list(SPELLINGS))

    def group(self):
        return [self.wanted() for _ in range(self.chance.choice([1, 1, 2, 3]))]

    def multi_arch(self):
        if self.chance.random() < self.marked:
            return self.chance.choice([MARKING, MARKING, MARKING, FOLDED])
        return self.chance.choice(OTHERS) if self.chance.random() < 0.4 else ""

    def package(self):
        chance = self.chance
        return Package(
            chance.choice(self.names), chance.choice(list(VERSIONS)[:chance.randint(1, len(VERSIONS))]),
            chance.choice(["all"] * 5 + [ARCH] * 5 + ["i386"]), chance.random() < 0.1, self.multi_arch(),
            {field: self.some(most, self.group) for field, most in zip(NEEDS, (1, 3))},
            {field: self.some(2, self.wanted) if chance.random() < 0.5 else [] for field in APARTS},
            self.some(self.naming.provides, lambda: self.atom(self.naming.virtual + self.names, ["="])))

    def packages(self):
        made = []
        for _ in range(self.chance.randint(1, 9)):
            made.append(self.chance.choice(made) if made and self.chance.random() < self.repeated else self.package())
        return made

    def line(self, field, value):
        spelled = self.chance.choice([field, field, field.lower(), field.upper()])
        folded = value.replace(", ", self.chance.choice([", ", ",", ",\n ", " ,\n# a comment\n\t"]))
        return spelled + self.chance.choice([": ", ":", ":\t"]) + folded + self.chance.choice(["", " ", "\t"])

    def stanza(self, package):
        lines = [self.line("Package", package.name), self.line("Version", package.version), self.line("Architecture", package.arch)]
        if package.essential or self.chance.random() < 0.1:
            lines.append(self.line("Essential", "yes" if package.essential else self.chance.choice(["no", "Yes"])))
        if package.multi_arch or self.chance.random() < 0.05:
            lines.append(self.line("Multi-Arch", package.multi_arch))
        lists = {field: [" | ".join(atom.spelled(atom.operator) for atom in group) for group in groups] for field, groups in package.needs.items()}
        lists.update({field: [atom.spelled(atom.operator) for atom in atoms] for field, atoms in package.aparts.items()})
        lists["Provides"] = [atom.spelled(atom.operator) for atom in package.provides]
        for field, elements in lists.items():
            if elements:
                lines.append(self.line(field, ", ".join(elements) + self.chance.choice(["", "", ","])))
        self.chance.shuffle(lines)
        return "\n".join(lines + self.some(1, lambda: "X-Odd!~field: :")) + "\n"

    def text(self, packages):
        gaps = ["\n", "\n\n", " \n", "\t \n", "# between\n\n"]
        return "".join(self.stanza(package) + self.chance.choice(gaps) for package in packages)
