"""A core as it is walked from its package: docs/formats.md, written anew."""
from brute_causes import near_misses, similar_names
from brute_force import NEED_KINDS

DEEPEST = 20


def bits(row):
    return [place for place in range(row.bit_length()) if row >> place & 1]


class Walk:
    """The lines of a walk; `told` has the places that were told so far, and `coming` those that the core brings."""

    def __init__(self, index, place, core):
        self.index, self.core = index, core
        self.told, self.text, self.coming = set(), [], 1 << place
        for one in core:
            self.coming |= brought(one)
        self.begin(place)
        for kind in ("essential", "versions"):
            for one in core:
                if one.kind == kind:
                    self.tell(0, one)
        for one in core:
            if one.package is not None:
                self.begin(one.place)

    def write(self, depth, text):
        self.text.append("  " * depth + "   - " + text)

    def begin(self, place):
        if place not in self.told:
            self.package(0, place, [])

    def package(self, depth, place, entries):
        """A package that isn't told yet, and what the core says of it."""
        own = [one for one in self.core if one.package is not None and one.place == place]
        if entries or not own:
            self.write(depth, self.index.packages[place].line() + provided(entries))
        self.told.add(place)
        for one in own:
            self.tell(depth, one)

    def meet(self, depth, place, one):
        """A package that answers a constraint."""
        entries = met_by(self.index.packages[place], one)
        if place in self.told:
            self.write(depth, self.index.packages[place].line() + provided(entries) + above(True))
        else:
            self.package(depth, place, entries)

    def tell(self, depth, one):
        """A constraint, and under it the packages that it brings, where one of them isn't told yet."""
        places = bits(brought(one))
        self.write(depth, self.says(one, places))
        if not self.told.issuperset(places):
            deeper = depth + (len(places) > 1 and depth < DEEPEST)
            for place in places:
                self.meet(deeper, place, one)

    def says(self, one, places):
        seen = above(self.told.issuperset(places))
        if one.kind == "essential":
            return "essential: " + one.name + seen
        if one.kind == "versions":
            return "versions: " + self.seen(bits(one.row & self.coming))
        asked = "%s %s: %s" % (one.package.line(), one.field, one.relation)
        if one.kind == "missing":
            near = [miss.line() for miss in near_misses(self.index, one.wanted)]
            return asked + " missing" + listed("; present: ", near) + listed("; similar: ", similar_names(self.index, one.wanted))
        hits = bits(one.row & self.coming) if one.kind == "conflict" else []
        return asked + (" hits " + self.seen(hits) if hits else seen if one.kind in NEED_KINDS else "")

    def seen(self, places):
        """Packages, with a word behind those that are told already."""
        return ", ".join(self.index.packages[place].line() + above(place in self.told) for place in places)


def brought(one):
    """The places that answer a need, or have an essential name."""
    return one.row if one.kind in ("essential", "depends") else 0


def met_by(package, one):
    """The first entry of Provides that meets an alternative of the group, where the package's own name and version meet none."""
    plain = package._replace(provides=[])
    if any(plain.meets_as_a_need(atom) for atom in one.group):
        return []
    alone = package._replace(name="")
    return [entry.printed() for entry in package.provides if any(alone._replace(provides=[entry]).meets_as_a_need(atom) for atom in one.group)][:1]


def provided(entries):
    return " (provides %s)" % ", ".join(entries) if entries else ""


def listed(title, texts):
    return title + ", ".join(texts) if texts else ""


def above(is_told):
    return " (above)" if is_told else ""


def walked_values(index, core):
    """The constraints of a core in JSON, each with the packages that it speaks of."""
    return [{**one.value(), **walked_member(index, one)} for one in core]


def walked_member(index, one):
    packages = index.packages
    if one.kind == "depends":
        told = [(packages[place], met_by(packages[place], one)) for place in bits(one.row)]
        return {"met-by": [{**package.value(), **({"provides": entries} if entries else {})} for package, entries in told]}
    if one.kind == "missing":
        near = [miss.value() for miss in near_misses(index, one.wanted)]
        return {"alternatives": one.relation.split(" | "), "present": near, "similar": similar_names(index, one.wanted)}
    title = {"conflict": "hits", "versions": "versions"}.get(one.kind)
    return {title: [packages[place].value() for place in bits(one.row)]} if title else {}
