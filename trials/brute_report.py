"""What debcheck has to write of a small index: docs/formats.md, written anew."""
import json
from typing import NamedTuple

from brute_causes import causes_of
from brute_force import ARCH, NEED_KINDS, Index, Slip
from brute_walk import Walk, walked_values

WORDS = ("causes", "all_reasons", "why")


class Telling(NamedTuple):
    """How blocks are told, whether all causes are found, and the options that a document names."""
    explain: bool
    also: bool
    finds_all: bool
    why: bool
    options: list


def telling_of(words):
    explain = words.explain or words.all_reasons or words.why
    asked = [("explain", explain), ("failures", words.show == "failures"), ("successes", words.show == "successes"),
             ("ignore-essential", not words.essential), ("checkonly", words.only is not None), ("bg", words.background), ("since", words.since)]
    asked += [(word.replace("_", "-"), getattr(words, word)) for word in WORDS]
    return Telling(explain, words.all_reasons, words.causes, words.why, [name for name, is_asked in asked if is_asked])


class Block(NamedTuple):
    """A package with its set, None where it is broken, and the constraints of the cores of all its causes; its place is that of an index."""
    index: Index
    place: int
    members: list
    cores: list

    @property
    def package(self):
        return self.index.packages[self.place]

    def status(self):
        return "broken" if self.members is None else "ok"

    def lines(self, telling):
        yield from (" -", "  package: " + self.package.name, "  version: " + self.package.version, "  architecture: " + self.package.arch)
        yield "  status: " + self.status()
        if telling.explain and self.members is not None:
            yield from listed("installation-set", self.members)
        elif telling.explain:
            yield from self.core("why" if telling.why else "reasons", self.cores[0], telling)
            for core in self.cores[1:] if telling.also else []:
                yield from self.core("also", core, telling)
            if self.further(telling):
                yield "  further: %d" % self.further(telling)

    def core(self, title, core, telling):
        return ["  %s:" % title, *Walk(self.index, self.place, core).text] if telling.why else listed(title, core)

    def further(self, telling):
        """How many cores are found and not told."""
        return len(self.cores) - 1 if telling.finds_all and not telling.also else 0

    def value(self, telling):
        told = {**self.package.value(), "architecture": self.package.arch, "status": self.status()}
        if telling.explain and self.members is not None:
            told["installation-set"] = values(self.members)
        elif telling.explain:
            cores = [walked_values(self.index, core) if telling.why else values(core) for core in self.cores]
            told["reasons"] = cores[0]
            told.update({"also": cores[1:]} if telling.also else {"further": self.further(telling)} if self.further(telling) else {})
        return told


def wrong_line(one):
    """What is wrong: of a need its alternatives alone."""
    return "missing: " + one.relation if one.kind in NEED_KINDS else one.line()


def wrong_value(one):
    return {"kind": "missing", "relation": one.relation} if one.kind in NEED_KINDS else one.value()


def needed_line(one):
    return "%s %s: %s" % (one.package.line(), one.field, one.relation)


def needed_value(one):
    return {**one.package.value(), "field": one.field, "relation": one.relation}


def cause_lines(cause):
    yield from (" -", "  packages: %d" % len(cause.broken), "  frees: %d" % cause.frees)
    yield from listed("reasons", cause.reasons, wrong_line)
    for title, told, line in (("needed-by", cause.needs, needed_line), ("hits", cause.hits, None), ("versions", cause.versions, None),
                              ("present", cause.present, None), ("similar", cause.similar, str)):
        yield from listed(title, told, line) if told else []
    yield from listed("broken", cause.broken)


def cause_value(cause):
    return {
        "packages": len(cause.broken), "frees": cause.frees, "reasons": [wrong_value(one) for one in cause.reasons],
        "needed-by": [needed_value(one) for one in cause.needs], "hits": values(cause.hits), "versions": values(cause.versions),
        "present": values(cause.present), "similar": cause.similar, "broken": values(cause.broken)}


def listed(title, told, line=None):
    yield "  %s:" % title
    yield from ("   - " + (line(one) if line else one.line()) for one in told)


def values(told):
    return [one.value() for one in told]


class Report(NamedTuple):
    """`blocks` has those that are shown, `counts` and `lists` pairs, `causes` None where they aren't asked for."""
    telling: Telling
    blocks: list
    counts: list
    lists: list
    causes: list

    def text(self):
        lines = ["architecture: " + ARCH, "report:"] + [line for block in self.blocks for line in block.lines(self.telling)]
        lines += ["%s: %d" % pair for pair in self.counts]
        for title, packages in self.lists:
            lines += [title + ":"] + [" - " + package.line() for package in packages]
        if self.causes is not None:
            lines += ["causes: %d" % len(self.causes)] + [line for cause in self.causes for line in cause_lines(cause)]
        return "".join(line + "\n" for line in lines)

    def document(self):
        head = '{"format":2,"options":%s,"architecture":"%s","report":[\n' % (dense(self.telling.options), ARCH)
        text = head + rows(block.value(self.telling) for block in self.blocks)
        text += "]," + ",".join('"%s":%d' % pair for pair in self.counts)
        text += "".join(',"%s":%s' % (title, dense(values(packages))) for title, packages in self.lists)
        if self.causes is not None:
            text += ',"causes":[\n' + rows(map(cause_value, self.causes)) + "]"
        return text + "}\n"


def dense(value):
    return json.dumps(value, separators=(",", ":"))


def rows(objects):
    told = [dense(one) for one in objects]
    return ",\n".join(told) + ("\n" if told else "")


def broken_in(index, only):
    """The broken packages of an earlier index, of those that are asked there."""
    return [package for place, package in enumerate(index.packages[:index.foreground])
            if (only is None or package.name in only) and index.first_healthy_set(place) is None]


def amends_of(index, asked, broken, before):
    """What became of the packages that were broken before: those that are mended, and those that are gone."""
    names = lambda places: {index.packages[place].name for place in places}
    mended = [package for package in before if package.name in names(asked) - names(broken)]
    return [("mended", mended), ("gone", [package for package in before if package.name not in names(range(index.foreground))])]


def see_slip(index, only):
    """Refuses an index as a strict run does."""
    asked = index.asked(only)
    if not index.stanzas:
        raise Slip("the index is empty")
    if index.skipped == index.stanzas:
        raise Slip("no stanza is of this architecture or of all")
    if not asked:
        raise Slip("nothing is asked")


def block_of(index, place, healthy, cores):
    return Block(index, place, None if healthy is None else index.members(healthy),
                 [[index.constraints[number] for number in core] for core in cores.get(place, [])])


def counts_of(index, asked, cores, with_background):
    counts = [("stanzas", index.stanzas), ("skipped", index.skipped), ("duplicates", index.duplicates)]
    counts += [("background", len(index.packages) - index.foreground)] if with_background else []
    return counts + [("asked", len(asked)), ("broken", len(cores))]


def report_of(index, words, before=None):
    """The report under the words; how many packages are asked, and broken; and the status. `before` has the broken packages of an earlier index,
    where there is one."""
    asked = index.asked(words.only)
    healthy = {place: index.first_healthy_set(place) for place in asked}
    cores = {place: index.cores(place) for place in asked if healthy[place] is None}
    shown = [place for place in asked if words.show != ("successes" if healthy[place] is None else "failures")]
    counts, lists, told = counts_of(index, asked, cores, words.background), [], cores
    if before is not None:
        told = {place: core for place, core in cores.items() if index.packages[place].name not in {package.name for package in before}}
        shown, counts, lists = list(told), counts + [("newly-broken", len(told))], amends_of(index, asked, cores, before)
    blocks = [block_of(index, place, healthy[place], cores) for place in shown]
    report = Report(telling_of(words), blocks, counts, lists, causes_of(index, told) if words.causes else None)
    return report, len(asked), len(cores), 1 if told else 0
