"""Copies of a real index with something turned in many of its stanzas. What is turned depends on the index alone."""
import collections
import random
import re

LIBRARIES, OFTEN_NEEDED = 20, 2  # how many packages a stanza breaks in `conf20` and in `conftop2`
MOST_NEEDED = slice(200, 6000)   # of the names by how often they are needed
NEEDS = re.compile(rb"^(?:Pre-)?Depends: (.*)$", re.M)
NAME = re.compile(rb"([a-z0-9][a-z0-9+.-]+)")
VERSION = re.compile(rb"^Version: (.*)$", re.M)
SOURCE = re.compile(rb"^Source: (\S+)", re.M)

TEXTS = {
    "del1": "without one stanza in a hundred",
    "del01": "without one stanza in a thousand",
    "third": "a third of the stanzas",
    "conf20": "each package breaks 20 libraries",
    "conftop2": "each package breaks two that are often needed",
    "twover": "half of the packages in two versions",
    "ahead": "each package in the version of a suite ahead, where that has one",
}


def breaking(stanza, names):
    """The stanza with these names at the end of its Breaks."""
    if not names:
        return stanza
    lines, names = stanza.split(b"\n"), b", ".join(names)
    for place, line in enumerate(lines):
        if line.startswith(b"Breaks:"):
            lines[place] = line + b", " + names
            return b"\n".join(lines)
    return b"\n".join(lines + [b"Breaks: " + names])


def name_of(stanza):
    return stanza.split(b"\n", 1)[0][len(b"Package: "):]


def source_of(stanza):
    found = SOURCE.search(stanza)
    return found.group(1) if found else name_of(stanza)


def often_needed(stanzas, names):
    counts = collections.Counter(name for stanza in stanzas for field in NEEDS.finditer(stanza) for name in NAME.findall(field.group(1)))
    return [name for name, _ in counts.most_common(MOST_NEEDED.stop) if name in names][MOST_NEEDED.start:]


def some_of(names, most, chance):
    return chance.sample(names, min(most, len(names)))


def in_two_versions(stanzas, chance):
    for stanza in stanzas:
        yield stanza
        if chance.random() < 0.5:
            yield VERSION.sub(rb"Version: \1~old", stanza, count=1)


def in_versions_ahead(stanzas, ahead, stays=(), comes=()):
    """One stanza for each name of these: that of the suite ahead where it has the name, else the last of its own.

    What is of a source that stays is its own all the same; packages that come are taken though no stanza has their name.
    """
    chosen = {name_of(stanza): stanza for stanza in stanzas}
    known = {*chosen, *comes}
    chosen.update((name_of(stanza), stanza) for stanza in ahead if name_of(stanza) in known and source_of(stanza) not in stays)
    return list(chosen.values())


def mutations(stanzas, ahead=None, stays=(), comes=()):
    """Each name of TEXTS with its stanzas, one after another; `ahead` only where the stanzas of a suite ahead are given."""
    chance = random.Random(7)
    yield "del1", [stanza for stanza in stanzas if chance.random() >= 0.01]
    yield "del01", [stanza for stanza in stanzas if chance.random() >= 0.001]
    yield "third", [stanza for stanza in stanzas if chance.randrange(3) == 0]
    names = [name_of(stanza) for stanza in stanzas]
    libraries, chance = [name for name in names if name.startswith(b"lib")], random.Random(8)
    yield "conf20", [breaking(stanza, some_of(libraries, LIBRARIES, chance)) for stanza in stanzas]
    needed, chance = often_needed(stanzas, set(names)), random.Random(9)
    yield "conftop2", [breaking(stanza, some_of(needed, OFTEN_NEEDED, chance)) for stanza in stanzas]
    yield "twover", list(in_two_versions(stanzas, random.Random(10)))
    if ahead is not None:
        yield "ahead", in_versions_ahead(stanzas, ahead, stays, comes)
