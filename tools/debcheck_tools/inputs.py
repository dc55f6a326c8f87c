"""The words that name files, and the indexes that they stand for."""

import argparse
from collections.abc import Sequence
from dataclasses import dataclass
from typing import Optional

from debcheck_tools import mirror
from debcheck_tools.errors import USAGE, Fault
from debcheck_tools.index import Index, architecture_of, joined, latest
from debcheck_tools.index_files import PACKAGES, SOURCES, open_index
from debcheck_tools.progress import progress
from debcheck_tools.sources import Building, Sources, all_of
from debcheck_tools.tag_file import native


@dataclass
class Inputs:
    """What is asked about: `index` over `background`; where sources are asked, `index` is that of `sources`.

    `building` has of each binary name the sources that build it, where sources are given.
    """

    arch: str
    index: Index
    background: Optional[Index]
    sources: Optional[Sources] = None
    building: Optional[dict[str, list[str]]] = None
    earlier: Optional["Inputs"] = None

    @property
    def what(self) -> str:
        """What is asked about, in a word."""
        return "sources" if self.sources else "packages"


def add_files(parser: argparse.ArgumentParser) -> None:
    """The words of the files that are asked about."""
    parser.add_argument(
        "files", metavar="FILE", nargs="*", help='Packages files, compressed or not; "-": standard input'
    )
    add_suite(parser)
    parser.add_argument("--bg", metavar="FILE", action="append", default=[], help="what may be used and isn't asked")


def add_suite(parser: argparse.ArgumentParser) -> None:
    """The words of what stands in the place of files, and of which part of it counts."""
    files = parser.add_argument_group("in place of files, and which part of them")
    files.add_argument("--mirror", metavar="DIR", help="a mirror: the folder that has dists/")
    files.add_argument("--suite", metavar="S", help="a suite of the mirror")
    files.add_argument("--component", metavar="C", action="append", default=[], help="a component of it; else all")
    files.add_argument("--apt", action="store_true", help="what apt of this machine has fetched")
    files.add_argument("--arch", metavar="A", help="the architecture, where the files have several")
    files.add_argument("--latest", action="store_true", help="of each name the newest version alone")


def add_sources(parser: argparse.ArgumentParser) -> None:
    """The words about sources."""
    sources = parser.add_argument_group("sources")
    for word, tells in (
        ("--sources", "ask whether these can be built; without FILE those of the mirror or of apt"),
        ("--built-by", "mark what no source of these builds any more; without FILE the same"),
    ):
        sources.add_argument(word, metavar="FILE", nargs="*", action="extend", help=tells)
    add_building(parser)


def add_building(parser: argparse.ArgumentParser) -> None:
    """How sources are to be built."""
    sources = parser.add_argument_group("how sources are built")
    sources.add_argument("--profiles", metavar="P,..", default="", help="build profiles, such as nocheck,nodoc")
    sources.add_argument("--no-indep", action="store_true", help="without Build-Depends-Indep")
    sources.add_argument("--no-arch", action="store_true", help="without Build-Depends-Arch")
    sources.add_argument("--first-alternative", action="store_true", help="of alternatives those of the first name")


def add_since(parser: argparse.ArgumentParser) -> None:
    """The words of an earlier state."""
    since = parser.add_argument_group("change")
    since.add_argument(
        "--since", metavar="FILE", nargs="+", action="extend", help="the earlier files, with --sources those of sources"
    )
    since.add_argument(
        "--since-bg", metavar="FILE", nargs="+", action="extend", help="what could be used then; else what can be now"
    )


def opened(names: Sequence[str], kind: str = PACKAGES, may_be_empty: bool = False) -> Index:
    files = []
    for name in names:
        progress.tell(f"reading {name}")
        files.append(open_index(name, kind, may_be_empty))
    return Index(files)


def named(options: argparse.Namespace, kind: str, files: Sequence[str]) -> Index:
    """The index of the files, of the mirror's suite or of apt, whichever is named."""
    ways = [bool(files), options.mirror is not None, options.apt]
    if sum(ways) != 1:
        raise Fault(
            USAGE, "name index files, or --mirror DIR --suite S, or --apt" + (", one of them" if any(ways) else "")
        )
    if files:
        return opened(files, kind)
    if options.apt:
        return opened(mirror.apt_files(kind, options.arch or native()), kind, may_be_empty=True)
    if options.suite is None:
        raise Fault(USAGE, "--mirror needs --suite S")
    suite = mirror.suite(options.mirror, options.suite)
    if kind == PACKAGES and options.arch is None:
        if len(suite.architectures) != 1:
            raise Fault(
                USAGE, f"{suite.folder} has several architectures; name one by --arch: {', '.join(suite.architectures)}"
            )
        options.arch = suite.architectures[0]
    return opened(suite.files(kind, options.arch or "", options.component), kind, may_be_empty=True)


def read(options: argparse.Namespace) -> Inputs:
    """The indexes of a command line."""
    index = named(options, PACKAGES, options.files)
    background = opened(options.bg) if options.bg else None
    both = [index] if background is None else [index, background]
    arch = options.arch or (native() if options.apt else None)
    inputs = Inputs(architecture_of(both, arch), index, background)
    if options.latest:
        progress.tell("looking for the newest versions")
        inputs.index, *rest = latest(both, inputs.arch)
        inputs.background = rest[0] if rest else None
    if options.built_by is not None or options.sources is not None:
        read_sources(options, inputs)
    if options.since:
        inputs.earlier = read_earlier(options, inputs)
    elif options.since_bg:
        raise Fault(USAGE, "--since-bg needs --since")
    return inputs


def read_earlier(options: argparse.Namespace, now: Inputs) -> Inputs:
    """The earlier state, of the same architecture, and over the same background where none of its own is named."""
    index = opened(options.since, SOURCES if now.sources else PACKAGES)
    background = opened(options.since_bg) if options.since_bg else now.background
    packages = [part for part in (None if now.sources else index, background) if part is not None]
    architecture_of(packages, now.arch)
    if options.latest:
        index, *rest = latest([index]) if now.sources else latest(packages, now.arch)
        background = latest([background], now.arch)[0] if now.sources and background else rest[0] if rest else None
    if now.sources:
        sources = Sources(index, now.sources.building)
        return Inputs(now.arch, sources.index, background, sources)
    return Inputs(now.arch, index, background)


def read_sources(options: argparse.Namespace, inputs: Inputs) -> None:
    """Puts the sources in the place of the packages, where they are asked, and notes what they build."""
    texts = []
    for files in (options.sources, options.built_by):
        if files is not None:
            texts.append(opened(files, SOURCES) if files else named(options, SOURCES, []))
    binaries: dict[str, list[str]] = {}
    for stanza in (stanza for text in texts for stanza in all_of(latest([text])[0])):
        for name in () if stanza.is_text_alone else stanza.building[0].replace(",", " ").split():
            binaries.setdefault(name, []).append(stanza.package)
    inputs.building = binaries
    if options.sources is not None:
        asked = latest(texts[:1])[0] if options.latest else texts[0]
        inputs.sources = Sources(asked, building_of(options, inputs.arch))
        inputs.background = joined([inputs.index] if inputs.background is None else [inputs.index, inputs.background])
        inputs.index = inputs.sources.index


def building_of(options: argparse.Namespace, arch: str) -> Building:
    profiles = [profile for profile in options.profiles.split(",") if profile]
    return Building(arch, profiles, not options.no_indep, not options.no_arch, options.first_alternative)
