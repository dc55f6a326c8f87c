"""The questions before a decision, each a composed index and what is newly broken in it."""

import argparse
from collections.abc import Callable, Iterable, Sequence

import apt_inst
import apt_pkg

from debcheck_tools import inputs
from debcheck_tools.change_told import add_form, tell_change
from debcheck_tools.command_line import Commands
from debcheck_tools.errors import READ, UNKNOWN, USAGE, Fault
from debcheck_tools.index import Index, architecture_of
from debcheck_tools.index_files import PACKAGES, IndexFile, in_memory
from debcheck_tools.inputs import Inputs
from debcheck_tools.program import WORKERS, Program
from debcheck_tools.stanza import Stanza


def register(commands: Commands) -> None:
    about = (
        "Puts the binaries of a source in --from into --to, takes those that it has there away, and tells what breaks."
    )
    migrate = add(
        commands, "would-migrate", about, "what a migration would break", work_migrate, "SOURCE", "source", False
    )
    upgrade_about = "Puts packages of --to in the place of those of their names in --from, and tells what breaks."
    upgrade = add(commands, "partial-upgrade", upgrade_about, "what an upgrade of some would break", work_upgrade)
    for parser in (migrate, upgrade):
        for word in ("--from", "--to"):
            tells = "index files, or with --mirror a suite"
            parser.add_argument(word, dest=word[2:] + "_", metavar="FILE", nargs="+", required=True, help=tells)
    without_about = "Takes packages out of an index and tells what breaks."
    without = add(commands, "without", without_about, "what a removal would break", work_without)
    deb_about = (
        "Puts the packages of .deb files into an index, in the place of those of their names, and tells what breaks."
    )
    debfile = add(commands, "debfile", deb_about, "what new packages would break", work_debfile, "FILE.deb")
    for parser in (without, debfile):
        parser.add_argument("--index", metavar="FILE", nargs="+", default=[], help="index files")
        parser.add_argument("--suite", metavar="S", help="a suite of the mirror, in place of index files")
        parser.add_argument("--apt", action="store_true", help="what apt of this machine has fetched, in their place")


def add(
    commands: Commands,
    name: str,
    about: str,
    tells: str,
    work: Callable[[argparse.Namespace], int],
    metavar: str = "PACKAGE",
    what: str = "packages",
    several: bool = True,
) -> argparse.ArgumentParser:
    """The parser of a question, with the words that all have."""
    parser = commands.add_parser(name, help=tells, description=about)
    if several:
        parser.add_argument(what, metavar=metavar, nargs="+")
    else:
        parser.add_argument(what, metavar=metavar)
    parser.add_argument("--mirror", metavar="DIR", help="a mirror: the folder that has dists/")
    parser.add_argument("--component", metavar="C", action="append", default=[], help="a component of it; else all")
    parser.add_argument("--bg", metavar="FILE", action="append", default=[], help="what may be used and isn't asked")
    parser.add_argument("--arch", metavar="A", help="the architecture, where the files have several")
    add_form(parser)
    parser.set_defaults(work=work)
    return parser


def state(options: argparse.Namespace, names: Sequence[str]) -> Index:
    """The index of files, or of a suite of the mirror."""
    if options.mirror is None:
        return inputs.opened(names)
    if len(names) != 1:
        raise Fault(USAGE, "with --mirror name one suite by --from, and one by --to")
    return inputs.named(argparse.Namespace(**{**vars(options), "suite": names[0], "apt": False}), PACKAGES, [])


def own_index(options: argparse.Namespace) -> Index:
    """The index of a question that has one alone."""
    return inputs.named(options, PACKAGES, options.index)


def answer(
    options: argparse.Namespace, before: Index, after: Index, more: Sequence[Index] = (), fresh: Iterable[str] = ()
) -> int:
    """Writes what is newly broken in the composed index."""
    background = inputs.opened(options.bg) if options.bg else None
    indexes = [before, *more, *([background] if background else [])]
    arch, program = architecture_of(indexes, options.arch), Program(WORKERS)
    for index in (index for index in more if index.unread):
        program.run(arch, index, None, ["--failures"])
    asked, earlier = Inputs(arch, after, background), Inputs(arch, before, background)
    return tell_change(options, program, asked, earlier, fresh=set(fresh))


def replaced(index: Index, goes: Callable[[Stanza], bool], comes: Sequence[Stanza]) -> Index:
    """An index without some stanzas, and with others behind it."""
    files = dict.fromkeys([*index.files, *(stanza.file for stanza in comes)])
    return Index(list(files), [*(stanza for stanza in index.stanzas if not goes(stanza)), *comes])


def named_stanzas(index: Index, names: Iterable[str], arch: str | None) -> list[Stanza]:
    """The stanzas of these names, each of which has to be there."""
    wanted = set(names)
    found = [
        stanza
        for stanza in index.stanzas
        if stanza.package in wanted and (arch is None or stanza.architecture in (arch, "all"))
    ]
    unknown = sorted(wanted - {stanza.package for stanza in found})
    if unknown:
        raise Fault(UNKNOWN, f"{', '.join(file.name for file in index.files)}: no package is called {unknown[0]!r}")
    return found


def work_migrate(options: argparse.Namespace) -> int:
    start, goal = state(options, options.from_), state(options, options.to_)
    comes = [stanza for stanza in start.stanzas if stanza.source_name == options.source]
    if not comes:
        files = ", ".join(file.name for file in start.files)
        raise Fault(UNKNOWN, f"{files}: no package is built from a source {options.source!r}")
    newest = comes[0].source_version
    for stanza in comes:
        newest = stanza.source_version if apt_pkg.version_compare(stanza.source_version, newest) > 0 else newest
    comes = [stanza for stanza in comes if apt_pkg.version_compare(stanza.source_version, newest) == 0]
    source: str = options.source
    return answer(options, goal, replaced(goal, lambda stanza: stanza.source_name == source, comes), [start])


def work_upgrade(options: argparse.Namespace) -> int:
    start, goal = state(options, options.from_), state(options, options.to_)
    comes = named_stanzas(goal, options.packages, options.arch)
    names = set(options.packages)
    return answer(options, start, replaced(start, lambda stanza: stanza.package in names, comes), [goal])


def work_without(options: argparse.Namespace) -> int:
    index = own_index(options)
    named_stanzas(index, options.packages, options.arch)
    names = set(options.packages)
    return answer(options, index, replaced(index, lambda stanza: stanza.package in names, []))


def work_debfile(options: argparse.Namespace) -> int:
    index = own_index(options)
    debs = Index([control_of(path) for path in options.packages])
    names = {stanza.package for stanza in debs.stanzas}
    return answer(options, index, replaced(index, lambda stanza: stanza.package in names, debs.stanzas), [debs], names)


def control_of(path: str) -> IndexFile:
    """The control data of a .deb file, as an index."""
    try:
        with open(path, "rb") as file:
            text = apt_inst.DebFile(file).control.extractdata("control").rstrip(b"\n") + b"\n\n"
    except OSError as fault:
        raise Fault(READ, f"{path}: {fault.strerror or fault}") from None
    except (LookupError, apt_pkg.Error):
        raise Fault(READ, f"{path}: is no binary package, or was cut off") from None
    return IndexFile(path, in_memory(text), len(text), PACKAGES)
