"""debcheck-archive check: which packages of the files can't be installed, or which sources can't be built."""

import argparse
import difflib
import json
import os
import sys
from collections.abc import Iterator

from debcheck_tools import inputs, overview, overview_text
from debcheck_tools.change import WORDS
from debcheck_tools.change_told import add_form, tell_change, write_json
from debcheck_tools.command_line import Commands
from debcheck_tools.errors import UNKNOWN, USAGE, Fault
from debcheck_tools.inputs import Inputs
from debcheck_tools.near import provided
from debcheck_tools.overview import Packages
from debcheck_tools.program import WORKERS, Json, Program
from debcheck_tools.progress import progress
from debcheck_tools.sources import PREFIX
from debcheck_tools.wrongs import Member, gathered

SHOWN = ("explain", "failures", "successes", "causes", "all-reasons", "why")


def register(commands: Commands) -> None:
    about = (
        "Tells what is wrong, the most useful thing to mend first; or, with --report, passes the program's report on."
    )
    parser = commands.add_parser(
        "check", help="what can't be installed, or built, and what to mend first", description=about
    )
    inputs.add_files(parser)
    inputs.add_sources(parser)
    inputs.add_since(parser)
    add_form(parser)
    parser.add_argument("--report", choices=["text", "json"], help="the program's report in place of the overview")
    parser.add_argument("--checkonly", metavar="NAME,..", help="ask about these names alone")
    parser.add_argument("--ignore-essential", action="store_true", help="let no name be essential")
    report = parser.add_argument_group("with --report", "the program's words of these names")
    for word in SHOWN:
        report.add_argument(f"--{word}", action="store_true")
    parser.set_defaults(work=work)


def work(options: argparse.Namespace) -> int:
    words = [f"--{word}" for word in SHOWN if getattr(options, word.replace("-", "_"))]
    if words and not options.report:
        raise Fault(USAGE, f"{words[0]} needs --report text or --report json: the overview doesn't have it")
    see_commas(options)
    program = Program([*WORKERS, "--ignore-essential"] if options.ignore_essential else WORKERS)
    asked = inputs.read(options)
    names = names_of(options, asked)
    progress.tell("asking debcheck")
    if options.report == "text":
        status, out = program.run(asked.arch, asked.index, asked.background, words, names)
        progress.end()
        sys.stdout.buffer.write(asked.sources.in_text(out.read()) if asked.sources else out.read())
        return status
    if options.report == "json":
        report = program.check(asked.arch, asked.index, asked.background, words, names)
        packages = Packages(asked)
        shown = [told(package, packages) for package in report.packages()]
        progress.end()
        write_report(report.rest, shown)
        return report.status
    if asked.earlier:
        return tell_change(options, program, asked, asked.earlier, names)
    packages = Packages(asked)
    owner = packages.owner_of(options.by) if options.by else None
    report = program.check(asked.arch, asked.index, asked.background, WORDS, names)
    progress.tell("looking for what is wrong")
    rows = list(overview.rows(gathered(report.packages(), owner), packages))
    progress.end()
    if options.format == "json":
        write_json(overview.in_json(asked.arch, report.rest, rows, packages))
    else:
        print("\n".join(overview_text.lines(report.rest, rows, asked.what)))
    return report.status


def see_commas(options: argparse.Namespace) -> None:
    """Refuses names that blanks part, which would be taken for files."""
    lost = [name for name in options.files if options.checkonly and name != "-" and not os.path.exists(name)]
    if lost:
        raise Fault(USAGE, f"{lost[0]}: there is no such file; put commas between the names of --checkonly")


def names_of(options: argparse.Namespace, asked: Inputs) -> list[str] | None:
    """The names that are asked about, each of which has to be there."""
    if options.checkonly is None:
        return None
    front = PREFIX if asked.sources else ""
    known = {stanza.package for stanza in asked.index.stanzas}
    named: list[str] = options.checkonly.replace(",", " ").split()
    for name in named:
        if front + name not in known:
            files = ", ".join(file.name for file in asked.index.files)
            what = "source" if front else "package"
            raise Fault(UNKNOWN, f"{files}: no {what} is called {name!r}{instead(name, front, known, asked)}")
    if not named:
        raise Fault(USAGE, "--checkonly names nothing")
    return [front + name for name in named]


def instead(name: str, front: str, known: set[str], asked: Inputs) -> str:
    """Who provides a name that isn't there, or what is like it."""
    providers = [one.package for one in asked.index.own(asked.arch) if name in (other for other, _ in provided(one))]
    if providers:
        return f"; it is provided by {', '.join(providers[:3])}"
    near = difflib.get_close_matches(front + name, known, 3, 0.7)
    return f"; similar: {', '.join(other.removeprefix(front) for other in near)}" if near else ""


def told(package: Json, packages: Packages) -> Json:
    """A package of the report with its source and file, and with reasons by the fields that asked."""
    member = Member(package["package"], package["version"])
    more: Json = {**package, **packages.told(member), "file": packages.file_of(member)}
    for key in ("reasons", "also"):
        if key in package:
            cores = package[key] if key == "also" else [package[key]]
            turned = [[packages.reason(line) for line in core] for core in cores]
            more[key] = turned if key == "also" else turned[0]
    return more


def write_report(rest: Json, shown: list[Json]) -> None:
    """The program's document, each package on a line of its own."""
    head = {key: rest[key] for key in ("format", "options", "architecture")}
    tail = {key: value for key, value in rest.items() if key not in head}
    sys.stdout.writelines(
        parts(json.dumps(head)[:-1], [json.dumps(package) for package in shown], json.dumps(tail)[1:])
    )


def parts(head: str, packages: list[str], tail: str) -> Iterator[str]:
    yield f'{head}, "report":[\n'
    yield ",\n".join(packages) + ("\n" if packages else "")
    yield f"],{tail}\n"
