"""debcheck-archive sources: the sources as packages, for a pipe to debcheck."""

import argparse
import shutil
import sys

from debcheck_tools import inputs
from debcheck_tools.command_line import Commands
from debcheck_tools.errors import USAGE, Fault
from debcheck_tools.index import latest
from debcheck_tools.index_files import SOURCES
from debcheck_tools.progress import progress
from debcheck_tools.sources import Sources


def register(commands: Commands) -> None:
    about = (
        "Writes each source that builds on the architecture as a package src_NAME that depends on what its build needs."
    )
    parser = commands.add_parser("sources", help="sources as packages, for a pipe", description=about)
    parser.add_argument(
        "files", metavar="SOURCES", nargs="*", help='Sources files, compressed or not; "-": standard input'
    )
    inputs.add_suite(parser)
    inputs.add_building(parser)
    parser.set_defaults(work=work)


def work(options: argparse.Namespace) -> int:
    if options.arch is None:
        raise Fault(USAGE, "name the architecture that is built for by --arch")
    index = inputs.named(options, SOURCES, options.files)
    if options.latest:
        (index,) = latest([index])
    progress.tell("reading the sources")
    sources = Sources(index, inputs.building_of(options, options.arch))
    progress.end()
    sys.stdout.flush()
    shutil.copyfileobj(sources.index.text(), sys.stdout.buffer)
    return 0
