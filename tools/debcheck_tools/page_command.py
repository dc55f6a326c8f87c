"""debcheck-archive page: static pages of suites by architectures, with since when and why each package is broken."""

import argparse
from pathlib import Path

from debcheck_tools.command_line import Commands
from debcheck_tools.errors import PROGRAM, Fault


def register(commands: Commands) -> None:
    """Adds the sub-command."""
    made = commands.add_parser(
        "page",
        help="static pages of suites by architectures, with history",
        description="Checks the cells that a configuration names, and writes their pages; see debcheck-page(5).",
    )
    made.add_argument("config", type=Path, metavar="CONFIG", help="a TOML file, as debcheck-page(5) describes it")
    made.set_defaults(work=work)


def work(options: argparse.Namespace) -> int:
    """Loads what no other command needs, and does it."""
    try:
        from debcheck_tools.page_run import write_pages
    except ModuleNotFoundError as error:
        raise Fault(PROGRAM, f"page needs {error.name}: apt-get install python3-{error.name}") from None
    status: int = write_pages(options.config)
    return status
