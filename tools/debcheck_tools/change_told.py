"""Writes what changed, in the form that is asked for."""

import argparse
import json
import sys
from collections.abc import Collection
from typing import Optional

from debcheck_tools import overview, overview_text
from debcheck_tools.change import change, changed_rows
from debcheck_tools.errors import BROKEN, OK
from debcheck_tools.inputs import Inputs
from debcheck_tools.overview import Packages
from debcheck_tools.program import Json, Program
from debcheck_tools.progress import progress


def add_form(parser: argparse.ArgumentParser) -> None:
    """The words of the form."""
    parser.add_argument("--format", choices=["text", "json"], default="text", help="the form of the overview")
    parser.add_argument("--by", choices=["source", "maintainer"], help="group it by who needs what is missing")


def write_json(document: Json) -> None:
    json.dump(document, sys.stdout, indent=1)
    print()


def tell_change(
    options: argparse.Namespace,
    program: Program,
    asked: Inputs,
    earlier: Inputs,
    names: Optional[list[str]] = None,
    fresh: Collection[str] = (),
) -> int:
    """Writes what changed since the earlier state; the status says whether there is news."""
    progress.tell("asking debcheck")
    packages, was = Packages(asked), Packages(earlier)
    owner = packages.owner_of(options.by) if options.by else None
    found = change(program, asked, earlier, names, owner, fresh)
    progress.tell("looking for what is wrong")
    newly = list(changed_rows(found.newly, packages, was.names))
    further = list(changed_rows(found.further, packages, was.names))
    progress.end()
    if options.format == "json":
        more: Json = {"newly-broken": len(found.newly)}
        more |= {"mended": list(map(was.told, found.mended)), "gone": list(map(was.told, found.gone))}
        more["further"] = [overview.row_in_json(row, packages) for row in further]
        write_json(overview.in_json(asked.arch, found.rest, newly, packages, more))
    else:
        print("\n".join(overview_text.change_lines(found, newly, further, asked.what)))
    return BROKEN if found.is_news else OK
