"""One run of the pages: what changed is checked, all is kept in one transaction, and the pages are written."""

import fcntl
import os
import sqlite3
import subprocess
import sys
from collections.abc import Iterator, Mapping
from contextlib import contextmanager
from datetime import datetime, timezone
from pathlib import Path

from debcheck_tools.errors import OK, PROGRAM, WRITE, Fault
from debcheck_tools.page_cells import Asked, digest_of, groups, plans
from debcheck_tools.page_check import check_group, index_of_file, read_shared
from debcheck_tools.page_config import Config, read
from debcheck_tools.page_history import Cell, History, NoAnswer, Outcome, Unchanged
from debcheck_tools.page_names import cell_name
from debcheck_tools.page_parallel import processors, side_by_side
from debcheck_tools.page_views import Views
from debcheck_tools.page_write import check_place, write
from debcheck_tools.program import find

EPOCH = "SOURCE_DATE_EPOCH"


def write_pages(path: Path) -> int:
    """Checks and writes what a configuration names; the status is that of the first cell without an answer."""
    config = read(path)
    check_place(config.output)
    with alone(config.history):
        try:
            return run(config)
        except sqlite3.Error as error:
            raise Fault(WRITE, f"{config.history}: the history can't be kept: {error}") from error


@contextmanager
def alone(history: Path) -> Iterator[None]:
    """Lets one run at a time have the history."""
    lock = Path(f"{history}.lock")
    try:
        lock.parent.mkdir(parents=True, exist_ok=True)
        file = open(lock, "w", encoding="utf-8")
    except OSError as error:
        raise Fault(WRITE, f"{error.filename or lock}: {error.strerror}") from error
    with file:
        try:
            fcntl.flock(file, fcntl.LOCK_EX | fcntl.LOCK_NB)
        except BlockingIOError:
            raise Fault(WRITE, f"{history}: another run has it; wait until that ends") from None
        yield


def now() -> str:
    """The moment of this run, or the one that SOURCE_DATE_EPOCH names."""
    named = os.environ.get(EPOCH, "")
    moment = datetime.fromtimestamp(int(named), timezone.utc) if named.isdigit() else datetime.now(timezone.utc)
    return f"{moment:%Y-%m-%dT%H:%M:%SZ}"


def run(config: Config) -> int:
    """One run, alone with the history."""
    program = find()
    version = version_of(program)
    outcomes = check(config, program)
    history = History(config.history)
    history.record(now(), outcomes, config.days)
    views = Views(history, list(outcomes))
    count = write(config, history, views, version)
    history.close()
    faults = [(cell, outcome) for cell, outcome in outcomes.items() if isinstance(outcome, NoAnswer)]
    for cell, outcome in faults:
        print(f"debcheck-archive: {cell_name(cell)}: {outcome.told}", file=sys.stderr)
    unchanged = sum(isinstance(outcome, Unchanged) for outcome in outcomes.values())
    told = f"{len(outcomes)} cells, {unchanged} of them unchanged, {len(faults)} without an answer"
    print(f"{told}; {sum(len(view.new) for view in views.cells)} newly broken; {count} files in {config.output}")
    return faults[0][1].status if faults else OK


def version_of(program: str) -> str:
    """What the program calls itself."""
    try:
        return subprocess.run([program, "--version"], stdout=subprocess.PIPE, text=True, check=True).stdout.strip()
    except (OSError, subprocess.CalledProcessError) as error:
        raise Fault(PROGRAM, f"{program} can't be run: {error}") from error


def check(config: Config, program: str) -> Mapping[Cell, Outcome]:
    """The outcome of each cell, in the order of the matrix."""
    history = History(config.history)
    named = plans(config, history.cells())
    found: dict[Cell, Outcome] = {}
    asked: list[Asked] = []
    for plan in named:
        try:
            digest = digest_of(plan, program)
        except Fault as fault:
            found[plan.cell] = NoAnswer(fault.status, fault.line)
            continue
        if digest == history.digest(plan.cell):
            found[plan.cell] = Unchanged()
        else:
            asked.append(Asked(plan, digest, history.broken_names(plan.cell)))
    # No process that is forked below has a part of the history's file.
    history.close()
    read_shared(asked)
    for job, outcomes in side_by_side(check_group, groups(asked), processors()):
        fallen = NoAnswer(PROGRAM, "its check was killed: there may be too little memory")
        for number, one in enumerate(job):
            found[one.plan.cell] = outcomes[number] if outcomes else fallen
    index_of_file.cache_clear()
    return {plan.cell: found[plan.cell] for plan in named}
