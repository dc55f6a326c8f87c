"""dose-debcheck and dose-builddebcheck: they ask debcheck, and tell its answer as dose does."""

import argparse
import gc
import os
import subprocess
import sys
import time
from collections.abc import Sequence

from debcheck_tools.dose_answer import Answer
from debcheck_tools.dose_inputs import Inputs
from debcheck_tools.dose_options import parsed
from debcheck_tools.dose_words import DEBCHECK
from debcheck_tools.errors import OK, UNKNOWN, Fault, ended, tell
from debcheck_tools.program import Program, Report, find

# The version of dose whose words and form these are.
DOSE = "7.0.0"


class Say:
    """Lines on standard error, as --quiet and --verbose allow them."""

    def __init__(self, options: argparse.Namespace) -> None:
        self.options = options

    def __call__(self, kind: str, label: str, text: str) -> None:
        """Information is of the kind I, a warning of W."""
        if not self.options.quiet and (kind == "W" or self.options.verbose):
            tell(f"({kind}){label}: {text}")


def program_words(options: argparse.Namespace, explains: bool) -> list[str]:
    """The program's words: it shows what is told or counted here, and explains it where that is asked for."""
    words = ["--format", "json", "--workers", str(min(len(os.sched_getaffinity(0)), 64))]
    by_version = any(selector.operator for selector in options.checkonly)
    tells_broken = options.failures or options.summary or by_version or not options.successes
    tells_ok = options.successes or by_version
    if not (tells_ok and tells_broken):
        words.append("--failures" if tells_broken else "--successes")
    if explains:
        words.append("--why" if tells_broken else "--explain")
    return words + (["--ignore-essential"] if options.deb_ignore_essential else [])


def asked(command: str, options: argparse.Namespace, inputs: Inputs, words: Sequence[str]) -> Report:
    """The program's report on what is asked about; what --checkonly names may stand in the background, too."""
    program, ground = Program(), inputs.ground if inputs.ground.files else None
    if not options.checkonly:
        return Report(*program.ask(inputs.arch, inputs.asked, ground, words))
    names = [one.name for one in options.checkonly if one.architecture in ("", inputs.arch)]
    if len(names) > 1:
        # Those that aren't there are passed over beside others, as dose does.
        known = inputs.names()
        names = [name for name in names if name in known]
    if not names:
        raise Fault(UNKNOWN, "no package is what --checkonly names")
    if command == DEBCHECK:
        return Report(*program.ask(inputs.arch, inputs.together(), None, words, names))
    return Report(*program.ask(inputs.arch, inputs.asked, ground, words, names))


def work(command: str, words: Sequence[str]) -> int:
    """The exit status of a run: BROKEN where a package that is asked about is broken."""
    options = parsed(command, words)
    if options.version:
        program = subprocess.run([find(), "--version"], stdout=subprocess.PIPE, text=True, check=True)
        print(f"{DOSE} over {program.stdout.strip()}")
        return OK
    say, started = Say(options), time.monotonic()
    say("I", "Doseparse", "Parsing and normalizing...")
    inputs, loaded = Inputs(command, options, say), time.monotonic()
    # For a summary dose-debcheck explains without being asked to.
    explains = (options.failures or options.successes) and (options.explain or options.summary and command == DEBCHECK)
    report = asked(command, options, inputs, program_words(options, explains or options.summary))
    status = Answer(command, options, inputs, report, explains).tell(say)
    if options.timers:
        solved = time.monotonic() - loaded
        tell(f"Timer Solver: {solved:f}.\nTimer Load: {loaded - started:f}.")
    return status


def main(command: str) -> int:
    # What is made stays to the end, and has no cycle.
    gc.disable()
    return ended(command, lambda: work(command, sys.argv[1:]))
