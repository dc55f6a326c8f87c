"""Finds and runs debcheck."""
import os

import debcheck_report
import measured
from script import DEBCHECK, TOP, Failed

BUILT = os.path.join(TOP, "crates", "debcheck_program", "out", "debcheck_program")


def find(path, arch, folder):
    """The program's full path, once it answered an empty index: so it is built, and it is debcheck.

    In place of the script at the top it is the program that the script runs, since the script looks for newer sources each time.
    """
    path = os.path.abspath(path)
    if not os.path.isfile(path) or not os.access(path, os.X_OK):
        raise Failed("%s is no program that can be run; name it by --program" % path)
    out, err = os.path.join(folder, "first.out"), os.path.join(folder, "first.err")
    run = measured.run([path, "--arch", arch], os.devnull, out, err, 3600)
    if (run.ended, run.number) != ("status", 0):
        raise Failed("%s --arch %s on an empty index: %s\n%s" % (path, arch, run.ending(3600), tail(err)))
    try:
        debcheck_report.read(out, arch, "all", False)
    except debcheck_report.BadReport as fault:
        raise Failed("%s isn't debcheck, on an empty index: %s" % (path, fault))
    return BUILT if os.path.samefile(path, DEBCHECK) else path


def tail(path):
    with open(path, errors="replace") as file:
        return file.read()[-2000:].rstrip()


def check(program, words, arch, index, folder, limit):
    """One run: what it used, and its report, or None where it was stopped. `words` are those behind --arch."""
    out, err = os.path.join(folder, "debcheck.out"), os.path.join(folder, "debcheck.err")
    run = measured.run([program, "--arch", arch] + words, index, out, err, limit)
    if run.ended == "stopped":
        return run, None
    if run.ended != "status" or run.number not in (0, 1):
        raise Failed("debcheck %s: %s\n%s" % (" ".join(words), run.ending(limit), tail(err)))
    show = "failures" if "--failures" in words else "all"
    try:
        report = debcheck_report.read(out, arch, show, "--explain" in words or "--all-reasons" in words)
    except debcheck_report.BadReport as fault:
        raise Failed("debcheck %s: %s" % (" ".join(words), fault))
    if run.number != (1 if report.told else 0):
        raise Failed("debcheck %s: status %d with %d broken packages" % (" ".join(words), run.number, report.told))
    return run, report
