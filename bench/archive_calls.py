"""debcheck-archive on one index, its sources and a copy in which everything is broken, as a table."""
import os
import subprocess

import measured
from script import TOP, Failed

ARCHIVE = os.path.join(TOP, "tools", "debcheck-archive")
ROUNDS = 3
HEAD = "\ndebcheck-archive, the least CPU time of %d runs; unpacking is what xz -dc takes, and at most is without it\n"


def used(words, folder, limit):
    """The run of least CPU time, and what it printed first."""
    out = os.path.join(folder, "archive.out")
    best = None
    for _ in range(ROUNDS):
        run = measured.run(words, os.devnull, out, os.path.join(folder, "archive.err"), limit)
        if run.ended != "status" or run.number not in (0, 1):
            raise Failed("%s: %s" % (" ".join(words), run.ending(limit)))
        best = run if best is None else measured.lesser(best, run)
    with open(out, "rb") as file:
        return best, file.readline().decode(errors="replace").partition(";")[0]


def show(index, sources, broken, program, folder, limit):
    """Prints the table; `program` is the debcheck that is asked, `broken` a copy of the index, `sources` None where there are none."""
    os.environ["DEBCHECK"] = program
    packed = index + ".xz"
    if not os.path.exists(packed):
        subprocess.run(["xz", "-0", "-k", index], check=True)
    unpacking = used(["xz", "-dc", packed], folder, limit)[0].cpu
    rows = [("overview, from .xz", [packed], unpacking, 2.0, 500), ("overview, all broken", [broken], 0, 40, 2000)]
    if sources:
        rows.insert(1, ("sources, overview", [index, "--sources", sources], 0, 5, 600))
    print(HEAD % ROUNDS)
    print("  %-22s %8s %9s %8s %8s %8s  %s" % ("", "CPU s", "unpacking", "at most", "MiB", "at most", "answer"), flush=True)
    for title, words, unpacked, most, memory in rows:
        run, answer = used([ARCHIVE, "check"] + words, folder, limit)
        cells = (title, run.cpu, unpacked, most, run.peak, memory, answer)
        print("  %-22s %8.2f %9.2f %8.1f %8.0f %8d  %s" % cells, flush=True)
