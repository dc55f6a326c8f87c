"""What the scripts that try edits ask of rt, for kits whose rt keeps no proofs: what rt ci proved is then taken from where it lies in this checkout."""
import os
import re
import shutil
import time

from script import TOP

# What stops the prover itself, where an edit shows little. Where `search` gave up at a limit of its own, the edit counts as refused, as in rt must-fail.
LIMITS = re.compile(r"(step|resource|memory) limit")


def fit(rt):
    """Has rt say what an edit comes to, where it only says whether it was refused, and give what it proved."""
    rt.REFUSED, rt.MISSED, rt.BAD, rt.AT_LIMIT, rt.UNSURE = "refused", "not refused", "bad", "at a limit", "unsure"
    rt.SETTLED, rt.LIMITS, says = {rt.REFUSED}, LIMITS, rt.must_fail

    def must_fail(crate, edit, flags, kept=None):
        is_refused, text = says(crate, edit, flags, kept)
        refused = rt.AT_LIMIT if LIMITS.search(text) else rt.REFUSED
        return refused if is_refused else rt.MISSED if "NOT REFUSED" in text else rt.BAD, text

    def crates_of(top):
        rt.rtlib.Crate = rt.Crate
        return sorted(rt.rtlib.crates_below(top), key=lambda it: len(it.below()))

    rt.must_fail, rt.crates_of, rt.copy_crates, rt.linked, rt.Kept = must_fail, crates_of, copy_crates, linked, Kept


def linked(kept, over):
    shutil.copytree(kept, over, copy_function=os.link)


def copy_crates(top, copy):
    shutil.copytree(os.path.join(top, "crates"), os.path.join(copy, "crates"), ignore=shutil.ignore_patterns("out"))
    for name in ("crates.txt", "HANDLES"):
        shutil.copy(os.path.join(top, name), copy)


class Kept:
    """The libraries that rt ci leaves in the folders out/ of this checkout."""

    def __init__(self, _):
        """Nothing is looked for yet."""

    def key(self, crate):
        return os.path.join(TOP, "crates", crate.name, "out", "rlib")

    def give(self, crate, _, made):
        """Whether the library is given to a copy of its crate: it is where it is newer than all sources, and not while rt writes it."""
        last = os.path.join(made, crate.name + ".rlib", "toolchain", "checked.a")
        # (what other commands than rt ci make has a stamp)
        if not os.path.exists(last) or os.path.exists(os.path.join(made, "stamp")):
            return False
        sources = max(os.path.getmtime(path) for it in (crate, *crate.below()) for path in sources_of(it))
        if not sources < os.path.getmtime(last) < time.time() - 2:
            return False
        shutil.copytree(made, os.path.dirname(crate.rlib))
        return True

    def is_built(self, crate):
        """Nothing is left to do."""


def sources_of(crate):
    for part in ("src", "specs", "proofs"):
        for folder, _, names in os.walk(os.path.join(crate.folder, part)):
            yield from (os.path.join(folder, name) for name in names)
