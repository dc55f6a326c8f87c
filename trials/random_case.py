"""A small random index of one seed with its words, and what debcheck has to answer."""
import os
import random
import subprocess
from typing import NamedTuple

import brute_force
import brute_report
from brute_force import ARCH
from random_index import Maker


class Words(NamedTuple):
    """What debcheck is asked; `only` is a list of names, or None."""
    plain: bool = False
    explain: bool = True
    show: str = ""
    essential: bool = True
    only: list = None
    workers: int = 4
    chunk: int = 64
    background: bool = False
    since: bool = False
    causes: bool = False
    all_reasons: bool = False
    why: bool = False
    form: str = "text"
    strict: bool = False
    quiet: bool = False

    def line(self, background, earlier):
        if self.plain:
            return []
        line = ["--arch", ARCH, "--workers", str(self.workers), "--chunk=%d" % self.chunk]
        line += ["--explain"] if self.explain else []
        line += ["--failures", "--successes"] if self.show == "both" else ["--" + self.show] if self.show else []
        line += [] if self.essential else ["--ignore-essential"]
        line += ["--bg", background] if self.background else []
        line += ["--since", earlier] if self.since else []
        line += ["--" + word.replace("_", "-") for word in brute_report.WORDS if getattr(self, word)]
        line += ["--format", self.form] if self.form != "text" else []
        line += ["--strict"] if self.strict else []
        line += ["--quiet"] if self.quiet else []
        return line + (["--checkonly", ",".join(self.only)] if self.only else [])


def words_for(chance, packages, missing):
    if chance.random() < 0.05:
        return Words(plain=True)
    names = [package.name for package in packages if package.arch != "i386"] + missing * (chance.random() < 0.1)
    since = chance.random() < 0.4
    show = chance.choice(["", "", "failures"] + ["successes", "both"] * (not since))
    of_broken = [show != "successes" and chance.random() < share for share in (0.4, 0.3)]
    return Words(
        explain=chance.random() < 0.8, show=show, since=since, essential=chance.random() < 0.8,
        only=chance.choices(names, k=chance.randint(1, 3)) if names and chance.random() < 0.2 else None,
        workers=chance.choice([1, 1, 2, 4, 64]), chunk=chance.choice([1, 2, 64]), background=chance.random() < 0.5,
        causes=chance.random() < 0.6, all_reasons=of_broken[0], why=of_broken[1], form=chance.choice(["text", "json"]),
        strict=chance.random() < 0.3, quiet=chance.random() < 0.2)


class Case:
    """An index of one seed, the words that it is run with, and what is wanted: output, status and errors."""

    def __init__(self, seed):
        chance = random.Random(seed)
        maker = Maker(chance)
        packages = maker.packages()
        self.seed, self.words = seed, words_for(chance, packages, maker.naming.missing)
        cut = chance.randint(0, len(packages)) if self.words.background else len(packages)
        self.text, self.background = maker.text(packages[:cut]), maker.text(packages[cut:])
        earlier = self.earlier_packages(chance, packages[:cut], maker.packages(), len(packages) - cut)
        self.earlier = maker.text(earlier)
        self.asked = self.broken = 0
        try:
            index = brute_force.Index(packages[:cut], packages[cut:], self.words.essential)
            if self.words.strict or self.words.since:
                brute_report.see_slip(index, self.words.only)
            was = brute_force.Index(earlier, packages[cut:], self.words.essential)
            before = brute_report.broken_in(was, self.words.only) if self.words.since else None
            report, self.asked, self.broken, status = brute_report.report_of(index, self.words, before)
            self.wanted = report.document() if self.words.form == "json" else report.text(), status, ""
        except brute_force.Unknown as name:
            self.wanted = "", 66, "debcheck: unknown package %s\n" % name
        except brute_force.Slip as slip:
            self.wanted = "", 65, "debcheck: %s\n" % slip

    def earlier_packages(self, chance, packages, others, behind):
        """Some of the packages and some others, in any order, so few that all sets of them can be tried."""
        if not self.words.since:
            return []
        some = [package for package in packages + others if chance.random() < 0.6]
        return chance.sample(some, min(len(some), 9 - behind))

    def run(self, program, folder):
        paths = [os.path.join(folder, "%s-%d" % (what, os.getpid())) for what in ("background", "earlier")]
        for path, text in zip(paths, (self.background, self.earlier)):
            with open(path, "w", encoding="ascii") as file:
                file.write(text)
        line = [program] + self.words.line(*paths)
        done = subprocess.run(line, input=self.text, stdout=subprocess.PIPE, stderr=subprocess.PIPE, encoding="ascii")
        return done.stdout, done.returncode, done.stderr

    def tell(self, given):
        print("seed %d differs, words: %s\n" % (self.seed, " ".join(self.words.line("BACKGROUND", "EARLIER"))))
        parts = [("index", self.text)] + ([("background", self.background)] if self.words.background else [])
        parts += [("earlier index", self.earlier)] if self.words.since else []
        for title, (out, status, errors) in (("wanted", self.wanted), ("given", given)):
            parts += [("%s, status %d" % (title, status), out), ("%s, errors" % title, errors)]
        for title, part in parts:
            print("--- %s\n%s" % (title, part), end="" if part.endswith("\n") else "\n")
