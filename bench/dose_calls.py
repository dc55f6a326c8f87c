"""The calls of dose's clients on one index: dose's commands beside those of debcheck-dose, as a table."""
import os
import re
import subprocess

import measured
from script import TOP, Failed

HEAD = "\nthe calls of dose's clients, by dose and by debcheck-dose as its package puts it: CPU s, here the least of %d runs\n"
ROUNDS = 5
DEBCHECK, BUILDCHECK = "dose-debcheck", "dose-builddebcheck"
DUMMY = "sbuild-build-depends-main-dummy"


class Call:
    """A call by its title: the command, its words, what it reads from standard input, and the CPU seconds that it may take here."""

    def __init__(self, title, command, words, stdin=os.devnull, most=None):
        self.title, self.command, self.words, self.stdin, self.most = title, command, words, stdin, most


def with_dummy(index, depends, path):
    """Writes what sbuild hands over: an index, and the package that depends on what is to be built with."""
    with open(path, "wb") as file, open(index, "rb") as packages:
        file.write(packages.read())
        file.write(("\nPackage: %s\nVersion: 0.invalid.0\nArchitecture: amd64\nDepends: %s\n\n" % (DUMMY, depends)).encode())
    return path


def packed(path):
    subprocess.run(["xz", "-0", "-k", "-f", path], check=True)
    return path + ".xz"


def calls(index, sources, arch, broken, folder):
    """The calls; `broken` is a package of the index that is broken, `sources` None where there are none."""
    native = "--deb-native-arch=" + arch
    sbuild = ["--checkonly", "%s:%s" % (DUMMY, arch), "--verbose", "--failures", "--successes", "--explain", "--deb-native-arch", arch]
    laniakea = ["--quiet", "--latest=1", "-e", "-f", "--summary", native]
    yield Call("-f -e", DEBCHECK, ["-f", "-e", native, index], most=2.5)
    for title, depends in (("sbuild, can't be met", broken), ("sbuild, can be met", "build-essential")):
        yield Call(title, DEBCHECK, sbuild, with_dummy(index, depends, os.path.join(folder, "dummy")), 1.0)
    pressed = packed(index)
    yield Call("laniakea, packages (.xz)", DEBCHECK, laniakea + ["--fg=" + pressed], most=4)
    if sources:
        yield Call("laniakea, sources (.xz)", BUILDCHECK, laniakea + ["--deb-emulate-sbuild", pressed, packed(sources)], most=4)


def installed(folder):
    """The folder of the commands, with Python's code beside them, as the package has it made."""
    root = os.path.join(folder, "dose-root")
    subprocess.run(["make", "-s", "-C", TOP, "install-debcheck-dose", "DESTDIR=" + root, "PREFIX=/usr"], check=True)
    commands = os.path.join(root, "usr", "lib", "debcheck", "dose")
    subprocess.run(["/usr/bin/python3", "-m", "compileall", "-q", commands], check=True)
    return commands


def run(program, call, folder, limit):
    """The run, and how many packages are broken by it."""
    out = os.path.join(folder, "call.out")
    done = measured.run([program] + call.words, call.stdin, out, os.path.join(folder, "call.err"), limit)
    if done.ended != "status" or done.number not in (0, 1):
        raise Failed("%s %s: %s" % (program, " ".join(call.words), done.ending(limit)))
    with open(out, encoding="utf-8", errors="replace") as file:
        return done, int(re.findall(r"^broken-packages: (\d+)$", file.read(), re.M)[-1])


def show(index, sources, arch, broken, program, folder, limit):
    """Prints the table; `program` is the debcheck that is asked."""
    os.environ["DEBCHECK"] = program
    commands = installed(folder)
    print(HEAD % ROUNDS)
    print("  %-28s %9s %9s %9s %9s %9s %9s" % ("", "dose", "broken", "here", "broken", "at most", "ratio"), flush=True)
    for call in calls(index, sources, arch, broken, folder):
        theirs, known = run("/usr/bin/" + call.command, call, folder, limit)
        runs = [run(os.path.join(commands, call.command), call, folder, limit) for _ in range(ROUNDS)]
        least, found = min(runs, key=lambda row: row[0].cpu)
        cells = (call.title, theirs.cpu, known, least.cpu, found, call.most, theirs.cpu / least.cpu)
        print("  %-28s %9.2f %9d %9.2f %9d %9.1f %9.1f" % cells, flush=True)
