"""Reads debcheck's report, line by line, as docs/formats.md has it. Anything else is refused."""
import re

NAME = r"[A-Za-z0-9][A-Za-z0-9+._-]*"
VERSION = r"[A-Za-z0-9.+~:-]+"
ATOM = NAME + r"(?::[A-Za-z0-9-]+)?(?: \((?:<<|<=|=|>=|>>) " + VERSION + r"\))?"
MEMBER = re.compile(r"   - (%s) (%s)" % (NAME, VERSION))
ESSENTIAL = re.compile(r"   - essential: %s" % NAME)
NEED = re.compile(r"   - (?:missing|depends): %s %s (?:Pre-Depends|Depends): %s(?: \| %s)*" % (NAME, VERSION, ATOM, ATOM))
APART = re.compile(r"   - conflict: %s %s (?:Conflicts|Breaks): %s" % (NAME, VERSION, ATOM))
ONLY = re.compile(r"   - versions: %s" % NAME)
REASONS = [ESSENTIAL, re.compile("%s|%s" % (NEED.pattern, APART.pattern)), ONLY]
GROUP = r"%s(?: \| %s)*" % (ATOM, ATOM)
MISSING = re.compile(r"   - missing: %s" % GROUP)
NEEDED = re.compile(r"   - %s %s (?:Pre-Depends|Depends): %s" % (NAME, VERSION, GROUP))
CAUSE = [ESSENTIAL, re.compile("%s|%s" % (MISSING.pattern, APART.pattern)), ONLY]
NEAR = re.compile(r"%s(?: \(provides %s(?:, %s)*\))?" % (MEMBER.pattern, ATOM, ATOM))
SIMILAR = re.compile(r"   - (%s)" % NAME)
CHANGED = re.compile(r" - (%s) (%s)" % (NAME, VERSION))
COUNTS = ("stanzas", "skipped", "duplicates", "asked", "broken")


class BadReport(Exception):
    pass


class Report:
    """`shown` is a list of (name, version, is it ok), `causes` one of how many packages each cause has, and of how many of them have no other,
    None without the blocks of causes;
    the counts are attributes of their names; `newly_broken` is None without an earlier index, and `told` counts what the status tells of."""

    def __init__(self, path, arch, explain):
        with open(path, encoding="ascii", newline="\n") as file:
            self.lines = iter(enumerate(file, 1))
            self.at, self.line = 0, None
            self.step()
            try:
                self.read(arch, explain)
            except UnicodeDecodeError:
                raise BadReport("line %d of the report or one behind it isn't ASCII" % self.at)

    def step(self):
        before = self.line
        self.at, line = next(self.lines, (self.at + 1, None))
        if line is not None and not line.endswith("\n"):
            raise BadReport("line %d of the report has no line feed" % self.at)
        self.line = None if line is None else line[:-1]
        return before

    def fail(self, wanted):
        raise BadReport("line %d of the report is %r, wanted %s" % (self.at, self.line, wanted))

    def take(self, text):
        if self.line != text:
            self.fail(repr(text))
        self.step()

    def value(self, label, form):
        if self.line is None or not self.line.startswith(label) or not re.fullmatch(form, self.line[len(label):]):
            self.fail("%r and a value" % label)
        return self.step()[len(label):]

    def all_of(self, forms):
        """Lines of each form in turn, any number of each; how many there were."""
        count = 0
        for form in forms:
            while self.line is not None and form.fullmatch(self.line):
                self.step()
                count += 1
        return count

    def block(self, arch, explain):
        self.take(" -")
        name = self.value("  package: ", NAME)
        version = self.value("  version: ", VERSION)
        self.value("  architecture: ", "all|" + re.escape(arch))
        ok = self.value("  status: ", "ok|broken") == "ok"
        if explain:
            self.take("  installation-set:" if ok else "  reasons:")
            if not self.all_of([MEMBER] if ok else REASONS):
                self.fail("a line of the set or of the reasons")
            while not ok and self.line == "  also:":
                self.some_of("  also:", REASONS)
            if not ok and (self.line or "").startswith("  further: "):
                self.value("  further: ", "[1-9][0-9]*")
        return name, version, ok

    def some_of(self, title, forms):
        self.take(title)
        return self.all_of(forms) or self.fail("a line under %r" % title)

    def cause(self):
        self.take(" -")
        count = int(self.value("  packages: ", "[1-9][0-9]*"))
        frees = int(self.value("  frees: ", "0|[1-9][0-9]*"))
        self.some_of("  reasons:", CAUSE)
        for title, form in (("needed-by", NEEDED), ("hits", MEMBER), ("versions", MEMBER), ("present", NEAR), ("similar", SIMILAR)):
            if self.line == "  %s:" % title:
                self.some_of("  %s:" % title, [form])
        if self.some_of("  broken:", [MEMBER]) != count:
            self.fail("%d packages" % count)
        return count, frees

    def read(self, arch, explain):
        self.take("architecture: " + arch)
        self.take("report:")
        self.shown = []
        while self.line == " -":
            self.shown.append(self.block(arch, explain))
        for label in COUNTS:
            setattr(self, label, int(self.value(label + ": ", "0|[1-9][0-9]*")))
        self.newly_broken = None
        if self.line is not None and self.line.startswith("newly-broken: "):
            self.newly_broken = int(self.value("newly-broken: ", "0|[1-9][0-9]*"))
            for title in ("mended:", "gone:"):
                self.take(title)
                self.all_of([CHANGED])
        self.told = self.broken if self.newly_broken is None else self.newly_broken
        self.causes = None
        if self.line is not None and self.line.startswith("causes: "):
            count = int(self.value("causes: ", "0|[1-9][0-9]*"))
            self.causes = [self.cause() for _ in range(count)]
        if self.line is not None:
            self.fail("the end")


def read(path, arch, show, explain):
    """The report in the file, of a run that asked for all packages or for some, with its counts checked. One since an earlier index shows
    what is newly broken.

    `show` is "all" or "failures".
    """
    report = Report(path, arch, explain)
    broken = sum(not ok for _, _, ok in report.shown)
    if broken != report.told:
        raise BadReport("the report counts %d broken packages and shows %d" % (report.told, broken))
    if report.causes is not None:
        packages, freed = (sum(column) for column in zip((0, 0), *report.causes))
        if not freed <= report.told <= packages or any(frees > count for count, frees in report.causes):
            raise BadReport("the report counts %d broken packages, and %d under causes, %d of them under one alone" % (report.told, packages, freed))
    if len(report.shown) != (report.asked if show == "all" and report.newly_broken is None else report.told):
        raise BadReport("the report shows %d packages of %d, %d of them broken" % (len(report.shown), report.asked, report.told))
    return report
