"""The report of a run in dose's form, written at once when all of it is there."""

import argparse
import os
import shutil
from collections.abc import Iterator
from typing import BinaryIO

from debcheck_tools.dose_chains import Chains, Json, member_of
from debcheck_tools.dose_cone import cone
from debcheck_tools.dose_inputs import Inputs, Say
from debcheck_tools.dose_report import Told
from debcheck_tools.dose_summary import Summary
from debcheck_tools.dose_words import BUILDCHECK, DEBCHECK
from debcheck_tools.dose_yaml import Node, lines_of
from debcheck_tools.errors import BROKEN, OK, UNKNOWN, WRITE, Fault
from debcheck_tools.index_files import in_memory
from debcheck_tools.program import Report


class Answer:
    """The program's report on the inputs of a run, and how it is to be told."""

    def __init__(
        self, command: str, options: argparse.Namespace, inputs: Inputs, report: Report, explains: bool
    ) -> None:
        self.command, self.options, self.inputs = command, options, inputs
        self.report, self.explains = report, explains
        self.shows = options.failures or options.successes
        self.by_version = any(selector.operator for selector in options.checkonly)
        self.asked = self.broken = 0
        known = inputs.own(report.text, options.explain_minimal) if self.shows or options.summary else {}
        self.told, self.summary = Told(known, options.deb_native_arch), Summary()

    def tell(self, say: Say) -> int:
        """Writes it; the status is BROKEN where a package that is asked about is broken."""
        with in_memory() as text:
            for part in self.parts():
                text.write(part.encode())
            skipped = self.report.rest["skipped"]
            if skipped:
                say("W", "Dose_deb", f"Ignoring {skipped} packages of architectures other than all,{self.inputs.arch}")
            say("I", "Dose_applications", "Solving...")
            text.seek(0)
            self.write(text)
        return BROKEN if self.broken else OK

    def write(self, text: BinaryIO) -> None:
        name = self.options.outfile
        path = "standard output" if name is None else os.path.join(self.options.outdir or "", name)
        try:
            with open(1 if name is None else path, "wb", closefd=name is not None) as file:
                shutil.copyfileobj(text, file, 1 << 20)
        except OSError as fault:
            raise Fault(WRITE, f"{path}: can't be written: {fault.strerror}") from None

    def parts(self) -> Iterator[str]:
        """The report, with each package that is shown as one of its parts."""
        yield yaml(self.head()) + ("report:\n" if self.shows else "")
        for package in self.report.packages():
            if self.is_asked(package):
                yield self.package(package)
        if self.by_version and not self.asked:
            raise Fault(UNKNOWN, "no package has the version that --checkonly names")
        yield (" \n" if self.shows else "") + yaml(self.counts())
        if self.options.summary:
            with_packages = self.options.explain and self.command == DEBCHECK
            yield yaml(self.summary.node(self.told, with_packages))

    def head(self) -> Node:
        node: Node = {"output-version": "1.2"}
        if self.options.deb_native_arch:
            node["native-architecture"] = self.options.deb_native_arch
        if self.command == BUILDCHECK:
            node["host-architecture"] = self.options.deb_native_arch
        return node

    def is_asked(self, package: Json) -> bool:
        """Whether the package is asked about: where versions are named, those alone."""
        if not self.by_version:
            return True
        name, version = member_of(package)
        return any(one.name == name and one.has(version) for one in self.options.checkonly)

    def package(self, package: Json) -> str:
        """A package, where it is shown; it is counted in any case."""
        is_ok, member, minimal = package["status"] == "ok", member_of(package), self.options.explain_minimal
        self.asked += 1
        self.broken += not is_ok
        chains = None if is_ok or not (self.explains or self.options.summary) else Chains(member, package["reasons"])
        if chains:
            self.summary.add(chains)
        if not (self.options.successes if is_ok else self.options.failures):
            return ""
        node = self.told.head(member, package["status"], minimal)
        if self.explains and chains:
            node["reasons"] = self.told.reasons(chains, minimal)
        elif self.explains:
            chosen = [member_of(one) for one in package["installation-set"]]
            kept = cone(member, chosen, self.told.known) if minimal else chosen
            node["installationset"] = [self.told.member(one) for one in kept]
        return " -\n" + yaml(node, "  ")

    def counts(self) -> Node:
        """How many packages there are."""
        rest = self.report.rest
        total = rest["stanzas"] - rest["skipped"] - rest["duplicates"]
        if not self.by_version:
            self.asked, self.broken = rest["asked"], rest["broken"]
        if self.command == BUILDCHECK:
            sources = total - rest.get("background", 0)
            return {"binary-packages": total, "source-packages": sources or total, "broken-packages": self.broken}
        # Those of the background count, too, where the foreground has the same.
        ground = rest["stanzas"] - rest["skipped"] - self.asked
        node: Node = {}
        if ground and (self.inputs.ground.files or self.options.checkonly):
            node = {"background-packages": ground, "foreground-packages": self.asked}
        return {**node, "total-packages": total, "broken-packages": self.broken}


def yaml(node: Node, lead: str = "") -> str:
    return "\n".join(lines_of(node, lead)) + "\n"
