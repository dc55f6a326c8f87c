"""The command line of dose-debcheck and dose-builddebcheck, by the table of words."""

import argparse
import os
from collections.abc import Sequence
from typing import Any, NamedTuple, NoReturn, Optional

import apt_pkg

from debcheck_tools.dose_words import BUILDCHECK, DEBCHECK, ONE_ARCHITECTURE, Word, words_of
from debcheck_tools.dose_inputs import is_architecture
from debcheck_tools.errors import USAGE, Fault
from debcheck_tools.sources import PREFIX

REPEATED = ("--fg", "--bg")
USAGES = {DEBCHECK: "%(prog)s [WORD].. [PACKAGES-FILE]..", BUILDCHECK: "%(prog)s [WORD].. PACKAGES-FILE.. SOURCES-FILE"}
ABOUT = {
    DEBCHECK: "Tells which packages of the files can't be installed, as dose does, by debcheck.",
    BUILDCHECK: "Tells which sources can't be built with the packages of the files, as dose does, by debcheck.",
}


class Selector(NamedTuple):
    """A package of --checkonly; the bound is empty where any version is meant."""

    name: str
    architecture: str
    operator: str
    version: str

    def has(self, version: str) -> bool:
        return not self.operator or bool(apt_pkg.check_dep(version, self.operator, self.version))


class Parser(argparse.ArgumentParser):
    """A parser that refuses a command line by a fault."""

    def error(self, message: str) -> NoReturn:
        raise Fault(USAGE, f"{message}; see {self.prog} --help")


class Refuse(argparse.Action):
    """Refuses a word for what its table says."""

    def __init__(self, option_strings: Sequence[str], dest: str, word: Word) -> None:
        super().__init__(
            option_strings,
            dest,
            nargs=None if word.value else 0,
            metavar=word.value or None,
            help="refused: " + word.refused,
        )
        self.word = word

    def __call__(
        self, parser: argparse.ArgumentParser, namespace: argparse.Namespace, values: Any, name: Optional[str] = None
    ) -> None:
        raise Fault(USAGE, f"{name or self.word.names[-1]} isn't taken: {self.word.refused}")


def parser_of(command: str) -> Parser:
    parser = Parser(prog=command, usage=USAGES[command], description=ABOUT[command], add_help=False, allow_abbrev=False)
    for word in words_of(command):
        if word.refused:
            parser.add_argument(*word.names, action=Refuse, word=word)
        elif word.names[-1] == "--help":
            parser.add_argument(*word.names, action="help", help=word.meaning)
        elif word.value:
            action = "append" if word.names[-1] in REPEATED else "store"
            default: Optional[list[str]] = [] if action == "append" else None
            parser.add_argument(*word.names, action=action, default=default, metavar=word.value, help=word.meaning)
        else:
            parser.add_argument(*word.names, action="store_true", help=word.meaning)
    parser.add_argument(
        "files",
        nargs="*",
        metavar="FILE",
        help="Packages files, of any compression; - or none at all for standard input",
    )
    return parser


def parsed(command: str, words: Sequence[str]) -> argparse.Namespace:
    """The options, each with its meaning; what can't be meant is refused."""
    options = parser_of(command).parse_intermixed_args(words)
    if options.version:
        return options
    if command == DEBCHECK:
        if options.t not in (None, "deb"):
            raise Fault(
                USAGE, f"-t {options.t} isn't taken: Debian's packages alone are read; dose-distcheck reads the rest"
            )
        options.deb_host_arch, options.files = None, options.files + options.fg or ["-"]
    elif options.deb_native_arch is None:
        raise Fault(USAGE, "name the architecture by --deb-native-arch")
    elif len(options.files) < 2:
        raise Fault(USAGE, "name one Packages file or several, and behind them a Sources file")
    refuse_architectures(options)
    options.latest = options.latest and count(options.latest)
    options.checkonly = selectors(options.checkonly, command) if options.checkonly is not None else []
    options.deb_profiles = profiles(options.deb_profiles) if command == BUILDCHECK else []
    return options


def refuse_architectures(options: argparse.Namespace) -> None:
    """Refuses what is no architecture, and any beside the native one."""
    native = options.deb_native_arch
    if native is not None and not is_architecture(native):
        raise Fault(USAGE, f"--deb-native-arch {native}: isn't the name of an architecture")
    for word, value in (("--deb-host-arch", options.deb_host_arch), ("--deb-foreign-archs", options.deb_foreign_archs)):
        others = ",".join(name for name in (value or "").split(",") if name and name != native)
        if others:
            beside = f"beside {native}" if native else "without --deb-native-arch"
            raise Fault(USAGE, f"{word} {others} isn't taken {beside}: {ONE_ARCHITECTURE}")


def count(text: str) -> int:
    if not text.isdecimal() or int(text) < 1:
        raise Fault(USAGE, f"--latest {text}: isn't a number of versions, 1 or more")
    return int(text)


def selectors(text: str, command: str) -> list[Selector]:
    """The packages of --checkonly: sources by their names for dose-builddebcheck, and else as `src:NAME`."""
    try:
        groups = apt_pkg.parse_depends(text, False)
    except ValueError:
        groups = []
    if not groups or any(len(group) > 1 for group in groups):
        raise Fault(
            USAGE, f"--checkonly {text}: isn't a list of packages, NAME[:ARCH] [(= VERSION)] with commas between them"
        )
    found = []
    for ((name, version, operator),) in groups:
        if command == BUILDCHECK or name.startswith("src:"):
            name = PREFIX + name.removeprefix("src:")
        name, _, architecture = name.partition(":")
        found.append(Selector(name, architecture, operator, version))
    return found


def profiles(text: Optional[str]) -> list[str]:
    """The build profiles that are named, or that the environment has."""
    return text.split(",") if text is not None else os.environ.get("DEB_BUILD_PROFILES", "").split()
