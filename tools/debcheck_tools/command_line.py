"""debcheck-archive: one command with a sub-command for each question."""

import argparse
import difflib
import gc
import importlib
import sys
from collections.abc import Callable, Sequence
from typing import NoReturn, Optional, TypeAlias

from debcheck_tools.errors import OK, USAGE, Fault, ended
from debcheck_tools.progress import progress

# The module of each command, with a call register(commands) that adds it; its `work` gives the status.
DECISIONS = "decisions_command"
COMMANDS = {
    "check": "check_command",
    "sources": "sources_command",
    "would-migrate": DECISIONS,
    "partial-upgrade": DECISIONS,
    "without": DECISIONS,
    "debfile": DECISIONS,
    "page": "page_command",
}


class Parser(argparse.ArgumentParser):
    """A parser that refuses a command line with the program's status."""

    def error(self, message: str) -> NoReturn:
        raise Fault(USAGE, f"{message}; see {self.prog} --help")

    def refuse(self, words: Sequence[str]) -> NoReturn:
        """Refuses words that it doesn't know, with what is like the first."""
        first = words[0].partition("=")[0]
        near = ["--format json"] if first == "--json" else difflib.get_close_matches(first, self.options(), 1)
        self.error(f"unrecognized arguments: {' '.join(words)}" + (f"; similar: {near[0]}" if near else ""))

    def options(self) -> list[str]:
        return list(self._option_string_actions)


Commands: TypeAlias = "argparse._SubParsersAction[Parser]"


def parser(words: Sequence[str]) -> tuple[Parser, Commands]:
    """The parser of a command line, with the command that it names, or else with all."""
    made = Parser(
        prog="debcheck-archive", description="Asks debcheck about an archive's files as they are.", allow_abbrev=False
    )
    commands = made.add_subparsers(metavar="COMMAND", required=True, parser_class=Parser)
    named = COMMANDS.get(words[0]) if words else None
    for name in [named] if named else dict.fromkeys(COMMANDS.values()):
        register: Callable[[Commands], None] = importlib.import_module(f"debcheck_tools.{name}").register
        register(commands)
    return made, commands


def told_to_completion(words: Sequence[str], commands: Commands) -> bool:
    """Writes what the completion of shells asks for: the commands, or the options of one."""
    if list(words) == ["--commands"]:
        print("\n".join(commands.choices))
    elif len(words) == 2 and words[0] == "--words":
        print("\n".join(commands.choices[words[1]].options() if words[1] in commands.choices else ()))
    else:
        return False
    return True


def main(words: Optional[Sequence[str]] = None) -> int:
    def work() -> int:
        given = sys.argv[1:] if words is None else words
        made, commands = parser(given)
        if told_to_completion(given, commands):
            return OK
        options, rest = made.parse_known_args(given)
        # Files may stand before and behind options.
        if any(word.startswith("-") for word in rest) or rest and not hasattr(options, "files"):
            commands.choices[given[0]].refuse(rest)
        if rest:
            options.files += rest
        progress.start()
        try:
            status: int = options.work(options)
        finally:
            progress.end()
        return status

    # Hundreds of thousands of tuples without a cycle among them are looked through in vain.
    gc.disable()
    return ended("debcheck-archive", work)
