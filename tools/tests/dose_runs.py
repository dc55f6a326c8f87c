"""Runs dose's commands for the tests of test_dose_*.py."""

from collections.abc import Mapping
from pathlib import Path
from typing import Any

from conftest import Answer, forked
from debcheck_tools import dose_command

Node = dict[str, Any]
DEBCHECK, BUILDCHECK = "dose-debcheck", "dose-builddebcheck"


def run(command: str, *words: str, stdin: bytes = b"", cwd: Path | None = None, env: Mapping[str, str] = {}) -> Answer:
    return forked(lambda _: dose_command.main(command), list(words), stdin, cwd, env)


def names(answer: Answer) -> list[str]:
    """The packages that are shown, by ben's regular expression."""
    return [line.removeprefix("  package: ") for line in answer.lines() if line.startswith("  package: ")]


def counts(answer: Answer) -> dict[str, int]:
    """The numbers at the end."""
    pairs = [line.partition(": ") for line in answer.lines() if not line.startswith(" ")]
    return {key: int(value) for key, _, value in pairs if value.isdecimal()}
