"""What the completion of shells asks for, and what bash makes of it."""

import os
import subprocess
from collections.abc import Callable

import pytest
from conftest import TOOLS, Answer

Archive = Callable[..., Answer]


def completed(*words: str) -> list[str]:
    script = f"""source {TOOLS.parent}/completion/debcheck-archive.bash
        COMP_WORDS=({' '.join(words)}) COMP_CWORD={len(words) - 1}
        _debcheck_archive && printf '%s\\n' "${{COMPREPLY[@]}}" """
    path = {**os.environ, "PATH": f"{TOOLS}:{os.environ['PATH']}"}
    return subprocess.run(
        ["bash", "-c", script], env=path, stdout=subprocess.PIPE, text=True, check=True
    ).stdout.split()


@pytest.mark.parametrize(
    "words, wanted",
    [
        (["debcheck-archive", "wi"], ["without"]),
        (["debcheck-archive", "check", "--since"], ["--since", "--since-bg"]),
        (["debcheck-archive", "check", "--format", "j"], ["json"]),
        (["debcheck-archive", "check", "--by", "''"], ["source", "maintainer"]),
        (["debcheck-archive", "without", "--ind"], ["--index"]),
    ],
)
def test_bash(words: list[str], wanted: list[str]) -> None:
    assert completed(*words) == wanted


def test_each_command_has_help(archive: Archive) -> None:
    commands = archive("--commands").lines()
    assert "check" in commands and "would-migrate" in commands
    for command in commands:
        answer = archive(command, "--help")
        assert answer.status == 0 and answer.out.startswith(f"usage: debcheck-archive {command} ")
    assert archive("--words", "nosuch").out.strip() == ""
