"""What the tests share: the real program has to be there, and small indexes are written by a call."""

import importlib
import os
import subprocess
import sys
import tempfile
import traceback
from collections.abc import Callable, Mapping
from pathlib import Path

import pytest

TOOLS = Path(__file__).resolve().parent.parent
sys.path.insert(0, str(TOOLS))
sys.dont_write_bytecode = True

from debcheck_tools import command_line, program  # noqa: E402

for module in command_line.COMMANDS.values():
    importlib.import_module(f"debcheck_tools.{module}")

Write = Callable[..., str]


@pytest.fixture(scope="session", autouse=True)
def there_is_a_program() -> str:
    """Fails the tests, and skips none, where there is no program."""
    return program.find()


@pytest.fixture
def write(tmp_path: Path) -> Write:
    """Writes a text to a file of this name, and gives its path."""

    def written(name: str, text: str | bytes) -> str:
        path = tmp_path / name
        path.parent.mkdir(parents=True, exist_ok=True)
        path.write_bytes(text.encode() if isinstance(text, str) else text)
        return str(path)

    return written


def stanza(package: str, version: str = "1", architecture: str = "amd64", **fields: str) -> str:
    """A stanza with these fields; "_" in a field's name is a hyphen."""
    lines = [f"Package: {package}", f"Version: {version}", f"Architecture: {architecture}"]
    lines += [f"{name.replace('_', '-')}: {value}" for name, value in fields.items()]
    return "\n".join(lines) + "\n\n"


class Answer:
    """How a command ended and what it wrote."""

    def __init__(self, done: "subprocess.CompletedProcess[str]") -> None:
        self.status, self.out, self.err = done.returncode, done.stdout, done.stderr

    def lines(self) -> list[str]:
        return self.out.splitlines()


def forked(
    call: Callable[[list[str]], int], words: list[str], stdin: bytes, cwd: Path | None, environment: Mapping[str, str]
) -> Answer:
    """Calls a command in a process of its own, which needn't read Python's modules and ours anew."""
    with tempfile.TemporaryFile() as given, tempfile.TemporaryFile() as out, tempfile.TemporaryFile() as err:
        given.write(stdin)
        given.seek(0)
        process = os.fork()
        if not process:
            for number, file in enumerate((given, out, err)):
                os.dup2(file.fileno(), number)
            os._exit(called(call, words, cwd, environment))
        status = os.waitstatus_to_exitcode(os.waitpid(process, 0)[1])
        out.seek(0)
        err.seek(0)
        return Answer(subprocess.CompletedProcess(words, status, out.read().decode(), err.read().decode()))


def called(call: Callable[[list[str]], int], words: list[str], cwd: Path | None, environment: Mapping[str, str]) -> int:
    """Its status, in the process of its own, with streams as the interpreter has them at its start."""
    os.environ.update(environment)
    sys.argv[1:] = words
    sys.stdin = open(0, closefd=False)
    sys.stdout, sys.stderr = open(1, "w", closefd=False), open(2, "w", closefd=False)
    try:
        os.chdir(cwd or ".")
        return call(words)
    except SystemExit as ends:
        return int(ends.code or 0)
    except BaseException:
        traceback.print_exc()
        return 120
    finally:
        sys.stdout.flush()
        sys.stderr.flush()


@pytest.fixture
def archive(tmp_path: Path) -> Callable[..., Answer]:
    """Runs debcheck-archive with these words."""

    def run(*words: str, stdin: str | bytes = "", **environment: str) -> Answer:
        given = stdin.encode() if isinstance(stdin, str) else stdin
        return forked(command_line.main, list(words), given, tmp_path, environment)

    return run
