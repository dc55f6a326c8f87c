"""Exit statuses, and the one way in which a command ends without an answer."""

import os
import signal
import sys
from collections.abc import Callable

OK, BROKEN = 0, 1
# The command line is refused; an index has a fault; a name isn't there; a file can't be read; the answer can't be
# written; want of memory; the program is missing, was killed, or is older than these tools.
USAGE, DATA, UNKNOWN, READ, WRITE, MEMORY, PROGRAM = range(64, 71)


class Fault(Exception):
    """No answer: the exit status, and the line that names the file and says what to do."""

    def __init__(self, status: int, line: str) -> None:
        super().__init__(line)
        self.status, self.line = status, line


def note(line: str) -> None:
    """Tells on standard error what is no fault."""
    tell(f"debcheck-archive: note: {line}")


def tell(line: str) -> None:
    """Writes a line to standard error, where that isn't closed."""
    if sys.stderr is not None:
        print(line, file=sys.stderr, flush=True)


def ended(command: str, work: Callable[[], int]) -> int:
    """The exit status of a command; a fault is one line on standard error."""
    if sys.stdout is None:
        # Another file would get its number.
        tell(f"{command}: standard output is closed")
        return WRITE
    try:
        status = work()
        sys.stdout.flush()
        return status
    except Fault as fault:
        tell(f"{command}: {fault.line}")
        return fault.status
    except BrokenPipeError:
        # Whoever reads has enough.
        os.dup2(os.open(os.devnull, os.O_WRONLY), sys.stdout.fileno())
        return WRITE
    except OSError as fault:
        os.dup2(os.open(os.devnull, os.O_WRONLY), sys.stdout.fileno())
        print(f"{command}: the answer can't be written: {fault.strerror}", file=sys.stderr)
        return WRITE
    except MemoryError:
        tell(f"{command}: out of memory")
        return MEMORY
    except KeyboardInterrupt:
        signal.signal(signal.SIGINT, signal.SIG_DFL)
        os.kill(os.getpid(), signal.SIGINT)
        return PROGRAM
