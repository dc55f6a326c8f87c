"""The line of progress, on a terminal alone, where something takes more than a second."""

import os
import pty
import sys
import time

from debcheck_tools.progress import Progress


def shown(seconds: float) -> bytes:
    """What a terminal shows of work that began so many seconds ago."""
    process, end = pty.fork()
    if not process:
        sys.stderr = open(2, "w", closefd=False)
        progress = Progress()
        progress.begun -= seconds
        progress.tell("reading Packages")
        progress.start()
        time.sleep(0.25)
        progress.end()
        os._exit(0)
    text = b""
    try:
        while part := os.read(end, 1024):
            text += part
    except OSError:
        pass  # the terminal is closed
    os.close(end)
    assert os.waitpid(process, 0)[1] == 0
    return text


def test_it_is_written_and_taken_away() -> None:
    assert shown(2) == b"\r\x1b[Kreading Packages\r\x1b[K"


def test_what_is_short_is_not_told() -> None:
    assert shown(0) == b""
