"""Tells on a terminal what is being done, where it takes more than a second."""

import sys
import threading
import time


class Progress:
    """One line, written over and taken away before anything else is written."""

    def __init__(self) -> None:
        self.begun, self.text, self.shown, self.lock = time.monotonic(), "", "", threading.Lock()
        self.ended = threading.Event()

    def start(self) -> None:
        """From here on the line is kept up, where standard error is a terminal."""
        if sys.stderr.isatty():
            threading.Thread(target=self.keep_up, daemon=True).start()

    def tell(self, text: str) -> None:
        self.text = text

    def keep_up(self) -> None:
        while not self.ended.wait(0.1):
            with self.lock:
                if self.text != self.shown and time.monotonic() - self.begun > 1 and not self.ended.is_set():
                    sys.stderr.write(f"\r\x1b[K{self.text}")
                    sys.stderr.flush()
                    self.shown = self.text

    def end(self) -> None:
        """Takes the line away."""
        self.ended.set()
        with self.lock:
            if self.shown:
                sys.stderr.write("\r\x1b[K")
                sys.stderr.flush()
                self.shown = ""


progress = Progress()
