"""What commands have in common with who calls them: standard output, complaints on standard error, and stopping."""

from __future__ import annotations

import contextlib
import os
import sys
from collections.abc import Iterator


class Stop(Exception):
    """The command can't go on; what is wrong is said and the exit status is 2."""


class OutputFailed(Exception):
    """Standard output could not be written; the reason is not there where who read it has gone."""


class Output:
    """Standard output. A line that can't be written ends the command, and its exit status is not 0."""

    def __init__(self) -> None:
        self.file = sys.stdout
        self.encoding = getattr(sys.stdout, "encoding", None) or "utf-8"

    def write(self, text: str) -> None:
        """Writes some lines."""
        if self.file is None:
            raise OutputFailed("standard output is closed")
        with self._told():
            self.file.buffer.write(text.encode(self.encoding, "backslashreplace"))

    def flush(self) -> None:
        """Hands everything over."""
        if self.file is not None:
            with self._told():
                self.file.flush()

    @contextlib.contextmanager
    def _told(self) -> Iterator[None]:
        try:
            yield
        except BrokenPipeError:
            self._let_go()
            raise OutputFailed from None
        except OSError as fault:
            self._let_go()
            raise OutputFailed(f"standard output: {fault}") from None

    def _let_go(self) -> None:
        """What could not be written is let go, so that ending the process tries it no second time."""
        with contextlib.suppress(OSError):
            os.dup2(os.open(os.devnull, os.O_WRONLY), self.file.fileno())


def complain(text: str) -> None:
    """Says on standard error what is wrong."""
    told(f"tteuyomal: {text}\n")


def told(text: str) -> None:
    """Writes to standard error. Where that can't be written, nobody can be told."""
    if sys.stderr is not None:
        with contextlib.suppress(OSError, ValueError):
            sys.stderr.write(text)
            sys.stderr.flush()


def fill() -> None:
    """Opens nothing in place of standard streams that are closed, so that no file gets their numbers. Python's own name of a closed
    stream stays None."""
    for number in range(3):
        try:
            os.fstat(number)
        except OSError:
            os.open(os.devnull, os.O_RDWR)  # the smallest number that is free
