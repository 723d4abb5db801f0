"""One JSON object a line: what came out for each file, and the run that it comes from."""

from __future__ import annotations

import json
import shutil
import tempfile
from typing import IO

from .judging import Judged, Tally
from .run import Run


def ended(said: str, stamp: str) -> str:
    """An object with the run's words at its end."""
    return f"{said[:-1]}, {stamp[1:]}"


def row(judged: Judged, folder: str) -> str:
    """The object of one file, without the run."""
    return judged.json()


class Page:
    """A file of objects in the making. Use it in a `with`."""

    def __init__(self, run: Run, what: str = "deck") -> None:
        self.run = run
        self._stamp = json.dumps(run.stamp())
        self._lines = tempfile.SpooledTemporaryFile(1 << 20)

    def __enter__(self) -> Page:
        return self

    def __exit__(self, *_: object) -> None:
        self._lines.close()

    def add(self, row: str) -> None:
        """Adds an object."""
        self._lines.write(f"{ended(row, self._stamp)}\n".encode())

    def write(self, file: IO[bytes], tally: Tally) -> None:
        """Writes all of them."""
        self._lines.seek(0)
        shutil.copyfileobj(self._lines, file)
