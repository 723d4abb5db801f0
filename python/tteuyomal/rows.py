"""A table of what came out: a row for each deck or molecule, under a row of names."""

from __future__ import annotations

import shutil
import tempfile
from typing import IO, NamedTuple

from .judging import Judged, Tally
from .run import Run


class Row(NamedTuple):
    """A row on its way to the table, and the names that stand above all of them."""

    names: str
    text: str


def ended(line: str, last: str) -> str:
    """A row with one cell more."""
    return f"{line[:-1]},{last}\n"


def row(judged: Judged, folder: str) -> Row:
    """One deck or molecule."""
    return Row(judged.columns(), judged.row())


class Page:
    """A table in the making. Use it in a `with`."""

    def __init__(self, run: Run, what: str = "deck") -> None:
        self.run = run
        self._rows = tempfile.SpooledTemporaryFile(1 << 20)

    def __enter__(self) -> Page:
        return self

    def __exit__(self, *_: object) -> None:
        self._rows.close()

    def add(self, row: Row) -> None:
        """Adds a row."""
        if not self._rows.tell():
            self._rows.write(ended(row.names, "run").encode())
        self._rows.write(ended(row.text, self.run.number).encode())

    def write(self, file: IO[bytes], tally: Tally) -> None:
        """Writes all of them."""
        self._rows.seek(0)
        shutil.copyfileobj(self._rows, file)
