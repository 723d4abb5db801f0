"""The files that one run writes. All are made of the same verdicts, each file being read once. The notice is written last, and only
where the others could be; where the run fails, board and report say so in the place of older ones."""

from __future__ import annotations

import contextlib
import importlib
import itertools
import tempfile
from collections.abc import Iterable, Sequence
from typing import Any

from . import files
from .judging import Tally
from .run import Run

# in the order in which they are written: the module that makes each. It has `row`, asked in the processes that judge, `Page`, to which
# rows are added, and perhaps `failed`. A module is loaded where its file is asked for: the board's takes RDKit along.
FORMS = {"json": "objects", "csv": "rows", "junit": "junit", "board": "board", "notice": "notice"}


def module(form: str) -> Any:
    """What makes a file of this form."""
    return importlib.import_module(f".{FORMS[form]}", __package__)


def rows(judged: Sequence[Any], folder: str, forms: Iterable[str]) -> dict[str, list[Any]]:
    """What each form needs of some decks."""
    return {form: [module(form).row(one, folder) for one in judged] for form in forms}


class Outputs:
    """The files of one run, by their forms. Use it in a `with`: an exception in it is the reason why the run failed."""

    def __init__(self, run: Run, paths: dict[str, str], what: str = "deck") -> None:
        self.run = run
        self.paths = {form: paths[form] for form in FORMS if form in paths}
        self.pages = {form: module(form).Page(run, what) for form in self.paths}
        self.written: set[str] = set()

    def __enter__(self) -> Outputs:
        return self

    def __exit__(self, _: object, fault: BaseException | None, __: object) -> None:
        for page in self.pages.values():
            page.__exit__(None, None, None)
        if fault is not None:
            self._fail(why(fault))

    def add(self, rows: dict[str, list[Any]]) -> None:
        """Adds some decks."""
        try:
            for form, those in rows.items():
                for row in those:
                    self.pages[form].add(row)
        except OSError as fault:  # what a page keeps until it is written
            kept = files.shown(tempfile.gettempdir())
            raise files.Unwritten(f"{kept}, the folder for temporary files: cannot be written: {files.reason(fault)}") from None

    def write(self, tally: Tally, run: Run) -> None:
        """Writes all files; the run says by now what was expected."""
        for form, page in self.pages.items():
            page.run = run
            with files.written(self.paths[form]) as file:
                page.write(file, tally)
            self.written.add(form)

    def _fail(self, reason: str) -> None:
        """Writes what says that the run failed, where it was not written before."""
        for form in self.paths:
            said = getattr(module(form), "failed", None)
            if said is not None and form not in self.written:
                with contextlib.suppress(files.Unwritten), files.written(self.paths[form]) as file:
                    file.write(said(self.run, reason))


def why(fault: BaseException) -> str:
    """Why a run failed, in words."""
    if isinstance(fault, KeyboardInterrupt):
        return "it was interrupted"
    if isinstance(fault, SystemExit):
        return "it was told to end"
    return str(fault) or type(fault).__name__


def apart(paths: dict[str, str], inputs: Iterable[str]) -> None:
    """Raises `OverInput` where a file would be written over an input or over another."""
    inputs = list(inputs)
    for path in paths.values():
        files.apart(path, inputs)
    for one, other in itertools.combinations(paths.values(), 2):
        if files.same(one, other):
            raise files.OverInput(f"{files.shown(other)} is two outputs: each must be a file of its own")
