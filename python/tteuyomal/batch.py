"""What comes out of a batch of decks or molecules, and one run made of the batches. `judge` and `check` go this way."""

from __future__ import annotations

import json
from collections.abc import Callable, Iterable, Sequence
from typing import Any, NamedTuple

from . import files, objects, outputs, rows, work
from .console import Output, complain
from .judging import ACCEPTED, Tally
from .run import Run, unmet, unmet_names

LINES, OBJECTS, ROWS, NOTHING = "lines", "objects", "rows", ""  # what goes to standard output


class Wanted(NamedTuple):
    """What a run makes of each deck or molecule."""

    folder: str = ""
    printed: str = NOTHING
    quiet: bool = False  # what is accepted is not printed
    stamp: str = ""  # what objects say of the run
    forms: tuple[str, ...] = ()  # the files that are written
    named: bool = False  # names are held against a manifest

    @property
    def fields(self) -> bool:
        """Whether more than the verdict is wanted."""
        return self.printed in (OBJECTS, ROWS) or any(form != "notice" for form in self.forms)


class Batch(NamedTuple):
    """What came out for some files: what is printed, how many of each verdict, rows of files, and names where they are asked for."""

    text: str
    counts: dict[str, int]
    rows: dict[str, list[Any]]
    names: list[tuple[str, str]]
    more: Any = None  # what a command adds up besides


def of(judged: Sequence[Any], wanted: Wanted, more: Any = None) -> Batch:
    """The batch of what was judged: decks (`Judged`), or molecules whose parts are called alike (`Checked`)."""
    counts: dict[str, int] = {}
    for one in judged:
        counts[one.word] = counts.get(one.word, 0) + 1
    said = [one for one in judged if not wanted.quiet or one.word != ACCEPTED] if wanted.printed else []
    if wanted.printed == OBJECTS:
        text = "".join(f"{objects.ended(one.json(), wanted.stamp)}\n" for one in said)
    elif wanted.printed == ROWS:
        run = json.loads(wanted.stamp)["run"]
        text = "".join(rows.ended(one.row(), run) for one in said)
    else:
        text = "".join([f"{one.line()}\n" for one in said])
    names = [(one.name, one.sha256) for one in judged] if wanted.named else []
    return Batch(text, counts, outputs.rows(judged, wanted.folder, wanted.forms), names, more)


def gather(
    batches: Iterable[Batch], out: Output, pages: outputs.Outputs, tally: Tally, progress: work.Progress, also: Callable[[Batch], None]
) -> None:
    """Prints, counts and hands on what comes, in order."""
    for batch in batches:
        out.write(batch.text)
        pages.add(batch.rows)
        also(batch)
        tally.add_all(batch.counts)
        progress.add(sum(batch.counts.values()))
    out.flush()


def ended(tally: Tally, run: Run) -> int:
    """The exit status, with a complaint where nothing was judged or something is not as it was expected."""
    if not tally.found:
        complain(f"no {tally.what} was judged")
    wrong = unmet(run.expected, tally.found, tally.what)
    for sentence in wrong:
        complain(sentence)
    for words, name in unmet_names(run.expected):
        complain(f"{words}: {files.shown(name)}")
    return 2 if wrong else tally.status
