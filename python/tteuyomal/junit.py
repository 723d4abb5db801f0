"""A report in the form of JUnit's XML, as Jenkins and GitLab read it: a test case for each deck. A sheet that differs is a failure;
what is refused, can't be read or is not as it was expected is an error."""

from __future__ import annotations

import os
import shutil
import tempfile
from collections.abc import Iterator
from typing import IO, NamedTuple
from xml.sax.saxutils import escape, quoteattr

from . import files
from .judging import ACCEPTED, DIFFERS, Judged, Tally
from .notice import relative
from .run import Run, unmet, unmet_names


class Row(NamedTuple):
    """A deck on its way to the report."""

    word: str
    text: str


def row(judged: Judged, folder: str) -> Row:
    """One deck."""
    name = files.shown(relative(judged.name, folder))
    if judged.word == ACCEPTED:
        return Row(judged.word, case(name))
    words = judged.reason()
    message = f"{judged.verdict()}: {words}" if words else judged.verdict()
    return Row(judged.word, case(name, "failure" if judged.word == DIFFERS else "error", judged.word, message))


def case(name: str, how: str = "", kind: str = "", message: str = "") -> str:
    """A test case; one that is not passed says how. Its class is the folder that the deck stands in."""
    within, last = os.path.split(name)
    head = f"<testcase classname={quoteattr(within.replace('/', '.') or 'decks')} name={quoteattr(last)} time=\"0\""
    if not how:
        return f"{head}/>\n"
    return f"{head}><{how} type={quoteattr(kind)} message={quoteattr(message)}>{escape(f'{name}: {message}')}</{how}></testcase>\n"


class Page:
    """A report in the making. Use it in a `with`."""

    def __init__(self, run: Run, what: str = "deck") -> None:
        self.run = run
        self.what = what
        self._cases = tempfile.SpooledTemporaryFile(1 << 20)

    def __enter__(self) -> Page:
        return self

    def __exit__(self, *_: object) -> None:
        self._cases.close()

    def add(self, row: Row) -> None:
        """Adds a deck."""
        self._cases.write(row.text.encode())

    def write(self, file: IO[bytes], tally: Tally) -> None:
        """Writes the report."""
        more = list(_unmet(self.run, tally, self.what))
        failures = tally.counts[DIFFERS]
        errors = tally.total - failures - tally.counts[ACCEPTED] + len(more)
        file.write(_front(self.run, tally.total + len(more), failures, errors).encode())
        self._cases.seek(0)
        shutil.copyfileobj(self._cases, file)
        file.write("".join([*more, _BACK]).encode())


def failed(run: Run, why: str) -> bytes:
    """The report of a run that failed."""
    return (_front(run, 1, 0, 1) + case("run", "error", "failed", f"the run failed: {why}") + _BACK).encode()


def _unmet(run: Run, tally: Tally, what: str) -> Iterator[str]:
    """What is wrong with the run as a whole, and each name that is not as it was expected."""
    if not tally.found:
        yield case(f"{what}s", "error", "nothing", f"no {what} was judged")
    if sentences := unmet(run.expected, tally.found, what):
        yield case("expected", "error", "expected", "; ".join(sentences))
    for words, name in unmet_names(run.expected):
        yield case(files.shown(name), "error", words, words)


def _front(run: Run, tests: int, failures: int, errors: int) -> str:
    said = {
        "run": run.number, "time": run.time, "folder": run.folder, "library": run.version, "library.sha256": run.sha256,
        "TTEUYOMAL_SO": run.replaced, "program": run.program,
    }  # fmt: skip
    properties = "".join(f"<property name={quoteattr(key)} value={quoteattr(files.shown(one))}/>\n" for key, one in said.items() if one)
    return (
        '<?xml version="1.0" encoding="UTF-8"?>\n<testsuites>\n'
        f'<testsuite name="tteuyomal" package="tteuyomal" id="0" tests="{tests}" failures="{failures}" errors="{errors}" skipped="0" '
        f"time=\"0\" timestamp=\"{run.begun:%Y-%m-%dT%H:%M:%S}\" hostname={quoteattr(files.shown(run.host))}>\n"
        f"<properties>\n{properties}</properties>\n"
    )


_BACK = "<system-out></system-out>\n<system-err></system-err>\n</testsuite>\n</testsuites>\n"
