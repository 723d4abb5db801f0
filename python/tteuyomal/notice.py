"""The clerk's notice: what was judged, when, where and by which library, with the SHA-256 and the verdict of each deck.

A deck is a line as `sha256sum` writes it, under the verdict that it got:

    differs 3:
    5c3f...  product-17.deck

so that `sha256sum -c` checks the bytes and `tteuyomal verify` the verdicts too.
"""

from __future__ import annotations

import contextlib
import re
import shutil
import tempfile
from collections.abc import Iterable, Iterator
from typing import IO, Any, NamedTuple

from . import files
from .judging import ACCEPTED, DIFFERS, REFUSED, UNREAD, WORDS, Judged, Tally
from .run import Run, unmet, unmet_names

UNHASHED = "-" * 64  # where no bytes were read
LINE = re.compile(r"(\\?)([0-9a-f]{64}|-{64})  (.+)")
LIBRARY = "Library's SHA-256: "


class Row(NamedTuple):
    """A deck on its way to the notice."""

    word: str
    verdict: str
    sha256: str
    name: str

    def line(self) -> str:
        """As `sha256sum` writes it: where a name has escapes, a backslash stands first."""
        name = files.shown(self.name)
        return f"{'' if name == self.name else chr(92)}{self.sha256 or UNHASHED}  {name}\n"


def row(judged: Judged, folder: str) -> Row:
    """One deck."""
    why = f", {judged.fault}" if judged.fault else ""
    return Row(judged.word, judged.verdict() + why, judged.sha256, relative(judged.name, folder))


def relative(name: str, folder: str) -> str:
    """A file's name as seen from the folder that was judged."""
    front = folder.rstrip("/") + "/"
    return name[len(front) :] if folder and name.startswith(front) else name


class Page:
    """A notice in the making: rows are added one by one, and it is written when all are there. Use it in a `with`."""

    def __init__(self, run: Run, what: str = "deck") -> None:
        self.run = run
        self.what = what
        self._parts = contextlib.ExitStack()
        self._lines: dict[str, Any] = {}
        self._last: dict[str, str] = {}

    def __enter__(self) -> Page:
        return self

    def __exit__(self, *_: object) -> None:
        self._parts.close()

    def add(self, row: Row) -> None:
        """Puts a row under its verdict."""
        if row.word not in self._lines:
            self._lines[row.word] = self._parts.enter_context(tempfile.SpooledTemporaryFile(1 << 20))
        lines = self._lines[row.word]
        if self._last.get(row.word) != row.verdict:
            self._last[row.word] = row.verdict
            lines.write(f"\n{row.verdict}:\n".encode())
        lines.write(row.line().encode())

    def write(self, file: IO[bytes], tally: Tally) -> None:
        """Writes the notice."""
        file.write("".join(head(self.run, tally, self.what)).encode())
        others = [word for word in self._lines if word not in WORDS]
        for word in (REFUSED, UNREAD, DIFFERS, *others, ACCEPTED):
            if word in self._lines:
                self._lines[word].seek(0)
                shutil.copyfileobj(self._lines[word], file)


def head(run: Run, tally: Tally, what: str = "deck") -> Iterator[str]:
    """What stands above the lines of the decks."""
    yield f"Notice of judged {what}s\n\n"
    yield f"Date: {run.begun:%Y-%m-%d %H:%M:%S} UTC\n"
    yield f"Run: {run.number}\n"
    yield f"Host: {files.shown(run.host)}\n"
    yield f"Folder: {files.shown(run.folder)}\n"
    yield f"Library: Tteuyomal {run.version}\n"
    yield f"{LIBRARY}{run.sha256}\n"
    yield f"Judged by: {run.code}\n"
    if run.replaced:
        yield f"The library is not the package's own: TTEUYOMAL_SO was set, to {files.shown(run.replaced)}\n"
    if run.program:
        yield f"Program: {files.shown(run.program)}\n"
    for kind, name, sha256 in run.inputs:
        yield f"{kind.capitalize()}: {files.shown(name)}, SHA-256 {sha256}\n"
    yield f"Expected: {expectation(run)}\n"
    yield f"{_counted(what)}: {tally.found}\n"
    if tally.total > tally.found:
        yield f"Rows of the table with no molecule: {tally.total - tally.found}\n"
    yield "\n" + sentence(run, tally, what) + "\n"
    yield from (f"  {words}: {files.shown(name)}\n" for words, name in unmet_names(run.expected))
    if tally.total and what != "deck":
        yield f"\nEach SHA-256 is that of a {what}'s record, and stands under its verdict; that of a molfile is its file's.\n"
    elif tally.total:
        yield f"\nEach SHA-256 stands under the verdict of its {what}. `sha256sum -c` in the folder checks these lines, `tteuyomal verify`\n"
        yield "judges again.\n"


def expectation(run: Run) -> str:
    """How many were expected, and by whose word."""
    if run.expected is None:
        return "nothing was said"
    return f"{run.expected.count}" + (f", those of {files.shown(run.expected.manifest)}" if run.expected.manifest else "")


def sentence(run: Run, tally: Tally, what: str = "deck") -> str:
    """What the verdicts are together. That all were accepted is said only if it is so, and if all came that were expected."""
    wrong = unmet(run.expected, tally.found, what)
    if not tally.found:
        return "; ".join([f"No {what} was judged", *wrong]) + "."
    accepted = tally.counts[ACCEPTED]
    if accepted == tally.total and not wrong:
        which = f"The one {what} was" if accepted == 1 else f"All {accepted} {what}s were"
        if what != "deck":
            return f"{which} checked and accepted: what was printed of each is what the library works out from it. Nothing else was judged."
        return f"{which} checked and accepted: the fields of each sheet are those that the library works out from its {what}."
    others = [f"{word}: {count}" for word, count in tally.counts.items() if count and word != ACCEPTED]
    not_accepted = f"Not accepted: {tally.total - accepted} of {tally.total} ({', '.join(others)}). " if others else ""
    unmet_words = f"Not as expected: {', '.join(wrong)}. " if wrong else ""
    return f"{unmet_words}{not_accepted}Accepted: {accepted}."


def _counted(what: str) -> str:
    """What stands before the number of decks or molecules; a molecule file has a line of its own."""
    return "Decks" if what == "deck" else f"Judged {what}s"


class Read(NamedTuple):
    """What a notice says: the library's SHA-256, how many decks, its sentence, whether that says that all were accepted, and its rows."""

    library: str
    total: int
    sentence: str
    all_accepted: bool
    rows: dict[str, Row]


class NoNotice(ValueError):
    """A text that is no notice, with what is wrong."""


def read(text: str) -> Read:
    """Reads a notice; raises `NoNotice`."""
    lines = text.split("\n")
    if not lines[0].startswith("Notice of judged "):
        raise NoNotice("it does not begin as a notice does")
    if lines[0] != "Notice of judged decks":
        raise NoNotice("it is a notice of molecules: `tteuyomal check` of the same files makes it again")
    found = re.search(rf"^{LIBRARY}([0-9a-f]*)$", text, re.M), re.search(r"^Decks: (\d{1,18})$", text, re.M)
    if found[0] is None or found[1] is None:
        raise NoNotice("it does not say which library judged, and how many decks")
    rows = {one.name: one for one in _rows(lines)}
    all_accepted = any(re.match(r"(The one|All \d+) decks? (was|were) checked and accepted", line) for line in lines)
    said = text[found[1].end() :].strip("\n").partition("\n")[0]
    return Read(found[0][1], int(found[1][1]), said, all_accepted, rows)


def _rows(lines: Iterable[str]) -> Iterator[Row]:
    verdict, names = "", set()
    for place, line in enumerate(lines, 1):
        if found := LINE.fullmatch(line):
            escaped, sha256, name = found.groups()
            name = files.meant(name) if escaped else name
            if not verdict or name in names:
                raise NoNotice(f"line {place} {'names a deck a second time' if verdict else 'stands under no verdict'}")
            names.add(name)
            yield Row(next((word for word in WORDS if verdict.startswith(word)), verdict), verdict, sha256.strip("-"), name)
        elif line.endswith(":") and line.startswith(WORDS):
            verdict = line[:-1]
