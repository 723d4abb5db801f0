"""A file judged: the verdict of the library, what the sheet claims and what the library works out."""

from __future__ import annotations

import csv
import io
import json
import os
from collections.abc import Sequence
from typing import Any, NamedTuple

from . import decks, files, native
from .against import File
from .decks import FIELD_NAMES, Sheet, Verdict
from .files import Found, Unread
from .matching import ANOTHER, MATCHED, UNDECIDED
from .native import Refused

ACCEPTED, DIFFERS, REFUSED, UNREAD = "accepted", "differs", "refused", "cannot be read"
WORDS = (ACCEPTED, DIFFERS, REFUSED, UNREAD)
NOT_READ, NO_CLAIM, NO_MOLECULE = "not read", "no claim", "no molecule"  # of molecules and rows of a table alone
CLAIM_WORDS = (*WORDS, NOT_READ, NO_CLAIM, NO_MOLECULE)
HELD_WORDS = (*WORDS, ANOTHER, UNDECIDED)  # of decks that are held against a molfile
STATUS = dict.fromkeys(CLAIM_WORDS, 2) | {ACCEPTED: 0, DIFFERS: 1, ANOTHER: 1, UNDECIDED: 2}
NONE_JUDGED = 2  # the exit status where there was no deck


class Judged(NamedTuple):
    """What came out for one file. `claimed` and `worked` are there where the deck was not refused."""

    name: str
    word: str
    sha256: str = ""
    size: int = 0
    field: int = 0
    number: int = 0
    place: int = 0
    fault: str = ""
    claimed: tuple[int, ...] = ()
    worked: tuple[int, ...] = ()
    data: bytes = b""
    against: str = ""  # the molfile that the deck was held against, and what came out
    answer: str = ""
    why: str = ""

    @property
    def status(self) -> int:
        """The exit status that this file asks for."""
        return STATUS[self.word]

    @property
    def words(self) -> str:
        """What the refusal's number says."""
        return Refused(self.number, self.place).words if self.word == REFUSED else ""

    @property
    def note(self) -> str:
        """What helps who meant something else by the file; mostly nothing."""
        if self.word == REFUSED and (self.number, kind_at(self.data, self.place)) == (12, decks.LIBRARY):
            return "a library deck has no sheet to judge; the command tteuyomal library lists its products"
        return ""

    def verdict(self) -> str:
        """The verdict as it stands in a line."""
        if self.word == DIFFERS:
            return f"differs {self.field}"
        if self.word == REFUSED:
            return f"refused {self.number} at {self.place}"
        return self.word

    def line(self) -> str:
        """The line of this file, with the reason where it can't be read, and what came out where it was held against a molfile."""
        return f"{files.shown(self.name)}: {self.verdict()}{f': {self.fault}' if self.fault else ''}{self._held()}"

    def _held(self) -> str:
        if self.answer == MATCHED:
            return f"; matched {files.shown(self.against)}"
        wrong = f"; differs {self.field}" if self.field else ""
        return f": {self.why}{wrong}" if self.answer else ""

    def wrong(self) -> list[int]:
        """The places, from 0, of the fields that are claimed wrongly."""
        return [k for k, (claim, number) in enumerate(zip(self.claimed, self.worked)) if claim != number]

    def reason(self) -> str:
        """What is wrong, in words; nothing where it is accepted."""
        if self.word == DIFFERS:
            return ", ".join(f"{FIELD_NAMES[k]} {self.claimed[k]} claimed, {self.worked[k]} worked out" for k in self.wrong())
        return self.words or self.fault

    def json(self) -> str:
        """One object on one line."""
        said = about(self.name) | {"sha256": self.sha256 or None, "verdict": self.word}
        if self.field:
            said["field"] = self.field
        if self.claimed:
            said["claimed"] = named(self.claimed)
            said["worked_out"] = named(self.worked)
        if self.word == REFUSED:
            said["refusal"] = told(Refused(self.number, self.place))
        if self.fault:
            said["fault"] = self.fault
        if self.answer:
            said["against"] = {"file": files.shown(self.against), "answer": self.answer, "words": self.why}
        return json.dumps(said)

    def columns(self) -> str:
        """The names above the rows of a table."""
        return row_of(["file", "sha256", "verdict", "words", *(f"{name}{end}" for name in decks.SHORT_NAMES for end in (" claimed", ""))])

    def row(self) -> str:
        """One row of a table."""
        words = self.reason()
        pairs = [number for pair in zip(self.claimed, self.worked) for number in pair]
        cells = [files.shown(self.name), self.sha256, self.word, f"{self.verdict()}: {words}" if words else self.verdict(), *pairs]
        return row_of([*cells, *[""] * (4 + 2 * len(decks.SHORT_NAMES) - len(cells))])


def row_of(cells: Sequence[Any]) -> str:
    """Cells as a row of a table."""
    line = io.StringIO()
    csv.writer(line, lineterminator="\n").writerow(cells)
    return line.getvalue()


def about(name: str) -> dict[str, Any]:
    """How an object begins: the file's name as it is printed, and its bytes where those can't be printed."""
    said: dict[str, Any] = {"file": files.shown(name), "sha256": None}
    return said if name.isprintable() else said | {"file_bytes": os.fsencode(name).hex()}


def told(refusal: Refused) -> dict[str, Any]:
    """A refusal in an object."""
    return {"number": refusal.number, "place": refusal.place, "words": refusal.words}


def named(fields: tuple[int, ...]) -> dict[str, int]:
    """The fields under their names, those of every line, text and object."""
    return dict(zip(decks.SHORT_NAMES, fields))


def kind_at(data: bytes, place: int) -> int:
    """The kind of the record that begins at a place."""
    return int.from_bytes(data[place + 2 : place + 4], "little")


def judge_file(found: Found, fields: bool = True) -> Judged:
    """Reads and judges one file. Without `fields` only the verdict is asked for."""
    try:
        data, sha256 = files.read(found)
    except Unread as fault:
        return Judged(found.name, UNREAD, fault=str(fault))
    return judge_bytes(found.name, data, sha256, fields)


def held(judged: Judged, file: File) -> Judged:
    """A deck that was judged, held against a molfile: one that is not found to be its molecule is not accepted, whatever its sheet says."""
    if judged.word not in (ACCEPTED, DIFFERS):
        return judged
    answer = file.holds(judged.data)
    word = judged.word if answer.word == MATCHED else answer.word
    return judged._replace(word=word, against=file.name, answer=answer.word, why=answer.why)


def judge_bytes(name: str, data: bytes, sha256: str, fields: bool = True) -> Judged:
    """Judges a deck that was read."""
    reply = native.judge_reply(data)
    what, where = reply % 256, reply // 256
    if what not in (0, 255):
        return Judged(name, REFUSED, sha256, len(data), number=what, place=where, data=data)
    word, field = (ACCEPTED, 0) if what == 0 else (DIFFERS, where)
    if not fields:
        return Judged(name, word, sha256, len(data), field, data=data)
    at, claims = decks.claimed(data)
    worked = worked_out(data[:at], len(claims))
    return Judged(name, word, sha256, len(data), field, claimed=claims, worked=worked, data=data)


def worked_out(deck: bytes, count: int = 5) -> tuple[int, ...]:
    """The five or six fields of a deck without a sheet, as the library works them out; raises `Refused`."""
    return tuple(native.compose_six(deck) if count == 6 else native.compose(deck))


class Tally:
    """How many of each verdict there were, and the exit status that they make together."""

    def __init__(self, words: tuple[str, ...] = WORDS, what: str = "deck") -> None:
        self.counts = dict.fromkeys(words, 0)
        self.what = what

    def add(self, word: str, count: int = 1) -> None:
        """Counts a verdict."""
        self.counts[word] += count

    def add_all(self, counts: dict[str, int]) -> None:
        """Counts what another tally has."""
        for word, count in counts.items():
            self.counts[word] += count

    @property
    def total(self) -> int:
        """How many verdicts there were."""
        return sum(self.counts.values())

    @property
    def found(self) -> int:
        """How many decks or molecules there were: a row of a table that names no molecule is none."""
        return self.total - self.counts.get(NO_MOLECULE, 0)

    @property
    def status(self) -> int:
        """0 only if there was one and every one was read and accepted; the greater wins."""
        return max((STATUS[word] for word, count in self.counts.items() if count), default=NONE_JUDGED)

    def __str__(self) -> str:
        if not self.total:
            return f"no {self.what} was judged"
        kinds = ", ".join(f"{count} {word}" for word, count in self.counts.items() if count)
        return f"{self.found} {self.what}{'' if self.found == 1 else 's'}: {kinds}"


__all__ = ["FIELD_NAMES", "Judged", "Sheet", "Tally", "Verdict", "judge_bytes", "judge_file", "named", "worked_out"]
