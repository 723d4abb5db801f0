"""A molecule checked: what a program printed of it, and what the library tells. Every verdict is a reply of the library."""

from __future__ import annotations

import ctypes
import functools
import hashlib
import json
import struct
from collections.abc import Iterable
from typing import Any, NamedTuple

from . import claims as claimed_texts, cutting, files, guesses, judging, native, sdf
from .claims import SHORT, Asked
from .judging import ACCEPTED, DIFFERS, NO_CLAIM, NO_MOLECULE, NOT_READ, REFUSED, UNREAD
from .native import Refused

_NO_CLAIM, _NOT_READ, _DIFFERS = 36, 37, 255  # replies that have a word of their own
_NO_ITEM = 38
_TOO_LARGE, _NO_FIELD = 1, 35
_LONGEST = 60  # characters of a printed text that are shown
_NUMBERS = len(SHORT)
_ROOM = 512  # more than any block's bonds have
LARGEST, SZEGED, HOSOYA, MERRIFIELD_SIMMONS, J = 6, 7, 8, 9, 10
ORDER = (ACCEPTED, DIFFERS, REFUSED, NOT_READ, NO_CLAIM, NO_MOLECULE, UNREAD)  # in which verdicts stand in the table


class Item(NamedTuple):
    """A molecule on its way to the judge, or a row of the table that is of none."""

    name: str  # the molecule's, or the row's
    file: str  # the molecule file; the table of a row that is of none
    record: int  # its number in an SDF, from 1; 0 of a molfile
    label: str  # name and place, as they are printed
    data: bytes = b""
    claims: bytes | None = b""  # None: they stand in the record's data items
    line: int = 0  # of the table
    fault: str = ""  # why the molecule can't be read
    word: str = ""  # a verdict that needs no judge


class Checked(NamedTuple):
    """What came out for one molecule or row; its parts are called as those of a deck that was judged. `claimed` and `worked` have a
    place for each field, None where it is not claimed."""

    item: Item
    name: str
    word: str
    asked: tuple[Asked, ...]
    sha256: str = ""
    size: int = 0
    number: int = 0
    place: int = 0
    fault: str = ""
    claimed: tuple[str | None, ...] = ()
    worked: tuple[Any, ...] = ()
    data: bytes = b""
    each: tuple[tuple[int, str], ...] = ()  # the verdict of each field that was asked for, where they are not all accepted
    refusal: str = ""  # what a refusal says of this record
    atoms: int = 0
    guessed: tuple[tuple[int, str], ...] = ()  # a field and what may be the cause
    placements: int = 0  # of a molecule that is judged as a deck: how many pieces it was cut into

    @property
    def words(self) -> str:
        """What the refusal's number says."""
        return self.refusal

    @property
    def cut(self) -> str:
        """What was done to a molecule that is no block."""
        return cutting.words(self.placements) if self.placements else ""

    @property
    def note(self) -> str:
        """Nothing: a board's line has it of a deck."""
        return ""

    def wrong(self) -> list[int]:
        """The places, from 0, of the fields that the library says are wrong."""
        return [field - 1 for field, word in self.each if word == DIFFERS]

    def verdict(self) -> str:
        """The verdict as it stands in a line."""
        if self.word == ACCEPTED:
            return accepted(self.asked)
        if self.word == REFUSED:
            return f"refused {self.number} at {self.place}: {self.refusal}"
        if not self.each or all(word == NO_CLAIM for _, word in self.each):
            return self.word
        words = {word for _, word in self.each}
        return "; ".join(self._told(word) for word in (NOT_READ, NO_CLAIM, DIFFERS, REFUSED, ACCEPTED) if word in words)

    def _told(self, word: str) -> str:
        """What is said of the fields with one verdict."""
        fields = [field for field, one in self.each if one == word]
        if word == DIFFERS:
            parts = [f"{SHORT[f - 1]}: {shown(self.claimed[f - 1])} printed, {self.worked[f - 1]}" for f in fields]
            return f"differs {', '.join(parts)}"
        if word == NOT_READ:
            return "not read: " + ", ".join(f'"{shown(self.claimed[f - 1])}" as {SHORT[f - 1]}' for f in fields)
        names = " ".join(SHORT[f - 1] for f in fields)
        return f"no claim of {names}" if word == NO_CLAIM else f"{word} {names}"

    def line(self) -> str:
        """The line of this molecule or row."""
        why = f": {self.fault}" if self.fault else ""
        cut = f"; {self.cut}" if self.placements else ""
        return f"{files.shown(self.name)}: {self.verdict()}{why}{cut}"

    def reason(self) -> str:
        """Nothing more than the verdict says, but why a file can't be read."""
        return self.fault

    def json(self) -> str:
        """One object on one line."""
        item = self.item
        said: dict[str, Any] = judging.about(item.file) | {"record": item.record or None, "name": item.name, "line": item.line or None}
        said |= {"sha256": self.sha256 or None, "verdict": self.word}
        if self.claimed:
            said["claimed"] = {name: text for name, text in zip(SHORT, self.claimed) if text is not None}
            said["worked_out"] = {name: number for name, number in zip(SHORT, self.worked) if number is not None}
        fields = self.each or [(one.field, self.word) for one in self.asked]
        said["fields"] = {SHORT[field - 1]: word for field, word in fields}
        if self.word == REFUSED:
            said["refusal"] = judging.told(Refused(self.number, self.place)) | {"words": self.refusal}
        if self.placements:
            said["cut"] = self.cut
        if self.fault:
            said["fault"] = self.fault
        if self.guessed:
            said["guesses"] = sorted({guess for _, guess in self.guessed})
        return json.dumps(said)

    def columns(self) -> str:
        """The names above the rows of a table."""
        return columns(self.asked)

    def row(self) -> str:
        """One row of a table."""
        item, each = self.item, dict(self.each)
        words = f"{self.verdict()}: {self.fault}" if self.fault else f"{self.verdict()}; {self.cut}" if self.placements else self.verdict()
        cells: list[Any] = [item.file, item.record or "", item.name, item.line or "", self.word, words]
        for one in self.asked:
            k = one.field - 1
            claim, number = (self.claimed[k], self.worked[k]) if self.claimed else ("", "")
            cells += [claim, number, each.get(one.field, self.word)]
        cells.append("; ".join(sorted({guess for _, guess in self.guessed})))
        return judging.row_of([files.shown(cell) if isinstance(cell, str) else "" if cell is None else cell for cell in cells])


@functools.cache
def accepted(asked: tuple[Asked, ...]) -> str:
    """What is said of a molecule whose claims are all accepted."""
    return " ".join([ACCEPTED, *(SHORT[one.field - 1] for one in asked)])


@functools.cache
def columns(asked: tuple[Asked, ...]) -> str:
    """The names above the rows of a table."""
    names = [f"{SHORT[one.field - 1]}{end}" for one in asked for end in (" printed", "", " verdict")]
    return judging.row_of(["file", "record", "name", "line", "verdict", "words", *names, "guesses"])


def shown(text: str | None) -> str:
    """A printed text, on one line and not too long."""
    words = files.shown(text or "")
    return words if len(words) <= _LONGEST else words[:_LONGEST] + ".."


class Judge:
    """Judges molecules one after the other; what is lent to the library is made once. One thread uses it at a time."""

    def __init__(self, asked: Iterable[Asked], fields: bool, hashed: bool, looks: int) -> None:
        self.asked = tuple(asked)
        self.items = [(one.field, one.column.encode("utf-8", "surrogateescape")) for one in self.asked]
        self.fields = fields  # whether numbers are wanted of what is accepted
        self.hashed = hashed  # whether the SHA-256 of each record is wanted
        self.looks = looks  # so many molecules that differ are looked at for what may be the cause
        self._bonds = (ctypes.c_uint8 * _ROOM)()
        self._counts = (ctypes.c_uint64 * 2)()
        self._span = (ctypes.c_uint64 * 2)()

    def check(self, item: Item) -> Checked:
        """What the library tells of a molecule and its claims. Where it goes on to a file, the record's bytes stay behind."""
        checked = self._check(item)
        return checked._replace(item=item._replace(data=b"", claims=b"")) if self.hashed else checked

    def _check(self, item: Item) -> Checked:
        if item.word:
            return Checked(item, item.label, item.word, self.asked, fault=item.fault)
        data, claims = item.data, item.claims
        size = len(data)
        sha256 = hashlib.sha256(data).hexdigest() if self.hashed else ""
        reply = native._read_molfile(data, size, self._bonds, _ROOM, self._counts, 2)
        large, why = None, ""
        if reply == _TOO_LARGE and native.has("read_whole"):
            large, reply, why = cut_or_not(data)
        if claims is None and not reply:
            reply, claims = self._item_claims(data)
        if reply:
            return self._refused(Checked(item, item.label, REFUSED, self.asked, sha256, size), reply, why)
        graph = large or Small(self._counts[0], ctypes.string_at(self._bonds, 2 * self._counts[1]))
        reply = graph.judged(claims or b"")
        if reply == 0 and not self.fields and self._complete(claims or b""):
            return Checked(item, item.label, ACCEPTED, self.asked, sha256, size, atoms=graph.atoms, placements=graph.placements)
        base = Checked(item, item.label, REFUSED, self.asked, sha256, size, atoms=graph.atoms, placements=graph.placements)
        return self._told(base, reply, graph, claims or b"")

    def _complete(self, claims: bytes) -> bool:
        """Whether each field that was asked for is claimed."""
        count = at = 0
        while at < len(claims):
            at += 2 + claims[at + 1]
            count += 1
        return count == len(self.asked)

    def _item_claims(self, data: bytes) -> tuple[int, bytes]:
        """The claims in a record's data items: a reply where one stands twice, and else their bytes."""
        found = []
        for field, name in self.items:
            reply = native._sdf_item(data, len(data), name, len(name), self._span, 2)
            if reply == 0:
                start, length = self._span
                found.append(claimed_texts.claim(field, data[start : start + length]))
            elif reply % 256 != _NO_ITEM:
                return reply, b""
        return 0, b"".join(found)

    def _refused(self, base: Checked, reply: int, why: str = "") -> Checked:
        """A record that is refused, whatever is claimed of it."""
        refusal, data = Refused(reply % 256, reply // 256), base.item.data
        each = tuple((one.field, REFUSED) for one in self.asked)
        words = refusal.words + (why or sdf.line_of(data, refusal))
        guessed = guesses.of_refusal(data, refusal) if self._may_look() else ()
        return base._replace(word=REFUSED, number=refusal.number, place=refusal.place, refusal=words, each=each, guessed=guessed)

    def _told(self, base: Checked, reply: int, graph: Small | Large, claims: bytes) -> Checked:
        """A molecule whose claims are not simply accepted, or of which all numbers are wanted."""
        what = reply % 256
        texts = claimed_texts.texts(claims)
        all_right = reply == 0 and len(texts) == len(self.asked)
        each = tuple((one.field, ACCEPTED if all_right else self._one(graph, one.field, texts)) for one in self.asked)
        words = [word for _, word in each]
        word = {0: ACCEPTED, _DIFFERS: DIFFERS, _NOT_READ: NOT_READ, _NO_CLAIM: NO_CLAIM}.get(what, REFUSED)
        if word in (ACCEPTED, DIFFERS) and NO_CLAIM in words:
            word = NO_CLAIM  # something was asked for and not printed: that is not green, whatever was
        numbers = graph.numbers([field for field, one in each if one == DIFFERS or (self.fields and field in texts)])
        base = base._replace(
            word=word, each=() if word == ACCEPTED else each, claimed=tuple(texts.get(k) for k in range(1, _NUMBERS + 1)) if texts else (),
            worked=numbers if texts else (), data=graph.deck() if self.fields else b"",
        )  # fmt: skip
        if word == REFUSED:
            refusal = Refused(what, reply // 256)
            base = base._replace(number=what, place=refusal.place, refusal=refusal.words + self._of_blocks(graph, what, texts))
        if DIFFERS in words and self._may_look():
            wrong = {field: texts[field] for field, one in each if one == DIFFERS}
            base = base._replace(guessed=guesses.of_claims(base.item.data, wrong, texts, graph.fields(), numbers))
        return base

    @staticmethod
    def _of_blocks(graph: Small | Large, number: int, texts: dict[int, str]) -> str:
        """What is said where a field is claimed that only a block has."""
        names = " ".join(SHORT[field - 1] for field in sorted(texts) if field > LARGEST)
        return f" ({names}: judged of up to {cutting.MOST_ATOMS} atoms alone)" if isinstance(graph, Large) and number == _NO_FIELD and names else ""

    def _may_look(self) -> bool:
        self.looks -= 1
        return self.looks >= 0

    @staticmethod
    def _one(graph: Small | Large, field: int, texts: dict[int, str]) -> str:
        """The verdict on one field alone."""
        if field not in texts:
            return NO_CLAIM
        reply = graph.judged(claimed_texts.claim(field, texts[field].encode("utf-8", "surrogateescape")))
        return {0: ACCEPTED, _DIFFERS: DIFFERS, _NOT_READ: NOT_READ}.get(reply % 256, REFUSED)


class Small:
    """A molecule that is a block."""

    placements = 0

    def __init__(self, atoms: int, bonds: bytes) -> None:
        self.atoms = atoms
        self.bonds = bonds

    def judged(self, claims: bytes) -> int:
        """The reply to claims."""
        reply: int = native._judge_block(self.atoms, self.bonds, len(self.bonds), claims, len(claims))
        return reply

    def fields(self) -> native.Fields:
        """The five fields."""
        return native.indices(self.atoms, self.bonds)

    def deck(self) -> bytes:
        """The deck of the one block."""
        return one_block(self.atoms, self.bonds)

    def numbers(self, fields: list[int]) -> tuple[Any, ...]:
        """What the library works out for some fields."""
        atoms, bonds = self.atoms, self.bonds
        found: list[Any] = [None] * _NUMBERS
        six = native.compose_six(self.deck()) if LARGEST in fields else self.fields() if fields else ()
        for field in fields:
            if field <= LARGEST:
                found[field - 1] = six[field - 1]
            elif field == SZEGED:
                found[field - 1] = native.szeged(atoms, bonds).index
            elif field == J:
                found[field - 1] = fine(native.balaban(atoms, bonds), atoms, len(bonds) // 2)
            elif 2 * (atoms - 1) == len(bonds):
                found[field - 1] = native.count_sets(atoms, bonds)[field - HOSOYA]
        return tuple(found)


class Large:
    """A molecule of more atoms than a block has: it is judged as a deck that the library says is the same molecule. Raises why there is
    none."""

    def __init__(self, molecule: native.Molecule) -> None:
        made = cutting.matched(molecule)
        self.atoms, self.placements, self._deck = molecule.atoms, made.placements, made.deck

    def judged(self, claims: bytes) -> int:
        """The reply to claims."""
        reply: int = native._judge_claims(self._deck, len(self._deck), claims, len(claims))
        return reply

    def fields(self) -> native.Fields:
        """The five fields."""
        return native.compose(self._deck)

    def deck(self) -> bytes:
        """The deck."""
        return self._deck

    def numbers(self, fields: list[int]) -> tuple[Any, ...]:
        """What the library works out for some fields; for those of a lone block nothing."""
        six = native.compose_six(self._deck) if any(field <= LARGEST for field in fields) else ()
        return tuple(six[field - 1] if field in fields and field <= LARGEST else None for field in range(1, _NUMBERS + 1))


def cut_or_not(data: bytes) -> tuple[Large | None, int, str]:
    """A molecule that is no block, as a deck that is matched with it; else the reply that refuses it, and why it is not cut."""
    try:
        molecule = native.read_whole(data)
    except Refused as refusal:
        return None, refusal.number + 256 * refusal.place, ""
    try:
        return Large(molecule), 0, ""
    except cutting.Uncut as why:
        return None, _TOO_LARGE, f" ({why.told(data, molecule)})"
    except cutting.NotMatched as why:
        return None, _TOO_LARGE, f" ({why})"


def fine(answer: int, atoms: int, bonds: int) -> str:
    """Where J lies, by docs/RULES.md: from the answer to so much above it."""
    above = answer + 1 + bonds * bonds // (bonds - atoms + 2)
    return " to ".join("{}.{:09d}".format(*divmod(number, 10**9)) for number in (answer, above))


def one_block(atoms: int, bonds: bytes) -> bytes:
    """The deck of one block."""
    block = struct.pack("<HHHHH", 6 + len(bonds), 1, 1, atoms, len(bonds) // 2) + bonds
    return block + native.assembly_record([(1, 0, 0, 0)])


class Example(NamedTuple):
    """A molecule that stands for those with its verdict on a field, and what is said of it; the smallest is shown."""

    size: tuple[int, int]  # atoms where it was read, then bytes
    label: str
    words: str


class Counts:
    """Field by verdict: how many, and the smallest of each; and what may be the cause of what differs."""

    def __init__(self) -> None:
        self.cells: dict[tuple[int, str], tuple[int, Example]] = {}
        self.guesses: dict[tuple[str, int], tuple[int, Example]] = {}
        self.looked = 0  # so many were looked at for a cause

    def add(self, some: Iterable[Checked], looked: int) -> None:
        """Counts some molecules. Of those that are accepted in all fields one is looked at, the smallest."""
        accepted, least = 0, None
        for one in some:
            if not one.each and one.word == ACCEPTED:
                accepted += 1
                if least is None or (one.atoms, one.size) < (least.atoms, least.size):
                    least = one
                continue
            for field, word in one.each or [(asked.field, one.word) for asked in one.asked]:
                put(self.cells, (field, word), 1, example(one, field, word))
            for field, guess in one.guessed:
                put(self.guesses, (guess, field), 1, example(one, field, DIFFERS if field else REFUSED))
        if least is not None:
            for asked in least.asked:
                put(self.cells, (asked.field, ACCEPTED), accepted, example(least, asked.field, ACCEPTED))
        self.looked += looked

    def merge(self, other: Counts) -> None:
        """Adds what another batch counted."""
        for cell, (count, one) in other.cells.items():
            put(self.cells, cell, count, one)
        for guess, (count, one) in other.guesses.items():
            put(self.guesses, guess, count, one)
        self.looked += other.looked


def put(counts: dict[Any, tuple[int, Example]], key: Any, count: int, one: Example) -> None:
    """Counts, and keeps the smaller example, of equal ones the first."""
    before = counts.get(key)
    counts[key] = (count, one) if before is None else (before[0] + count, min(before[1], one, key=lambda example: example.size))


def example(one: Checked, field: int, word: str) -> Example:
    """What is said of a molecule in the table at the end."""
    words = f"{one.atoms} {'atom' if one.atoms == 1 else 'atoms'}" if one.atoms else ""
    if field and word == DIFFERS and one.claimed:
        words += f": {shown(one.claimed[field - 1])} printed, {one.worked[field - 1]}"
    elif field and word == NOT_READ and one.claimed:
        words += f': "{shown(one.claimed[field - 1])}"'
    elif word == REFUSED:
        words = f"refused {one.number}: {one.refusal}"
    elif one.fault:
        words = one.fault
    return Example((one.atoms, one.size), one.name, words)
