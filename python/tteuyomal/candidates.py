"""A library to be ranked, as a text (TOML) that people write: a core, and for each site of it any number of candidates.

    [core]
    molfile = "core.mol"            # or: sdf = "cores.sdf" and record = 3, or its title; or: atoms = 6 and bonds = ["1-2", ..]

    [[site]]
    atom = 4                        # the core's atom, by its number in its file
    candidates = ["methyl.mol", "amines.sdf", "acids/"]

    [[site]]
    mark = "R2"                     # the core's atom that is bonded to the dummy atom R2
    candidates = [
        { sdf = "alkynes.sdf", records = [1, 2, "propyne"], join = "ATTACH" },
        { molfile = "benzene.mol", join = 1 },
        { name = "methyl", atoms = 1, join = 1 },
    ]

A candidate is joined by the atom that is bonded to its one dummy atom (symbol `*`, `R`, `R#`, `R1` ..), which is then left out. `join`
says otherwise: a number is the atom's, a text names the data item that has the number. Atoms are told by their numbers in the file, with
the hydrogens that a block leaves out. Files are read by the proved readers; which number an atom then has is worked out here and held
against what they read.
"""

from __future__ import annotations

import contextlib
import io
import os
import re
import tomllib
from collections import Counter
from collections.abc import Callable, Iterable, Iterator
from typing import Any, NamedTuple

from . import files, native, sdf
from .decks import Block
from .files import Found, Unread, shown
from .native import Refused

LONGEST = 1 << 30  # bytes of a file that are held
MOLFILES, SDFS = (".mol", ".mdl"), (".sdf", ".sd")
_DUMMY = re.compile(rb"\*|R#|R[0-9]*")
_BOND = re.compile("([0-9]{1,9})-([0-9]{1,9})")


class BadLibrary(Exception):
    """A text that is no library to be ranked, with what is wrong."""


class Unfit(Exception):
    """Why something can't be a candidate, or a core."""


class Candidate(NamedTuple):
    """What may be joined at a site: its name, its block, and the block's atom by which it is joined."""

    name: str
    block: Block
    atom: int


class Left(NamedTuple):
    """A candidate that is refused, with the reason: the site's number, its name, and why."""

    site: int
    name: str
    reason: str


class Site(NamedTuple):
    """The core's atom, by its number in the block, and what may be joined to it."""

    atom: int
    candidates: list[Candidate]


class Library(NamedTuple):
    """A core, its sites, and the candidates that were refused."""

    core: Block
    sites: list[Site]
    left: list[Left]


class Drawn(NamedTuple):
    """A molfile that was read: the block of its heavy atoms, the number in the block of each atom of the file that is in it, and the
    dummy atoms by their numbers in the file, each with its mark."""

    block: Block
    numbers: dict[int, int]
    atoms: int
    dummies: dict[int, str]

    def number(self, atom: int, what: str) -> int:
        """The number in the block of an atom of the file."""
        if not 1 <= atom <= self.atoms:
            raise Unfit(f"{what} is atom {atom}, and the file has {self.atoms}")
        if atom not in self.numbers:
            raise Unfit(f"{what} is atom {atom}, a hydrogen that is left out")
        return self.numbers[atom]

    def beside(self, dummy: int) -> int:
        """The number in the block of the one atom that a dummy is bonded to."""
        own = self.numbers[dummy]
        ends = [a + b - own for a, b in self.block.bonds if own in (a, b)]
        if len(ends) != 1:
            raise Unfit(f"its dummy atom {dummy} has {len(ends)} bonds to atoms that are kept, not one")
        return ends[0]

    def without(self, dummies: Iterable[int]) -> tuple[Block, dict[int, int]]:
        """The block with some atoms left out, and the new number of each that stays."""
        gone = {self.numbers[one] for one in dummies}
        stay = [atom for atom in range(1, self.block.atoms + 1) if atom not in gone]
        new = {atom: number for number, atom in enumerate(stay, 1)}
        return Block(len(stay), [(new[a], new[b]) for a, b in self.block.bonds if a in new and b in new]), new


def drawn(text: bytes) -> Drawn:
    """A molfile read; raises `Refused`, or `Unfit`."""
    read = native.read_molfile(text)
    lines = text.split(b"\n")
    atoms, bonds = (int(lines[3][at : at + 3]) for at in (0, 3))
    symbols = {k: lines[3 + k].removesuffix(b"\r")[31:34].strip(b" ") for k in range(1, atoms + 1)}
    ends = [(int(line[0:3]), int(line[3:6])) for line in lines[4 + atoms : 4 + atoms + bonds]]
    beside: dict[int, list[int]] = {k: [] for k in symbols}
    for a, b in ends:
        beside[a].append(b)
        beside[b].append(a)
    gone = {k for k, symbol in symbols.items() if symbol == b"H" and len(beside[k]) == 1 and symbols[beside[k][0]] != b"H"}
    numbers = {k: number for number, k in enumerate((k for k in symbols if k not in gone), 1)}
    block = Block(len(numbers), [(numbers[a], numbers[b]) for a, b in ends if a in numbers and b in numbers])
    if (block.atoms, list(block.bonds)) != (read.atoms, read.bonds):
        raise Unfit("its atoms can't be told by their numbers: the reader has another block than its lines")
    marks = _marks(lines)
    return Drawn(block, numbers, atoms, {k: marks.get(k, symbol.decode()) for k, symbol in symbols.items() if _DUMMY.fullmatch(symbol)})


def _marks(lines: list[bytes]) -> dict[int, str]:
    """The numbers of R groups that `M  RGP` lines give to atoms."""
    found: dict[int, str] = {}
    for line in lines:
        if line.startswith(b"M  RGP"):
            with contextlib.suppress(ValueError):
                pairs = [int(word) for word in line[9:].split()]
                found |= {atom: f"R{group}" for atom, group in zip(pairs[::2], pairs[1::2])}
        if line.startswith((b"M  END", b"$$$$")):
            break
    return found


def joined(text: bytes, join: int | str | None) -> tuple[Block, int]:
    """The block of a candidate's molfile or record, and the atom by which it is joined."""
    one = drawn(text)
    if join is None:
        if len(one.dummies) != 1:
            raise Unfit(f"it has {len(one.dummies) or 'no'} dummy atoms (* or R), and no `join` says by which atom it is joined")
        dummy = next(iter(one.dummies))
        end = one.beside(dummy)
        block, new = one.without([dummy])
        return block, new[end]
    if one.dummies:
        raise Unfit(f"atom {next(iter(one.dummies))} is a dummy, and `join` names another atom: leave one of them out")
    if isinstance(join, int):
        return one.block, one.number(join, "the joining atom")
    return one.block, one.number(_item(text, join), f"the joining atom by the data item {join}")


def _item(record: bytes, name: str) -> int:
    span = native.sdf_item(record, name)
    told = record[span.start : span.start + span.length].strip()
    if not re.fullmatch(rb"[0-9]{1,4}", told):
        raise Unfit(f"its data item {name} is no atom's number: {shown(told.decode('utf-8', 'surrogateescape'))!r}")
    return int(told)


class Record(NamedTuple):
    """A record of an SDF: its number from 1, its title, and its bytes."""

    number: int
    title: str
    text: bytes


def records(data: bytes) -> Iterator[Record]:
    """Every record of an SDF."""
    for number, text in sdf.records(io.BytesIO(data).read):
        yield Record(number, sdf.title(text).decode("utf-8", "surrogateescape"), text)


# ---- the text ----


class Reader:
    """Reads what a text names, from its folder. Candidates that are refused are gathered, or end it."""

    def __init__(self, folder: str, skip: bool) -> None:
        self.folder = folder
        self.skip = skip
        self.left: list[Left] = []

    def data(self, name: str) -> bytes:
        """The bytes of a file."""
        read = files.read(Found(os.path.join(self.folder, name)), LONGEST).data
        if len(read) > LONGEST:
            raise Unread(f"longer than {LONGEST} bytes")
        return read

    def core(self, table: Any, marks: list[str]) -> tuple[Block, Callable[[Any, str], int]]:
        """The core's block, and what turns a site's atom or mark into an atom's number in it."""
        if not isinstance(table, dict):
            raise BadLibrary("the text has no core: write [core] and what it is")
        _known(table, {"molfile", "sdf", "record", "atoms", "bonds"}, "the core")
        try:
            if "atoms" in table:
                block = Block(_whole(table, "atoms", "the core"), _bonds(table, "the core"))
                block.check()
                return block, lambda atom, mark: _plain(block, atom, mark)
            one = drawn(self._core_text(table))
            return self._marked(one, marks)
        except (Refused, Unfit, Unread) as fault:
            raise BadLibrary(f"the core: {fault}") from None

    def _core_text(self, table: dict[str, Any]) -> bytes:
        if "molfile" in table:
            return self.data(_text(table, "molfile", "the core"))
        name = _text(table, "sdf", "the core")
        found = _chosen(list(records(self.data(name))), [table.get("record", 1)], name)
        return found[0].text

    @staticmethod
    def _marked(one: Drawn, marks: list[str]) -> tuple[Block, Callable[[Any, str], int]]:
        """A core that was drawn: the dummies that sites name are left out, and there is no other."""
        by_mark = {mark: atom for atom, mark in one.dummies.items()}
        if len(by_mark) < len(one.dummies):
            raise Unfit("two of its dummy atoms have one mark")
        for mark, atom in by_mark.items():
            if mark not in marks:
                raise Unfit(f"its atom {atom} is the dummy {mark}, which no site names: write mark = {mark!r} there, or leave it out")
        ends = {mark: one.beside(atom) for mark, atom in by_mark.items()}
        block, new = one.without(one.dummies)
        block.check()

        def number(atom: Any, mark: str) -> int:
            if mark:
                if mark not in ends:
                    raise Unfit(f"the core has no dummy atom {mark}")
                return new[ends[mark]]
            return new[one.number(atom, "its atom")]

        return block, number

    def candidates(self, sources: Any, site: int) -> Iterator[tuple[str, str, Callable[[], tuple[Block, int]]]]:
        """What may be joined at a site: a name, where it stands, and what reads it."""
        what = f"site {site}"
        if not isinstance(sources, list) or not sources:
            raise BadLibrary(f'{what} has no list `candidates`, as ["amines.sdf", "acids/"]')
        for place, source in enumerate(sources, 1):
            yield from self._source(source, f"{what}, candidates {place}")

    def _source(self, source: Any, what: str) -> Iterator[tuple[str, str, Callable[[], tuple[Block, int]]]]:
        table = {_form(self.folder, source): source} if isinstance(source, str) else source
        if not isinstance(table, dict):
            raise BadLibrary(f"{what} is no name of a file and no table")
        if "atoms" in table:
            _known(table, {"name", "atoms", "bonds", "join"}, what)
            name = table.get("name", what)
            block, atom = Block(_whole(table, "atoms", what), _bonds(table, what)), _whole(table, "join", what)
            yield str(name), str(name), lambda: (block, atom)
            return
        _known(table, {"molfile", "sdf", "folder", "records", "join"}, what)
        named = [key for key in ("molfile", "sdf", "folder") if key in table]
        if len(named) != 1:
            raise BadLibrary(f"{what} has not one of molfile, sdf, folder and atoms")
        join = _join(table, what)
        name = _text(table, named[0], what)
        if "records" in table and named != ["sdf"]:
            raise BadLibrary(f"{what} has `records` and is no SDF")
        if named == ["folder"]:
            yield from self._folder(name, join, what)
        elif named == ["sdf"]:
            yield from self._sdf(name, join, table.get("records"), what)
        else:
            yield name, name, lambda: joined(self.data(name), join)

    def _folder(self, name: str, join: int | str | None, what: str) -> Iterator[tuple[str, str, Callable[[], tuple[Block, int]]]]:
        """Every file of a folder; one that is neither a molfile nor an SDF by its name is refused, not passed over."""
        if not os.path.isdir(os.path.join(self.folder, name)):
            raise BadLibrary(f"{what}: {shown(name)} is no folder")
        front = os.path.join(self.folder, "")
        for found in files.find([os.path.join(self.folder, name)]):
            own = found.name.removeprefix(front) if self.folder else found.name
            end = os.path.splitext(own)[1].lower()
            if end in SDFS and not found.fault:
                yield from self._sdf(own, join, None, what)
            elif end in MOLFILES and not found.fault:
                yield own, own, lambda own=own: joined(self.data(own), join)  # type: ignore[misc]
            else:
                reason = found.fault or f"its name ends in none of {' '.join(MOLFILES + SDFS)}"
                yield own, own, lambda reason=reason: _refuse(reason)  # type: ignore[misc]

    def _sdf(self, name: str, join: int | str | None, chosen: Any, what: str) -> Iterator[tuple[str, str, Callable[[], tuple[Block, int]]]]:
        try:
            found = list(records(self.data(name)))
        except Unread as fault:
            raise BadLibrary(f"{what}: {shown(name)}: cannot be read: {fault}") from None
        if chosen is not None:
            if not isinstance(chosen, list):
                raise BadLibrary(f"{what}: `records` is no list of numbers and titles")
            found = _chosen(found, chosen, name)
        for one in found:
            stands = f"{name}:{one.number}"
            yield one.title or stands, stands, lambda one=one: joined(one.text, join)  # type: ignore[misc]

    def read(self, sources: Any, site: int, core: Block, atom: int) -> list[Candidate]:
        """The candidates of a site that are not refused: neither as they stand, nor joined to the core's atom."""
        kept: list[tuple[str, str, Block, int]] = []
        for name, stands, make in self.candidates(sources, site):
            try:
                block, end = make()
                fits(core, atom, block, end)
                kept.append((name, stands, block, end))
            except (Refused, Unfit, Unread) as fault:
                if not self.skip:
                    raise BadLibrary(f"site {site}: {_told(name, stands)}: {fault} (--skip-refused leaves it out)") from None
                self.left.append(Left(site, _told(name, stands), str(fault)))
        if not kept:
            raise BadLibrary(f"site {site} has no candidate")
        often = Counter(name for name, _, _, _ in kept)
        return [Candidate(shown(name) if often[name] == 1 else _told(name, stands), block, end) for name, stands, block, end in kept]


def fits(core: Block, atom: int, block: Block, end: int) -> None:
    """Raises `Refused` where the library refuses a candidate at an atom of the core."""
    deck = core.record(1) + block.record(2) + native.library_record(1, [(min(atom, 255), [(2, min(end, 255))])])
    native.library_count(deck)


def made(text: str, folder: str, skip: bool) -> Library:
    """The library that a text tells; raises `BadLibrary`. Files stand in the folder."""
    try:
        tables = tomllib.loads(text)
    except (ValueError, RecursionError) as fault:
        raise BadLibrary(str(fault) or "it is nested too deeply") from None
    _known(tables, {"core", "site"}, "the text")
    sites = tables.get("site", [])
    if not isinstance(sites, list) or not all(isinstance(one, dict) for one in sites) or not 1 <= len(sites) <= 4:
        raise BadLibrary("the text has not one to four sites: write [[site]]")
    reader = Reader(folder, skip)
    marks = [one["mark"] for one in sites if isinstance(one.get("mark"), str)]
    core, number = reader.core(tables.get("core"), marks)
    found: list[Site] = []
    for place, table in enumerate(sites, 1):
        what = f"site {place}"
        _known(table, {"atom", "mark", "candidates"}, what)
        if ("atom" in table) == ("mark" in table):
            raise BadLibrary(f"{what} has not one of `atom` and `mark`")
        try:
            atom = number(None, _text(table, "mark", what)) if "mark" in table else number(_whole(table, "atom", what), "")
        except Unfit as fault:
            raise BadLibrary(f"{what}: {fault}") from None
        if atom in [one.atom for one in found]:
            raise BadLibrary(f"{what}: its atom is that of an earlier site")
        found.append(Site(atom, reader.read(table.get("candidates"), place, core, atom)))
    return Library(core, found, reader.left)


def named_files(text: str, folder: str) -> list[str]:
    """The files and folders that a text names, as far as it can be read."""
    try:
        tables = tomllib.loads(text)
        sources = [tables["core"], *(source for site in tables["site"] for source in site["candidates"])]
        names = [one if isinstance(one, str) else one.get("molfile") or one.get("sdf") or one.get("folder") for one in sources]
    except (ValueError, KeyError, TypeError, AttributeError, RecursionError):
        return []
    return [os.path.join(folder, name) for name in names if isinstance(name, str)]


def _refuse(reason: str) -> tuple[Block, int]:
    raise Unfit(reason)


def _told(name: str, stands: str) -> str:
    return shown(stands) if name == stands else f"{shown(name)} ({shown(stands)})"


def _plain(block: Block, atom: Any, mark: str) -> int:
    if mark:
        raise Unfit("the core is a list of bonds and has no dummy atom: name the atom's number")
    if not 1 <= atom <= block.atoms:
        raise Unfit(f"its atom is atom {atom}, and the core has {block.atoms}")
    return int(atom)


def _form(folder: str, name: str) -> str:
    end = os.path.splitext(name)[1].lower()
    if name.endswith("/") or os.path.isdir(os.path.join(folder, name)):
        return "folder"
    return "sdf" if end in SDFS else "molfile"


def _chosen(found: list[Record], chosen: list[Any], name: str) -> list[Record]:
    """The records of the numbers and titles that are asked for, in that order."""
    told = []
    for one in chosen:
        number = isinstance(one, int) and not isinstance(one, bool)
        those = [record for record in found if (record.number == one if number else record.title == one)]
        if len(those) != 1:
            raise BadLibrary(f"{shown(name)} has {len(those) or 'no'} {'records' if those else 'record'} {one!r}")
        told.append(those[0])
    return told


def _join(table: dict[str, Any], what: str) -> int | str | None:
    join = table.get("join")
    if join is not None and (isinstance(join, bool) or not isinstance(join, (int, str)) or join == ""):
        raise BadLibrary(f"{what}: `join` is neither an atom's number nor the name of a data item")
    return join


def _known(table: dict[str, Any], keys: set[str], what: str) -> None:
    for key in table:
        if key not in keys:
            raise BadLibrary(f"{what} has `{key}`, which is none of {', '.join(sorted(keys))}")


def _text(table: dict[str, Any], key: str, what: str) -> str:
    value = table.get(key)
    if not isinstance(value, str) or not value or "\0" in value:
        raise BadLibrary(f"{what} has no text `{key}`")
    return value


def _whole(table: dict[str, Any], key: str, what: str) -> int:
    value = table.get(key)
    if not isinstance(value, int) or isinstance(value, bool) or value < 0:
        raise BadLibrary(f"{what} has no whole number `{key}`")
    return value


def _bonds(table: dict[str, Any], what: str) -> list[tuple[int, int]]:
    bonds = table.get("bonds", [])
    ends = [_BOND.fullmatch(one) if isinstance(one, str) else None for one in bonds] if isinstance(bonds, list) else [None]
    if not all(ends):
        raise BadLibrary(f'{what}: `bonds` is no list of pairs, as ["1-2", "2-3"]')
    return [(int(one[1]), int(one[2])) for one in ends if one is not None]


__all__ = ["BadLibrary", "Candidate", "Left", "Library", "Record", "Site", "Unfit", "drawn", "fits", "joined", "made", "named_files", "records"]
