"""The C functions of the proved library, one Python function each, over `ctypes`. No number is worked out here.

The shared object stands beside this file (`make` puts it there); the environment variable TTEUYOMAL_SO names another one.
A refusal is raised as `Refused`, with its number and place. What each function refuses, and in what order, stands in
include/tteuyomal.h.

A deck is bytes, or any iterable of bytes. Bonds are pairs of atom numbers, or the bond bytes themselves. A number too
large for C gets the refusal that the rules have for it; what no rule speaks of (a negative number, a bond that is no
pair, a number that a record has no room for) is a ValueError, and what is no number a TypeError.

To add a function of the library: its row of arguments below (`_name = _function(..)`), a wrapper, and its refusals' words.
"""

from __future__ import annotations

import ctypes
import hashlib
import math
import numbers
import operator
import os
import struct
from collections.abc import Iterable, Iterator
from ctypes import c_char_p, c_double, c_size_t, c_uint8, c_uint16, c_uint64
from typing import Any

from .replies import Contributions as Contributions
from .replies import Fields as Fields
from .replies import Matched as Matched
from .replies import Molecule as Molecule
from .replies import Ranked as Ranked
from .replies import ReadBlock as ReadBlock
from .replies import Record as Record
from .replies import Sets as Sets
from .replies import Six as Six
from .replies import Span as Span
from .replies import Szeged as Szeged
from .replies import Values as Values
from .replies import Vertex as Vertex

Bonds = Iterable[tuple[int, int]] | bytes
Bytes = Iterable[int]


# The words of the refusals in include/tteuyomal.h, by number; tests/test_words.py holds them together.
WORDS = {
    1: "the atom count is 0 or above 64",
    2: "the bond bytes are odd in number, or more than 384",
    3: "a bond end is 0 or above the atom count",
    4: "both ends are the same atom",
    5: "the bond was listed before, either way round",
    6: "the bond is one too many for an atom: its seventh",
    7: "some pair of atoms has no path",
    8: "the common denominator is above 1,000,000",
    9: "a lent output is too short",
    10: "x is 0, negative, above 1 or a NaN",
    11: "a record is cut off, the deck ends early, or bytes follow its last record",
    12: "a kind that may not stand there",
    13: "a payload length that is not its kind's",
    14: "a block number that is 0 or used before, or a 17th block",
    15: "the placement count is 0 or above 32",
    16: "the placement's block is not in the deck",
    17: "the first placement has a join field that is not 0",
    18: "a join atom is 0 or above its block's atom count; at place 0: no such placement or atom as was asked about",
    19: "the join is one bond too many for an atom: its seventh, earlier joins counted",
    20: "the deck is longer than 32,768 bytes",
    21: "a byte of the neighbour text is no digit, blank, tab, CR or LF, or a number is above 999",
    22: "the neighbour text ends before its last 0, or a number follows it",
    23: "a later placement has the parent 0",
    24: "a later placement has a parent that is not earlier",
    25: "a line of the molfile is missing or too short",
    26: "a count or a bond end of the molfile isn't blanks, then at least one digit",
    27: "a bond end of the molfile is outside its atom list",
    28: "the queue holds eight blocks already",
    29: "the queue holds a block under this number already",
    30: "the queue holds no block under this number",
    31: "a library's site count is 0 or above 4",
    32: "a site's candidate count is 0 or above 8",
    33: "a site's atom was used by an earlier site",
    34: "the block's bonds are not one fewer than its atoms",
    35: "the claim is of no field, or is cut off; at place 0: no such field as was asked about",
    36: "there is no claim",
    37: "the text is no number as the rules read it",
    38: "the record has no such data item",
    39: "the record has that data item twice",
}


class Refused(Exception):
    """The library refused: `number` says why, `place` says where."""

    def __init__(self, number: int, place: int) -> None:
        super().__init__(number, place)
        self.number = number
        self.place = place

    def __eq__(self, other: object) -> bool:
        return isinstance(other, Refused) and self.args == other.args

    def __hash__(self) -> int:
        return hash(self.args)

    @property
    def words(self) -> str:
        """What the number says."""
        return WORDS.get(self.number, "no words for this number")

    def __str__(self) -> str:
        return f"refused {self.number} at {self.place}: {self.words}"


class NotThere(Exception):
    """The shared object can't be loaded, or has no such function, being older than this package."""


REPLACED = os.environ.get("TTEUYOMAL_SO", "")  # the shared object that somebody put in the place of the package's own
SHARED_OBJECT = REPLACED or os.path.join(os.path.dirname(os.path.abspath(__file__)), "libtteuyomal.so")


def _load() -> tuple[ctypes.CDLL | None, str, str]:
    """The shared object and its SHA-256, or why it can't be loaded: that is told when a function is called, so that the command can
    tell it."""
    try:
        with open(SHARED_OBJECT, "rb") as file:
            sha256 = hashlib.file_digest(file, "sha256").hexdigest()
        return ctypes.CDLL(SHARED_OBJECT), sha256, ""
    except (OSError, ValueError) as fault:
        return None, "", f"the library can't be loaded ({fault}); `make` in the repository puts it there"


_library, SHA256, _fault = _load()
_NUMBERS = [ctypes.POINTER(c_uint64), c_size_t]
_BYTES = [ctypes.POINTER(c_uint8), c_size_t]
_ENDS = [ctypes.POINTER(c_uint16), c_size_t]
_DECK = [c_char_p, c_size_t]
_BLOCK = [c_size_t, c_char_p, c_size_t]
_TEXT = [c_char_p, c_size_t]


def has(name: str) -> bool:
    """Whether the library has the C function `tteuyomal_` and this name."""
    return hasattr(_library, "tteuyomal_" + name)


def _function(name: str, arguments: list[Any]) -> Any:
    if not has(name):

        def missing(*_: Any) -> int:
            raise NotThere(_fault or f"this library has no tteuyomal_{name}")

        return missing
    function = getattr(_library, "tteuyomal_" + name)
    function.argtypes = arguments
    function.restype = c_uint64
    return function


_version = _function("version", [])
_judge = _function("judge", _DECK)
_write_sheet = _function("write_sheet", _DECK + _BYTES)
_compose = _function("compose", _DECK + _NUMBERS)
_placed_distance = _function("placed_distance", _DECK + 4 * [c_size_t] + _NUMBERS)
_check_block = _function("check_block", _BLOCK)
_indices = _function("indices", _BLOCK + _NUMBERS)
_vertex = _function("vertex", _BLOCK + [c_size_t] + _NUMBERS)
_contributions = _function("contributions", _BLOCK + _NUMBERS + _NUMBERS)
_polynomial = _function("polynomial", _BLOCK + [c_double, ctypes.POINTER(c_double), c_size_t])


def _told(reply: int) -> int:
    """0 for fine, the first wrong field where a sheet differs; a refusal is raised."""
    what, where = reply % 256, reply // 256
    if what == 255:
        return where
    if what != 0:
        raise Refused(what, where)
    return 0


def _numbers(function: Any, inputs: list[Any], count: int) -> list[int]:
    """Calls with room for so many numbers, and hands them back."""
    out = (c_uint64 * count)()
    _told(function(*inputs, out, count))
    return list(out)


def _whole(number: int, what: str, most: int) -> int:
    """A number that is handed over. One above `most` becomes it: the rules refuse both alike, wherever this is used."""
    number = operator.index(number)
    if number < 0:
        raise ValueError(f"{what} is negative: {number}")
    return min(number, most)


def _size(number: int, what: str) -> int:
    return _whole(number, what, 2**64 - 1)


def _exactly(number: int, what: str, most: int) -> int:
    """A number that stands in a record, where there is room up to `most`."""
    number = operator.index(number)
    if not 0 <= number <= most:
        raise ValueError(f"{what} is not from 0 to {most}: {number}")
    return number


def _float(x: float) -> float:
    if not isinstance(x, numbers.Real):
        raise TypeError(f"x is no real number: {x!r}")
    try:
        return float(x)
    except OverflowError:  # above 1, or negative, and no float holds it: the infinity on its side is refused alike
        return math.inf if x > 0 else -math.inf


def _bytes(data: Bytes, what: str = "a deck") -> bytes:
    if type(data) is bytes:
        return data
    try:
        view = memoryview(data)  # type: ignore[arg-type]
    except TypeError:
        return bytes(iter(data))  # not bytes(40), which is 40 zeros
    if view.itemsize != 1:
        raise TypeError(f"{what} is made of bytes, not of entries of {view.itemsize} bytes")
    return view.tobytes()


def _lent(data: Bytes, what: str = "a deck") -> list[Any]:
    data = _bytes(data, what)
    return [data, len(data)]


def _pairs(bonds: Iterable[tuple[int, int]], what: str = "bond") -> Iterable[tuple[int, int, int]]:
    """The ends of each bond, with what is said of a bond that is no pair."""
    for place, bond in enumerate(bonds, 1):
        try:
            first, second = bond
        except (TypeError, ValueError):
            raise ValueError(f"{what} {place} is no pair of atom numbers: {bond!r}") from None
        yield place, first, second


def _bond_bytes(bonds: Bonds) -> bytes:
    """Two bytes a bond. An atom number above 255 becomes 255: no block has either, and 3 is said in its turn."""
    if isinstance(bonds, (bytes, bytearray, memoryview)):
        return _bytes(bonds, "a list of bonds")
    ends = bytearray()
    for place, first, second in _pairs(bonds):
        ends += bytes(_whole(end, f"an end of bond {place}", 255) for end in (first, second))
    return bytes(ends)


def _block(atoms: int, bonds: Bonds) -> list[Any]:
    ends = _bond_bytes(bonds)
    return [_size(atoms, "the atom count"), ends, len(ends)]


def _record(kind: int, payload: bytes) -> bytes:
    return struct.pack("<HH", _exactly(len(payload), "the payload's length", 65535), kind) + payload


def block_record(number: int, atoms: int, bonds: Iterable[tuple[int, int]]) -> bytes:
    """A block's record; `bonds` are pairs of atom numbers from 1."""
    ends = bytearray()
    for place, first, second in _pairs(bonds):
        ends += bytes(_exactly(end, f"an end of bond {place}", 255) for end in (first, second))
    head = (number, "the block number"), (atoms, "the atom count"), (len(ends) // 2, "the number of bonds")
    return _record(1, struct.pack("<HHH", *(_exactly(n, what, 65535) for n, what in head)) + ends)


def assembly_record(placements: Iterable[Iterable[int]]) -> bytes:
    """An assembly's record; each placement is (block number, parent placement, parent's atom, own atom)."""
    names = ("block number", 65535), ("parent", 65535), ("parent's atom", 255), ("own atom", 255)
    rows = []
    for place, one in enumerate(placements, 1):
        one = tuple(one)
        if len(one) != 4:
            raise ValueError(f"placement {place} is not four numbers: {one!r}")
        checked = (_exactly(n, f"the {name} of placement {place}", most) for n, (name, most) in zip(one, names))
        rows.append(struct.pack("<HHBB", *checked))
    return _record(2, struct.pack("<H", _exactly(len(rows), "the placement count", 65535)) + b"".join(rows))


def library_record(core: int, sites: Iterable[tuple[int, Iterable[tuple[int, int]]]]) -> bytes:
    """A library's record: the core's block number, and for each site the core's atom and its candidates, each (block number,
    joining atom)."""
    rows = [_site(place, atom, candidates) for place, (atom, candidates) in enumerate(sites, 1)]
    head = (core, "the core's block number"), (len(rows), "the site count")
    return _record(5, struct.pack("<HH", *(_exactly(n, what, 65535) for n, what in head)) + b"".join(rows))


def _site(place: int, atom: int, candidates: Iterable[tuple[int, int]]) -> bytes:
    those = []
    for one in candidates:
        number, own = one
        joined = _exactly(own, f"a joining atom of site {place}", 255)
        those.append(struct.pack("<HB", _exactly(number, f"a block number of site {place}", 65535), joined))
    head = (atom, f"the atom of site {place}"), (len(those), f"the candidate count of site {place}")
    return bytes(_exactly(n, what, 255) for n, what in head) + b"".join(those)


SHEET_NAMES = ("atoms", "W", "even part", "odd part", "polarity", "largest distance")


def sheet_record(fields: Iterable[int]) -> bytes:
    """A sheet's record of kind 3 from five fields, or of kind 4 from six."""
    fields = tuple(fields)
    form = {5: "<IQQQQ", 6: "<IQQQQI"}.get(len(fields))
    if form is None:
        raise ValueError(f"a sheet has five or six fields, not {len(fields)}")
    widths = [2**32 - 1 if letter == "I" else 2**64 - 1 for letter in form[1:]]
    checked = [_exactly(n, name, most) for n, name, most in zip(fields, SHEET_NAMES, widths)]
    return _record(3 if len(fields) == 5 else 4, struct.pack(form, *checked))


def version() -> str:
    """The library's version: the three numbers of `tteuyomal_version`. One that can't be loaded has none: `NotThere`."""
    if _library is None:
        raise NotThere(_fault)
    if not has("version"):
        return "unnumbered"
    number = _version()
    return f"{number // 1_000_000}.{number // 1_000 % 1_000}.{number % 1_000}"


def judge(deck: Bytes) -> int:
    """0 when the sheet that ends the deck is right, else its first wrong field, from 1."""
    return _told(_judge(*_lent(deck)))


def judge_reply(deck: Bytes) -> int:
    """The reply as C has it: 0 accepted, 255 + 256 k where field k is the first wrong one, else the refusal's number + 256 times
    its place."""
    data = deck if type(deck) is bytes else _bytes(deck)
    reply: int = _judge(data, len(data))
    return reply


def judge_many(decks: Iterable[Bytes]) -> list[int]:
    """The replies as C has them for many decks."""
    judged = _judge
    return [judged(data := deck if type(deck) is bytes else _bytes(deck), len(data)) for deck in decks]


def write_sheet(deck: Bytes) -> bytes:
    """The sheet of a deck without one: the 40 bytes to put behind it."""
    out = (c_uint8 * 40)()
    _told(_write_sheet(*_lent(deck), out, 40))
    return bytes(out)


def compose(deck: Bytes) -> Fields:
    """The five fields of a deck without a sheet."""
    return Fields(*_numbers(_compose, _lent(deck), 5))


def placed_distance(deck: Bytes, k: int, i: int, l: int, j: int) -> int:
    """The distance of atom i of placement k and atom j of placement l."""
    asked = [_size(number, "a placement or atom") for number in (k, i, l, j)]
    return _numbers(_placed_distance, _lent(deck) + asked, 1)[0]


def check_block(atoms: int, bonds: Bonds) -> None:
    """Raises `Refused` unless the block is good."""
    _told(_check_block(*_block(atoms, bonds)))


def indices(atoms: int, bonds: Bonds) -> Fields:
    """The five fields of a block."""
    return Fields(*_numbers(_indices, _block(atoms, bonds), 5))


def vertex(atoms: int, bonds: Bonds, atom: int) -> Vertex:
    """The seven numbers of one atom of a block."""
    return Vertex(*_numbers(_vertex, _block(atoms, bonds) + [_size(atom, "an atom")], 7))


def contributions(atoms: int, bonds: Bonds) -> Contributions:
    """D, and for each bond the whole number D times its contribution to W."""
    block = _block(atoms, bonds)
    room = block[2] // 2
    shares, denominator = (c_uint64 * room)(), (c_uint64 * 1)()
    _told(_contributions(*block, shares, room, denominator, 1))
    return Contributions(denominator[0], list(shares))


def polynomial(atoms: int, bonds: Bonds, x: float) -> Values:
    """The even and the odd polynomial value at x."""
    values = (c_double * 2)()
    _told(_polynomial(*_block(atoms, bonds), _float(x), values, 2))
    return Values(*values)


# ---- functions of requests; each needs a library that has it ----

_balaban = _function("balaban", _BLOCK + _NUMBERS)
_szeged = _function("szeged", _BLOCK + _NUMBERS + _NUMBERS)
_count_sets = _function("count_sets", _BLOCK + _NUMBERS)
_farthest = _function("farthest", _BLOCK + [c_size_t] + _NUMBERS)
_write_six = _function("write_six", _DECK + _BYTES)
_compose_six = _function("compose_six", _DECK + _NUMBERS)
_library_count = _function("library_count", _DECK + _NUMBERS)
_library_step = _function("library_step", _DECK + 2 * [c_size_t] + _BYTES + _NUMBERS)
_library_run = _function("library_run", _DECK + 2 * [c_size_t] + _BYTES + _NUMBERS)
_library_best = _function("library_best", _DECK + [c_size_t, c_size_t, c_uint64] + _NUMBERS + _NUMBERS)
_queue_empty = _function("queue_empty", _BYTES)
_queue_add = _function("queue_add", _BYTES + [c_size_t, c_uint16] + _BLOCK)
_queue_look = _function("queue_look", _BYTES + [c_size_t, c_uint16] + _NUMBERS)
_queue_drop = _function("queue_drop", _BYTES + [c_size_t, c_uint16])
_queue_compose = _function("queue_compose", _BYTES + 2 * [c_size_t] + _DECK + _BYTES)
_read_molfile = _function("read_molfile", _TEXT + _BYTES + _NUMBERS)
_write_molfile = _function("write_molfile", _BLOCK + _BYTES + _NUMBERS)
_read_neighbours = _function("read_neighbours", _TEXT + _BYTES + _NUMBERS)
_write_neighbours = _function("write_neighbours", _BLOCK + _BYTES + _NUMBERS)

_TEXT_ROOM = 16384  # more than any block's text has
_BOND_ROOM = 512  # more than any block's bonds have


def balaban(atoms: int, bonds: Bonds) -> int:
    """Balaban's J in units of 10^-9, each bond's root rounded down: a little below J (docs/RULES.md says by how much)."""
    return _numbers(_balaban, _block(atoms, bonds), 1)[0]


def szeged(atoms: int, bonds: Bonds) -> Szeged:
    """The Szeged index with its terms, one a bond in list order."""
    block = _block(atoms, bonds)
    room = block[2] // 2
    terms, index = (c_uint64 * room)(), (c_uint64 * 1)()
    _told(_szeged(*block, terms, room, index, 1))
    return Szeged(index[0], list(terms))


def count_sets(atoms: int, bonds: Bonds) -> Sets:
    """The Hosoya index and the Merrifield-Simmons index of a tree."""
    return Sets(*_numbers(_count_sets, _block(atoms, bonds), 2))


def farthest(atoms: int, bonds: Bonds, atom: int) -> int:
    """The largest distance from one atom of a block."""
    return _numbers(_farthest, _block(atoms, bonds) + [_size(atom, "an atom")], 1)[0]


def write_six(deck: Bytes) -> bytes:
    """The sheet of kind 4 of a deck without one: the 44 bytes to put behind it."""
    out = (c_uint8 * 44)()
    _told(_write_six(*_lent(deck), out, 44))
    return bytes(out)


def compose_six(deck: Bytes) -> Six:
    """The five fields of a deck without a sheet, and the largest distance."""
    return Six(*_numbers(_compose_six, _lent(deck), 6))


def library_count(deck: Bytes) -> int:
    """How many products a library deck has."""
    return _numbers(_library_count, _lent(deck), 1)[0]


def _sheet_bytes(kind: int) -> int:
    """The bytes of a sheet of kind 3 or 4. C takes any other number for 3, and ctypes cuts a number that C has no room for: neither is
    what was asked."""
    size = {3: 40, 4: 44}.get(operator.index(kind))
    if size is None:
        raise ValueError(f"a sheet is of kind 3 or 4, not {kind}")
    return size


def library_step(deck: Bytes, position: int, kind: int = 3) -> tuple[bytes, int] | None:
    """The sheet (of kind 3 or 4) of the product at a position, from 0, and the next position; None past the last."""
    size = _sheet_bytes(kind)
    out, following = (c_uint8 * size)(), (c_uint64 * 1)()
    reply = _library_step(*_lent(deck), kind, _size(position, "the position"), out, size, following, 1)
    if reply % 256 == 254:
        return None
    _told(reply)
    return bytes(out), following[0]


def library_run(deck: Bytes, position: int = 0, kind: int = 3, sheets: int = 4096) -> tuple[list[bytes], int] | None:
    """The sheets of at most so many products from a position on, and the next position; None past the last."""
    size, position = _sheet_bytes(kind), _size(position, "the position")
    room = size * _whole(sheets, "the number of sheets", 4096)  # no library has more products
    out, following = (c_uint8 * room)(), (c_uint64 * 1)()
    reply = _library_run(*_lent(deck), kind, position, out, room, following, 1)
    if reply % 256 == 254:
        return None
    _told(reply)
    written = bytes(out)[: size * (following[0] - position)]
    return [written[at : at + size] for at in range(0, len(written), size)], following[0]


def library_products(deck: Bytes, kind: int = 3, start: int = 0) -> Iterator[bytes]:
    """The sheet of each product from a position on, in order: the last site turns fastest."""
    position = start
    while (told := library_run(deck, position, kind, 256)) is not None:
        sheets, position = told
        yield from sheets


class Best:
    """The best products so far by one field, 1 to 6 as in `SHEET_NAMES`: those of the smallest values, or the greatest. Equal ones stand
    in the order in which they came."""

    def __init__(self, field: int, top: int, greatest: bool = False) -> None:
        self._asked = (_size(field, "the field"), int(greatest))
        self._room = 3 * _size(top, "how many are held")
        self._entries, self._held = (c_uint64 * self._room)(), (c_uint64 * 1)()

    def put(self, deck: bytes, tag: int = 0) -> None:
        """Puts every product of a library deck among them."""
        reply = _library_best(deck, len(deck), *self._asked, tag, self._entries, self._room, self._held, 1)
        if reply:
            _told(reply)

    def entries(self) -> list[Ranked]:
        """Those that are held, the best first."""
        flat = self._entries[: 3 * self._held[0]]
        return [Ranked(*flat[at : at + 3]) for at in range(0, len(flat), 3)]


def _read_text(function: Any, text: Bytes) -> ReadBlock:
    bonds, counts = (c_uint8 * _BOND_ROOM)(), (c_uint64 * 2)()
    _told(function(*_lent(text, "a text"), bonds, _BOND_ROOM, counts, 2))
    ends = bytes(bonds)[: 2 * counts[1]]
    return ReadBlock(counts[0], list(zip(ends[::2], ends[1::2])))


def _write_text(function: Any, atoms: int, bonds: Bonds) -> bytes:
    text, length = (c_uint8 * _TEXT_ROOM)(), (c_uint64 * 1)()
    _told(function(*_block(atoms, bonds), text, _TEXT_ROOM, length, 1))
    return bytes(text)[: length[0]]


def read_molfile(text: Bytes) -> ReadBlock:
    """The block of a V2000 molfile: an H with one bond, to an atom that is no H, is left out."""
    return _read_text(_read_molfile, text)


def write_molfile(atoms: int, bonds: Bonds) -> bytes:
    """A block as a V2000 molfile of carbons and single bonds."""
    return _write_text(_write_molfile, atoms, bonds)


def read_neighbours(text: Bytes) -> ReadBlock:
    """The block of a neighbour text."""
    return _read_text(_read_neighbours, text)


def write_neighbours(atoms: int, bonds: Bonds) -> bytes:
    """A block as a neighbour text."""
    return _write_text(_write_neighbours, atoms, bonds)


TABLE_BYTES = 8_448  # of a table of sixteen blocks, eight for each queue
DAY, NIGHT = 0, 1


def _table(table: bytearray) -> list[Any]:
    """A table is lent where it stands: the library writes into it."""
    if not isinstance(table, bytearray):
        raise TypeError(f"a table is a bytearray, not {type(table).__name__}")
    return [(c_uint8 * len(table)).from_buffer(table), len(table)]


def _own(table: bytearray, queue: int, number: int) -> list[Any]:
    return _table(table) + [_size(queue, "the queue"), _exactly(number, "the block number", 65535)]


def queue_empty(table: bytearray) -> None:
    """Makes a table empty, for both queues."""
    _told(_queue_empty(*_table(table)))


def queue_add(table: bytearray, queue: int, number: int, atoms: int, bonds: Bonds) -> None:
    """Adds a block to what a queue (`DAY` or `NIGHT`) holds."""
    _told(_queue_add(*_own(table, queue, number), *_block(atoms, bonds)))


def queue_look(table: bytearray, queue: int, number: int) -> Six:
    """The six fields of a block that a queue holds."""
    return Six(*_numbers(_queue_look, _own(table, queue, number), 6))


def queue_drop(table: bytearray, queue: int, number: int) -> None:
    """Drops a block that a queue holds."""
    _told(_queue_drop(*_own(table, queue, number)))


def queue_compose(table: bytearray, queue: int, record: Bytes, kind: int = 3) -> bytes:
    """The sheet (of kind 3 or 4) that one assembly record makes of the blocks that a queue holds."""
    room = _sheet_bytes(kind)
    out = (c_uint8 * room)()
    _told(_queue_compose(*_table(table), _size(queue, "the queue"), kind, *_lent(record, "a record"), out, room))
    return bytes(out)


# ---- claims and records of an SDF ----

_judge_claims = _function("judge_claims", _DECK + _TEXT)
_judge_block = _function("judge_block", _BLOCK + _TEXT)
_sdf_record = _function("sdf_record", _TEXT + [c_size_t] + _NUMBERS)
_sdf_item = _function("sdf_item", _TEXT + _TEXT + _NUMBERS)

Claims = Iterable[tuple[int, str]] | bytes
CLAIM_NAMES = (*SHEET_NAMES, "Szeged index", "Hosoya index", "Merrifield-Simmons index", "Balaban's J")


def claim_bytes(claims: Iterable[tuple[int, str]]) -> bytes:
    """Claims as C takes them; each is a field's number, from 1 as in `CLAIM_NAMES`, and the text that a program printed for it."""
    written = bytearray()
    for place, (field, text) in enumerate(claims, 1):
        if not isinstance(text, str):
            raise TypeError(f"claim {place} is no text that was printed: {text!r}")
        printed = text.encode("utf-8", "surrogateescape")
        head = (field, f"the field of claim {place}"), (len(printed), f"the bytes of claim {place}")
        written += bytes(_exactly(n, what, 255) for n, what in head) + printed
    return bytes(written)


def _claims(claims: Claims) -> list[Any]:
    if isinstance(claims, (bytes, bytearray, memoryview)):
        return _lent(claims, "a list of claims")
    return _lent(claim_bytes(claims))


def judge_claims(deck: Bytes, claims: Claims) -> int:
    """0 when all claims of the molecule of a deck without a sheet are right, else the number of the first wrong one, from 1."""
    return _told(_judge_claims(*_lent(deck), *_claims(claims)))


def judge_block(atoms: int, bonds: Bonds, claims: Claims) -> int:
    """The same of a lone block."""
    return _told(_judge_block(*_block(atoms, bonds), *_claims(claims)))


def sdf_record(text: Bytes, start: int = 0) -> Record | None:
    """The record of an SDF that begins at a byte; None where only blanks, tabs, CR and LF are left."""
    span = (c_uint64 * 3)()
    reply = _sdf_record(*_lent(text, "an SDF"), _size(start, "the first byte"), span, 3)
    if reply % 256 == 254:
        return None
    _told(reply)
    return Record(*span)


def sdf_item(record: Bytes, name: str | Bytes) -> Span:
    """Where the value of the data item of a name stands in a record."""
    asked = name.encode("utf-8", "surrogateescape") if isinstance(name, str) else name
    return Span(*_numbers(_sdf_item, _lent(record, "a record") + _lent(asked, "a name"), 2))


# ---- molecules of every size ----

_read_whole = _function("read_whole", _TEXT + _ENDS + _NUMBERS)
_written_out = _function("written_out", _DECK + _ENDS + _NUMBERS)
_matched = _function("matched", _DECK + [c_size_t] + _ENDS + _ENDS)

_FILE_ENDS = 2 * 999  # the ends of the bonds of any molfile
_DECK_ENDS = 2 * (32 * 192 + 31)  # and of any deck's molecule
_LARGEST_END = 65535

Pairs = Iterable[tuple[int, int]]


def _molecule(function: Any, data: list[Any], room: int) -> Molecule:
    ends, counts = (c_uint16 * room)(), (c_uint64 * 2)()
    _told(function(*data, ends, room, counts, 2))
    flat = ends[: 2 * counts[1]]
    return Molecule(counts[0], list(zip(flat[::2], flat[1::2])))


def read_whole(text: Bytes) -> Molecule:
    """The molecule of a V2000 molfile, hydrogens left out as in `read_molfile`, of up to 999 atoms, in one part or more."""
    return _molecule(_read_whole, _lent(text, "a text"), _FILE_ENDS)


def written_out(deck: Bytes) -> Molecule:
    """The molecule of a deck without a sheet, atom by atom and bond by bond in the order of its placements."""
    return _molecule(_written_out, _lent(deck), _DECK_ENDS)


def _ends(pairs: Pairs, what: str) -> list[Any]:
    """Pairs as numbers of 16 bits. One above them becomes the largest: no molecule of a deck has either."""
    numbers = [_whole(end, f"a number of {what} {place}", _LARGEST_END) for place, *both in _pairs(pairs, what) for end in both]
    return [(c_uint16 * len(numbers))(*numbers), len(numbers)]


def matched(deck: Bytes, atoms: int, bonds: Pairs, matching: Pairs) -> Matched:
    """Whether the molecule of a deck without a sheet is the one of so many atoms and these bonds; `matching` has for each of its atoms
    the placement and the atom there that it is, both from 1."""
    reply = _matched(*_lent(deck), _size(atoms, "the atom count"), *_ends(bonds, "bond"), *_ends(matching, "partner"))
    if reply % 256 == 255:
        return Matched(reply // 256)
    _told(reply)
    return Matched()
