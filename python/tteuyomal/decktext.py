"""A deck as a text (TOML) that people write and read, and back.

    [[block]]
    number = 1
    atoms = 6
    bonds = ["1-2", "2-3", "3-4", "4-5", "5-6", "6-1"]

    [[block]]
    number = 2
    molfile = "toluene.mol"         # or: neighbours = "toluene.txt", or a record of an SDF: sdf = "many.sdf" and record = 3

    [[placement]]
    block = 1

    [[placement]]
    block = 2
    parent = 1
    parent_atom = 4
    atom = 1

    [sheet]
    atoms = 13
    W = 252
    even = 124
    odd = 128
    polarity = 16

A sheet with `largest` is one of kind 4. A library deck has, in place of placements and a sheet, its core and its sites, each with
an atom of the core and candidates, block@atom:

    [library]
    core = 1

    [[site]]
    atom = 1
    candidates = ["2@1", "1@1"]

Bytes that are no deck in this form are told as `bytes = "0C00.."`, so that every file has a text, and `made(shown(data))` is `data`
for all bytes.
"""

from __future__ import annotations

import io
import os
import re
import sys
import tomllib
from collections.abc import Callable, Iterable, Iterator
from typing import Any

from . import sdf
from .decks import SHORT_NAMES, Block, Deck, Placement, Sheet
from .files import Found, Unread, shown as shown_name, text_of
from .libraries import Library
from .native import Refused

_FILES = ("molfile", "neighbours", "sdf")  # what a block may be read from
_BLOCK_KEYS = {"number", "atoms", "bonds", "record", *_FILES}
_NUMBERS = {sign: re.compile(f"([0-9]{{1,9}}){sign}([0-9]{{1,9}})") for sign in "-@"}
_PLACEMENT_KEYS = {"block", "parent", "parent_atom", "atom"}


class BadText(ValueError):
    """A text that is no deck, with what is wrong."""


def shown(data: bytes) -> str:
    """The text of a deck."""
    texts: tuple[Callable[[], Iterable[str]], ...]
    texts = (lambda: _tables(Deck.from_bytes(data)), lambda: _library_tables(Library.from_bytes(data)))
    for told in texts:
        try:
            text = "\n".join(told())
            if made(text) == data:
                return text
        except ValueError:
            pass
    return f'# no deck of blocks, one assembly and at most one sheet, and no library: all its bytes\nbytes = "{data.hex()}"\n'


def _block_tables(blocks: Iterable[tuple[int, Block]]) -> Iterator[str]:
    for number, block in blocks:
        bonds = ", ".join(f'"{first}-{second}"' for first, second in block.bonds)
        yield f"[[block]]\nnumber = {number}\natoms = {block.atoms}\nbonds = [{bonds}]\n"


def _library_tables(deck: Library) -> Iterator[str]:
    yield from _block_tables(deck.blocks)
    yield f"[library]\ncore = {deck.core}\n"
    for site in deck.sites:
        candidates = ", ".join(f'"{one}"' for one in site.candidates)
        yield f"[[site]]\natom = {site.atom}\ncandidates = [{candidates}]\n"


def _tables(deck: Deck) -> Iterator[str]:
    yield from _block_tables(deck.blocks)
    for placement in deck.placements:
        lines = [f"block = {placement.block}"]
        if placement.numbers()[1:] != (0, 0, 0):
            lines += [f"parent = {placement.parent}", f"parent_atom = {placement.parent_atom}", f"atom = {placement.atom}"]
        yield "\n".join(["[[placement]]", *lines, ""])
    if deck.sheet is not None:
        yield "\n".join(["[sheet]", *(f"{key} = {n}" for key, n in zip(SHORT_NAMES, deck.sheet.fields())), ""])


def made(text: str, folder: str = ".", reader: Callable[[str], bytes] | None = None) -> bytes:
    """The bytes of the deck that a text tells; molfiles and neighbour texts that it names stand in the folder. Raises `BadText`,
    also where a file can't be read or the library refuses it."""
    tables = _parsed(text)
    if "bytes" in tables:
        return _raw(tables)
    of_library = "library" in tables or "site" in tables
    _known(tables, {"block", "library", "site"} if of_library else {"block", "placement", "sheet"}, "the text")
    read = reader or (lambda name: _file(os.path.join(folder, name)))
    blocks = [_block(table, place, read) for place, table in enumerate(_list(tables, "block"), 1)]
    if of_library:
        return _library(tables, blocks)
    placements = [_placement(table, place) for place, table in enumerate(_list(tables, "placement"), 1)]
    try:
        return bytes(Deck(blocks, placements, _sheet(tables)))
    except (TypeError, ValueError) as fault:
        raise BadText(str(fault)) from None


def _parsed(text: str) -> dict[str, Any]:
    try:
        return tomllib.loads(text)
    except tomllib.TOMLDecodeError as fault:
        raise BadText(str(fault)) from None
    except ValueError:
        raise BadText(f"it has a number of more than {sys.get_int_max_str_digits()} digits") from None
    except RecursionError:
        raise BadText("it is nested too deeply") from None


def named_files(text: str, folder: str) -> list[str]:
    """The files that a text names."""
    try:
        tables = _list(_parsed(text), "block")
    except BadText:
        return []
    return [os.path.join(folder, str(table[key])) for table in tables for key in _FILES if key in table]


def _file(path: str) -> bytes:
    return text_of(Found(path)).data


def _raw(tables: dict[str, Any]) -> bytes:
    _known(tables, {"bytes"}, "a text with `bytes`")
    try:
        return bytes.fromhex(tables["bytes"])
    except (TypeError, ValueError):
        raise BadText("`bytes` is no text of hexadecimal digits, two a byte") from None


def _known(table: dict[str, Any], keys: set[str], what: str) -> None:
    for key in table:
        if key not in keys:
            raise BadText(f"{what} has `{key}`, which is none of {', '.join(sorted(keys))}")


def _list(tables: dict[str, Any], key: str) -> list[dict[str, Any]]:
    found = tables.get(key, [])
    if not isinstance(found, list) or not all(isinstance(table, dict) for table in found):
        raise BadText(f"`{key}` is no list of tables: write [[{key}]]")
    return found


def _number(table: dict[str, Any], key: str, what: str, default: int | None = None) -> int:
    value = table.get(key, default)
    if not isinstance(value, int) or isinstance(value, bool):
        raise BadText(f"{what} has no whole number `{key}`")
    return value


def _block(table: dict[str, Any], place: int, read: Callable[[str], bytes]) -> tuple[int, Block]:
    what = f"block {place} of the text"
    _known(table, _BLOCK_KEYS, what)
    number = _number(table, "number", what)
    named = [key for key in _FILES if key in table]
    if "record" in table and named != ["sdf"]:
        raise BadText(f"{what} has `record`, which goes with `sdf`")
    if not named:
        return number, Block(_number(table, "atoms", what), _bonds(table, what))
    if len(named) > 1 or "bonds" in table or "atoms" in table:
        raise BadText(f"{what} has more than one of bonds, {', '.join(_FILES[:-1])} and {_FILES[-1]}")
    (key,) = named
    name = table[key]
    if not isinstance(name, str):
        raise BadText(f"{what}: `{key}` is no name of a file")
    what = f"{what}: {key} {shown_name(name)}"
    try:
        data = sdf.text(name, read(name)) if key != "neighbours" else read(name)
        if key != "neighbours":
            data = _record(data, _number(table, "record", what) if key == "sdf" else None, what)
        return number, Block.from_neighbours(data) if key == "neighbours" else Block.from_molfile(data)
    except Refused as refusal:
        raise BadText(f"{what}: {refusal}{sdf.line_of(data, refusal)}") from None
    except Unread as fault:  # a name with a NUL in it, too
        raise BadText(f"{what}: cannot be read: {fault}") from None


def _record(data: bytes, number: int | None, what: str) -> bytes:
    """The record of an SDF by its number, from 1; without a number the one that a molfile is."""
    count, found = 0, data
    for piece in sdf.records(io.BytesIO(data).read):
        count += 1
        if piece.number == number:
            return piece.data
        if count == 2 and number is None:
            raise BadText(f"{what}: it has more than one record: write sdf = .. and record = .. to say which")
        found = piece.data
    if number is None:
        return found
    raise BadText(f"{what}: it has no record {number}: there {'is' if count == 1 else 'are'} {count}, from 1 on")


def _bonds(table: dict[str, Any], what: str) -> list[tuple[int, int]]:
    bonds = table.get("bonds", [])
    if not isinstance(bonds, list):
        raise BadText(f'{what}: `bonds` is no list, as ["1-2", "2-3"]')
    return [_bond(bond, f"{what}, bond {place}") for place, bond in enumerate(bonds, 1)]


def _bond(bond: Any, what: str) -> tuple[int, int]:
    if isinstance(bond, list) and [type(end) for end in bond] == [int, int]:
        return bond[0], bond[1]
    ends = _NUMBERS["-"].fullmatch(bond) if isinstance(bond, str) else None
    if ends is None:
        raise BadText(f'{what} is no pair of atom numbers, as "1-2": {bond!r}')
    return int(ends[1]), int(ends[2])


def _placement(table: dict[str, Any], place: int) -> Placement:
    what = f"placement {place} of the text"
    _known(table, _PLACEMENT_KEYS, what)
    return Placement(_number(table, "block", what), *(_number(table, key, what, 0) for key in ("parent", "parent_atom", "atom")))


def _library(tables: dict[str, Any], blocks: list[tuple[int, Block]]) -> bytes:
    table = tables.get("library")
    if not isinstance(table, dict):
        raise BadText("the text has sites and no library: write [library] and the core's block number")
    _known(table, {"core"}, "the library")
    sites = [_site(one, place) for place, one in enumerate(_list(tables, "site"), 1)]
    try:
        return bytes(Library(blocks, _number(table, "core", "the library"), sites))
    except (TypeError, ValueError) as fault:
        raise BadText(str(fault)) from None


def _site(table: dict[str, Any], place: int) -> tuple[int, list[tuple[int, int]]]:
    what = f"site {place} of the text"
    _known(table, {"atom", "candidates"}, what)
    candidates = table.get("candidates")
    if not isinstance(candidates, list):
        raise BadText(f'{what}: `candidates` is no list, as ["2@1", "1@1"]')
    return _number(table, "atom", what), [_candidate(one, f"{what}, candidate {k}") for k, one in enumerate(candidates, 1)]


def _candidate(one: Any, what: str) -> tuple[int, int]:
    numbers = _NUMBERS["@"].fullmatch(one) if isinstance(one, str) else None
    if numbers is None:
        raise BadText(f'{what} is no block and atom, as "2@1": {one!r}')
    return int(numbers[1]), int(numbers[2])


def _sheet(tables: dict[str, Any]) -> Sheet | None:
    if "sheet" not in tables:
        return None
    table = tables["sheet"]
    if not isinstance(table, dict):
        raise BadText("`sheet` is no table: write [sheet]")
    _known(table, set(SHORT_NAMES), "the sheet")
    names = SHORT_NAMES if "largest" in table else SHORT_NAMES[:5]
    return Sheet(*(_number(table, key, "the sheet") for key in names))
