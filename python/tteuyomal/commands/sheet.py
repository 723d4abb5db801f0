"""`tteuyomal sheet`: the fields of decks without a sheet."""

from __future__ import annotations

import argparse
import functools
import json

from .. import decks, files, judging, native, objects
from ..console import Output, Stop, complain
from ..files import Found
from ..native import Refused
from . import common

NAME = "sheet"
WORDS = "work out the fields of decks without a sheet"
STATUS = (
    "0 if there was a deck and the fields of every one were worked out; 2 if one is refused or can't be read, or there was "
    "none."
)


def options(parser: argparse.ArgumentParser) -> None:
    """Decks, how many fields, and where the deck with its sheet goes."""
    common.add_paths(parser, "decks without a sheet, or folders of them; - is standard input")
    parser.add_argument("--six", action="store_true", help="with the largest distance, the sixth field")
    parser.add_argument(
        "--append", metavar="FILE", help="write the one deck with the library's own sheet to this other file: judging it checks no program"
    )


def run(options: argparse.Namespace, out: Output) -> int:
    """The fields of each deck; or the deck with its sheet, in another file."""
    if options.append is not None:
        return append(options)
    return common.lines(functools.partial(sheet_batch, six=options.six, stamp=common.stamp(options)), options, out, "decks")


def append(options: argparse.Namespace) -> int:
    """Writes the deck with the library's sheet."""
    if len(options.paths) != 1:
        raise Stop("--append takes one deck")
    (path,) = options.paths
    files.apart(options.append, [path])
    try:
        data = files.read(Found(path)).data
        record = native.write_six(data) if options.six else native.write_sheet(data)
    except (files.Unread, Refused) as fault:
        raise Stop(f"{files.shown(path)}: {fault}") from None
    with files.written(options.append) as file:
        file.write(data + record)
    complain(f"{files.shown(options.append)} has the library's own sheet: to judge it accepts it, and checks no program")
    return 0


def sheet_batch(batch: list[Found], six: bool, stamp: str) -> list[tuple[str, bool]]:
    """The line or the object of each file, and whether its deck was worked out."""
    return [(one if stamp == "" else objects.ended(one, stamp), good) for one, good in (sheet_line(found, six, stamp != "") for found in batch)]


def sheet_line(found: Found, six: bool, as_json: bool) -> tuple[str, bool]:
    """The line or the object of one file, and whether its deck was worked out."""
    said = judging.about(found.name)
    name = said["file"]
    try:
        data, said["sha256"] = files.read(found)
        fields = judging.worked_out(data, 6 if six else 5)
    except files.Unread as fault:
        return (json.dumps(said | {"fault": str(fault)}) if as_json else f"{name}: cannot be read: {fault}"), False
    except Refused as refusal:
        line = f"{name}: refused {refusal.number} at {refusal.place}"
        return (json.dumps(said | {"refusal": judging.told(refusal)}) if as_json else line), False
    return (json.dumps(said | {"worked_out": judging.named(fields)}) if as_json else f"{name}: {decks.Sheet(*fields)}"), True
