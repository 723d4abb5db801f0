"""`tteuyomal deck`: a deck from its text, or from a molfile, which is cut into blocks."""

from __future__ import annotations

import argparse
import os

from .. import against, cutting, decks, decktext, explain, files, native, sdf
from ..console import Output, Stop, complain, told
from ..files import Found
from ..native import Refused
from . import common

NAME = "deck"
WORDS = "make a deck from a text that names its blocks, placements and claimed fields; or from a molfile, cut at bonds that no ring holds"
STATUS = (
    "0 if the deck was written and the library takes it, of a molfile as the same molecule; 2 if it refuses the deck or a molecule in it, if "
    "a molfile can't be cut, or the text is none."
)


def options(parser: argparse.ArgumentParser) -> None:
    """The text or the molfile, and where the deck goes."""
    molfiles = " ".join(sdf.ENDINGS)
    parser.add_argument("text", metavar="FILE", help=f"the text, as FILE.toml; - is standard input; or a molecule ({molfiles}, also .gz)")
    parser.add_argument("--record", type=common.positive, metavar="N", help="of an SDF with several records, this one")
    parser.add_argument("-o", dest="output", required=True, metavar="DECK", help="where the deck goes; - is standard output")
    parser.add_argument("--refused-too", action="store_true", help="write the deck also where the library refuses it; the status stays 2")


def run(options: argparse.Namespace, out: Output) -> int:
    """Writes the deck, unless the library refuses it."""
    if options.text != "-" and sdf.form_of(options.text) is not None:
        return write_cut(options)
    if options.record is not None:
        raise Stop("--record goes with an SDF")
    try:
        text = files.text_of(Found(options.text)).data.decode("utf-8")
        folder = os.path.dirname(options.text)
        files.apart(options.output, [options.text, *decktext.named_files(text, folder)])
        data = decktext.made(text, folder)
    except files.Unread as fault:
        raise Stop(f"{files.shown(options.text)}: cannot be read: {fault}") from None
    except (decktext.BadText, UnicodeDecodeError) as fault:
        raise Stop(f"{files.shown(options.text)}: {fault}") from None
    refusal = refused(data)
    if refusal is not None:
        where = " ".join(line.strip() for line in list(explain.where(data, refusal.number, refusal.place))[:1])
        written = "written all the same" if options.refused_too else "not written; --refused-too writes it"
        complain(f"{files.shown(options.text)}: the deck is {refusal}. {where} It is {written}")
    if refusal is None or options.refused_too:
        with files.written(options.output) as file:
            file.write(data)
    return 0 if refusal is None else 2


def write_cut(options: argparse.Namespace) -> int:
    """Writes the deck of a molecule of any size, and says what was done. One that the library does not match is not written."""
    files.apart(options.output, [options.text])
    data, _ = against.record(options.text, options.record)
    molecule, shown = against.whole(options.text, data), files.shown(options.text)
    try:
        made = cutting.matched(molecule)
    except cutting.Uncut as why:
        raise Stop(f"{shown}: it can't be cut: {why.told(data, molecule)}") from None
    except cutting.NotMatched as why:
        raise Stop(f"{shown}: {why}; it is not written") from None
    with files.written(options.output) as file:
        file.write(made.deck)
    blocks = "1 block" if made.blocks == 1 else f"{made.blocks} blocks"
    told(f"{shown}: {molecule.atoms} atoms, {cutting.words(made.placements)}; {blocks}\n")
    return 0


def refused(data: bytes) -> Refused | None:
    """What the library says of a deck that it does not take: as a library, with its sheet, or without one, whichever it is."""
    kinds = {kind for _, kind, _ in whole_records(data)}
    ask = native.library_count if decks.LIBRARY in kinds else native.judge if kinds & {decks.SHEET, decks.SIX} else native.compose
    try:
        ask(data)
    except Refused as refusal:
        return refusal
    return None


def whole_records(data: bytes) -> list[tuple[int, int, bytes]]:
    """The records, as far as they are whole."""
    found = []
    try:
        for record in decks.records(data):
            found.append(record)
    except ValueError:
        pass
    return found
