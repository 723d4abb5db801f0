"""`tteuyomal show`: the text of a deck."""

from __future__ import annotations

import argparse

from .. import decktext, files
from ..console import Output, Stop
from ..files import Found
from ..native import Refused

NAME = "show"
WORDS = "print the text that a deck is made from"
STATUS = "0 if the text was printed, 2 if the deck can't be read."


def options(parser: argparse.ArgumentParser) -> None:
    """One deck."""
    parser.add_argument("deck", metavar="DECK", help="- is standard input")


def run(options: argparse.Namespace, out: Output) -> int:
    """Prints the text."""
    try:
        data = files.read(Found(options.deck), files.LONGEST).data
    except files.Unread as fault:
        raise Stop(f"{files.shown(options.deck)}: cannot be read: {fault}") from None
    if len(data) > files.LONGEST:
        raise Stop(f"{files.shown(options.deck)}: {Refused(20, 0)}")
    out.write(decktext.shown(data))
    return 0
