"""`tteuyomal board`: the short form of `judge FOLDER --board FILE`, with no lines."""

from __future__ import annotations

import argparse

from ..batch import NOTHING
from ..console import Output
from . import common, judge

NAME = "board"
WORDS = "write the board of a folder's decks: one file of HTML"
STATUS = "that of `judge`: 0 only where the board is green."


def options(parser: argparse.ArgumentParser) -> None:
    """The folder, and where the board goes."""
    common.add_folder(parser)
    judge.add_expected(parser)


def run(options: argparse.Namespace, out: Output) -> int:
    """Judges the folder and writes the board."""
    return judge.judge([options.folder], {"board": options.output}, options, out, NOTHING)
