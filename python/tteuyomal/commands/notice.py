"""`tteuyomal notice`: the short form of `judge FOLDER --notice FILE`, with no lines."""

from __future__ import annotations

import argparse

from ..batch import NOTHING
from ..console import Output
from . import common, judge

NAME = "notice"
WORDS = "write the notice of a folder's decks: a text for the clerk"
STATUS = "that of `judge`: 0 only where the notice says that all were checked and accepted."


def options(parser: argparse.ArgumentParser) -> None:
    """The folder, and where the notice goes."""
    common.add_folder(parser)
    judge.add_expected(parser)


def run(options: argparse.Namespace, out: Output) -> int:
    """Judges the folder and writes the notice."""
    return judge.judge([options.folder], {"notice": options.output}, options, out, NOTHING)
