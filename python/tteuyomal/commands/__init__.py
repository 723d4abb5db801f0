"""The commands, a file each: its name, its words and options, and what it does."""

from __future__ import annotations

import argparse
from typing import Protocol

from ..console import Output
from . import board, check, deck, explain, judge, library, measure, notice, rank, sheet, show, verify


class Command(Protocol):
    """What a command's module has. `run` answers the exit status."""

    NAME: str
    WORDS: str  # what it does, in one sentence without its full stop
    STATUS: str  # what its exit statuses say

    def options(self, parser: argparse.ArgumentParser) -> None: ...

    def run(self, options: argparse.Namespace, out: Output) -> int: ...


ALL: tuple[Command, ...] = (judge, check, explain, sheet, measure, deck, show, library, rank, board, notice, verify)
