"""`tteuyomal explain`: a deck in words."""

from __future__ import annotations

import argparse

from .. import explain, files, judging
from ..console import Output, Stop
from ..files import Found
from . import judge

NAME = "explain"
WORDS = "a deck in words: what it holds, what is claimed, what is worked out, what is wrong"
STATUS = (
    "0 accepted (and, with --against, matched), 1 differs or is another molecule than the file's, 2 refused, not decided, or cannot be read. "
    "The greatest that fits."
)


def options(parser: argparse.ArgumentParser) -> None:
    """One deck."""
    parser.add_argument("deck", metavar="DECK", help="- is standard input")
    judge.add_against(parser)


def run(options: argparse.Namespace, out: Output) -> int:
    """The deck's lines."""
    file = judge.read_against(options)
    judged = judging.judge_file(Found(options.deck))
    if judged.word == judging.UNREAD:
        raise Stop(f"{files.shown(options.deck)}: cannot be read: {judged.fault}")
    out.write("\n".join(explain.explained(judged)) + "\n")
    if file is None:
        return judged.status
    answer = explain.held(judged.data, file)
    out.write("\n".join(["", *explain.against(answer, file)]) + "\n")
    return max(judged.status, 0 if answer else 2 if answer is None else judging.STATUS[answer.word])
