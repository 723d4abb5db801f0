"""`tteuyomal verify`: whether a notice still holds for a folder."""

from __future__ import annotations

import argparse
import contextlib
import os
from collections.abc import Iterator

from .. import files, judging, native, notice, work
from ..console import Output, Stop, complain
from ..files import Found
from ..judging import ACCEPTED, Tally
from ..notice import Row
from . import common

NAME = "verify"
WORDS = "judge a folder again and say whether each line of a notice still holds: the same bytes, the same verdict, none missing, none added"
STATUS = (
    "0 if every line of the notice still holds and there is one, whatever its verdict; 2 if not. It does not say that all "
    "was accepted: the notice does."
)


def options(parser: argparse.ArgumentParser) -> None:
    """The notice and the folder."""
    parser.add_argument("notice", metavar="NOTICE", help="- is standard input")
    parser.add_argument("folder", metavar="FOLDER", help="where the decks are now")
    common.add_jobs(parser)


def run(options: argparse.Namespace, out: Output) -> int:
    """A line for whatever does not hold, and a sentence; 0 only if all holds. A notice that is true may still say that something is wrong,
    so what it says is repeated."""
    said = read(options.notice)
    if not os.path.isdir(options.folder):
        raise Stop(f"{files.shown(options.folder)} is no folder")
    tally, wrong, left = Tally(), 0, dict(said.rows)
    with contextlib.closing(work.over(rows_of, files.find([options.folder]), options.jobs)) as batches:
        for row in (one for batch in batches for one in batch):
            now = row._replace(name=notice.relative(row.name, options.folder))
            tally.add(now.word)
            faults = list(broken(left.pop(now.name, None), now))
            wrong += bool(faults)
            out.write("".join(f"{files.shown(now.name)}: {fault}\n" for fault in faults))
    for name in left:
        out.write(f"{files.shown(name)}: missing\n")
    faults = list(untrue(said))
    out.write("".join(f"{fault}\n" for fault in faults))
    out.flush()
    if said.library != native.SHA256:
        complain(f"the notice is by another library (SHA-256 {said.library}); this is {native.version()} (SHA-256 {native.SHA256})")
    count = wrong + len(left) + len(faults)
    if not said.rows:
        complain("the notice has no deck, so there is nothing to hold")
    if count or not said.rows:
        out.write(f"the notice does not hold: {count} of its lines or of these files are otherwise\n" if count else "")
        return 2
    out.write(f"the notice holds: {tally}\n")
    if not said.all_accepted:
        out.write(f"it does not say that all was accepted: {said.sentence}\n")
    return 0


def read(path: str) -> notice.Read:
    """The notice."""
    try:
        data = files.text_of(Found(path)).data
        return notice.read(data.decode("utf-8"))
    except (files.Unread, notice.NoNotice, UnicodeDecodeError) as fault:
        raise Stop(f"{files.shown(path)}: {fault}") from None


def broken(then: Row | None, now: Row) -> Iterator[str]:
    """What does not hold of a deck."""
    if then is None:
        yield f"not in the notice; it is {now.verdict} now"
    elif then.sha256 != now.sha256:
        yield f"other bytes: SHA-256 {then.sha256 or 'none'} in the notice, {now.sha256 or 'none'} now"
    if then is not None and then.verdict != now.verdict:
        yield f"{then.verdict} in the notice, {now.verdict} now"


def untrue(said: notice.Read) -> Iterator[str]:
    """What the notice says above its lines and they don't."""
    if said.total != len(said.rows):
        yield f"the notice speaks of {said.total} decks and has {len(said.rows)} lines"
    accepted = all(one.verdict == ACCEPTED for one in said.rows.values())
    if said.all_accepted and not accepted:
        yield "the notice says that all were accepted, and its lines do not"


def rows_of(batch: list[Found]) -> list[Row]:
    """The rows of some decks as they are now."""
    return [notice.row(judging.judge_file(found, fields=False), "") for found in batch]
