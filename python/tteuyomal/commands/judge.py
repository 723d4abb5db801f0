"""`tteuyomal judge`: decks, a line or an object each; and whatever a run writes besides, from one reading of each deck."""

from __future__ import annotations

import argparse
import contextlib
import functools
import json
import os
from collections.abc import Generator
from typing import Any

from .. import against, batch, files, judging, manifest, outputs, run as runs, work
from ..against import File
from ..batch import LINES, NOTHING, OBJECTS, Batch, Wanted
from ..console import Output, Stop
from ..files import Found
from ..judging import HELD_WORDS, WORDS as VERDICTS, Tally
from . import common

NAME = "judge"
WORDS = "judge decks: a line each, and in the same run a board, a notice, objects or a report"
STATUS = (
    "0 if there was a deck, every one was accepted (and, with --against, matched), and what was expected was there; 1 if a sheet differs or "
    "a deck is another molecule than the file's; 2 if a deck is refused or can't be read, if it is not decided whether it is the file's "
    "molecule, if there was none, if something expected is missing, if a file can't be written or the run fails. The greatest that fits."
)


def options(parser: argparse.ArgumentParser) -> None:
    """Decks, who judges them, and what is written."""
    parser.add_argument("paths", nargs="*", metavar="PATH", help="decks, or folders of decks; - is standard input")
    parser.add_argument("--json", action=common.Objects, help="print one JSON object a line; behind the paths, FILE gets them and lines are printed")
    add_outputs(parser, ("board", "notice", "junit", "csv"))
    add_expected(parser)
    add_against(parser)
    parser.add_argument("-q", dest="quiet", action="store_true", help="print lines or objects only for what is not accepted")
    parser.add_argument("--dask", metavar="ADDRESS", help="judge on the workers of a Dask scheduler, as tcp://host:8786")
    common.add_jobs(parser)


def add_outputs(parser: argparse.ArgumentParser, forms: tuple[str, ...]) -> None:
    """Files that a run writes."""
    words = {
        "board": "write the board: one file of HTML, a light for each deck",
        "notice": "write the notice, after everything else: SHA-256 and verdict of each deck",
        "junit": "write a report as JUnit's XML, for Jenkins and GitLab",
        "csv": "write a table: a row for each deck",
    }
    for form in forms:
        parser.add_argument(f"--{form}", metavar="FILE", help=words[form])


def add_against(parser: argparse.ArgumentParser) -> None:
    """A molfile that decks are held against."""
    parser.add_argument("--against", metavar="MOLFILE", help="hold each deck against this molfile: the same molecule, whatever the numbering")
    parser.add_argument("--record", type=common.positive, metavar="N", help="of an SDF with several records behind --against, this one")


def read_against(options: argparse.Namespace) -> File | None:
    """The molfile that decks are held against, if any."""
    if options.against is None:
        if options.record is not None:
            raise Stop("--record goes with --against")
        return None
    return against.read(options.against, options.record)


def add_expected(parser: argparse.ArgumentParser) -> None:
    """What must be there, no more and no less."""
    parser.add_argument("--expect", type=common.position, metavar="N", help="exactly so many decks are expected; with another number the exit status is 2")
    parser.add_argument(
        "--manifest",
        metavar="FILE",
        help="the decks that are expected: a name a line, or lines of sha256sum; with one missing, not listed or changed the exit status is 2",
    )


def run(options: argparse.Namespace, out: Output) -> int:
    """Lines or objects, one a deck, and the files that were asked for."""
    paths = common.paths(options)
    written = {form: path for form in ("board", "notice", "junit", "csv") if (path := getattr(options, form)) is not None}
    if options.json not in (None, "-"):
        written["json"] = options.json
    if options.against is not None and (set(written) - {"json"} or options.dask):
        raise Stop("--against goes with lines and objects alone: a board, a notice, a report, a table and Dask say nothing of a molfile")
    return judge(paths, written, options, out, OBJECTS if options.json == "-" else LINES)


def judge(paths: list[str], written: dict[str, str], options: argparse.Namespace, out: Output, printed: str) -> int:
    """One run over decks: what is printed, and the files that are written, by their forms."""
    folder = paths[0] if len(paths) == 1 and os.path.isdir(paths[0]) else ""
    file = read_against(options) if hasattr(options, "against") else None
    inputs = [options.manifest, file.name if file is not None else None]
    outputs.apart(written, [*paths, *(path for path in inputs if path is not None)])
    run = runs.begin(os.path.abspath(folder))
    with outputs.Outputs(run, written) as pages:
        if printed == NOTHING and not folder:
            raise Stop(f"{files.shown(paths[0])} is no folder")
        expectation = manifest.Expectation(options.expect, options.manifest)
        run = run._replace(inputs=expectation.inputs)
        wanted = Wanted(folder, printed, options.quiet, json.dumps(run.stamp()), tuple(written), expectation.path is not None)
        tally, progress = Tally(VERDICTS if file is None else HELD_WORDS), work.Progress("decks")

        def came(some: Batch) -> None:
            for name, sha256 in some.names:
                expectation.add(name, sha256, folder)

        with contextlib.closing(answers(paths, options, functools.partial(judge_batch, wanted=wanted, file=file))) as batches:
            batch.gather(batches, out, pages, tally, progress, came)
        run = run._replace(expected=expectation.end())
        pages.write(tally, run)
    progress.end(str(tally))
    return batch.ended(tally, run)


def answers(paths: list[str], options: argparse.Namespace, function: Any) -> Generator[Batch, None, None]:
    """What comes out batch by batch, here or on a fleet."""
    if options.dask:
        from .. import fleet

        return fleet.over(options.dask, paths, function)
    return work.over(function, files.find(paths), 1 if "-" in paths else options.jobs)


def judge_batch(some: list[Found], wanted: Wanted, file: File | None = None) -> Batch:
    """Reads and judges some files, each once."""
    judged = [judging.judge_file(found, wanted.fields) for found in some]
    return batch.of(judged if file is None else [judging.held(one, file) for one in judged], wanted)
