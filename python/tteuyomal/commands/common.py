"""What several commands share: options, numbers on the command line, and lines for many files."""

from __future__ import annotations

import argparse
import contextlib
import json
from collections.abc import Callable, Iterable
from typing import Any

from .. import files, run as runs, work
from ..console import Output, complain
from ..files import Found


def add_paths(parser: argparse.ArgumentParser, words: str) -> None:
    """The files and folders that a command goes over, and objects in place of lines."""
    parser.add_argument("paths", nargs="*", metavar="PATH", help=words)
    parser.add_argument("--json", action="store_true", help="print one JSON object a line")
    add_jobs(parser)


def add_folder(parser: argparse.ArgumentParser) -> None:
    """One folder, and the one file that is written of it."""
    parser.add_argument("folder", metavar="FOLDER", help="every file in it counts as a deck")
    parser.add_argument("-o", dest="output", required=True, metavar="FILE", help="where it goes; - is standard output")
    parser.set_defaults(quiet=False, dask=None)
    add_jobs(parser)


class Objects(argparse.Action):
    """`--json` and the like. Before the paths it stands alone, and objects are printed; behind them the next word is the file that gets
    them."""

    def __init__(self, **more: Any) -> None:
        super().__init__(nargs="?", metavar="FILE", **more)

    def __call__(self, parser: argparse.ArgumentParser, names: argparse.Namespace, word: Any, option: str | None = None) -> None:
        if word is not None and not getattr(names, "paths", None):
            names.first, word = word, None
        setattr(names, self.dest, "-" if word is None else word)


def paths(options: argparse.Namespace) -> list[str]:
    """The paths, with one that stood directly behind `--json`."""
    return [*([options.first] if hasattr(options, "first") else []), *options.paths]


def add_jobs(parser: argparse.ArgumentParser) -> None:
    """How many processes work."""
    parser.add_argument("-j", dest="jobs", type=jobs, default=work.cores(), metavar="N", help="work with so many processes; as many as there are processors, where nothing is said")


def stamp(options: argparse.Namespace) -> str:
    """What each object says of the run; nothing where lines are asked for."""
    return json.dumps(runs.begin().stamp()) if options.json else ""


def jobs(word: str) -> int:
    """A number of processes."""
    number = int(word)
    if not 1 <= number <= 1024:
        raise argparse.ArgumentTypeError("from 1 to 1024")
    return number


def positive(word: str) -> int:
    """A number from 1 on."""
    number = int(word)
    if number < 1:
        raise argparse.ArgumentTypeError("from 1 on")
    return number


def position(word: str) -> int:
    """A number from 0 on."""
    number = int(word)
    if number < 0:
        raise argparse.ArgumentTypeError("from 0 on")
    return number


def processes(options: argparse.Namespace) -> int:
    """How many processes work. Standard input is read by this one."""
    count: int = options.jobs
    return 1 if "-" in getattr(options, "paths", []) else count


def lines(
    function: Callable[[list[Any]], list[tuple[str, bool]]], options: argparse.Namespace, out: Output, what: str,
    items: Iterable[Any] | None = None,
) -> int:
    """The lines of all files, or of other items; 0 only if there was one and each was answered."""
    items = files.find(options.paths) if items is None else items
    progress = work.Progress(what)
    fine = 0
    with contextlib.closing(work.over(function, items, processes(options), size=100)) as answers:
        for answer in answers:
            out.write("".join(f"{line}\n" for line, _ in answer))
            fine += sum(good for _, good in answer)
            progress.add(len(answer))
    out.flush()
    progress.end(f"{progress.done} {what if progress.done != 1 else what[:-1]}: {fine} answered, {progress.done - fine} not")
    if not progress.done:
        complain("no file was given")
    return 0 if fine == progress.done > 0 else 2
