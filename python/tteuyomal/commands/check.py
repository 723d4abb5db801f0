"""`tteuyomal check`: what a program printed, against the chemist's own file; a line for every molecule and every row."""

from __future__ import annotations

import argparse
import contextlib
import functools
import itertools
import json
import os
from collections.abc import Generator, Iterator

from .. import batch, checking, claims, files, manifest, molecules, outputs, rows, run as runs, summing, work
from ..batch import LINES, OBJECTS, ROWS, Batch, Wanted
from ..checking import Counts, Item, Judge
from ..claims import Asked, Table
from ..console import Output, Stop, told
from ..files import Found
from ..judging import CLAIM_WORDS, Tally
from ..molecules import Molecules
from . import common, judge

NAME = "check"
WORDS = "hold what a program printed against molecules: an SDF or molfiles, and a table or the SDF's data items"
STATUS = (
    "0 if there was a molecule and every molecule and every row was accepted; 1 if a number differs; 2 if a molecule is refused or can't be "
    "read, if a claim is missing or not read, if a row is of no molecule, if a name stands twice, if there was no molecule or not as many as "
    "expected, if a file can't be written or the run fails. The greatest that fits."
)
FORMS = ("board", "notice", "junit")
SIZE = 400  # molecules handed to a process at a time, and of large ones no more than so many bytes
BYTES = 1 << 23
EARLY = 20  # batches of which every molecule that differs is looked at for a cause; of a later one so many
LATER = 10


def options(parser: argparse.ArgumentParser) -> None:
    """Molecules, table, fields, who judges them, and what is written."""
    fields = ", ".join(claims.SHORT)
    parser.add_argument(
        "paths", nargs="*", metavar="MOLECULES [TABLE] FIELD=COLUMN",
        help=f"an SDF (also .gz; - is standard input), molfiles or folders of them; a table (.csv .tsv .tab); and for each field the column "
        f"that has it, without a table the data item: {fields}",
    )  # fmt: skip
    parser.add_argument("--id", metavar="COLUMN", help="the table's column that names the molecule; else its first")
    parser.add_argument("--id-item", metavar="ITEM", help="a molecule's name is this data item")
    parser.add_argument(
        "--by", choices=molecules.NAMES,
        help="a molecule's name is its title line (so it is in an SDF), its file's name (so it is of molfiles) or its number",
    )  # fmt: skip
    parser.add_argument("--program", default="", metavar="WORDS", help='the program that printed, as "CDK 2.8"; of a file the SHA-256 is said too')
    parser.add_argument("--json", action=common.Objects, help="print one JSON object a line; behind the paths, FILE gets them and lines are printed")
    parser.add_argument("--csv", action=common.Objects, help="print a table, a row each; behind the paths, FILE gets it and lines are printed")
    judge.add_outputs(parser, FORMS)
    parser.add_argument("--expect", type=common.position, metavar="N", help="so many molecules are expected: another number is 2")
    parser.add_argument("-q", dest="quiet", action="store_true", help="print only what is not accepted")
    parser.add_argument("--dask", metavar="ADDRESS", help="judge on the workers of a Dask scheduler, as tcp://host:8786")
    common.add_jobs(parser)
    parser.set_defaults(anywhere=True)


def sorted_words(words: list[str]) -> tuple[list[str], str | None, tuple[Asked, ...]]:
    """Molecule files, the table, and which field stands in which column, by what the words look like."""
    paths: list[str] = []
    tables: list[str] = []
    fields: list[Asked] = []
    for word in words:
        found = claims.asked(word)
        if found is not None:
            fields.append(found)
        elif "=" in word and not os.path.exists(word):
            raise Stop(f"{files.shown(word)}: no field has this name; the fields are {', '.join(claims.SHORT)}")
        else:
            (tables if claims.is_table(word) and not os.path.isdir(word) else paths).append(word)
    if not paths:
        raise Stop("no molecules were named: an SDF, molfiles or a folder of them")
    if len(tables) > 1:
        raise Stop(f"{files.shown(tables[0])} and {files.shown(tables[1])}: one table at a time")
    if not fields:
        raise Stop(f"nothing is claimed: say which column has which field, as W=WPATH; the fields are {', '.join(claims.SHORT)}")
    for one, other in itertools.combinations(fields, 2):
        if one.field == other.field:
            raise Stop(f"{claims.SHORT[one.field - 1]} is claimed twice, by {files.shown(one.column)} and by {files.shown(other.column)}")
    return paths, tables[0] if tables else None, tuple(sorted(fields))


def run(options: argparse.Namespace, out: Output) -> int:
    """Lines, objects or rows, one a molecule and row, the files that were asked for, and a table of fields by verdicts."""
    paths, table_path, fields = sorted_words(common.paths(options))
    written = {form: path for form in FORMS if (path := getattr(options, form)) is not None}
    written |= {form: path for form in ("json", "csv") if (path := getattr(options, form)) not in (None, "-")}
    if options.json == options.csv == "-":
        raise Stop("--json and --csv: one of them goes to standard output, the other needs a file")
    printed = OBJECTS if options.json == "-" else ROWS if options.csv == "-" else LINES
    outputs.apart(written, [*paths, *([table_path] if table_path is not None else [])])
    if options.id is not None and table_path is None:
        raise Stop("--id names a column of a table, and there is none")
    folder = paths[0] if len(paths) == 1 and os.path.isdir(paths[0]) else ""
    begun = runs.begin(os.path.abspath(folder), options.program)
    with outputs.Outputs(begun, written, "molecule") as pages:
        expectation = manifest.Expectation(options.expect, None)
        table = None if table_path is None else Table(table_path, fields, options.id)
        source = Molecules(paths, folder, table, options.by, options.id_item)
        wanted = Wanted(folder, printed, options.quiet, json.dumps(begun.stamp()), tuple(written))
        tally, progress, counts = Tally(CLAIM_WORDS, "molecule"), work.Progress("molecules"), Counts()
        if printed == ROWS:
            out.write(rows.ended(checking.columns(fields), "run"))
        function = functools.partial(check_batch, fields=fields, wanted=wanted)
        with contextlib.closing(answers(source, options, function)) as batches:
            batch.gather(batches, out, pages, tally, progress, lambda some: counts.merge(some.more))
        inputs = (*source.inputs, *([("table", table.path, table.sha256)] if table is not None else []), *program_file(options.program))
        begun = begun._replace(expected=expectation.end(), inputs=inputs)
        pages.write(tally, begun)
    progress.end(str(tally))
    told("".join(f"{line}\n" for line in summing.lines(counts, fields)))
    return batch.ended(tally, begun)


def program_file(program: str) -> list[tuple[str, str, str]]:
    """The program among a run's inputs, where its words are the name of a file."""
    if not program or not os.path.isfile(program):
        return []
    try:
        return [("program", program, files.read(Found(program), 0).sha256)]
    except files.Unread as fault:
        raise Stop(f"{files.shown(program)}: cannot be read: {fault}") from None


Task = tuple[int, list[Item]]  # how many are looked at for a cause, and the molecules


def tasks(source: Molecules) -> Iterator[Task]:
    """The molecules in batches."""
    number, size = 0, 0
    some: list[Item] = []
    for item in source:
        some.append(item)
        size += len(item.data)
        if len(some) == SIZE or size >= BYTES:
            yield (SIZE if number < EARLY else LATER), some
            number, some, size = number + 1, [], 0
    if some:
        yield (SIZE if number < EARLY else LATER), some


def answers(source: Molecules, options: argparse.Namespace, function: functools.partial[Batch]) -> Generator[Batch, None, None]:
    """What comes out batch by batch, here or on a fleet."""
    if options.dask:
        from .. import fleet

        return fleet.each(options.dask, function, tasks(source))
    return work.each(function, tasks(source), options.jobs)


def check_batch(task: Task, fields: tuple[Asked, ...], wanted: Wanted) -> Batch:
    """Judges some molecules."""
    looks, some = task
    judge = Judge(fields, wanted.fields, wanted.fields or bool(wanted.forms), looks)
    checked = [judge.check(item) for item in some]
    counts = Counts()
    counts.add(checked, looks - max(0, judge.looks))
    return batch.of(checked, wanted, counts)
