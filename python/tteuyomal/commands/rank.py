"""`tteuyomal rank`: the best of a library of any size, by one field."""

from __future__ import annotations

import argparse
import csv
import io
import os
import time

from .. import candidates, decks, files, native, ranking
from ..console import Output, Stop, told
from ..files import Found
from ..ranking import Cut, State
from . import common

NAME = "rank"
WORDS = "rank the products of a library of any size by one field, and tell the best with their candidates"
STATUS = "0 if every product was ranked and the best are told; 2 if a candidate is refused or something can't be read or written."
LONGEST_TEXT = 1 << 24


def options(parser: argparse.ArgumentParser) -> None:
    """The text, the field, how many, and who works."""
    parser.add_argument("library", metavar="LIBRARY.toml", help="the core, and the candidates of each site: docs/LIBRARIES.md")
    fields = ", ".join(decks.SHORT_NAMES)
    parser.add_argument("--by", type=field, choices=decks.SHORT_NAMES, default="W", metavar="FIELD", help=f"one of {fields}; W if not said")
    parser.add_argument("--top", type=common.positive, default=100, metavar="N", help="so many of the best; 100 if not said")
    parser.add_argument("--greatest", action="store_true", help="the greatest are the best, not the smallest")
    parser.add_argument("--skip-refused", action="store_true", help="leave candidates out that are refused, and say which")
    parser.add_argument("--check", type=common.position, default=0, metavar="N", help="afterwards look at N products, written out one by one")
    parser.add_argument("--resume", metavar="FILE", help="keep in this file how far the run is; where it is there, go on from it")
    parser.add_argument("--product", type=common.position, metavar="K", help="write product K as a deck to -o, and rank nothing")
    parser.add_argument("--dask", metavar="ADDRESS", help="rank on the workers of this Dask scheduler")
    parser.add_argument("-o", dest="output", metavar="FILE", help="write to this file")
    common.add_jobs(parser)


def field(word: str) -> str:
    """A field's name, in letters of either case."""
    return {name.lower(): name for name in decks.SHORT_NAMES}.get(word.lower(), word)


def run(options: argparse.Namespace, out: Output) -> int:
    """The table of the best, or one product."""
    if options.product is not None and options.output is None:
        raise Stop("--product needs -o: a deck is bytes")
    cut = read(options)
    for left in cut.library.left:
        told(f"site {left.site}, left out: {left.name}: {left.reason}\n")
    if options.product is not None:
        return write_product(cut, options.product, options.output)
    return write_best(options, cut, out)


def read(options: argparse.Namespace) -> Cut:
    """The library that the text names, cut into decks."""
    folder = os.path.dirname(options.library)
    try:
        text = files.read(Found(options.library), LONGEST_TEXT).data.decode("utf-8")
    except (files.Unread, UnicodeDecodeError) as fault:
        raise Stop(f"{files.shown(options.library)}: cannot be read: {fault}") from None
    for written in (options.output, options.resume):
        if written is not None:
            files.apart(written, [options.library, *candidates.named_files(text, folder)])
    try:
        library = candidates.made(text, folder, options.skip_refused)
    except candidates.BadLibrary as fault:
        raise Stop(f"{files.shown(options.library)}: {fault}") from None
    return ranking.cut(library, decks.SHORT_NAMES.index(options.by) + 1, options.top, options.greatest)


def write_product(cut: Cut, number: int, path: str) -> int:
    """One product as a deck."""
    if number >= cut.plan.products:
        raise Stop(f"no product {number}: there are {cut.plan.products}, from 0 on")
    choice = cut.chosen(number)
    with files.written(path) as file:
        file.write(bytes(cut.product(choice)))
    told(f"product {number}: {', '.join(cut.names(choice))}\n")
    return 0


def write_best(options: argparse.Namespace, cut: Cut, out: Output) -> int:
    """Ranks, checks, and writes the table."""
    plan, begun = cut.plan, time.monotonic()
    state = ranking.resumed(options.resume, plan)
    progress = ranking.Progress(plan.products, state.products)
    before = state.products
    state = ranking.run(plan, options.jobs, options.dask, options.resume, ranking.shard_size(plan, options.jobs), progress.add)
    seconds = time.monotonic() - begun
    table = rows(cut, state)
    looked = ranking.checked(cut, state.best, options.check) if options.check else 0
    if options.output is None:
        out.write(table)
    else:
        with files.written(options.output) as file:
            file.write(table.encode("utf-8"))
    words = f"{plan.products:,} products in {plan.decks:,} decks ranked by {options.by}, {'greatest' if options.greatest else 'smallest'} first"
    words += f"; {plan.products - before:,} of them now, in {seconds:.1f} s" if before else f", in {seconds:.1f} s"
    progress.end(words + (f"; {looked:,} products written out and found right" if looked else ""))
    return 0


def rows(cut: Cut, state: State) -> str:
    """The table: place, value, the product's number, its candidates, and its six fields, composed anew of the product alone."""
    text = io.StringIO()
    table = csv.writer(text, lineterminator="\n")
    table.writerow(["place", "value", "product", *(f"site_{k}" for k in range(1, len(cut.counts) + 1)), *decks.SHORT_NAMES])
    for place, one in enumerate(state.best, 1):
        choice = cut.choice(one)
        fields = native.compose_six(bytes(cut.product(choice)))
        if fields[cut.plan.asked[0] - 1] != one.value:
            raise Stop(f"product {cut.number(choice)} is ranked with {one.value}, and is {tuple(fields)} written out: nothing stands")
        table.writerow([place, one.value, cut.number(choice), *cut.names(choice), *fields])
    return text.getvalue()
