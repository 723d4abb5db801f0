"""`tteuyomal library`: the products of a library deck, in order or ranked."""

from __future__ import annotations

import argparse
import contextlib
import heapq
import itertools
from collections.abc import Iterable, Iterator

from .. import decks, files, judging, libraries, native, work
from ..console import Output, Stop
from ..files import Found
from ..libraries import Library, Product
from ..native import Refused
from . import common

NAME = "library"
WORDS = "list the products of a library deck with their fields, in order or ranked"
STATUS = "0 if there was a product to list; 2 if the deck is refused or can't be read, or no product is at these positions."


def options(parser: argparse.ArgumentParser) -> None:
    """The deck, which products, in which order and form."""
    parser.add_argument("deck", metavar="DECK", help="a library deck; - is standard input")
    parser.add_argument("--six", action="store_true", help="with the largest distance, the sixth field")
    fields = ", ".join(decks.SHORT_NAMES)
    parser.add_argument("--sort", type=field, choices=decks.SHORT_NAMES, metavar="FIELD", help=f"smallest first: {fields}")
    parser.add_argument("--reverse", action="store_true", help="with --sort: greatest first")
    parser.add_argument("--top", type=common.positive, metavar="N", help="only the first so many of the list")
    parser.add_argument("--csv", action="store_true", help="rows with commas under a row of names")
    parser.add_argument("--from", dest="first", type=common.position, default=0, metavar="POSITION", help="begin here; the first is 0")
    parser.add_argument("--count", type=common.positive, metavar="N", help="look at so many products")
    parser.add_argument("-o", dest="output", metavar="FILE", help="write to this file and print nothing")


def field(word: str) -> str:
    """A field's name, in letters of either case."""
    return {name.lower(): name for name in decks.SHORT_NAMES}.get(word.lower(), word)


def run(options: argparse.Namespace, out: Output) -> int:
    """A line or a row for each product."""
    if options.sort == "largest" and not options.six:
        raise Stop("--sort largest needs --six: the largest distance is the sixth field")
    if options.reverse and options.sort is None:
        raise Stop("--reverse needs --sort: without it products stand by position")
    if options.output is not None:
        files.apart(options.output, [options.deck])
    try:
        data = files.read(Found(options.deck)).data
        count = native.library_count(data)
    except files.Unread as fault:
        raise Stop(f"{files.shown(options.deck)}: cannot be read: {fault}") from None
    except Refused as refusal:
        raise Stop(f"{files.shown(options.deck)}: {refusal}{no_library(data, refusal)}") from None
    if options.first >= count:
        raise Stop(f"{files.shown(options.deck)}: no product from position {options.first} on: there are {count}, from 0 on")
    deck = Library.from_bytes(data)
    lines = (one.row() if options.csv else one.line() for one in ranked(options, products(options, deck)))
    head = [libraries.columns(len(deck.sites), options.six)] if options.csv else []
    with contextlib.ExitStack() as parts:
        file = parts.enter_context(files.written(options.output)) if options.output is not None else None
        for some in work.batches(itertools.chain(head, lines)):
            text = "".join(f"{line}\n" for line in some)
            if file is None:
                out.write(text)
            else:
                file.write(text.encode("utf-8"))
    return 0


def no_library(data: bytes, refusal: Refused) -> str:
    """What helps who gave another deck than a library's."""
    if (refusal.number, judging.kind_at(data, refusal.place)) == (12, decks.ASSEMBLY):
        return "; it is the assembly of one molecule: `tteuyomal sheet` and `tteuyomal judge` take such a deck"
    return ""


def products(options: argparse.Namespace, deck: Library) -> Iterator[Product]:
    """The products that were asked for, with the progress shown."""
    progress = work.Progress("products")
    limits = (options.count, options.top if options.sort is None else None)
    count = min((one for one in limits if one is not None), default=None)
    for batch in deck.batches(options.first, count, options.six):
        yield from batch
        progress.add(len(batch))
    if progress.there:
        progress.end(f"{progress.done} {'product' if progress.done == 1 else 'products'}")


def ranked(options: argparse.Namespace, products: Iterator[Product]) -> Iterable[Product]:
    """The products in the order that was asked for; equal ones stand by position. With --top no more than so many are held."""
    if options.sort is None:
        return products
    place = decks.SHORT_NAMES.index(options.sort)
    sign = -1 if options.reverse else 1

    def rank(one: Product) -> tuple[int, int]:
        return sign * one.fields[place], one.position

    return sorted(products, key=rank) if options.top is None else heapq.nsmallest(options.top, products, key=rank)
