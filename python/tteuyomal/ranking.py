"""The best of a library of any size: its lists cut into decks of at most sixteen blocks, the decks ranked in shards by the proved library,
on the cores or on a fleet, and the shards' best put together.

Decks are numbered: the last site's list turns fastest, piece by piece. That number is the tag of a product, and equal products stand by
tag, then by position: in one order whatever the number of machines. What a shard answers depends on its numbers alone, so one that is
lost is run again.
"""

from __future__ import annotations

import hashlib
import itertools
import json
import math
import os
import random
import struct
import time
from collections.abc import Callable, Iterator
from concurrent.futures import Future
from dataclasses import dataclass, field
from typing import Any, NamedTuple

from . import candidates, decks, files, fleet, native, work
from .console import Stop
from .decks import Block, Deck, Placement
from .native import Best, Ranked

MOST_BLOCKS, MOST_CANDIDATES = 15, 8  # of a deck beside its core; of a site
SHARD = 20_000  # decks of a shard at most
SAVED = 5.0  # seconds between two times that a run's state is kept


class Piece(NamedTuple):
    """Some candidates of a site as they stand in a deck: their blocks' records, the site's part of the library's record, how many."""

    blocks: bytes
    site: bytes
    many: int


class Shard(NamedTuple):
    """Some decks: the first one's number, and how many."""

    first: int
    many: int


class Answer(NamedTuple):
    """What comes of a shard: it, how many products were ranked, and its best."""

    shard: Shard
    products: int
    best: list[Ranked]


def sizes(counts: list[int]) -> list[int]:
    """How many candidates of each site a deck has, so that the decks are few; of equally few the smaller ones."""
    choices = itertools.product(*(range(1, min(MOST_CANDIDATES, count) + 1) for count in counts))
    fit = (one for one in choices if sum(one) <= MOST_BLOCKS)
    return list(min(fit, key=lambda one: (math.prod(-(-count // size) for count, size in zip(counts, one)), sum(one))))


@dataclass(frozen=True)
class Plan:
    """How a library is cut, and what is asked of it: all that a worker needs."""

    asked: tuple[int, int, bool]  # the field, how many are held, whether the greatest are wanted
    core: bytes
    pieces: list[list[Piece]]
    here: str = field(default_factory=lambda: fleet.identity())

    @property
    def decks(self) -> int:
        """How many decks there are."""
        return math.prod(map(len, self.pieces))

    @property
    def products(self) -> int:
        """How many products there are."""
        return math.prod(sum(piece.many for piece in site) for site in self.pieces)

    def sha256(self) -> str:
        """Which run this is: the same decks, the same question."""
        return hashlib.sha256(repr((self.asked, self.core, self.pieces)).encode()).hexdigest()

    def deck(self, number: int) -> bytes:
        """One deck."""
        digits = []
        for site in reversed(self.pieces):
            number, digit = divmod(number, len(site))
            digits.append(site[digit])
        return self._deck(digits[::-1])

    def _deck(self, chosen: list[Piece]) -> bytes:
        sites = b"".join(piece.site for piece in chosen)
        head = struct.pack("<HHHH", 4 + len(sites), 5, 1, len(chosen))
        return b"".join([self.core, *(piece.blocks for piece in chosen), head, sites])

    def shard(self, size: int = SHARD, first: int = 0) -> Iterator[Shard]:
        """The decks from one on in shards: each in exactly one, in order."""
        while first < self.decks:
            count = min(size, self.decks - first)
            yield Shard(first, count)
            first += count

    def rank(self, shard: Shard) -> Answer:
        """The best products of a shard's decks, and how many there were."""
        best, products, number = Best(*self.asked), 0, shard.first
        *front, last = self.pieces
        end = shard.first + shard.many
        while number < end:
            turn, begin = divmod(number, len(last))
            chosen = []
            for site in reversed(front):
                turn, digit = divmod(turn, len(site))
                chosen.append(site[digit])
            chosen.reverse()
            blocks = self.core + b"".join(piece.blocks for piece in chosen)
            sites = b"".join(piece.site for piece in chosen)
            many = math.prod(piece.many for piece in chosen)
            for piece in last[begin : begin + end - number]:
                head = struct.pack("<HHHH", 4 + len(sites) + len(piece.site), 5, 1, len(self.pieces))
                best.put(b"".join((blocks, piece.blocks, head, sites, piece.site)), number)
                products += many * piece.many
                number += 1
        return Answer(shard, products, best.entries())


@dataclass
class Cut:
    """A library to be ranked, and its plan: products have numbers, the last site's candidates turning fastest."""

    library: candidates.Library
    sizes: list[int]
    plan: Plan

    @property
    def counts(self) -> list[int]:
        """How many candidates each site has."""
        return [len(site.candidates) for site in self.library.sites]

    def choice(self, one: Ranked) -> list[int]:
        """The candidate of each site of a ranked product, from 0."""
        pieces, digits, tag, position = [], [], one.tag, one.position
        for site in reversed(self.plan.pieces):
            tag, digit = divmod(tag, len(site))
            pieces.append(digit)
        for site, size, piece in zip(reversed(self.plan.pieces), reversed(self.sizes), pieces):
            position, digit = divmod(position, site[piece].many)
            digits.append(piece * size + digit)
        return digits[::-1]

    def number(self, choice: list[int]) -> int:
        """The number of the product of a choice."""
        told = 0
        for count, digit in zip(self.counts, choice):
            told = told * count + digit
        return told

    def chosen(self, number: int) -> list[int]:
        """The choice of a product's number."""
        digits = []
        for count in reversed(self.counts):
            number, digit = divmod(number, count)
            digits.append(digit)
        return digits[::-1]

    def place(self, choice: list[int]) -> tuple[int, int]:
        """The deck of a choice, and its position there."""
        tag = position = 0
        for site, size, digit in zip(self.plan.pieces, self.sizes, choice):
            piece, own = divmod(digit, size)
            tag, position = tag * len(site) + piece, position * site[piece].many + own
        return tag, position

    def names(self, choice: list[int]) -> list[str]:
        """The names of a choice's candidates."""
        return [site.candidates[digit].name for site, digit in zip(self.library.sites, choice)]

    def product(self, choice: list[int]) -> Deck:
        """A product written out as a deck: the core, and its candidates joined to it."""
        blocks, placements = {1: self.library.core}, [Placement(1)]
        for number, (site, digit) in enumerate(zip(self.library.sites, choice), 2):
            one = site.candidates[digit]
            blocks[number] = one.block
            placements.append(Placement(number, 1, site.atom, one.atom))
        return Deck(blocks, placements)


def cut(library: candidates.Library, by: int, top: int, greatest: bool) -> Cut:
    """How a library is cut into decks."""
    size = sizes([len(site.candidates) for site in library.sites])
    pieces, base = [], 2
    for site, most in zip(library.sites, size):
        pieces.append([_piece(site.atom, site.candidates[at : at + most], base) for at in range(0, len(site.candidates), most)])
        base += most
    return Cut(library, size, Plan((by, top, greatest), library.core.record(1), pieces))


def _piece(atom: int, those: list[candidates.Candidate], base: int) -> Piece:
    blocks = b"".join(one.block.record(number) for number, one in enumerate(those, base))
    joins = b"".join(struct.pack("<HB", number, one.atom) for number, one in enumerate(those, base))
    return Piece(blocks, struct.pack("<BB", atom, len(those)) + joins, len(those))


def merged(held: list[Ranked], more: list[Ranked], asked: tuple[int, int, bool]) -> list[Ranked]:
    """The best of two rankings. Tags and positions say the order of coming, so this is the stable sort of both."""
    sign = -1 if asked[2] else 1
    return sorted(held + more, key=lambda one: (sign * one.value, one.tag, one.position))[: asked[1]]


# ---- a run ----


@dataclass
class State:
    """How far a run has come: the decks before this number are ranked, so many products, and these are their best."""

    following: int = 0
    products: int = 0
    best: list[Ranked] = field(default_factory=list)

    def add(self, answer: Answer, plan: Plan) -> None:
        """One more shard, the next in order."""
        if answer.shard.first != self.following:
            raise Stop(f"the shard from deck {answer.shard.first} came where that from deck {self.following} was due: nothing stands")
        self.following += answer.shard.many
        self.products += answer.products
        self.best = merged(self.best, answer.best, plan.asked)

    def save(self, path: str, plan: Plan) -> None:
        """Keeps it in a file, whole or not at all."""
        told = {"tteuyomal": "ranking", "run": plan.sha256(), "following": self.following, "products": self.products, "best": self.best}
        with files.written(path) as file:
            file.write(json.dumps(told).encode() + b"\n")


def resumed(path: str | None, plan: Plan) -> State:
    """What a file keeps of this run; the beginning where there is no file."""
    if path is None or not os.path.exists(path):
        return State()
    try:
        with open(path, "rb") as file:
            told = json.load(file)
        state = State(int(told["following"]), int(told["products"]), [Ranked(*map(int, one)) for one in told["best"]])
        run = told["run"]
    except (ValueError, KeyError, TypeError, OSError) as fault:
        raise Stop(f"{files.shown(path)}: is no state of a ranking: {fault}") from None
    if run != plan.sha256():
        raise Stop(f"{files.shown(path)}: is the state of another ranking: other candidates, or another field, order or number of best")
    return state


def over(plan: Plan, shards: Iterator[Shard], jobs: int, address: str | None) -> Iterator[Answer]:
    """The answers of shards in order, by processes of this machine or by a fleet."""
    if address is not None:
        yield from fleet.answers(address, _on_worker, ((plan, shard) for shard in shards))
    elif jobs == 1:
        yield from map(plan.rank, shards)
    else:
        with Again(plan.rank, jobs) as workers:
            yield from work.in_order(workers.submit, shards, 4 * jobs)


def _on_worker(plan: Plan, shard: Shard) -> tuple[str, Answer]:
    return fleet.identity(), plan.rank(shard)


class Again(work.Workers):
    """Processes of which one may be lost: its task is given to another, or done here where none is left."""

    def submit(self, task: Any) -> Future[Any]:
        """Gives a task to the next worker that is free."""
        return self.threads.submit(self._try, task)

    def _try(self, task: Any) -> Any:
        for _ in self.all:
            worker = self.free.get()
            if worker.process.is_alive():
                try:
                    return worker.ask(task)
                except Stop:
                    if worker.process.is_alive():
                        raise
                finally:
                    self.free.put(worker)
            else:
                self.free.put(worker)
        return self.function(task)


class Progress(work.Progress):
    """How many of how many products, how fast, and the time that is left."""

    def __init__(self, total: int, before: int) -> None:
        super().__init__("products")
        self.total, self.before = total, before
        self.done = before

    def add(self, count: int) -> None:
        """So many more are done."""
        self.done += count
        now = time.monotonic()
        if self.there and now - self.shown >= 0.5:
            self.shown = now
            speed = (self.done - self.before) / max(now - self.begun, 1e-9)
            left = (self.total - self.done) / max(speed, 1e-9)
            self._put(f"{self.done:,} of {self.total:,} products, {speed / 1e6:.1f} million a second, {clock(left)} left")


def clock(seconds: float) -> str:
    """Hours, minutes and seconds."""
    minutes, rest = divmod(round(seconds), 60)
    hours, minutes = divmod(minutes, 60)
    return f"{hours}:{minutes:02}:{rest:02}" if hours else f"{minutes}:{rest:02}"


def run(plan: Plan, jobs: int, address: str | None = None, keep: str | None = None, size: int = SHARD, told: Callable[[int], None] | None = None) -> State:
    """Ranks everything; raises `Stop` unless every deck and every product was ranked once."""
    state = resumed(keep, plan)
    saved = time.monotonic()
    try:
        for answer in over(plan, plan.shard(size, state.following), jobs, address):
            state.add(answer, plan)
            if told is not None:
                told(answer.products)
            if keep is not None and time.monotonic() - saved >= SAVED:
                state.save(keep, plan)
                saved = time.monotonic()
    finally:
        if keep is not None:
            state.save(keep, plan)
    if (state.following, state.products) != (plan.decks, plan.products):
        raise Stop(f"{state.products} of {plan.products} products were ranked, in {state.following} of {plan.decks} decks: nothing stands")
    return state


def shard_size(plan: Plan, jobs: int) -> int:
    """Decks of a shard: enough for some eight shards a process, so that all are busy to the end."""
    return max(1, min(SHARD, -(-plan.decks // (8 * jobs))))


def checked(cut: Cut, best: list[Ranked], many: int) -> int:
    """Looks at so many products of the run, chosen by chance: the product written out has the fields that the library's sheet of it has,
    and one that is not among the best is not better than the last of them. Answers how many were looked at."""
    by, top, greatest = cut.plan.asked
    total = cut.plan.products
    held = {(one.tag, one.position): one.value for one in best}
    worst = best[-1].value
    for number in random.Random(cut.plan.sha256()).sample(range(total), min(many, total)):
        choice = cut.chosen(number)
        tag, position = cut.place(choice)
        told = native.library_step(cut.plan.deck(tag), position, 4)
        fields = decks.claimed(told[0])[1] if told is not None else ()
        alone = native.compose_six(bytes(cut.product(choice)))
        if tuple(alone) != tuple(fields):
            raise Stop(f"product {number} has {tuple(alone)} written out, and {tuple(fields)} in its library: nothing stands")
        value = alone[by - 1]
        if held.get((tag, position), value) != value:
            raise Stop(f"product {number} is ranked with {held[tag, position]}, and has {value}: nothing stands")
        if (tag, position) not in held and (len(best) < top or (value > worst if greatest else value < worst)):
            raise Stop(f"product {number} has {value} and is not among the best: nothing stands")
    return min(many, total)


__all__ = ["Answer", "Block", "Cut", "Plan", "Progress", "Shard", "State", "checked", "clock", "cut", "merged", "run", "shard_size", "sizes"]
