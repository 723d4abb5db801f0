"""What is said at the end of a check: field by verdict, the smallest of each, and guesses at the cause."""

from __future__ import annotations

from collections.abc import Iterable, Iterator

from . import files
from .checking import ORDER, Counts, Example
from .claims import SHORT, Asked
from .judging import ACCEPTED


def lines(counts: Counts, asked: Iterable[Asked]) -> Iterator[str]:
    """The table, the examples and the guesses, a line each."""
    fields = [one.field for one in asked]
    words = [word for word in ORDER if any((field, word) in counts.cells for field in fields)]
    if not words:
        return
    rows = [["", *words], *([SHORT[field - 1], *(str(counts.cells.get((field, word), (0,))[0]) for word in words)] for field in fields)]
    wide = [max(len(row[k]) for row in rows) for k in range(len(words) + 1)]
    yield ""
    yield from ("  ".join(cell.rjust(size) if k else cell.ljust(size) for k, (cell, size) in enumerate(zip(row, wide))).rstrip() for row in rows)
    yield ""
    yield "the smallest of each:"
    for field in fields:
        for word in words:
            if (field, word) in counts.cells:
                yield f"  {SHORT[field - 1]} {word}: {said(counts.cells[field, word][1], word)}"
    yield from guessed(counts)


def guessed(counts: Counts) -> Iterator[str]:
    """What may be the cause, the likeliest first: how many molecules of each field, and the smallest of all."""
    if not counts.guesses:
        return
    yield ""
    yield f"guesses at the cause, no part of any verdict ({counts.looked} looked at):"
    found: dict[str, list[tuple[int, int, Example]]] = {}
    for (guess, field), (count, one) in sorted(counts.guesses.items(), key=lambda entry: entry[0][1]):
        found.setdefault(guess, []).append((count, field, one))
    for guess, those in sorted(found.items(), key=lambda entry: (-max(entry[1])[0], entry[0])):
        about = ", ".join(f"{SHORT[field - 1]} {count}" if field else f"{count}" for count, field, _ in those)
        least = min((one for _, _, one in those), key=lambda one: one.size)
        yield f"  {guess}: {about}; as {files.shown(least.label)}"


def said(one: Example, word: str) -> str:
    """An example: which molecule, how large it is, and what was printed."""
    words = f", {one.words}" if one.words else ""
    return f"{files.shown(one.label)}{words}" if word != ACCEPTED or one.words else files.shown(one.label)
