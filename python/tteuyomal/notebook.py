"""Blocks, sheets, verdicts and decks as notebooks show them: a table of the fields, and the molecule where RDKit is there. Loading this
teaches it to them."""

from __future__ import annotations

import html

from . import drawing
from .decks import FIELD_NAMES, Block, Deck, Placement, Refused, Sheet, Verdict

STYLE = "fill:none;stroke:currentColor;stroke-width:1.5;max-width:20em;max-height:14em"


def shown(value: Block | Sheet | Verdict | Deck) -> str:
    """A value as HTML. What the rules refuse, or a record has no room for, is told in words."""
    try:
        if isinstance(value, Verdict):
            return _verdict(value)
        if isinstance(value, Sheet):
            return _table(["field", "number"], _rows(value))
        return _deck(value if isinstance(value, Deck) else Deck({1: value}, [Placement(1)]))
    except (Refused, ValueError, TypeError) as fault:
        return _line(str(fault))


def _verdict(one: Verdict) -> str:
    if one.refusal:
        return _line(str(one.refusal))
    return _line(f"differs {one.field}: {FIELD_NAMES[one.field - 1]}" if one.field else "accepted")


def _deck(one: Deck) -> str:
    """The molecule, and its fields as the library works them out; beside them what the sheet claims, and the verdict."""
    if one.sheet is None:
        return _drawn(one) + _table(["field", "worked out"], _rows(one.compose()))
    said = one.judge()
    if said.refusal:
        return _drawn(one) + _verdict(said)
    worked = one.compose(six=one.sheet.largest is not None)
    return _drawn(one) + _table(["field", "claimed", "worked out"], _rows(one.sheet, worked)) + _verdict(said)


def _drawn(one: Deck) -> str:
    return drawing.svg(bytes(one)).replace("<svg ", f'<svg style="{STYLE}" ', 1)


def _rows(*sheets: Sheet) -> list[list[object]]:
    """The name of each field, and what each sheet has there."""
    return [[name, *numbers] for name, *numbers in zip(FIELD_NAMES, *(one.fields() for one in sheets))]


def _table(head: list[str], rows: list[list[object]]) -> str:
    lines = [[f"<th>{word}</th>" for word in head], *([f"<td>{html.escape(str(entry))}</td>" for entry in row] for row in rows)]
    return f"<table>{''.join(f'<tr>{str().join(line)}</tr>' for line in lines)}</table>"


def _line(words: str) -> str:
    return f"<p>{html.escape(words)}</p>"


for kind in (Block, Sheet, Verdict, Deck):
    setattr(kind, "_repr_html_", shown)  # what notebooks ask a value for
