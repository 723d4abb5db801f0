"""Tteuyomal: a judge of molecular sheets that needs no reference file.

    from tteuyomal import Block, Deck, Placement, judge

    ring = Block(6, [(1, 2), (2, 3), (3, 4), (4, 5), (5, 6), (6, 1)])
    deck = Deck({1: ring}, [Placement(1), Placement(1, parent=1, parent_atom=1, atom=1)])
    deck.compose()                      # the fields that the library works out
    judge(deck.with_sheet())            # true only for accepted

All numbers and verdicts come from the proved library, through `tteuyomal.native` (one function for each C function).
"""

from __future__ import annotations

import importlib
from typing import TYPE_CHECKING, Any

__version__ = "4.1.0"

if TYPE_CHECKING:
    from .public import *  # noqa: F403


def __getattr__(name: str) -> Any:
    """The names of `public`, loaded when the first is asked for: the command starts here too, and a fault in a module must not end
    it with Python's own status 1, which says that a sheet differs."""
    public = importlib.import_module(".public", __name__)
    names = getattr(public, "__all__", [])  # none yet where its own modules ask
    if name == "__all__":
        return names
    if name in names:
        return getattr(public, name)
    if name in globals():  # a module that came along
        return globals()[name]
    raise AttributeError(f"module {__name__!r} has no attribute {name!r}")
