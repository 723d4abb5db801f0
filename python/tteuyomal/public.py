"""What `from tteuyomal import ..` gives."""

from . import notebook  # noqa: F401
from .cutting import Uncut, cut_molfile, hold
from .decks import (
    Block,
    Deck,
    Placement,
    Sheet,
    Verdict,
    compose,
    contributions,
    judge,
    judge_file,
    judge_many,
    measure,
    values,
)
from .libraries import Candidate, Library, NoProduct, Product, Site
from .native import NotThere, Refused
from .native import version as library_version
from .tables import Queue, Table

__all__ = [
    "Block",
    "Candidate",
    "Deck",
    "Library",
    "NoProduct",
    "NotThere",
    "Placement",
    "Product",
    "Queue",
    "Refused",
    "Sheet",
    "Site",
    "Table",
    "Uncut",
    "Verdict",
    "compose",
    "contributions",
    "cut_molfile",
    "hold",
    "judge",
    "judge_file",
    "judge_many",
    "library_version",
    "measure",
    "values",
]
