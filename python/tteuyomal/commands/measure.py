"""`tteuyomal measure`: every index of molfiles and neighbour texts."""

from __future__ import annotations

import argparse
import functools

from .. import measuring, objects, sdf
from ..console import Output
from ..files import Found
from ..measuring import Record
from . import common

NAME = "measure"
WORDS = "every index of molfiles (.mol .mdl), of each record of SDFs (.sdf .sd), also .gz, and of neighbour texts (.txt .nb)"
STATUS = (
    "0 if there was a molecule and every one was measured; 2 if one is refused or can't be read, or there was none."
)


def options(parser: argparse.ArgumentParser) -> None:
    """Files, and what they are."""
    common.add_paths(parser, "molfiles, SDFs or neighbour texts, or folders of them; - is standard input and needs --as")
    forms = (sdf.MOLFILE, sdf.SDF, measuring.NEIGHBOURS)
    parser.add_argument("--as", dest="form", choices=forms, help="what the files are, whatever their names end in")


def run(options: argparse.Namespace, out: Output) -> int:
    """A line or an object for each molecule."""
    texts = measuring.texts(options.paths, options.form)
    return common.lines(functools.partial(measure_batch, form=options.form, stamp=common.stamp(options)), options, out, "molecules", texts)


def measure_batch(batch: list[Found | Record], form: str | None, stamp: str) -> list[tuple[str, bool]]:
    """The line or the object of each molecule, and whether it was measured."""
    told = (one for text in batch for one in measuring.measure(text, form, stamp != ""))
    return [(objects.ended(one, stamp) if stamp else one, good) for one, good in told]
