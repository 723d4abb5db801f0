"""Which code the library is, by the file made.txt beside the shared object: `make` writes both."""

from __future__ import annotations

import os
from typing import NamedTuple

from . import native


class Made(NamedTuple):
    """The code that judges."""

    code: str  # the SHA-256 of the assembly of the proved module
    machine: str
    proved: str  # "here" or "by the gate"

    def __str__(self) -> str:
        return f"code {self.code} for {self.machine}, proved {self.proved}"


def made() -> Made | None:
    """What made.txt says. None where there is none, or where it speaks of another shared object than the one that is used."""
    try:
        with open(os.path.join(os.path.dirname(native.SHARED_OBJECT), "made.txt"), encoding="ascii") as file:
            said = dict(line.rstrip("\n").split(" ", 1) for line in file)
        if said["object"] != native.SHA256:
            return None
        return Made(said["code"], said["machine"], said["proved"])
    except (OSError, ValueError, KeyError):
        return None


def words() -> str:
    """Which code judges, in words."""
    return str(made() or "code unknown: no made.txt speaks of this shared object")
