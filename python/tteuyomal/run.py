"""A run: when, where and by which library decks were judged, and what was expected. Board, notice, objects and reports say it."""

from __future__ import annotations

import datetime
import secrets
import socket
from typing import NamedTuple

from . import made, native


class Expected(NamedTuple):
    """What was to be there. Names stand in the order of the manifest, or in that in which they were found."""

    count: int | None = None  # type: ignore[assignment]  # how many decks; it hides the count of a tuple
    missing: tuple[str, ...] = ()  # in the manifest, not found
    unlisted: tuple[str, ...] = ()  # found, not in the manifest
    changed: tuple[str, ...] = ()  # other bytes than the manifest's SHA-256
    manifest: str = ""  # its file's name


class Run(NamedTuple):
    """One run of a command over decks."""

    begun: datetime.datetime  # UTC
    number: str  # 16 random hexadecimal digits
    host: str
    folder: str
    version: str  # the library's
    sha256: str  # of the shared object that judged
    replaced: str  # the value of TTEUYOMAL_SO where it is set
    expected: Expected | None = None
    program: str = ""  # the one that is judged
    inputs: tuple[tuple[str, str, str], ...] = ()  # what it is, its name, its SHA-256
    code: str = ""  # which code judged, and where it was proved

    @property
    def time(self) -> str:
        """When it began, as it stands in objects."""
        return f"{self.begun:%Y-%m-%dT%H:%M:%SZ}"

    def stamp(self) -> dict[str, str]:
        """What every object says of the run that it comes from."""
        replaced = {"TTEUYOMAL_SO": self.replaced} if self.replaced else {}
        return {"version": self.version, "time": self.time, "run": self.number} | replaced


def begin(folder: str = "", program: str = "", inputs: tuple[tuple[str, str, str], ...] = ()) -> Run:
    """A run that begins now. Where there is no library it has no version, and what is asked of it says why."""
    try:
        version = native.version()
    except native.NotThere:
        version = "not there"
    now = datetime.datetime.now(datetime.timezone.utc)
    number, host = secrets.token_hex(8), socket.gethostname()
    return Run(now, number, host, folder, version, native.SHA256, native.REPLACED, program=program, inputs=inputs, code=made.words())


def unmet(expected: Expected | None, total: int, what: str = "deck") -> list[str]:
    """What is not as it was expected, a sentence each; names come after them."""
    if expected is None:
        return []
    found = []
    if expected.count is not None and expected.count != total:
        found.append(f"expected {expected.count} {what}{'' if expected.count == 1 else 's'}, found {total}")
    for words, names in (("missing", expected.missing), ("not listed", expected.unlisted), ("other bytes than listed", expected.changed)):
        if names:
            found.append(f"{words}: {len(names)}")
    return found


def unmet_names(expected: Expected | None) -> list[tuple[str, str]]:
    """Each name that is not as it was expected, with what is wrong."""
    if expected is None:
        return []
    parts = (("missing", expected.missing), ("not listed", expected.unlisted), ("other bytes than listed", expected.changed))
    return [(words, name) for words, names in parts for name in names]
