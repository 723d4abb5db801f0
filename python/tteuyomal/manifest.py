"""What is expected of a run: how many decks, or which ones. A manifest has a name a line, or the lines of `sha256sum`."""

from __future__ import annotations

import os
import re

from . import files
from .console import Stop
from .files import Found
from .notice import relative
from .run import Expected

LINE = re.compile(r"(\\?)([0-9a-fA-F]{64}) [ *](.+)")  # of `sha256sum`; a backslash says that the name has escapes


class Expectation:
    """The decks that are expected, and those that came."""

    def __init__(self, count: int | None, path: str | None) -> None:
        self.count = count
        self.path = path
        self.sha256 = ""
        self.listed: dict[str, str] = {}
        self.came: set[str] = set()
        self.unlisted: list[str] = []
        self.changed: list[str] = []
        if path is not None:
            self._read(path)

    def _read(self, path: str) -> None:
        try:
            data, self.sha256 = files.text_of(Found(path))
        except files.Unread as fault:
            raise Stop(f"{files.shown(path)}: cannot be read: {fault}") from None
        for place, line in enumerate(data.decode("utf-8", "surrogateescape").split("\n"), 1):
            if line := line.removesuffix("\r"):
                name, sha256 = _entry(line)
                if name in self.listed:
                    raise Stop(f"{files.shown(path)}: line {place} names {files.shown(name)} a second time")
                self.listed[name] = sha256

    @property
    def inputs(self) -> tuple[tuple[str, str, str], ...]:
        """The manifest among a run's inputs."""
        return () if self.path is None else (("manifest", self.path, self.sha256),)

    def add(self, name: str, sha256: str, folder: str) -> None:
        """A deck that came. It is listed by its name as seen from the folder, or as it was given."""
        if self.path is None:
            return
        names = [os.path.normpath(one) for one in (relative(name, folder), name)]
        listed = next((one for one in names if one in self.listed), None)
        if listed is None:
            self.unlisted.append(relative(name, folder))
            return
        self.came.add(listed)
        if self.listed[listed] not in ("", sha256):
            self.changed.append(relative(name, folder))

    def end(self) -> Expected | None:
        """What is wrong when all came; None where nothing was expected."""
        if self.path is None:
            return None if self.count is None else Expected(self.count)
        missing = tuple(name for name in self.listed if name not in self.came)
        count = len(self.listed) if self.count is None else self.count
        return Expected(count, missing, tuple(self.unlisted), tuple(self.changed), self.path)


def _entry(line: str) -> tuple[str, str]:
    """A name, and its SHA-256 where the line has one."""
    found = LINE.fullmatch(line)
    if found is None:
        return os.path.normpath(line), ""
    escaped, sha256, name = found.groups()
    return os.path.normpath(files.meant(name) if escaped else name), sha256.lower()
