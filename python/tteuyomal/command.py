"""The command `tteuyomal`. Exit statuses: 0 where all is well and something was asked about, 1 where a sheet differs, 2 where
something is refused or can't be read or written, or where nothing was given; the greater wins."""

from __future__ import annotations

import argparse
import contextlib
import signal
import sys
import traceback
from typing import Any, NoReturn

from . import __version__, commands, console, files, made, native
from .console import Output, OutputFailed, Stop, complain, told

INTERRUPTED = 130


class Parser(argparse.ArgumentParser):
    """A parser whose words that can't be written are no success."""

    def _print_message(self, message: str, file: Any = None) -> None:
        if file is not None and file is sys.stdout:
            Output().write(message)
        else:
            told(message)


def _parser() -> argparse.ArgumentParser:
    parser = Parser(
        prog="tteuyomal",
        allow_abbrev=False,
        description="Judges the sheets of molecular decks by working the numbers out.",
        epilog="Exit status: 0 all well, 1 a sheet differs and nothing worse, 2 something is refused, missing or can't be read or written, "
        "or nothing was given. `tteuyomal COMMAND --help` says it for each command; docs/COMMAND.md has every line, object and file.",
    )
    parser.add_argument("--version", action=Version, nargs=0, help="the versions of the package and of the library, and which code judges")
    names = parser.add_subparsers(required=True, metavar="COMMAND")
    for command in commands.ALL:
        status = f"Exit status: {command.STATUS}"
        one = names.add_parser(command.NAME, help=command.WORDS, description=f"{command.WORDS}.", epilog=status, allow_abbrev=False)
        command.options(one)
        one.set_defaults(run=command.run)
    return parser


class Version(argparse.Action):
    """`--version`: the package's and the library's, which must be there."""

    def __call__(self, parser: argparse.ArgumentParser, *_: Any) -> NoReturn:
        Output().write(f"tteuyomal {__version__}, library {native.version()}, {made.words()}\n")
        parser.exit()


def _ended(sign: int, _: Any) -> NoReturn:
    raise SystemExit(128 + sign)


def _run(words: list[str] | None, out: Output) -> int:
    """Runs the command that the words name. One that takes many words takes them also behind its options."""
    parser = _parser()
    options, more = parser.parse_known_args(words)
    if more and (not getattr(options, "anywhere", False) or any(word.startswith("-") for word in more)):
        parser.error(f"unrecognized arguments: {' '.join(files.shown(word) for word in more)}")
    if more:
        options.paths = [*options.paths, *more]
    if native.REPLACED:
        complain(f"TTEUYOMAL_SO is set, so {files.shown(native.REPLACED)} answers here and not the package's own library")
    return int(options.run(options, out))


def main(words: list[str] | None = None) -> int:
    """Runs the command and answers its exit status."""
    console.fill()
    with contextlib.suppress(ValueError):  # not in the main thread
        for sign in (signal.SIGTERM, signal.SIGHUP):
            if signal.getsignal(sign) == signal.SIG_DFL:
                signal.signal(sign, _ended)
    out = Output()
    try:
        try:
            return _run(words, out)
        finally:
            out.flush()
    except OutputFailed as fault:
        if str(fault):
            complain(str(fault))
        return 2
    except (Stop, native.NotThere, files.OverInput, files.Unwritten, OSError) as fault:
        complain(str(fault))
        return 2
    except KeyboardInterrupt:
        return INTERRUPTED
    except Exception:  # a fault of this program: Python's own status for it is 1, which says that a sheet differs
        complain(traceback.format_exc())
        return 2
