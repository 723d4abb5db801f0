"""Judging on the workers of a Dask scheduler: the same batches, answers in the same order. Debian has it as python3-distributed.

The files stand where every worker reads them under the same names, and each worker has this package. A batch whose worker dies is
given to another one by the scheduler; its lines are printed once, when they are there.
"""

from __future__ import annotations

import asyncio
import logging
import os
from collections.abc import Callable, Generator, Iterable
from typing import Any

from . import files, native, work
from .console import Stop
from .files import Found

BATCH = 1000  # decks handed to a worker at a time


def over(address: str, paths: Iterable[str], function: Callable[[list[Found]], Any]) -> Generator[Any, None, None]:
    """The function's answer for each batch of the files, in order."""
    paths = list(paths)
    if "-" in paths:
        raise Stop("--dask judges files; standard input is judged here, without it")
    folder = os.getcwd()
    yield from answers(address, _on_worker, ((function, folder, batch) for batch in work.batches(files.find(paths), BATCH)))


def each(address: str, function: Callable[[Any], Any], tasks: Iterable[Any]) -> Generator[Any, None, None]:
    """The function's answer for each task that carries all that it is about, in order."""
    yield from answers(address, _of_task, ((function, task) for task in tasks))


def answers(address: str, function: Callable[..., tuple[str, Any]], tasks: Iterable[tuple[Any, ...]]) -> Generator[Any, None, None]:
    """What workers answer to tasks, in order. The function says which library the worker has, and its answer; a task whose worker dies
    is given to another."""
    try:
        from distributed import Client
    except ImportError:
        raise Stop("--dask needs Dask: install Debian's python3-distributed, or distributed from PyPI") from None
    for name in ("asyncio", *(one for one in logging.root.manager.loggerDict if one.startswith("distributed"))):
        logging.getLogger(name).setLevel(logging.CRITICAL)  # what is wrong is said here, in a sentence
    try:
        client = Client(address, timeout="20s", set_as_default=False)
    except (OSError, ValueError, TimeoutError) as fault:
        raise Stop(f"no scheduler answers at {address}: {fault}") from None
    with client:
        here = identity()
        under_way = 2 * max(1, sum(client.nthreads().values())) + 2

        def begun(task: tuple[Any, ...]) -> Any:
            return client.submit(function, *task, pure=False, retries=3)

        try:
            for there, answer in work.in_order(begun, tasks, under_way):
                if there != here:
                    raise Stop("a worker has another library than this machine: install the same one everywhere")
                yield answer
        except Stop:
            raise
        except OSError as fault:
            raise Stop(f"the scheduler at {address} has gone ({str(fault).rstrip('.')}): nothing is known of what was under way, so no verdict stands") from None
        except (Exception, asyncio.CancelledError) as fault:  # whatever a worker met; a task is cancelled where its scheduler ends
            raise Stop(f"the fleet could not do a batch: {type(fault).__name__}: {fault}") from None


def _on_worker(function: Callable[[list[Found]], Any], folder: str, batch: list[Found]) -> tuple[str, Any]:
    """What a worker does with a batch. Names are told as they were given, and read from the folder of who asked: a worker has several
    threads and several users, and one working folder, which nobody changes."""
    return identity(), function([found._replace(folder=folder) for found in batch])


def _of_task(function: Callable[[Any], Any], task: Any) -> tuple[str, Any]:
    """What a worker does with a task."""
    return identity(), function(task)


def identity() -> str:
    """Which library this is: its version and the SHA-256 of the shared object."""
    return f"{native.version()} {native.SHA256}"
