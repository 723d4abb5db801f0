"""Long work: batches over several processes, answers in order, a bounded number of them under way, progress on standard error."""

from __future__ import annotations

import contextlib
import ctypes
import itertools
import multiprocessing
import os
import pickle
import queue
import signal
import sys
import time
import traceback
from collections import deque
from collections.abc import Callable, Generator, Iterable, Iterator
from concurrent.futures import Future, ThreadPoolExecutor
from multiprocessing.connection import Connection
from typing import Any, TypeVar

from .console import Stop, told

Item = TypeVar("Item")
Answer = TypeVar("Answer")

BATCH = 400  # files handed to a process at a time


def batches(items: Iterable[Item], size: int = BATCH) -> Iterator[list[Item]]:
    """The items in lists of this size; the last may be shorter."""
    source = iter(items)
    while part := list(itertools.islice(source, size)):
        yield part


def in_order(submit: Callable[[Any], Future[Any]], tasks: Iterable[Any], under_way: int) -> Iterator[Any]:
    """The answers to tasks, in the order of the tasks, with so many under way at most."""
    waiting: deque[Future[Any]] = deque()
    try:
        for task in tasks:
            waiting.append(submit(task))
            if len(waiting) >= under_way:
                yield waiting.popleft().result()
        while waiting:
            yield waiting.popleft().result()
    finally:
        for future in waiting:
            future.cancel()


def over(
    function: Callable[[list[Item]], Answer], items: Iterable[Item], jobs: int, size: int = BATCH
) -> Generator[Answer, None, None]:
    """The function's answer for each batch of items, in order, by so many processes. A process that ends before its work is done
    stops the command."""
    yield from each(function, batches(items, size), jobs)


def each(function: Callable[[Any], Answer], tasks: Iterable[Any], jobs: int) -> Generator[Answer, None, None]:
    """The function's answer for each task, in order, by so many processes."""
    tasks = iter(tasks)
    first = list(itertools.islice(tasks, 2))
    if jobs == 1 or len(first) < 2:
        yield from map(function, itertools.chain(first, tasks))
        return
    with Workers(function, jobs) as workers:
        yield from in_order(workers.submit, itertools.chain(first, tasks), 4 * jobs)


class Workers:
    """Processes that answer one task after the other, each over a pipe of its own: where one is killed its pipe ends, whatever it was
    doing, and nobody else waits for it. They are made before the threads that wait for them, and end with this process."""

    def __init__(self, function: Callable[[Any], Any], count: int) -> None:
        self.function = function
        self.free: queue.SimpleQueue[Worker] = queue.SimpleQueue()
        self.all: list[Worker] = []
        for _ in range(count):
            self.all.append(Worker(function, [one.pipe for one in self.all]))
            self.free.put(self.all[-1])
        self.threads = ThreadPoolExecutor(count)

    def submit(self, task: Any) -> Future[Any]:
        """Gives a task to the next worker that is free."""
        return self.threads.submit(self._ask, task)

    def _ask(self, task: Any) -> Any:
        worker = self.free.get()
        try:
            return worker.ask(task)
        finally:
            self.free.put(worker)

    def __enter__(self) -> Workers:
        return self

    def __exit__(self, *_: object) -> None:
        for worker in self.all:
            worker.process.kill()
        self.threads.shutdown(cancel_futures=True)
        for worker in self.all:
            worker.process.join()
            worker.pipe.close()


class Worker:
    """One process, and this end of its pipe."""

    def __init__(self, function: Callable[[Any], Any], others: list[Connection]) -> None:
        context = multiprocessing.get_context("fork")
        self.pipe, there = context.Pipe()
        self.process = context.Process(target=_answer, args=(function, there, [self.pipe, *others], os.getpid()), daemon=True)
        self.process.start()
        there.close()

    def ask(self, task: Any) -> Any:
        """The answer to a task, or what was raised."""
        try:
            self.pipe.send(task)
            answer, fault = self.pipe.recv()
        except (EOFError, OSError):
            self.process.join(5)
            code = self.process.exitcode
            how = f"was killed by signal {-code}" if code is not None and code < 0 else f"ended with {code}"
            raise Stop(f"a worker process {how} before its work was done: nothing is known of its files, so no verdict stands") from None
        if fault is not None:
            raise fault
        return answer


def _answer(function: Callable[[Any], Any], pipe: Connection, others: list[Connection], parent: int) -> None:
    """What a worker does until its pipe ends."""
    for other in others:  # so that this pipe ends with the one process at its other end
        other.close()
    _end_with(parent)
    with contextlib.suppress(EOFError, OSError):
        while True:
            pipe.send(_said(function, pipe.recv()))


def _said(function: Callable[[Any], Any], task: Any) -> tuple[Any, Exception | None]:
    try:
        return function(task), None
    except Exception as fault:
        try:
            return None, pickle.loads(pickle.dumps(fault))
        except Exception:  # a fault that can't be handed over itself
            return None, RuntimeError(traceback.format_exc())


_PR_SET_PDEATHSIG = 1


def _end_with(parent: int) -> None:
    """However the parent ends, this process ends too. An interrupt is for the parent, which writes; a request to end is obeyed."""
    signal.signal(signal.SIGINT, signal.SIG_IGN)
    for sign in (signal.SIGTERM, signal.SIGHUP):
        signal.signal(sign, signal.SIG_DFL)
    ctypes.CDLL(None).prctl(_PR_SET_PDEATHSIG, signal.SIGKILL, 0, 0, 0)
    if os.getppid() != parent:  # it ended before this was asked for
        os._exit(2)


def cores() -> int:
    """How many processors this process may use."""
    return len(os.sched_getaffinity(0))


class Progress:
    """A line on standard error that says how far the work is, where that is a terminal and the work takes longer than a moment."""

    def __init__(self, what: str) -> None:
        self.what = what
        self.done = 0
        self.begun = self.shown = time.monotonic()
        self.there = sys.stderr is not None and sys.stderr.isatty()
        self.width = 0

    def add(self, count: int) -> None:
        """So many more are done."""
        self.done += count
        now = time.monotonic()
        if self.there and now - self.shown >= 0.5:
            self.shown = now
            self._put(f"{self.done} {self.what}, {self.done / (now - self.begun):.0f} a second")

    def _put(self, text: str) -> None:
        told("\r" + text.ljust(self.width))
        self.width = len(text)

    def clear(self) -> None:
        """Takes the line away."""
        if self.width:
            self._put("")
            told("\r")

    def end(self, text: str) -> None:
        """Takes the line away and says what came out, on a terminal and in a log."""
        self.clear()
        told(text + "\n")
