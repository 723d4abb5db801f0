"""Libraries on a fleet: a real Dask scheduler and two workers on this machine; the shards are ranges of positions.

    apt-get install -y python3-distributed        # where it is not there
    make && /usr/bin/python3 tests/shards.py

Each worker gets every second range; what they list, joined, is what one run lists, and the best of the ranges' best are the best of
all. One worker is killed on the way: no product is lost and none is told twice. The last line is 'N passed, M failed'.
"""

import contextlib
import heapq
import io
import json
import os
import random
import shutil
import signal
import subprocess
import sys
import tempfile
import time
import unittest

from common import PYTHON

from tteuyomal import Block, Library, command
from tteuyomal.libraries import pieces

LIBRARIES, SIZE, BEST = 24, 5_000, 100
ENVIRONMENT = os.environ | {"PYTHONPATH": PYTHON}


def some_library(chance):
    """A core of 20 atoms with four sites, and eight candidates for each: up to 4,096 products."""
    def tree(atoms):
        return Block(atoms, [(max(1, atom - chance.randint(1, 2)), atom) for atom in range(2, atoms + 1)])

    blocks = {1: tree(20)} | {number: tree(10) for number in range(2, 10)}
    sites = [(atom, [(number, chance.randint(1, 10)) for number in range(2, 10)]) for atom in (5, 9, 14, 20)]
    return Library(blocks, 1, sites[: chance.randint(3, 4)])


def listed(shard):
    """What a worker does: the lines of a shard's products, and its best by W, each with the library's number and the position."""
    from tteuyomal.libraries import Library

    products = [(which, one) for which, data, first, count in shard for one in Library.from_bytes(data).products(first, count)]
    best = heapq.nsmallest(BEST, ((one.fields[1], which, one.position) for which, one in products))
    return "".join(f"{one.line()}\n" for _, one in products), best


class Shards(unittest.TestCase):
    @classmethod
    def setUpClass(cls):
        cls.room = tempfile.mkdtemp()
        cls.addClassCleanup(shutil.rmtree, cls.room, ignore_errors=True)
        chance = random.Random(12)
        cls.decks = [bytes(some_library(chance)) for _ in range(LIBRARIES)]
        counts = [Library.from_bytes(data).count() for data in cls.decks]
        cls.shards = [[(one.library, cls.decks[one.library], one.first, one.count) for one in part] for part in pieces(counts, SIZE)]
        cls.alone, ranked = "", []
        for number, data in enumerate(cls.decks):
            said = cls.command(data)
            cls.alone += said
            ranked += [(int(line.split(" W ")[1].split()[0]), number, position) for position, line in enumerate(said.splitlines())]
        cls.best = sorted(ranked)[:BEST]
        cls.products = sum(counts)

    @classmethod
    def command(cls, data):
        """What the command lists for one deck."""
        path = os.path.join(cls.room, "deck")
        with open(path, "wb") as file:
            file.write(data)
        out = io.TextIOWrapper(io.BytesIO(), "utf-8")
        with contextlib.redirect_stdout(out):
            status = command.main(["library", path])
        if status != 0:
            raise AssertionError(f"the command ended with {status}")
        return out.buffer.getvalue().decode()

    def setUp(self):
        from distributed import Client

        place = os.path.join(self.room, f"scheduler-{self.id()}.json")
        quiet = {"stdout": subprocess.DEVNULL, "stderr": subprocess.DEVNULL, "cwd": self.room}
        self.start("dask_scheduler", "--host", "127.0.0.1", "--port", "0", "--no-dashboard", "--scheduler-file", place, **quiet)
        while not (os.path.exists(place) and os.path.getsize(place)):
            time.sleep(0.1)
        time.sleep(0.2)
        with open(place) as file:
            self.address = address = json.load(file)["address"]
        alone = ["--nthreads", "1", "--no-nanny", "--no-dashboard"]
        self.workers = [self.start("dask_worker", address, *alone, "--name", name, **quiet) for name in ("one", "two")]
        self.client = Client(address, timeout="20s", set_as_default=False)
        self.addCleanup(self.client.close)
        self.client.wait_for_workers(2, timeout=60)

    def start(self, program, *words, **more):
        process = subprocess.Popen([sys.executable, "-m", f"distributed.cli.{program}", *words], env=ENVIRONMENT, **more)
        self.addCleanup(process.wait)
        self.addCleanup(process.kill)
        return process

    def joined(self, futures):
        answers = self.client.gather(futures)
        self.assertTrue("".join(lines for lines, _ in answers) == self.alone, "the ranges joined are not what one run lists")
        self.assertEqual(heapq.nsmallest(BEST, (one for _, best in answers for one in best)), self.best)

    def test_two_workers(self):
        self.assertGreater(len(self.shards), 8)
        self.assertEqual(len(self.alone.splitlines()), self.products)
        futures = [
            self.client.submit(listed, shard, workers=[("one", "two")[k % 2]], pure=False) for k, shard in enumerate(self.shards)
        ]
        self.joined(futures)
        self.assertEqual({len(those) for those in self.client.who_has(futures).values()}, {1})
        self.assertEqual(len({those[0] for those in self.client.who_has(futures).values()}), 2, "both had ranges")

    def test_a_worker_dies(self):
        futures = [self.client.submit(listed, shard, pure=False, retries=3) for shard in self.shards]
        futures[0].result(timeout=60)
        self.workers[0].send_signal(signal.SIGKILL)
        self.workers[0].wait()
        self.assertIn("pending", {one.status for one in futures}, "the work is not over when the worker dies")
        self.joined(futures)
        self.assertIsNone(self.workers[1].poll())

    def test_rank_while_a_worker_dies(self):
        """`tteuyomal rank` of 8,000,000 products here and on the workers, of which one is killed: the same table, byte for byte."""
        chance = random.Random(38)

        def candidate(number):
            atoms = chance.randint(4, 16)
            bonds = ", ".join(f'"{max(1, atom - chance.randint(1, 3))}-{atom}"' for atom in range(2, atoms + 1))
            return f'    {{ name = "c{number}", atoms = {atoms}, bonds = [{bonds}], join = {chance.randint(1, atoms)} }},\n'

        text = '[core]\natoms = 6\nbonds = ["1-2", "2-3", "3-4", "4-5", "5-6", "6-1"]\n'
        for atom in (1, 3, 5):
            text += f"\n[[site]]\natom = {atom}\ncandidates = [\n{''.join(map(candidate, range(200)))}]\n"
        library, here, there = (os.path.join(self.room, name) for name in ("library.toml", "here.csv", "there.csv"))
        with open(library, "w") as file:
            file.write(text)
        words = [sys.executable, "-m", "tteuyomal", "rank", library, "--by", "W", "--top", "1000"]
        run = subprocess.Popen([*words, "--dask", self.address, "-o", there], env=ENVIRONMENT, stderr=subprocess.PIPE)
        self.addCleanup(run.stderr.close)
        self.addCleanup(run.kill)
        while not self.client.run_on_scheduler(lambda dask_scheduler: any(task.state == "memory" for task in dask_scheduler.tasks.values())):
            self.assertIsNone(run.poll())
            time.sleep(0.02)
        self.workers[0].send_signal(signal.SIGKILL)
        self.workers[0].wait()
        self.assertIsNone(run.poll(), "the work is not over when the worker dies")
        said = run.communicate(timeout=600)[1].decode()
        self.assertEqual(run.returncode, 0, said)
        self.assertIn("8,000,000 products in 64,000 decks ranked by W", said)
        subprocess.run([*words, "-j", "1", "-o", here], env=ENVIRONMENT, check=True, capture_output=True)
        with open(here, "rb") as one, open(there, "rb") as other:
            self.assertTrue(one.read() == other.read(), "the tables differ")

    def test_a_range_left_out_is_seen(self):
        futures = [self.client.submit(listed, shard, pure=False) for shard in self.shards[:-1]]
        self.assertRaises(AssertionError, self.joined, futures)


if __name__ == "__main__":
    try:
        import distributed  # noqa: F401
    except ImportError:
        sys.exit("tests/shards.py: Dask is not there: apt-get install -y python3-distributed, and run it with /usr/bin/python3")
    from run import report

    sys.exit(report(unittest.defaultTestLoader.loadTestsFromTestCase(Shards)))
