"""Judging on a fleet: a real Dask scheduler and two workers on this machine, one of them killed on the way; and two users with files of
equal names at one worker of four threads.

    apt-get install -y python3-distributed        # where it is not there
    make && /usr/bin/python3 tests/fleet.py

The last line is 'N passed, M failed'.
"""

import collections
import json
import os
import shutil
import signal
import subprocess
import sys
import tempfile
import time
import unittest

from common import FORTY, PYTHON, RIGHT, RING, sheet

from tteuyomal import Block

DECKS = 24_000
KINDS = [FORTY + RIGHT, FORTY + sheet(12, 198, 97, 101, 14), FORTY, b"", FORTY + RIGHT]
ENVIRONMENT = os.environ | {"PYTHONPATH": PYTHON}
ROUNDS, OF_EACH = 3, 15_000  # of two users at once, each with so many decks


def start(*words, **more):
    return subprocess.Popen([sys.executable, "-m", *words], env=ENVIRONMENT, **more)


def fill(folder, count, kinds):
    """Puts so many decks into a folder, a thousand to a folder in it; each is one of the files that are named."""
    for number in range(count):
        path = os.path.join(folder, f"{number // 1000:03d}", f"{number:06d}.deck")
        if number % 1000 == 0:
            os.makedirs(os.path.dirname(path))
        os.link(kinds(number), path)


class Fleet(unittest.TestCase):
    """A room with one file of each kind, and for each test a scheduler with its workers."""

    WORKERS, THREADS = 2, 1

    @classmethod
    def setUpClass(cls):
        cls.room = tempfile.mkdtemp()
        cls.addClassCleanup(shutil.rmtree, cls.room, ignore_errors=True)
        cls.kinds = [os.path.join(cls.room, f"kind{kind}") for kind in range(len(KINDS))]
        for path, data in zip(cls.kinds, KINDS):
            with open(path, "wb") as file:
                file.write(data)

    def setUp(self):
        place = os.path.join(self.room, f"scheduler-{self.id()}.json")
        quiet = {"stdout": subprocess.DEVNULL, "stderr": subprocess.DEVNULL, "cwd": self.room}
        self.scheduler = self.start(
            "distributed.cli.dask_scheduler", "--host", "127.0.0.1", "--port", "0", "--no-dashboard", "--scheduler-file", place, **quiet
        )
        while not (os.path.exists(place) and os.path.getsize(place)):
            time.sleep(0.1)
        time.sleep(0.2)
        with open(place) as file:
            self.address = json.load(file)["address"]
        alone = ["--nthreads", str(self.THREADS), "--no-nanny", "--no-dashboard"]
        self.workers = [self.start("distributed.cli.dask_worker", self.address, *alone, **quiet) for _ in range(self.WORKERS)]

    def start(self, *words, **more):
        process = start(*words, **more)
        self.addCleanup(process.wait)
        self.addCleanup(process.kill)
        return process


class OneUser(Fleet):
    @classmethod
    def setUpClass(cls):
        super().setUpClass()
        cls.decks = os.path.join(cls.room, "decks")
        fill(cls.decks, DECKS, lambda number: cls.kinds[number * 13 % 7 % 5])
        cls.alone = subprocess.run([sys.executable, "-m", "tteuyomal", "judge", cls.decks], env=ENVIRONMENT, capture_output=True)

    def test_same_lines(self):
        run = subprocess.run(
            [sys.executable, "-m", "tteuyomal", "judge", "--dask", self.address, self.decks], env=ENVIRONMENT, capture_output=True
        )
        self.assertEqual(run.stdout, self.alone.stdout)
        self.assertEqual(len(run.stdout.splitlines()), DECKS)
        self.assertEqual((run.returncode, self.alone.returncode), (2, 2))

    def test_same_files(self):
        """Board, notice, objects and report of a fleet are those of this machine, but for the run."""
        made = {}
        for who, words in (("here", []), ("fleet", ["--dask", self.address])):
            paths = {form: os.path.join(self.room, f"{who}.{form}") for form in ("board", "notice", "json", "junit")}
            asked = [word for form, path in paths.items() for word in (f"--{form}", path)]
            self.assertEqual(start("tteuyomal", "judge", "-q", os.path.join(self.decks, "001"), *words, *asked, stdout=subprocess.DEVNULL).wait(300), 2)
            with open(paths["notice"], encoding="utf-8") as file:
                run = next(line[5:-1] for line in file if line.startswith("Run: "))
            for form, path in paths.items():
                with open(path, encoding="utf-8") as file:
                    text = file.read()
                self.assertIn(run, text)
                made[who, form] = [line for line in text.replace(run, "").splitlines() if not any(word in line for word in ("Date: ", "<time ", "timestamp", '"time"'))]
                if form == "json":
                    made[who, form] = [{key: value for key, value in json.loads(line).items() if key != "time"} for line in text.replace(run, "").splitlines()]
        for form in ("board", "notice", "json", "junit"):
            self.assertEqual(made["here", form], made["fleet", form])

    def test_check(self):
        """Molecules are checked as they are on this machine, from a folder that no worker is in."""
        ring = Block(6, RING).molfile()
        with open(os.path.join(self.room, "a.sdf"), "wb") as file:
            file.writelines(b"m%d" % k + ring + b"$$$$\n" for k in range(3_000))
        with open(os.path.join(self.room, "a.csv"), "w") as file:
            file.writelines(["name,W\n", *(f"m{k},{27 + (k % 7 == 0)}\n" for k in range(3_000))])
        words = [sys.executable, "-m", "tteuyomal", "check", "a.sdf", "a.csv", "W=W"]
        here, there = (subprocess.run([*words, *more], cwd=self.room, env=ENVIRONMENT, capture_output=True) for more in ([], ["--dask", self.address]))
        self.assertEqual((here.stdout, here.returncode), (there.stdout, 1))
        self.assertEqual((here.stdout.count(b"\n"), here.stdout.count(b"differs W: 28 printed, 27"), there.returncode), (3_000, 429, 1))

    def test_status(self):
        for kind, status in ((0, 0), (1, 1), (2, 2)):
            run = start("tteuyomal", "judge", "--dask", self.address, self.kinds[kind], stdout=subprocess.DEVNULL)
            self.assertEqual(run.wait(300), status)
        empty = os.path.join(self.room, "empty")
        os.mkdir(empty)
        self.assertEqual(start("tteuyomal", "judge", "--dask", self.address, empty, stderr=subprocess.DEVNULL).wait(300), 2)

    def test_a_worker_dies(self):
        with start("tteuyomal", "judge", "--dask", self.address, self.decks, stdout=subprocess.PIPE) as run:
            first = run.stdout.readline()
            self.workers[0].send_signal(signal.SIGKILL)
            self.workers[0].wait()
            self.assertIsNone(run.poll(), "the work is not over when the worker dies")
            rest = run.stdout.read()
        self.assertEqual(first + rest, self.alone.stdout, "no deck is lost and none is told twice")
        self.assertEqual(run.returncode, 2)
        self.assertIsNone(self.workers[1].poll())

    def test_no_scheduler(self):
        run = start("tteuyomal", "judge", "--dask", "tcp://127.0.0.1:9", self.decks, stdout=subprocess.PIPE, stderr=subprocess.PIPE)
        out, fault = run.communicate()
        self.assertEqual((run.returncode, out), (2, b""))
        self.assertIn(b"no scheduler answers", fault)


class TwoUsers(Fleet):
    """Two users in two folders, whose decks have the same relative names: right ones here, wrong ones there."""

    WORKERS, THREADS = 1, 4

    def test_each_is_told_of_his_own(self):
        for user, kind in (("right", 0), ("wrong", 1)):
            fill(os.path.join(self.room, user, "decks"), OF_EACH, lambda number, kind=kind: self.kinds[kind])
        for turn in range(ROUNDS):
            runs = {}
            for user in ("right", "wrong"):
                with open(os.path.join(self.room, f"{user}.txt"), "wb") as out:
                    words = ["judge", "decks", "--dask", self.address]
                    runs[user] = start("tteuyomal", *words, cwd=os.path.join(self.room, user), stdout=out, stderr=subprocess.DEVNULL)
            for user, status, verdict in (("right", 0, "accepted"), ("wrong", 1, "differs 3")):
                self.assertEqual(runs[user].wait(300), status)
                with open(os.path.join(self.room, f"{user}.txt"), encoding="utf-8") as file:
                    told = collections.Counter(line.rstrip("\n").partition(": ")[2] for line in file)
                self.assertEqual(told, {verdict: OF_EACH}, f"round {turn + 1}")


if __name__ == "__main__":
    try:
        import distributed  # noqa: F401
    except ImportError:
        sys.exit("tests/fleet.py: Dask is not there: apt-get install -y python3-distributed, and run it with /usr/bin/python3")
    from run import main

    sys.exit(main([f"__main__.{name}" for name in sys.argv[1:]] or ["__main__.OneUser", "__main__.TwoUsers"]))
