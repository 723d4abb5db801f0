"""The processes that judge: one that is killed ends the run in words, and none outlives the command, however that ends."""

import contextlib
import os
import random
import signal
import subprocess
import time
import unittest

from test_command import GOOD, Room

from tteuyomal import work
from tteuyomal.console import Stop

DECKS, TRIES = 12_000, 20


def children(pid):
    """The processes that a process started."""
    try:
        with open(f"/proc/{pid}/task/{pid}/children") as file:
            return [int(one) for one in file.read().split()]
    except OSError:
        return []


def alive(pid):
    """Whether a process runs: one that ended and waits to be asked about does not."""
    try:
        with open(f"/proc/{pid}/stat") as file:
            return file.read().rsplit(")", 1)[1].split()[0] != "Z"
    except OSError:
        return False


class Killed(Room):
    def setUp(self):
        super().setUp()
        deck = self.put("deck", GOOD, self.room)
        for number in range(DECKS):
            folder = os.path.join(self.decks, f"{number // 1000:02d}")
            if number % 1000 == 0:
                os.mkdir(folder)
            os.link(deck, os.path.join(folder, f"{number:05d}"))
        self.chance = random.Random(12)

    def begun(self, *words):
        """A command that has its workers, and they."""
        one = self.process(*words, "-j", "2", stdout=subprocess.DEVNULL, stderr=subprocess.PIPE)
        self.addCleanup(one.stderr.close)
        self.addCleanup(one.wait)
        self.addCleanup(one.kill)
        for _ in range(3000):
            found = children(one.pid)
            if len(found) == 2 or one.poll() is not None:
                return one, found
            time.sleep(0.002)
        self.fail("no workers")

    def test_a_worker(self):
        """Twenty tries: each ends in seconds, and never with a verdict on decks that nobody judged."""
        killed = 0
        for turn in range(TRIES):
            board = self.put("board.html", b"yesterday, green", self.room)
            one, workers = self.begun(*(["judge", self.decks] if turn % 2 else ["board", self.decks, "-o", board]))
            time.sleep(self.chance.random() * 0.1)
            victim = self.chance.choice(workers)
            with contextlib.suppress(ProcessLookupError):  # it is over already, as the line below says then
                os.kill(victim, signal.SIGKILL)
            status = one.wait(30)
            said = one.stderr.read().decode()
            if f"{DECKS} decks: {DECKS} accepted" in said:  # it was over already
                self.assertEqual(status, 0)
                continue
            killed += 1
            self.assertEqual(status, 2)
            self.assertRegex(said, r"^tteuyomal: a worker process was killed by signal 9 before its work was done: [^\n]*\n$")
            if turn % 2 == 0:
                self.assertIn("The run failed", self.read(board).decode())
            self.assertEqual([pid for pid in workers if alive(pid)], [])
        self.assertGreater(killed, TRIES // 2)

    def test_the_command(self):
        for sign, status in ((signal.SIGKILL, -9), (signal.SIGHUP, 129), (signal.SIGTERM, 143), (signal.SIGINT, 130)):
            with self.subTest(sign):
                one, workers = self.begun("judge", self.decks)
                one.send_signal(sign)
                self.assertIn(one.wait(30), (status, 0))
                for _ in range(500):
                    if not any(map(alive, workers)):
                        break
                    time.sleep(0.01)
                self.assertEqual([pid for pid in workers if alive(pid)], [])

    def test_a_worker_obeys(self):
        one, workers = self.begun("judge", self.decks)
        with contextlib.suppress(ProcessLookupError):
            os.kill(workers[0], signal.SIGTERM)
        self.assertIn(one.wait(30), (2, 0))


def halved(batch):
    """A task's answer, or a fault."""
    if 13 in batch:
        raise ValueError("thirteen")
    return [one // 2 for one in batch]


def stopped(batch):
    os._exit(3)


class Over(unittest.TestCase):
    def test_in_order(self):
        for jobs in (1, 2, 5):
            answers = list(work.over(halved, range(100, 1100), jobs, size=10))
            self.assertEqual([one for answer in answers for one in answer], [one // 2 for one in range(100, 1100)])

    def test_a_fault_is_handed_over(self):
        for jobs in (1, 3):
            with self.assertRaisesRegex(ValueError, "thirteen"):
                list(work.over(halved, range(50), jobs, size=5))

    def test_a_worker_that_ends(self):
        with self.assertRaisesRegex(Stop, "ended with 3 before its work was done"):
            list(work.over(stopped, range(50), 2, size=5))

    def test_left_early(self):
        answers = work.over(halved, range(100, 10**6), 2, size=10)
        next(answers)
        mine = children(os.getpid())
        answers.close()
        self.assertEqual([pid for pid in mine if alive(pid)], [])


if __name__ == "__main__":
    unittest.main()
