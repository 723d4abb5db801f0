"""The command under faults, each with what must hold: no verdict without a judgement, nothing half-written, nothing lost, an end within
seconds.

    make && python3 tests/faults.py [CLASS..]     all of them: some minutes; Fleet needs /usr/bin/python3 and python3-distributed

Each fault says in a line what was seen. The last line is 'N passed, M failed'. Those that take seconds are in the gate (test_faults.py).
"""

import collections
import contextlib
import hashlib
import json
import os
import random
import re
import resource
import shutil
import signal
import subprocess
import sys
import tempfile
import threading
import time
import unittest
import xml.etree.ElementTree as xml

from common import FORTY, PYTHON, RIGHT, ROOT, sheet
from test_workers import alive, children

GOOD, WRONG, REFUSED = FORTY + RIGHT, FORTY + sheet(12, 198, 97, 101, 14), FORTY[:13] + b"\x02" + FORTY[14:] + RIGHT
SAID = {hashlib.sha256(data).hexdigest(): verdict for data, verdict in ((GOOD, "accepted"), (WRONG, "differs"), (REFUSED, "refused"))}
SECONDS = 30  # within which every command must end after its fault
YESTERDAY = b"yesterday\n"


def seen(words):
    """What was seen of a fault, for who runs this by hand."""
    print(f"{words}", flush=True)


class Faults(unittest.TestCase):
    """A room with decks, and the command as a process of its own."""

    def setUp(self):
        room = tempfile.TemporaryDirectory()
        self.addCleanup(room.cleanup)
        self.room = room.name
        self.decks = os.path.join(self.room, "decks")
        os.mkdir(self.decks)
        self.outputs = {form: os.path.join(self.room, f"out.{form}") for form in ("board", "notice", "json", "junit")}

    def fill(self, count, kinds=(GOOD,), folder=None):
        """So many decks, a thousand to a folder; no file has more than 10,000 names."""
        for number in range(count):
            within = os.path.join(folder or self.decks, f"{number // 1000:04d}")
            if number % 1000 == 0:
                os.mkdir(within)
            kind = number % len(kinds)
            if number % (10_000 * len(kinds)) == kind:
                source = os.path.join(self.room, f"kind-{kind}-{number}")
                with open(source, "wb") as file:
                    file.write(kinds[kind])
                self.sources = getattr(self, "sources", {}) | {kind: source}
            os.link(self.sources[kind], os.path.join(within, f"{number:07d}.deck"))

    def put(self, name, data):
        path = os.path.join(self.room, name)
        with open(path, "wb") as file:
            file.write(data)
        return path

    def read(self, path):
        with open(path, "rb") as file:
            return file.read()

    def asked(self, *forms):
        """Options for the files of a run; each stands there from yesterday."""
        for form in forms or self.outputs:
            with open(self.outputs[form], "wb") as file:
                file.write(YESTERDAY)
        return [word for form in forms or self.outputs for word in (f"--{form}", self.outputs[form])]

    def start(self, *words, environment=None, **more):
        more = {"stdout": subprocess.PIPE, "stderr": subprocess.PIPE} | more
        one = subprocess.Popen([sys.executable, "-m", "tteuyomal", *words], env=os.environ | {"PYTHONPATH": PYTHON} | (environment or {}), **more)
        self.addCleanup(lambda: (one.kill(), one.wait(), [pipe.close() for pipe in (one.stdout, one.stderr) if pipe]))
        return one

    def run_command(self, *words, **more):
        """The exit status, the lines, and what was said on standard error."""
        one = self.start(*words, **more)
        out, fault = one.communicate(timeout=SECONDS)
        return one.returncode, out.decode(), fault.decode()

    def parts(self):
        """Files that are left half-written."""
        return [name for path, _, names in os.walk(self.room) for name in names if name.endswith(".part")]

    def whole(self, form, decks):
        """An output is the one from yesterday, or one of this run from its first byte to its last."""
        data = self.read(self.outputs[form])
        if data == YESTERDAY:
            return False
        text = data.decode()
        if form == "board":
            self.assertTrue(text.startswith("<!doctype html>") and text.endswith("</html>\n"), "half a board")
            self.assertNotEqual('<h1 class="accepted"' in text, "The run failed" in text)
        elif form == "junit":
            cases = xml.fromstring(text).findall("testsuite/testcase")
            self.assertIn(len(cases), (1, decks))
        elif form == "json":
            self.assertEqual(len([json.loads(line) for line in text.splitlines()]), decks)
        else:
            self.assertEqual(len(re.findall(r"^[0-9a-f]{64}  ", text, re.M)), decks)
            self.assertIn(f"All {decks} decks were checked and accepted", text)
        return True


class Killed(Faults):
    """Processes that end in the middle of their work."""

    DECKS, TRIES, PARENTS = 12_000, 50, 20

    def begun(self, *words):
        one = self.start(*words, "-j", "2", stdout=subprocess.DEVNULL)
        until = time.monotonic() + SECONDS
        while len(children(one.pid)) < 2 and one.poll() is None and time.monotonic() < until:
            time.sleep(0.001)
        return one, children(one.pid)

    def test_a_worker(self):
        self.fill(self.DECKS)
        chance, killed, longest = random.Random(41), 0, 0.0
        for turn in range(self.TRIES):
            one, workers = self.begun("judge", self.decks, *self.asked())
            time.sleep(chance.random() * 0.6)
            with contextlib.suppress(ProcessLookupError, IndexError):
                os.kill(chance.choice(workers), signal.SIGKILL)
            begun = time.monotonic()
            status, said = one.wait(SECONDS), one.stderr.read().decode()
            longest = max(longest, time.monotonic() - begun)
            there = {form: self.whole(form, self.DECKS) for form in self.outputs}
            self.assertEqual((self.parts(), [pid for pid in workers if alive(pid)]), ([], []))
            if status == 0:  # all was judged when it was killed
                self.assertTrue(all(there.values()), there)
                self.assertIn(f"{self.DECKS} decks: {self.DECKS} accepted", said)
                continue
            killed += 1
            self.assertEqual(status, 2)
            self.assertRegex(said, r"^tteuyomal: a worker process was killed by signal 9 before its work was done: [^\n]*\n$")
            self.assertEqual(there, {"board": True, "junit": True, "json": False, "notice": False})
            self.assertIn("The run failed", self.read(self.outputs["board"]).decode())
        seen(f"a worker killed {self.TRIES} times: {killed} runs ended with 2, {self.TRIES - killed} were over; the longest took {longest:.2f} s to end")
        self.assertGreater(killed, self.TRIES // 2)

    def test_a_worker_of_check(self):
        ring = b"ring\n\n\n  3  3\n" + 3 * (b" " * 31 + b"C\n") + b"  1  2\n  2  3\n  3  1\nM  END\n> <W>\n3\n\n$$$$\n"
        molecules = self.put("many.sdf", ring * self.DECKS)
        chance, killed, longest = random.Random(43), 0, 0.0
        for turn in range(self.PARENTS):
            one, workers = self.begun("check", molecules, "W=W", "-q", *self.asked("board", "notice"))
            time.sleep(chance.random() * 0.9)
            with contextlib.suppress(ProcessLookupError, IndexError):
                os.kill(chance.choice(workers), signal.SIGKILL)
            begun = time.monotonic()
            status, said = one.wait(SECONDS), one.stderr.read().decode()
            longest = max(longest, time.monotonic() - begun)
            self.assertEqual((self.parts(), [pid for pid in workers if alive(pid)]), ([], []))
            if status == 0:
                self.assertIn(f"All {self.DECKS} molecules were checked and accepted", self.read(self.outputs["notice"]).decode())
                continue
            killed += 1
            self.assertEqual((status, self.read(self.outputs["notice"])), (2, YESTERDAY))
            self.assertRegex(said, r"^tteuyomal: a worker process was killed by signal 9 before its work was done: [^\n]*\n$")
            self.assertIn("The run failed", self.read(self.outputs["board"]).decode())
        seen(f"a worker of check killed {self.PARENTS} times: {killed} runs ended with 2; the longest took {longest:.2f} s to end")
        self.assertGreater(killed, self.PARENTS // 2)

    def test_the_parent(self):
        self.fill(self.DECKS)
        chance, left, longest = random.Random(42), 0, 0.0
        for turn in range(self.PARENTS):
            one, workers = self.begun("judge", self.decks, *self.asked())
            time.sleep(chance.random() * 0.9)
            one.kill()
            begun = time.monotonic()
            one.wait(SECONDS)
            while any(map(alive, workers)) and time.monotonic() < begun + SECONDS:
                time.sleep(0.002)
            longest = max(longest, time.monotonic() - begun)
            self.assertEqual([pid for pid in workers if alive(pid)], [])
            there = [self.whole(form, self.DECKS) for form in ("json", "junit", "board", "notice")]
            self.assertEqual(there, sorted(there, reverse=True), "the notice is last")
            left += len(self.parts())
            for name in self.parts():
                os.unlink(os.path.join(self.room, name))
        seen(f"the parent killed {self.PARENTS} times: no worker after {longest:.2f} s, every file whole or yesterday's, {left} parts left under names of their own")


class Disk(Faults):
    """No room, and a disk that fails."""

    def small(self, size):
        """A folder with room for so many bytes."""
        folder = os.path.join(self.room, "small")
        os.mkdir(folder)
        if subprocess.run(["mount", "-t", "tmpfs", "-o", f"size={size}", "tmpfs", folder], stderr=subprocess.DEVNULL).returncode:
            self.skipTest("no rights to mount a small file system")
        self.addCleanup(subprocess.run, ["umount", folder])
        return folder

    def test_full(self):
        self.fill(3_000)
        small = self.small(1 << 17)
        for form in self.outputs:
            self.outputs[form] = os.path.join(small, form)
            words = self.asked(form)
            status, _, said = self.run_command("judge", "-q", self.decks, *words)
            self.assertEqual((status, said), (2, f"tteuyomal: {self.outputs[form]}: cannot be written: no space left on device\n"))
            if form in ("board", "junit"):
                self.assertIn(b"The run failed" if form == "board" else b"the run failed", self.read(self.outputs[form]))
            else:
                self.assertEqual(self.read(self.outputs[form]), YESTERDAY)
            self.assertEqual(self.parts(), [])
            os.unlink(self.outputs[form])
        seen("a full disk: 2 and the file's name; objects and notice are yesterday's, board and report say that the run failed; no part is left")

    def test_full_for_what_is_kept_meanwhile(self):
        self.fill(12_000)
        small = self.small(1 << 16)
        status, _, said = self.run_command("judge", "-q", self.decks, *self.asked(), environment={"TMPDIR": small})
        self.assertEqual(status, 2)
        self.assertIn("no space left on device", said.lower())
        self.assertIn(small, said)
        self.assertNotIn("Traceback", said)
        self.assertIn(b"The run failed", self.read(self.outputs["board"]))
        self.assertEqual((self.read(self.outputs["notice"]), os.listdir(small)), (YESTERDAY, []))
        seen("no room for what is kept while a run lasts: 2, the folder is named, the board says that the run failed")


class Preloaded(Faults):
    """A C library whose reading, writing and clock fail (tests/faults.c)."""

    @classmethod
    def setUpClass(cls):
        if not shutil.which("cc"):
            raise unittest.SkipTest("no C compiler")
        folder = tempfile.TemporaryDirectory()
        cls.addClassCleanup(folder.cleanup)
        cls.library = os.path.join(folder.name, "faults.so")
        subprocess.run(["cc", "-shared", "-fPIC", "-O1", "-o", cls.library, os.path.join(ROOT, "tests", "faults.c"), "-ldl"], check=True)

    def faulty(self, *words, path="", **faults):
        environment = {"LD_PRELOAD": self.library, "FAULT_PATH": path} | {f"FAULT_{name}": str(value) for name, value in faults.items()}
        return self.run_command(*words, environment=environment)

    def test_reading_fails(self):
        for number in range(6):
            self.put(f"decks/{number}", (GOOD, WRONG)[number % 2])
        for after in (0, 1, 40, 79):
            status, lines, said = self.faulty("judge", self.decks, path="decks/2", READ=after)
            self.assertEqual(status, 2)
            told = [line.partition(": ")[2] for line in lines.splitlines()]
            self.assertEqual(told, ["accepted", "differs 3", "cannot be read: input/output error", "differs 3", "accepted", "differs 3"])
        seen("a read that fails after 0, 1, 40 or 79 bytes: that deck cannot be read, the others are judged")

    def test_reading_a_byte_at_a_time(self):
        for number, data in enumerate((GOOD, WRONG, REFUSED, b"", bytes(40_000))):
            self.put(f"decks/{number}", data)
        words = ["judge", "--json", self.decks]
        key = lambda text: [{name: value for name, value in json.loads(line).items() if name not in ("time", "run")} for line in text.splitlines()]
        self.assertEqual(key(self.faulty(*words, path=self.decks, READ="short")[1]), key(self.run_command(*words)[1]))
        seen("reads of one byte each: the same objects")

    def test_writing_fails(self):
        self.fill(300)
        failures = 0
        for form in self.outputs:
            for fault in ({"WRITE": 0}, {"WRITE": 1}, {"WRITE": 5_000}, {"FSYNC": 1}, {"RENAME": 1}):
                words = self.asked(form)
                status, _, said = self.faulty("judge", "-q", self.decks, *words, path=f"out.{form}", **fault)
                self.assertEqual((status, self.read(self.outputs[form]), self.parts()), (2, YESTERDAY, []), (form, fault))
                self.assertIn(f"tteuyomal: {self.outputs[form]}: cannot be written: ", said)
                failures += 1
            words = self.asked(form)
            self.assertEqual(self.faulty("judge", "-q", self.decks, *words, path=f"out.{form}", WRITE="short")[0], 0)
            self.assertTrue(self.whole(form, 300))
        seen(f"writing, syncing or renaming that fails, {failures} times: 2, the file's name, yesterday's file as it was, no part; writes of one byte each: whole files")

    def test_standard_output_fails(self):
        self.fill(3_000)
        out = self.put("lines", b"")
        for after in (0, 10, 70_000):
            with open(out, "wb") as file:
                one = self.start("judge", self.decks, stdout=file, environment={"LD_PRELOAD": self.library, "FAULT_PATH": out, "FAULT_WRITE": str(after)})
                said = one.communicate(timeout=SECONDS)[1].decode()
            self.assertEqual(one.returncode, 2)
            self.assertIn("tteuyomal: standard output: ", said)
            self.assertNotIn("accepted", said)
        seen("standard output that fails: 2, and no total")

    def test_the_clock_is_set_back(self):
        self.fill(5)
        notices = []
        for off in (0, -86_400, -3 * 365 * 86_400, 86_400):
            path = os.path.join(self.room, f"notice{off}")
            self.assertEqual(self.faulty("judge", "-q", self.decks, "--notice", path, "--board", self.outputs["board"], CLOCK=off)[0], 0)
            notices.append(self.read(path).decode())
            self.assertEqual(self.run_command("verify", path, self.decks)[0], 0)
        dates, runs = ([re.search(rf"^{word}: (.*)$", text, re.M)[1] for text in notices] for word in ("Date", "Run"))
        self.assertTrue(dates[2] < dates[1] < dates[0] < dates[3])
        self.assertEqual(len(set(runs)), 4)
        seen("the clock set back between two notices: each says its own time and run, and both hold")


class Changing(Faults):
    """Files that grow, shrink, vanish and come back while they are read."""

    DECKS, ROUNDS = 400, 6

    def test_changing(self):
        paths = [os.path.join(self.decks, f"{number:04d}") for number in range(self.DECKS)]
        for path in paths:
            self.put(path, GOOD)
        stop, faults = threading.Event(), []

        def change(seed):
            chance = random.Random(seed)
            try:
                while not stop.is_set():
                    path, way = chance.choice(paths), chance.randrange(6)
                    if way == 0:
                        with contextlib.suppress(OSError):
                            os.unlink(path)
                    elif way == 1:
                        with open(path, "ab") as file:
                            file.write(bytes(chance.randrange(1, 40_000)))
                    elif way == 2 and os.path.exists(path):
                        with contextlib.suppress(OSError):
                            os.truncate(path, chance.randrange(90))
                    elif way == 3:
                        other = f"{path}-{seed}"
                        with open(os.path.join(self.room, os.path.basename(other)), "wb") as file:
                            file.write(chance.choice((GOOD, WRONG, REFUSED)))
                        os.replace(file.name, path)
                    else:
                        with open(path, "wb", buffering=0) as file:
                            data = chance.choice((GOOD, WRONG, REFUSED))
                            cut = chance.randrange(len(data))
                            file.write(data[:cut])
                            file.write(data[cut:])
            except Exception as fault:  # the test's own
                faults.append(fault)

        threads = [threading.Thread(target=change, args=(seed,)) for seed in range(2)]
        for one in threads:
            one.start()
        told = collections.Counter()
        try:
            for turn in range(self.ROUNDS):
                status, lines, said = self.run_command("judge", "--json", "-j", str(1 + turn % 2), self.decks, *self.asked("notice", "board"))
                objects = [json.loads(line) for line in lines.splitlines()]
                self.assertEqual(len({one["file"] for one in objects}), len(objects), "no deck is told twice")
                for one in objects:
                    known = SAID.get(one["sha256"])
                    told["known bytes" if known else "other bytes" if one["sha256"] else "not there"] += 1
                    self.assertEqual(one["verdict"] == "accepted", known == "accepted", one)
                    self.assertTrue(known in (None, one["verdict"]), one)
                self.assertEqual(status, max({"accepted": 0, "differs": 1}.get(one["verdict"], 2) for one in objects))
                notice = self.read(self.outputs["notice"]).decode()
                self.assertEqual(len(re.findall(r"^(?:[0-9a-f]{64}|-{64})  ", notice, re.M)), len(objects))
                self.assertNotIn('<h1 class="accepted"', self.read(self.outputs["board"]).decode() if status else "")
        finally:
            stop.set()
            for one in threads:
                one.join()
        self.assertEqual(faults, [])
        seen(f"files that change while they are read: {dict(told)}; whatever was accepted has the SHA-256 of a right deck")


class Memory(Faults):
    """Too little memory: no verdict without a judgement, and never a hang."""

    DECKS = 3_000

    def test_limited(self):
        self.fill(self.DECKS)
        table = collections.Counter()
        for megabytes in (20, 30, 40, 50, 70, 100, 200, 400):
            limit = lambda size=megabytes << 20: resource.setrlimit(resource.RLIMIT_AS, (size, size))
            for jobs in ("1", "2"):
                words = ["judge", "-q", self.decks, "-j", jobs, *self.asked()]
                one = self.start(*words, preexec_fn=limit)
                said = one.communicate(timeout=SECONDS)[1].decode(errors="replace")
                there = {form: self.whole(form, self.DECKS) for form in self.outputs}
                if one.returncode == 0:
                    self.assertTrue(all(there.values()))
                    self.assertIn(f"{self.DECKS} decks: {self.DECKS} accepted", said)
                else:
                    self.assertFalse(there["notice"])
                    self.assertNotIn("accepted", said)
                    if one.returncode not in (2, -signal.SIGABRT, 127):
                        self.assertNotIn("tteuyomal", said.replace(self.room, ""), f"Python did not begin: {megabytes} MB, {said}")
                self.assertEqual(self.parts(), [])
                table[one.returncode] += 1
        seen(f"memory limits from 20 to 400 MB: exit statuses {dict(table)}; 0 only with every file whole")
        self.assertGreater(table[0], 3)


class Slow(Faults):
    """Who reads standard output takes his time, or goes."""

    def test_slow(self):
        self.fill(30_000)
        one = self.start("judge", self.decks, "-j", "2")
        lines = b""
        for _ in range(40):
            lines += os.read(one.stdout.fileno(), 4096)
            time.sleep(0.05)
        with open(f"/proc/{one.pid}/status") as file:
            memory = int(re.search(r"VmRSS:\s+(\d+)", file.read())[1]) // 1024
        self.assertIsNone(one.poll(), "it waits for its reader")
        lines += one.stdout.read()
        self.assertEqual((one.wait(SECONDS), lines.count(b": accepted\n"), lines.count(b"\n")), (0, 30_000, 30_000))
        self.assertLess(memory, 150)
        seen(f"a reader of 80 KB a second: every line came, and {memory} MB were held meanwhile")

    def test_gone(self):
        self.fill(30_000)
        one = self.start("judge", self.decks, "-j", "2", *self.asked())
        os.read(one.stdout.fileno(), 100)
        workers = children(one.pid)
        one.stdout.close()
        begun = time.monotonic()
        self.assertEqual((one.wait(SECONDS), one.stderr.read()), (2, b""))
        self.assertEqual([pid for pid in workers if alive(pid)], [])
        self.assertEqual([self.whole(form, 30_000) for form in ("notice", "json", "board")], [False, False, True])
        seen(f"a reader that goes: 2 after {time.monotonic() - begun:.2f} s, no notice, the board says that the run failed")


class Many(Faults):
    """A million decks."""

    DECKS = 1_000_000

    def test_many(self):
        begun = time.monotonic()
        self.fill(self.DECKS, (GOOD, GOOD, GOOD, WRONG))
        made = time.monotonic() - begun
        with open(os.path.join(self.room, "manifest"), "w") as file:
            file.writelines(f"{number // 1000:04d}/{number:07d}.deck\n" for number in range(self.DECKS))
        begun = time.monotonic()
        one = self.start("judge", "-q", self.decks, "--manifest", file.name, *self.asked("notice"), stdout=subprocess.PIPE)
        most = [0]

        def watch():
            while one.poll() is None:
                with contextlib.suppress(OSError, TypeError):
                    with open(f"/proc/{one.pid}/status") as status:
                        most[0] = max(most[0], int(re.search(r"VmRSS:\s+(\d+)", status.read())[1]) // 1024)
                time.sleep(0.2)

        threading.Thread(target=watch).start()
        out, said = one.communicate(timeout=600)
        took = time.monotonic() - begun
        self.assertEqual((one.returncode, out.count(b": differs 3\n"), out.count(b"\n")), (1, self.DECKS // 4, self.DECKS // 4))
        self.assertEqual(said.decode(), f"{self.DECKS} decks: {self.DECKS * 3 // 4} accepted, {self.DECKS // 4} differs\n")
        with open(self.outputs["notice"]) as file:
            self.assertEqual(sum(bool(re.match(r"[0-9a-f]{64}  ", line)) for line in file), self.DECKS)
        seen(f"a million decks by a manifest: {took:.0f} s, {most[0]} MB at most (made in {made:.0f} s)")


class Fleet(Faults):
    """A fleet whose scheduler goes, and one whose workers all go."""

    def setUp(self):
        super().setUp()
        try:
            import distributed  # noqa: F401
        except ImportError:
            self.skipTest("Dask is not there: run it with /usr/bin/python3, and Debian's python3-distributed")
        place = os.path.join(self.room, "scheduler.json")
        quiet = {"stdout": subprocess.DEVNULL, "stderr": subprocess.DEVNULL, "cwd": self.room}
        flags = ["--host", "127.0.0.1", "--port", "0", "--no-dashboard", "--scheduler-file", place]
        self.scheduler = self.module("distributed.cli.dask_scheduler", *flags, **quiet)
        while not (os.path.exists(place) and os.path.getsize(place)):
            time.sleep(0.1)
        time.sleep(0.3)
        self.address = json.loads(self.read(place))["address"]
        self.workers = [self.module("distributed.cli.dask_worker", self.address, "--nthreads", "1", "--no-nanny", "--no-dashboard", **quiet) for _ in range(2)]

    def module(self, *words, **more):
        one = subprocess.Popen([sys.executable, "-m", *words], env=os.environ | {"PYTHONPATH": PYTHON}, **more)
        self.addCleanup(lambda: (one.kill(), one.wait()))
        return one

    def test_the_scheduler(self):
        self.fill(24_000)
        one = self.start("judge", self.decks, "--dask", self.address, *self.asked())
        one.stdout.readline()
        self.scheduler.kill()
        begun = time.monotonic()
        said = one.communicate(timeout=120)[1]
        took = time.monotonic() - begun
        self.assertEqual((one.returncode, said.count(b"\n")), (2, 1), said.decode())
        self.assertIn(f"tteuyomal: the scheduler at {self.address} has gone (", said.decode())
        self.assertEqual([self.whole(form, 24_000) for form in ("notice", "json", "board")], [False, False, True])
        seen(f"the scheduler killed: 2 after {took:.1f} s: {said.decode().strip().splitlines()[-1]}")

    def test_all_workers(self):
        """Nobody is left to judge: the command waits for another worker, as Dask does, and goes on when one comes."""
        self.fill(24_000)
        one = self.start("judge", self.decks, "--dask", self.address, *self.asked("notice"), stderr=subprocess.DEVNULL)
        lines = one.stdout.readline()
        for worker in self.workers:
            worker.kill()
            worker.wait()
        quiet = {"stdout": subprocess.DEVNULL, "stderr": subprocess.DEVNULL, "cwd": self.room}
        self.module("distributed.cli.dask_worker", self.address, "--nthreads", "1", "--no-nanny", "--no-dashboard", **quiet)
        lines += one.stdout.read()
        self.assertEqual((one.wait(120), lines.count(b": accepted\n"), lines.count(b"\n")), (0, 24_000, 24_000))
        self.assertTrue(self.whole("notice", 24_000))
        seen("both workers killed, and another one started: no deck is lost, none is told twice")


IN_THE_GATE = (Disk, Preloaded, Changing, Memory, Slow)

if __name__ == "__main__":
    from run import main

    sys.exit(main([f"__main__.{name}" for name in sys.argv[1:]] or ["__main__"]))
