"""One run: what was expected, the notice and whether it holds, the report for machines, objects, totals; nothing is green that was not
checked."""

import hashlib
import json
import os
import shutil
import subprocess
import unittest
import xml.etree.ElementTree as xml
from unittest import mock

from common import FORTY, RIGHT
from test_command import GOOD, REFUSED, WRONG, Room

from tteuyomal import files, judging, native, notice, outputs, run


class Expecting(Room):
    def setUp(self):
        super().setUp()
        for name in ("a", "b", "sub/c"):
            self.put(name, GOOD)
        self.board, self.notice = (os.path.join(self.room, name) for name in ("board.html", "notice.txt"))

    def commands(self, *words):
        """The exit status of judge, board and notice, and what they say on standard error."""
        for command in (["judge", self.decks], ["board", self.decks, "-o", self.board], ["notice", self.decks, "-o", self.notice]):
            status, _ = self.run_command(*command, *words)
            yield status, self.fault

    def test_a_number(self):
        for number, status in ((3, 0), (4, 2), (2, 2), (0, 2)):
            for told, fault in self.commands("--expect", str(number)):
                self.assertEqual(told, status)
                self.assertEqual("expected" in fault, status == 2)
            text = self.read(self.notice).decode()
            self.assertIn(f"\nExpected: {number}\n", text)
            self.assertEqual("checked and accepted" in text, status == 0)
            self.assertEqual('<h1 class="accepted"' in self.read(self.board).decode(), status == 0)

    def test_names(self):
        manifest = self.put("manifest", b"a\nb\nsub/c\n", self.room)
        self.assertEqual([status for status, _ in self.commands("--manifest", manifest)], [0, 0, 0])
        self.assertIn(f"Expected: 3, those of {manifest}\n", self.read(self.notice).decode())
        self.assertIn(hashlib.sha256(b"a\nb\nsub/c\n").hexdigest(), self.read(self.notice).decode())
        self.put("manifest", b"a\r\nsub/c\nlost.deck\n", self.room)
        for status, fault in self.commands("--manifest", manifest):
            self.assertEqual(status, 2)
            self.assertIn("missing: lost.deck\n", fault)
            self.assertIn("not listed: b\n", fault)
        for text in (self.read(self.notice).decode(), self.read(self.board).decode()):
            self.assertNotIn("checked and accepted", text)
            self.assertIn("lost.deck", text)
        self.assertNotIn('<h1 class="accepted"', self.read(self.board).decode())

    def test_lines_of_sha256sum(self):
        os.rename(os.path.join(self.decks, "b"), os.path.join(self.decks, "back\\slash\nline"))
        for folder, paths in ((self.room, ["decks/a", "decks/back\\slash\nline", "decks/sub/c"]), (self.decks, ["a", "back\\slash\nline", "sub/c"])):
            lines = subprocess.run(["sha256sum", *paths], cwd=folder, capture_output=True, check=True).stdout
            manifest = self.put("manifest", lines, self.room)
            here = os.getcwd()
            os.chdir(self.room)
            self.addCleanup(os.chdir, here)
            self.assertEqual(self.run_command("judge", "decks", "--manifest", manifest)[0], 0)
            os.chdir(here)
        self.put("a", FORTY + RIGHT[:4] + b"\1" + RIGHT[5:])
        self.assertEqual(self.run_command("judge", self.decks, "--manifest", manifest)[0], 2)
        self.assertIn("other bytes than listed: a\n", self.fault)

    def test_a_manifest_that_is_none(self):
        for text in (b"a\na\n", b""):
            self.assertEqual(self.run_command("judge", self.decks, "--manifest", self.put("m", text, self.room))[0], 2)
        self.assertEqual(self.run_command("judge", self.decks, "--manifest", os.path.join(self.room, "nowhere"))[0], 2)
        manifest = self.put("m", b"a\n", self.room)
        self.assertEqual(self.run_command("judge", self.decks, "--manifest", manifest, "--board", manifest)[0], 2)
        self.assertEqual(self.read(manifest), b"a\n", "a manifest is an input")

    def test_what_never_became_a_deck(self):
        """Of two molecules one is refused on the way: who expects two is told."""
        self.put("empty/.keep", b"", self.room)
        decks = os.path.join(self.room, "empty")
        os.unlink(os.path.join(decks, ".keep"))
        ring = "[[block]]\nnumber = 1\natoms = 2\nbonds = ['1-2']\n[[placement]]\nblock = 1\n[sheet]\natoms = 2\nW = 1\neven = 0\nodd = 1\npolarity = 0\n"
        for name, text in (("one", ring), ("two", ring.replace("bonds = ['1-2']", "bonds = []"))):
            self.run_command("deck", self.put(f"{name}.toml", text.encode(), self.room), "-o", os.path.join(decks, f"{name}.deck"))
        self.assertEqual(os.listdir(decks), ["one.deck"])
        self.assertEqual(self.run_command("notice", decks, "-o", self.notice, "--expect", "2")[0], 2)
        self.assertIn("Not as expected: expected 2 decks, found 1. Accepted: 1.", self.read(self.notice).decode())


class OneRun(Room):
    def setUp(self):
        super().setUp()
        self.put("a", GOOD)
        self.files = {form: os.path.join(self.room, f"out.{form}") for form in outputs.FORMS}

    def judge(self, *words):
        return self.run_command("judge", self.decks, *(word for form, path in self.files.items() for word in (f"--{form}", path)), *words)

    def test_each_deck_is_read_once(self):
        self.put("b", WRONG)
        with mock.patch.object(files, "read", side_effect=files.read) as read:
            status, said = self.judge("-j", "1")
        self.assertEqual((status, read.call_count), (1, 2))
        self.assertEqual(said, f"{self.decks}/a: accepted\n{self.decks}/b: differs 3\n")
        told = {form: self.read(path).decode() for form, path in self.files.items()}
        (number,) = {line[5:] for line in told["notice"].splitlines() if line.startswith("Run: ")}
        for text in told.values():
            self.assertIn(number, text)
            self.assertIn(hashlib.sha256(WRONG).hexdigest()[:9] if text != told["junit"] else "differs 3", text)

    def test_the_notice_is_last(self):
        for form in ("json", "junit", "board"):
            with self.subTest(form), mock.patch.dict(self.files, {form: os.path.join(self.room, "no", "where")}):
                self.assertEqual(self.judge()[0], 2)
                self.assertIn("no/where: cannot be written: no such file or directory\n", self.fault)
                self.assertFalse(os.path.exists(self.files["notice"]))
        self.assertEqual(self.judge()[0], 0)
        self.assertTrue(os.path.exists(self.files["notice"]))

    def test_a_run_that_fails(self):
        for form in ("board", "junit"):
            self.put(f"out.{form}", b"yesterday, green", self.room)
        with mock.patch.object(judging, "judge_file", side_effect=RuntimeError("a fault")):
            self.assertEqual(self.judge()[0], 2)
        board, report = (self.read(self.files[form]).decode() for form in ("board", "junit"))
        self.assertIn("The run failed", board)
        self.assertIn("a fault", board)
        self.assertEqual([one.get("errors") for one in xml.fromstring(report).iter("testsuite")], ["1"])
        self.assertEqual([os.path.exists(self.files[form]) for form in ("notice", "json")], [False, False])
        self.put("board.html", b"yesterday, green", self.room)
        self.assertEqual(self.run_command("board", os.path.join(self.room, "nosuch"), "-o", os.path.join(self.room, "board.html"))[0], 2)
        self.assertIn("nosuch is no folder", self.read(os.path.join(self.room, "board.html")).decode())

    def test_no_two_in_one_file(self):
        for one, other in (("board", "notice"), ("json", "junit")):
            with mock.patch.dict(self.files, {one: self.files[other]}):
                self.assertEqual(self.judge()[0], 2)
                self.assertIn("two outputs", self.fault)

    def test_json_before_and_after(self):
        deck, other = os.path.join(self.decks, "a"), self.put("b", GOOD)
        target = os.path.join(self.room, "objects")
        for words, count in ((["--json", deck], 1), (["--json", deck, other], 2), ([deck, other, "--json"], 2), (["--json", self.decks], 2), ([deck, "--json", "-"], 1)):
            with self.subTest(words):
                status, said = self.run_command("judge", *words)
                self.assertEqual((status, [json.loads(line)["verdict"] for line in said.splitlines()]), (0, ["accepted"] * count))
        self.assertEqual(self.run_command("judge", deck, "--json", target), (0, f"{deck}: accepted\n"))
        self.assertEqual(json.loads(self.read(target))["verdict"], "accepted")
        self.assertEqual([self.read(deck), self.read(other)], [GOOD, GOOD], "no deck is written over")
        self.assertEqual(self.run_command("judge", deck, "--json", deck)[0], 2)

    def test_objects_say_their_run(self):
        self.put("x.mol", b"", self.room)
        for words in (["judge", "--json", self.decks], ["sheet", "--json", self.decks], ["measure", "--json", os.path.join(self.room, "x.mol")]):
            said = json.loads(self.run_command(*words)[1])
            self.assertEqual(said["version"], native.version())
            self.assertRegex(said["time"], r"^\d{4}-\d\d-\d\dT\d\d:\d\d:\d\dZ$")
            self.assertRegex(said["run"], "^[0-9a-f]{16}$")

    def test_failures_only_and_totals(self):
        self.put("b", WRONG)
        self.assertEqual(self.run_command("judge", "-q", self.decks), (1, f"{self.decks}/b: differs 3\n"))
        self.assertEqual(self.fault, "2 decks: 1 accepted, 1 differs\n")
        status, said = self.run_command("judge", "-q", "--json", self.decks)
        self.assertEqual((status, [json.loads(line)["verdict"] for line in said.splitlines()]), (1, ["differs"]))
        for command in ("board", "notice"):
            self.run_command(command, self.decks, "-o", os.path.join(self.room, "out"))
            self.assertEqual(self.fault, "2 decks: 1 accepted, 1 differs\n")


class Reports(Room):
    """The shape of the XML that Jenkins and GitLab read (junit-10.xsd of Jenkins and the older JUnit.xsd of Ant's task)."""

    SUITE = {"name", "package", "id", "tests", "failures", "errors", "skipped", "time", "timestamp", "hostname"}

    def report(self, *words):
        path = os.path.join(self.room, "report.xml")
        self.status, _ = self.run_command("judge", self.decks, "--junit", path, *words)
        root = xml.parse(path).getroot()
        self.assertEqual((root.tag, [one.tag for one in root]), ("testsuites", ["testsuite"]))
        suite = root[0]
        self.assertEqual(set(suite.attrib), self.SUITE)
        self.assertRegex(suite.get("timestamp"), r"^\d{4}-\d\d-\d\dT\d\d:\d\d:\d\d$")
        cases = suite.findall("testcase")
        self.assertEqual([one.tag for one in suite], ["properties"] + ["testcase"] * len(cases) + ["system-out", "system-err"])
        for one in cases:
            self.assertEqual(set(one.attrib), {"classname", "name", "time"})
            self.assertLessEqual(len(one), 1)
            self.assertTrue(all(part.tag in ("failure", "error") and set(part.attrib) == {"type", "message"} for part in one))
        told = [len(suite.findall(f"testcase/{how}")) for how in ("failure", "error")]
        self.assertEqual([int(suite.get(key)) for key in ("tests", "failures", "errors")], [len(cases), *told])
        return suite

    def test_verdicts(self):
        for name, data in (("a", GOOD), ("b", WRONG), ("c", REFUSED), ("d\x1b<&\"'", GOOD), ("sub/e", b"")):
            self.put(name, data)
        os.symlink("nowhere", os.path.join(self.decks, "f"))
        suite = self.report()
        cases = {(one.get("classname"), one.get("name")): one for one in suite.findall("testcase")}
        self.assertEqual(set(cases), {("decks", "a"), ("decks", "b"), ("decks", "c"), ("decks", "d\\x1b<&\"'"), ("decks", "f"), ("sub", "e")})
        self.assertEqual(cases["decks", "b"][0].get("message"), "differs 3: even part 97 claimed, 96 worked out, odd part 101 claimed, 102 worked out")
        self.assertEqual((cases["decks", "b"][0].tag, cases["decks", "c"][0].tag, cases["decks", "f"][0].tag), ("failure", "error", "error"))
        self.assertTrue(cases["sub", "e"][0].get("message").startswith("refused 11 at 0: "))
        self.assertEqual(len(cases["decks", "a"]), 0)

    def test_what_was_expected(self):
        self.put("a", GOOD)
        suite = self.report("--manifest", self.put("m", b"lost.deck\n", self.room))
        self.assertEqual((self.status, suite.get("errors")), (2, "3"))
        self.assertIn("lost.deck", [one.get("name") for one in suite.findall("testcase")])

    def test_no_deck_is_no_success(self):
        self.assertEqual((self.report().get("errors"), self.status), ("1", 2))


class Notices(Room):
    def setUp(self):
        super().setUp()
        self.path = os.path.join(self.room, "notice.txt")
        for name, data in (("a", GOOD), ("sub/b", WRONG), ("c\\d\ne", REFUSED)):
            self.put(name, data)
        self.run_command("notice", self.decks, "-o", self.path)

    def test_bound_to_the_run(self):
        text = self.read(self.path).decode()
        self.assertRegex(text, r"\nDate: \d{4}-\d\d-\d\d \d\d:\d\d:\d\d UTC\nRun: [0-9a-f]{16}\nHost: \S+\nFolder: ")
        self.assertIn(f"Folder: {self.decks}\n", text)
        with open(native.SHARED_OBJECT, "rb") as file:
            self.assertIn(f"Library's SHA-256: {hashlib.sha256(file.read()).hexdigest()}\n", text)
        self.assertNotIn("TTEUYOMAL_SO", text if not native.REPLACED else "")

    def test_another_shared_object_is_said(self):
        other = os.path.join(self.room, "other.so")
        shutil.copy(native.SHARED_OBJECT, other)
        board = os.path.join(self.room, "board.html")
        with mock.patch.dict(os.environ, {"TTEUYOMAL_SO": other}):
            one = self.process("judge", self.decks, "--board", board, "--notice", self.path, "--json", stdout=subprocess.PIPE, stderr=subprocess.PIPE)
            said, fault = one.communicate()
            self.assertEqual(one.returncode, 2)
        self.assertTrue(fault.decode().startswith(f"tteuyomal: TTEUYOMAL_SO is set, so {other} answers here and not the package's own library\n"))
        self.assertEqual({json.loads(line)["TTEUYOMAL_SO"] for line in said.splitlines()}, {other})
        for path in (board, self.path):
            self.assertIn("TTEUYOMAL_SO", self.read(path).decode())
            self.assertIn(other, self.read(path).decode())

    def test_sha256sum_reads_it(self):
        check = lambda: subprocess.run(["sha256sum", "-c", self.path], cwd=self.decks, capture_output=True, text=True)
        self.assertEqual((check().returncode, check().stdout.count(": OK")), (0, 3))
        self.put("a", WRONG)
        self.assertEqual(check().returncode, 1)

    def verify(self, path=None):
        status, said = self.run_command("verify", path or self.path, self.decks)
        return status, said

    def test_holds(self):
        status, said = self.verify()
        self.assertEqual((status, said.splitlines()[0]), (0, "the notice holds: 3 decks: 1 accepted, 1 differs, 1 refused"))
        self.assertEqual(said.splitlines()[1], "it does not say that all was accepted: Not accepted: 2 of 3 (differs: 1, refused: 1). Accepted: 1.")
        good = self.folder("good")
        self.put("a", GOOD, good)
        for expected, more in ((1, ""), (2, "it does not say that all was accepted: Not as expected: expected 2 decks, found 1. Accepted: 1.\n")):
            self.run_command("notice", good, "-o", self.path, "--expect", str(expected))
            self.assertEqual(self.run_command("verify", self.path, good), (0, f"the notice holds: 1 deck: 1 accepted\n{more}"))

    def test_does_not_hold(self):
        for name, data, words in (
            ("a", WRONG, "a: accepted in the notice, differs 3 now\n"),
            ("a", FORTY + RIGHT[:8] + RIGHT[8:] + b"\0", "a: other bytes: "),
            ("new", GOOD, "new: not in the notice; it is accepted now\n"),
            ("sub/b", None, "sub/b: missing\n"),
            ("c\\d\ne", None, "c\\\\d\\ne: missing\n"),
        ):
            with self.subTest(name):
                path = os.path.join(self.decks, name)
                kept = self.read(path) if os.path.exists(path) else None
                os.unlink(path) if data is None else self.put(name, data)
                status, said = self.verify()
                self.assertEqual(status, 2)
                self.assertIn(words, said)
                self.assertIn("the notice does not hold", said)
                os.unlink(path) if kept is None else self.put(name, kept)
        self.assertEqual(self.verify()[0], 0)

    def test_a_forged_notice(self):
        text = self.read(self.path).decode()
        good = "All 3 decks were checked and accepted: "
        for old, new in (
            ("\ndiffers 3:", "\naccepted:"),
            ("Decks: 3", "Decks: 2"),
            ("Not accepted: 2 of 3", f"{good}Not accepted: 2 of 3"),
            (f"\naccepted:\n{hashlib.sha256(GOOD).hexdigest()}  a", ""),
            (f"{hashlib.sha256(GOOD).hexdigest()}  a", f"{hashlib.sha256(GOOD).hexdigest()}  a\n{hashlib.sha256(GOOD).hexdigest()}  a"),
        ):
            self.assertIn(old, text)
            self.assertEqual(self.verify(self.put("forged", text.replace(old, new).encode(), self.room))[0], 2)
        for nothing in (b"", b"no notice", b"\xff", b"Notice of judged decks\n"):
            self.assertEqual(self.verify(self.put("forged", nothing, self.room))[0], 2)

    def test_no_deck_then_is_nothing_now(self):
        empty, path = self.folder("empty"), os.path.join(self.room, "none.txt")
        self.assertEqual(self.run_command("notice", empty, "-o", path)[0], 2)
        self.assertEqual(self.run_command("verify", path, empty)[0], 2)

    def test_another_library(self):
        text = self.read(self.path).decode().replace(native.SHA256, "0" * 64)
        self.assertEqual(self.verify(self.put("other", text.encode(), self.room))[0], 0)
        self.assertIn(f"another library (SHA-256 {'0' * 64})", self.fault)

    def test_read_back(self):
        rows = notice.read(self.read(self.path).decode()).rows
        self.assertEqual({name: row.word for name, row in rows.items()}, {"a": "accepted", "sub/b": "differs", "c\\d\ne": "refused"})


class Runs(unittest.TestCase):
    def test_begin(self):
        one, other = run.begin("x"), run.begin("x")
        self.assertNotEqual(one.number, other.number)
        self.assertEqual((one.version, one.sha256, one.expected), (native.version(), native.SHA256, None))
        self.assertEqual(one.begun.utcoffset().total_seconds(), 0)

    def test_unmet(self):
        self.assertEqual(run.unmet(None, 0), [])
        self.assertEqual(run.unmet(run.Expected(1), 1), [])
        self.assertEqual(run.unmet(run.Expected(2, ("x",), manifest="m"), 1), ["expected 2 decks, found 1", "missing: 1"])


if __name__ == "__main__":
    unittest.main()
