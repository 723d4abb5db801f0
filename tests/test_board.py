"""The board as a file: its light, its groups, what it says of the run, and words from outside. tests/browser.py looks at it in a browser."""

import base64
import datetime
import hashlib
import html.parser
import io
import itertools
import os
import pickle
import re
import subprocess
import sys
import tempfile
import unittest
import urllib.parse
import xml.etree.ElementTree
from unittest import mock

from common import FORTY, LIBRARY, PYTHON, RIGHT, RIGHT_SIX, sheet, sheet_of_six

from tteuyomal import board, drawing, judging, native
from tteuyomal.judging import ACCEPTED, DIFFERS, REFUSED, UNREAD, Judged, Tally
from tteuyomal.run import Expected, Run

GOOD = FORTY + RIGHT
IN_PARTS = bytes.fromhex("0A 00 01 00 01 00 04 00 02 00 01 02 03 04 08 00 02 00 01 00 01 00 00 00 00 00") + sheet(4, 2, 0, 2, 0)
BEGUN = datetime.datetime(2026, 11, 16, 5, 0, 7, tzinfo=datetime.timezone.utc)
RUN = Run(BEGUN, "9d4aca62fd1822ab", "build-7", "decks/", "3.0.0", "dd" * 32, "")
HOSTILE = "<script>hit()</script>\"'&\u202egnp\n\t\x1b[2J\udcff.deck"
VOID = {"meta", "link", "input"}


class Element:
    """A part of a page that was read."""

    def __init__(self, name, given):
        self.name, self.given, self.parts = name, dict(given), []

    def __getitem__(self, key):
        return self.given.get(key)

    @property
    def text(self):
        return "".join(part if isinstance(part, str) else part.text for part in self.parts)

    def all(self, name=None, kind=None):
        """The elements in it with this name and this class."""
        found = []
        for part in self.parts:
            if isinstance(part, Element):
                if name in (None, part.name) and (kind is None or kind in (part["class"] or "").split()):
                    found.append(part)
                found += part.all(name, kind)
        return found


class Reader(html.parser.HTMLParser):
    """Reads a page, and takes no element that is left open."""

    def __init__(self, page):
        super().__init__()
        self.open = [Element("page", ())]
        self.feed(page)
        self.close()
        assert len(self.open) == 1, self.open[-1].name

    def handle_starttag(self, name, given):
        made = Element(name, given)
        self.open[-1].parts.append(made)
        if name not in VOID:
            self.open.append(made)

    def handle_startendtag(self, name, given):
        self.open[-1].parts.append(Element(name, given))

    def handle_endtag(self, name):
        assert self.open.pop().name == name

    def handle_data(self, text):
        self.open[-1].parts.append(text)


def judged(name, data):
    return judging.judge_bytes("decks/" + name, data, hashlib.sha256(data).hexdigest())


def counted(**counts):
    tally = Tally()
    tally.add_all({{"unread": UNREAD}.get(word, word): count for word, count in counts.items()})
    return tally


class Boards(unittest.TestCase):
    def written(self, decks, run=RUN, what="deck"):
        """The page of decks, each a name with bytes or judged already."""
        tally = Tally()
        file = io.BytesIO()
        with board.Page(run, what) as page:
            for one in decks:
                row = board.row(one if isinstance(one, Judged) else judged(*one), "decks/")
                tally.add(row.word)
                page.add(pickle.loads(pickle.dumps(row)))
            page.write(file, tally)
        return file.getvalue().decode("utf-8")

    def read(self, decks, run=RUN, what="deck"):
        return Reader(self.written(decks, run, what)).open[0]

    def heads(self, page):
        return [" ".join(group.all("summary")[0].text.split()) for group in page.all("details", "group")]


class Light(Boards):
    def test_green_only_where_all_is_well(self):
        """Green exactly if there was a deck, each was accepted, and what was expected is there."""
        names = [(), ("a",)]
        expectations = [None, *(Expected(*one) for one in itertools.product((None, 1, 2), names, names, names, ("",)))]
        for accepted, differs, refused, unread, expected in itertools.product((0, 1, 2), (0, 1), (0, 1), (0, 1), expectations):
            tally = counted(accepted=accepted, differs=differs, refused=refused, unread=unread)
            total = accepted + differs + refused + unread
            well = accepted > 0 and accepted == total
            if expected is not None:
                well = well and expected.count in (None, total) and not (expected.missing or expected.unlisted or expected.changed)
            kind, title = board.summary(tally, expected)
            with self.subTest(tally=tally.counts, expected=expected):
                self.assertEqual(kind == "accepted", well)
                self.assertEqual("all" in title.lower() or "The one deck is accepted" in title, well)
                self.assertEqual(board._ICON_COLOURS["accepted"].strip("#") in board.icon(kind), well)

    def test_titles(self):
        for tally, expected, title in (
            (counted(accepted=1), None, "The one deck is accepted"),
            (counted(accepted=2), Expected(2), "All 2 decks are accepted"),
            (counted(), None, "Nothing was judged: no deck was found"),
            (counted(), Expected(3), "Nothing was judged: no deck was found; expected 3 decks, found 0"),
            (counted(accepted=2, differs=1), None, "1 of 3 decks not accepted"),
            (counted(refused=1), None, "1 of 1 deck not accepted"),
            (counted(accepted=192), Expected(200), "Not what was expected: expected 200 decks, found 192"),
            (counted(accepted=1, differs=1), Expected(None, ("x",), ("y", "z")), "1 of 2 decks not accepted; missing: 1; not listed: 2"),
        ):
            self.assertEqual(board.summary(tally, expected)[1], title)
        self.assertEqual(board.summary(counted(accepted=2), None, "molecule")[1], "All 2 molecules are accepted")

    def test_page_and_tab_have_it(self):
        for decks, kind, colour in (
            ([("a", GOOD)], "accepted", "#1a7f37"),
            ([("a", GOOD), ("b", FORTY + sheet(12, 198, 97, 102, 14))], "differs", "#bf8700"),
            ([("a", GOOD), ("b", FORTY)], "refused", "#cf222e"),
            ([], "nothing", "#cf222e"),
        ):
            page = self.read(decks)
            self.assertEqual(page.all("h1")[0]["class"], kind)
            address = page.all("link")[0]["href"]
            front = "data:image/svg+xml,"
            self.assertTrue(address.startswith(front))
            drawn = xml.etree.ElementTree.fromstring(urllib.parse.unquote(address[len(front) :]))
            self.assertEqual(drawn.get("fill"), colour)

    def test_counts_what_was_added(self):
        """A light never stands for decks that are not on the board."""
        for tally in (counted(accepted=2), counted(), counted(accepted=1, refused=1), counted(differs=1)):
            with board.Page(RUN) as page, self.assertRaises(ValueError):
                page.add(board.row(judged("a", GOOD), "decks/"))
                page.write(io.BytesIO(), tally)

    def test_a_run_that_failed(self):
        page = Reader(board.failed(RUN, f"a worker was killed\n{HOSTILE}").decode()).open[0]
        self.assertEqual(page.all("h1")[0]["class"], "refused")
        self.assertIn("The run failed", page.all("h1")[0].text)
        self.assertIn("a worker was killed\n<script>hit()</script>", page.all("p", "why")[0].text)
        self.assertEqual(page.all(kind="accepted"), [])
        self.assertIn("9d4aca62fd1822ab on build-7", page.all("dl")[0].text)
        self.assertEqual(page.all("time")[0]["datetime"], "2026-11-16T05:00:07Z")


class OfTheRun(Boards):
    def test_said(self):
        said = self.read([("a", GOOD)]).all("header")[0].text
        for words in ("decks/", "9d4aca62fd1822ab on build-7", "Tteuyomal 3.0.0", "dd" * 32, "judged 2026-11-16 05:00:07 UTC"):
            self.assertIn(words, said)
        self.assertNotIn("TTEUYOMAL_SO", said)
        self.assertNotIn("Expected", said)

    def test_another_library(self):
        page = self.read([("a", GOOD)], RUN._replace(replaced="/home/x/evil.so"))
        (warning,) = [one for one in page.all("p", "warning") if one["hidden"] is None and "hidden" not in one.given]
        self.assertIn("TTEUYOMAL_SO was set, to /home/x/evil.so", warning.text)

    def test_what_was_expected(self):
        names = tuple(f"gone-{number}.deck" for number in range(60))
        expected = Expected(61, names, ("new.deck",), ("a",), "decks.sha256")
        page = self.read([("a", GOOD)], RUN._replace(expected=expected))
        self.assertEqual(page.all("h1")[0]["class"], "refused")
        self.assertIn("61 decks, those of the manifest decks.sha256: expected 61 decks, found 1; missing: 60; not listed: 1;", page.all("dl")[0].text)
        self.assertEqual(self.heads(page)[0], "60 missing: expected, and not here")
        listed = page.all("details", "missing")[0].text
        self.assertEqual([name for name in names if not re.search(rf"(?<!\S){re.escape(name)}(?!\S)", listed)], [])
        self.assertIn("new.deck", page.all("details", "unlisted")[0].text)
        self.assertEqual(len(page.all("button")), 7)
        page = self.read([("a", GOOD)], RUN._replace(expected=Expected(1, manifest="decks.sha256")))
        self.assertIn("1 deck, those of the manifest decks.sha256: all are here", page.all("dl")[0].text)

    def test_what_a_program_printed(self):
        run = RUN._replace(program="CDK 2.8", inputs=(("molecules", "all.sdf", "ab" * 32), ("table", "printed.csv", "cd" * 32)))
        said = self.read([("a", GOOD)], run, "molecule")
        for words in ("CDK 2.8", f"all.sdf SHA-256 {'ab' * 32}", f"printed.csv SHA-256 {'cd' * 32}", "Molecules", "Table"):
            self.assertIn(words, said.all("dl")[0].text)
        self.assertEqual(said.all("h1")[0].text, "The one molecule is accepted")
        self.assertNotIn("deck's sheet", said.all("footer")[0].text)


class Decks(Boards):
    def test_groups(self):
        """What is alike is one group: by the refusal's number, by the fields that differ, by the reason."""
        decks = [(f"part-{number}", IN_PARTS) for number in range(8)]
        decks += [("long", bytes(40000)), ("none", FORTY), ("odd", FORTY + sheet(12, 198, 96, 103, 14)), ("odder", FORTY + sheet(12, 198, 96, 105, 14))]
        decks += [("both", FORTY + sheet(12, 198, 97, 101, 14)), ("good", GOOD), Judged("decks/gone", UNREAD, fault="no such file or directory")]
        page = self.read(decks)
        self.assertEqual(
            self.heads(page),
            [
                f"8 refused 7: {native.WORDS[7]}",
                f"1 refused 11: {native.WORDS[11]}",
                f"1 refused 20: {native.WORDS[20]}",
                "1 cannot be read: no such file or directory",
                "1 differs: even part, odd part",
                "2 differs: odd part",
                "1 accepted",
            ],
        )
        self.assertEqual([group["data-number"] for group in page.all("details", "group")][:3], ["7", "11", "20"])
        self.assertEqual([group["data-wrong"] for group in page.all("details", "group")][4:6], ["even odd", "odd"])
        folded = [("open" in group.given, len(group.all("details", "deck"))) for group in page.all("details", "group")]
        self.assertEqual(folded, [(False, 8), (True, 1), (True, 1), (True, 1), (True, 1), (True, 2), (False, 1)])
        self.assertFalse(any("open" in deck.given for deck in page.all("details", "deck")))
        counts = [button.text for button in page.all("button")]
        self.assertEqual(counts, ["10 refused", "1 cannot be read", "3 differs", "1 accepted"])

    def test_a_wrong_field(self):
        page = self.read([("a", FORTY + sheet_of_six(12, 199, 96, 102, 14, 2))])
        deck = page.all("details", "deck")[0]
        self.assertEqual(deck.all("span", "said")[0].text.replace("\xa0", " "), "W 199, worked out 198 (+1); largest distance 2, worked out 7 (−5)")
        rows = [[cell.text for cell in row.parts] for row in deck.all("tr")]
        self.assertEqual(rows[0], ["", "claimed", "worked out", "difference"])
        self.assertEqual((rows[2], rows[3], rows[6]), (["W", "199", "198", "+1"], ["even part", "96", "96"], ["largest distance", "2", "7", "−5"]))
        self.assertEqual([cell.text for cell in deck.all("td", "wrong")], ["199", "2"])
        self.assertIn("differs 2: the first wrong field is W; wrong too: largest distance.", deck.all("pre", "words")[0].text)

    def test_five_fields_or_six(self):
        page = self.read([("a", GOOD), ("b", FORTY + RIGHT_SIX)])
        self.assertEqual([len(deck.all("tr")) for deck in page.all("details", "deck")], [6, 7])
        self.assertNotIn("difference", page.all("main")[0].text)

    def test_what_is_not_claimed(self):
        """A field that nobody claimed is never shown as claimed, nor as wrong."""
        one = Judged("decks/a", DIFFERS, "ab" * 32, 0, 2, claimed=(None, 1766, None, None, None, None, None, None, None, "1.925"),
                     worked=(12, 1765, None, None, None, None, 54, None, None, "1.9253"))  # fmt: skip
        two = one._replace(name="decks/b", word=ACCEPTED, claimed=(None, 1765))
        many = [one._replace(name=f"decks/{number}") for number in range(board.FULL + 1)]
        page = self.read([*many, two], what="molecule")
        self.assertEqual(self.heads(page), ["51 differs: W, Balaban's J", "1 accepted"])
        rows = [[cell.text for cell in row.parts] for row in page.all("details", "deck")[0].all("tr")]
        self.assertEqual(rows[1:], [["atoms", "not claimed", "12"], ["W", "1766", "1765", "+1"], ["Szeged index", "not claimed", "54"], ["Balaban's J", "1.925", "1.9253", ""]])
        self.assertEqual(page.all("details", "rest")[0].all("pre")[0].text.split("\t")[1], "W 1766≠1765, J 1.925≠1.9253")
        self.assertEqual([cell.text for cell in page.all("details", "accepted")[1].all("td")], ["", "not claimed", "12", "1765", "1765"])
        self.assertNotIn("None", page.all("main")[0].text)

    def test_words(self):
        """What `explain` says of a deck stands on its card, and no list is longer than a card."""
        page = self.read([("self", FORTY[:13] + b"\x02" + FORTY[14:] + RIGHT), ("empty", b""), ("zeros", bytes(8000)), ("long", bytes(40000)), ("a", LIBRARY)])
        words = {deck.all(kind="name")[0].text: "".join(one.text for one in deck.all("pre", "words")) for deck in page.all("details", "deck")}
        self.assertIn("Byte 12 is in bond 2 of block 1, 2-2", words["self"])
        self.assertIn("refused 11 at 0", words["empty"])
        self.assertLessEqual(len(words["zeros"].splitlines()), board.WORDS_OF_EXPLAIN + 1)
        self.assertIn("refused 12 at 0", words["zeros"])
        self.assertEqual(words["long"], "")
        self.assertIn("This is a library deck", words["a"])

    def test_many(self):
        """The first decks of a group are cards and the others lines: all are there, and a line is short."""
        decks = [judged(f"{number:05d}.deck", GOOD) for number in range(2000)]
        text = self.written(decks)
        page = Reader(text).open[0]
        self.assertEqual(len(page.all("details", "deck")), board.FULL)
        lines = page.all("details", "rest")[0].all("pre")[0].text.splitlines()
        names = [deck.all("bdi", "name")[0].text for deck in page.all("details", "deck")] + [line.split("\t")[0] for line in lines if line]
        self.assertEqual(names, [f"{number:05d}.deck" for number in range(2000)])
        self.assertEqual(lines[-1].split("\t")[1:], ["atoms 12, W 198, even 96, odd 102, polarity 14", hashlib.sha256(GOOD).hexdigest()])
        more = len(self.written(decks * 2)) - len(text)
        self.assertLess(more, 2000 * 160)
        self.assertLess(len(pickle.dumps(board.row(judged("a", bytes(40000)), ""))), 1000, "a row is small")

    def test_reasons_without_end(self):
        """However many reasons there are, the groups are so many at most, and each deck says its reason."""
        decks = [Judged(f"decks/{number}", UNREAD, fault=f"reason {number}") for number in range(board.GROUPS + 100)]
        page = self.read(decks)
        self.assertEqual(len(page.all("details", "group")), board.GROUPS + 1)
        self.assertEqual(self.heads(page)[0], "100 cannot be read")
        self.assertEqual([deck.text for deck in page.all(kind="deck") if f"reason {board.GROUPS + 7}" in deck.text] != [], True)


class Outside(Boards):
    def test_words_are_words(self):
        """Names, folders, reasons and programs from outside make no element, turn no writing round and end no line."""
        run = RUN._replace(host=HOSTILE, folder=HOSTILE, version=HOSTILE, replaced=HOSTILE, program=HOSTILE, number=HOSTILE)
        run = run._replace(expected=Expected(1, (HOSTILE,) * 60, (HOSTILE,), (HOSTILE,), HOSTILE), inputs=((HOSTILE, HOSTILE, HOSTILE),))
        decks = [judged(f"{number}{HOSTILE}", GOOD) for number in range(board.FULL + 5)]
        decks += [judged(HOSTILE, FORTY), Judged("decks/" + HOSTILE, UNREAD, fault=HOSTILE)]
        decks += [Judged("decks/x", DIFFERS, "ab" * 32, field=1, claimed=(HOSTILE,), worked=(HOSTILE + "y",))]
        text = self.written(decks, run)
        self.assertTrue(all(letter.isprintable() or letter in "\n\t" for letter in text.replace("\xa0", "")))
        page = Reader(text).open[0]
        self.assertEqual(len(page.all("script")), 1)
        self.assertEqual(set(element.name for element in page.all()) & {"img", "iframe", "a", "object"}, set())
        self.assertEqual([key for element in page.all() for key in element.given if key.startswith("on")], [])
        self.assertIn("<script>hit()</script>\"'&\\u202egnp\\n\\t\\x1b[2J\\xff.deck", page.all("main")[0].text)
        lines = [line for line in page.all("details", "accepted")[0].all("pre")[-1].text.splitlines() if line]
        self.assertEqual([line.count("\t") for line in lines], [2] * 5)

    def test_it_loads_nothing(self):
        text = self.written([("a", GOOD), ("b", FORTY)])
        page = Reader(text).open[0]
        (policy,) = [one["content"] for one in page.all("meta") if one["http-equiv"]]
        for part in ("style", "script"):
            digest = base64.b64encode(hashlib.sha256(page.all(part)[0].text.encode()).digest()).decode()
            self.assertIn(f"{part}-src 'sha256-{digest}'", policy)
        self.assertTrue(policy.startswith("default-src 'none'; img-src data:;"))
        self.assertEqual([one for one in page.all() if one["style"]], [], "the policy allows no style of its own to an element")
        self.assertEqual([one for one in page.all() if one["src"] or (one["href"] or "#")[:5] not in ("#", "data:") and not one["href"].startswith("#")], [])
        self.assertNotRegex(text, "https?://|url\\(|@import|fetch\\(|XMLHttpRequest")


class Drawings(Boards):
    def test_words_for_who_cannot_see(self):
        places = mock.patch.object(drawing, "_places", lambda graph: [(20 * atom, atom % 2) for atom in range(graph.atoms)])
        with mock.patch.object(drawing, "there", lambda: True), places:
            page = self.read([("a", GOOD), ("b", FORTY)])
            picture = page.all("figure")[0].all("svg")[0]
            self.assertEqual(picture["role"], "img")
            self.assertEqual(picture["aria-label"], "The molecule: 12 atoms, 13 bonds, 1 of them between placements")
            self.assertEqual([path["d"].count("M") for path in picture.all("path")], [12, 1])
            self.assertEqual(len(page.all("figure")), 1)
            self.assertIn("has no molecule to draw", page.all("footer")[0].text)
            with mock.patch.object(drawing, "LARGEST", 11):
                self.assertIn("Not drawn: too large", self.read([("a", GOOD)]).all("p", "undrawn")[0].text)
            with mock.patch.object(board, "DRAWN", 1):
                self.assertEqual(len(self.read([("a", GOOD), ("b", GOOD)]).all("p", "undrawn")), 1)

    def test_where_nothing_draws(self):
        with mock.patch.object(drawing, "there", lambda: False):
            page = self.read([("a", GOOD)])
        self.assertEqual(page.all("figure"), [])
        self.assertIn("There are no drawings: RDKit was not there", page.all("footer")[0].text)

    def test_loaded_when_it_draws(self):
        """RDKit takes long to load; no command but the board's waits for it."""
        with tempfile.TemporaryDirectory() as room:
            os.mkdir(os.path.join(room, "rdkit"))
            with open(os.path.join(room, "rdkit", "__init__.py"), "w", encoding="utf-8") as file:
                file.write("raise SystemExit('rdkit was loaded')\n")
            env = os.environ | {"PYTHONPATH": os.pathsep.join([room, PYTHON])}
            done = subprocess.run([sys.executable, "-m", "tteuyomal", "judge", "-"], input=GOOD, env=env, capture_output=True)
            self.assertEqual((done.returncode, done.stdout), (0, b"-: accepted\n"), done.stderr)


if __name__ == "__main__":
    unittest.main()
