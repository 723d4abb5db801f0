#!/usr/bin/env python3
"""The board in a real browser: Chromium without a window, by its debugging pipe. Pictures go to target/board/.

    apt-get install -y chromium python3-rdkit     # where they are not there; RDKit is for the drawings
    make && /usr/bin/python3 tests/browser.py

The last line is 'N passed, M failed'.
"""

import base64
import datetime
import hashlib
import json
import os
import shutil
import subprocess
import sys
import tempfile
import time
import unittest

from common import FORTY, LIBRARY, PYTHON, RIGHT, RIGHT_SIX, ROOT, sheet, sheet_of_six

from tteuyomal import board, drawing, judging
from tteuyomal.judging import ACCEPTED, DIFFERS, REFUSED, Judged, Tally
from tteuyomal.run import Expected, Run

PICTURES = os.path.join(ROOT, "target", "board")
WIDE, TABLET, TELEPHONE, SMALL = (1280, 900), (768, 1000), (390, 844), (320, 700)


class Page:
    """A page of a browser that was started for it."""

    def __init__(self, file, size=WIDE, night=False, script=True):
        there, ours = os.pipe(), os.pipe()
        flags = ["--headless=new", "--no-sandbox", "--disable-gpu", "--hide-scrollbars", "--remote-debugging-pipe"]
        self.folder = tempfile.mkdtemp()
        program = shutil.which("chromium")
        plan = f'exec 3<&{there[0]} 4>&{ours[1]}; exec "$0" "$@"'
        self.process = subprocess.Popen(
            ["bash", "-c", plan, program, *flags, f"--user-data-dir={self.folder}", "about:blank"],
            pass_fds=(there[0], ours[1]),
            stdout=subprocess.DEVNULL,
            stderr=subprocess.DEVNULL,
        )
        os.close(there[0])
        os.close(ours[1])
        self.out, self.inward = os.fdopen(there[1], "wb", buffering=0), os.fdopen(ours[0], "rb", buffering=0)
        self.count, self.rest, self.asked, self.faults, self.session = 0, b"", [], [], None
        target = self.call("Target.createTarget", url="about:blank")["targetId"]
        self.session = self.call("Target.attachToTarget", targetId=target, flatten=True)["sessionId"]
        self.call("Page.enable")
        self.call("Network.enable")
        self.call("Log.enable")
        self.call("Runtime.enable")
        if not script:
            self.call("Emulation.setScriptExecutionDisabled", value=True)
        mobile = size[0] < 600
        self.call("Emulation.setDeviceMetricsOverride", width=size[0], height=size[1], deviceScaleFactor=1, mobile=mobile)
        self.scheme = {"name": "prefers-color-scheme", "value": "dark" if night else "light"}
        self.call("Emulation.setEmulatedMedia", features=[self.scheme])
        self.seconds = self.open(file)

    def open(self, file):
        """Opens a file; answers the seconds until it is there and drawn."""
        begun = time.monotonic()
        self.call("Page.navigate", url="file://" + file)
        while self.value("document.readyState") != "complete":
            time.sleep(0.01)
        self.call("Page.captureScreenshot", format="jpeg", quality=1)
        return time.monotonic() - begun

    def call(self, method, **params):
        self.count += 1
        message = {"id": self.count, "method": method, "params": params}
        if self.session:
            message["sessionId"] = self.session
        self.out.write(json.dumps(message).encode() + b"\0")
        while True:
            said = self._message()
            if said.get("method") == "Network.requestWillBeSent":
                self.asked.append(said["params"]["request"]["url"])
            if said.get("method") in ("Log.entryAdded", "Runtime.exceptionThrown"):
                self.faults.append(said["params"])
            if said.get("id") == self.count:
                if "error" in said:
                    raise RuntimeError(f"{method}: {said['error']}")
                return said["result"]

    def _message(self):
        while b"\0" not in self.rest:
            part = self.inward.read(1 << 16)
            if not part:
                raise RuntimeError("the browser has gone")
            self.rest += part
        said, self.rest = self.rest.split(b"\0", 1)
        return json.loads(said)

    def value(self, script):
        """What a script on the page gives."""
        said = self.call("Runtime.evaluate", expression=script, returnByValue=True, awaitPromise=True, userGesture=True)
        if "exceptionDetails" in said:
            raise RuntimeError(said["exceptionDetails"])
        return said["result"].get("value")

    def search(self, words):
        """Types some words; answers the milliseconds until what fits is laid out."""
        typed = "const i = document.querySelector('input'); i.value = %s; i.dispatchEvent(new Event('input'))" % json.dumps(words)
        return self.value("(() => { const t = performance.now(); %s; document.body.offsetHeight; return performance.now() - t })()" % typed)

    def paper(self):
        """From now on the page is as it is printed."""
        self.call("Emulation.setEmulatedMedia", media="print", features=[self.scheme])

    def picture(self, name):
        os.makedirs(PICTURES, exist_ok=True)
        shot = self.call("Page.captureScreenshot", format="png")
        with open(os.path.join(PICTURES, name + ".png"), "wb") as file:
            file.write(base64.b64decode(shot["data"]))

    def close(self):
        self.out.close()
        self.inward.close()
        self.process.terminate()
        self.process.wait(20)
        shutil.rmtree(self.folder, ignore_errors=True)


DECKS = {
    "ring-pair.deck": FORTY + RIGHT,
    "night/again.deck": FORTY + RIGHT,
    "even-and-odd-exchanged.deck": FORTY + sheet(12, 198, 102, 96, 14),
    "odd-by-one.deck": FORTY + sheet(12, 198, 96, 103, 14),
    "atoms-wrong.deck": FORTY + sheet(2**32 - 1, 2**64 - 1, 96, 102, 14),
    "bond-to-itself.deck": FORTY[:13] + b"\x02" + FORTY[14:] + RIGHT,
    "no-sheet.deck": FORTY,
    "six-fields.deck": FORTY + RIGHT_SIX,
    "largest-distance-wrong.deck": FORTY + sheet_of_six(12, 198, 96, 102, 14, 6),
    "library.deck": LIBRARY,
    "<script>hit=1</script>": FORTY + RIGHT,
    "<img src=x onerror=hit=1>": FORTY[:30],
    '" onmouseover="hit=1" x="': FORTY + sheet(1, 2, 3, 4, 5),
    "refused 7 is its name.deck": FORTY + RIGHT,
    "a-name-that-is-as-long-as-names-of-products-in-a-farm-of-codes-can-be-0123456789-0123456789-0123456789.deck": FORTY + RIGHT,
}
PARTS = bytes.fromhex("0A 00 01 00 01 00 04 00 02 00 01 02 03 04 08 00 02 00 01 00 01 00 00 00 00 00")
DECKS |= {f"salts/salt-{number}.deck": PARTS + sheet(4, 2, number, 0, 0) for number in range(8)}  # a block in two parts: refused 7


def run_of(hours=0, **more):
    """A run that began so many hours ago."""
    begun = datetime.datetime.now(datetime.timezone.utc) - datetime.timedelta(hours=hours)
    return Run(begun, "9d4aca62fd1822ab", "build-7", "decks/", "3.0.0", "dd" * 32, "")._replace(**more)


def rows_board(file, run, decks):
    """Writes the board of decks that were judged."""
    tally = Tally()
    with board.Page(run) as page, open(file, "wb") as out:
        for one in decks:
            page.add(board.row(one, "decks/"))
            tally.add(one.word)
        page.write(out, tally)
    return file


def many(count):
    """So many decks: of a thousand one is refused and one differs."""
    for number in range(count):
        name = f"decks/batch-{number // 1000:03d}/product-{number:06d}.deck"
        sha256 = hashlib.sha256(name.encode()).hexdigest()
        fields = (12, 198, 96, 102, 14)
        if number % 1000 == 7:
            yield Judged(name, REFUSED, sha256, 40, number=7, place=22, data=FORTY)
        elif number % 1000 == 8:
            yield Judged(name, DIFFERS, sha256, 80, 3, claimed=(12, 198, 97, 102, 14), worked=fields, data=FORTY + RIGHT)
        else:
            yield Judged(name, ACCEPTED, sha256, 80, claimed=fields, worked=fields, data=FORTY + RIGHT)


class Board(unittest.TestCase):
    @classmethod
    def setUpClass(cls):
        cls.folder = tempfile.mkdtemp()
        cls.addClassCleanup(shutil.rmtree, cls.folder)
        place = os.path.join(cls.folder, "decks")
        for name, data in DECKS.items():
            path = os.path.join(place, name)
            os.makedirs(os.path.dirname(path), exist_ok=True)
            with open(path, "wb") as out:
                out.write(data)
        cls.board = os.path.join(cls.folder, "board.html")
        command = [sys.executable, "-m", "tteuyomal", "board", place, "-o", cls.board]
        cls.status = subprocess.run(command, env=os.environ | {"PYTHONPATH": PYTHON}, stderr=subprocess.DEVNULL).returncode

    def page(self, *given, **more):
        page = Page(*given, **more)
        self.addCleanup(page.close)
        self.addCleanup(lambda: self.assertEqual(page.faults, []))
        return page

    def made(self, run, decks=({"a.deck": FORTY + RIGHT})):
        judged = [judging.judge_bytes("decks/" + name, data, hashlib.sha256(data).hexdigest()) for name, data in decks.items()]
        return rows_board(os.path.join(self.folder, f"{self.id()}-{time.monotonic_ns()}.html"), run, judged)

    def shown(self, page, what="refused, .deck.differs, .deck.accepted, .deck.unread"):
        """The names of the decks that can be seen."""
        return page.value(f"[...document.querySelectorAll('.deck.{what}')].filter(d => d.checkVisibility()).map(d => d.querySelector('.name').textContent)")

    def test_lights(self):
        page = self.page(self.board)
        page.picture("wide-day")
        self.assertEqual(self.status, 2)
        heads = page.value("[...document.querySelectorAll('.group')].map(g => g.dataset.kind + ' ' + g.dataset.count + (g.open ? ' open' : ''))")
        self.assertEqual(heads, ["refused 1 open", "refused 8", "refused 2 open", "refused 1 open"] + ["differs 1 open"] * 5 + ["accepted 6"])
        one = "[...new Set([...document.querySelectorAll('.deck')].map(d => d.className + %s))]"
        shapes = page.value(one % "d.querySelector('use').getAttribute('href')")
        self.assertEqual(len(shapes), 3, "each verdict has one shape of its own")
        colours = page.value(one % "getComputedStyle(d.querySelector('.light')).color")
        self.assertEqual((len(colours), len({one.split("rgb")[1] for one in colours})), (3, 3), "each verdict has one colour of its own")
        self.assertIn("17 of 23 decks not accepted", page.value("document.querySelector('h1').textContent"))
        wrong = page.value("[...document.querySelectorAll('.deck.differs')].map(a => a.querySelectorAll('td.wrong').length)")
        self.assertEqual(sorted(wrong), [1, 1, 2, 2, 5])
        last = "[...document.querySelectorAll('td.wrong')].map(t => t.parentNode.textContent).filter(t => t.startsWith('largest'))"
        self.assertEqual(page.value(last), ["largest distance67−1"])
        self.assertIn("tteuyomal library", page.value("document.querySelector('main').textContent"))
        self.assertEqual(page.value("document.querySelectorAll('figure svg[role=img][aria-label]').length"), 11 if drawing.there() else 0)
        self.assertFalse(page.value("document.querySelector('.still').checkVisibility()"))

    def test_names_are_words(self):
        page = self.page(self.board)
        self.assertEqual(page.value("typeof hit"), "undefined")
        self.assertEqual(page.value("document.querySelectorAll('script').length"), 1)
        self.assertEqual(page.value("document.querySelectorAll('img').length"), 0)
        names = page.value("[...document.querySelectorAll('.deck .name')].map(h => h.textContent)")
        self.assertEqual(sorted(names), sorted(DECKS))
        self.assertEqual([url for url in page.asked if not url.startswith(("file://" + self.board, "data:"))], [])
        page.value("document.querySelectorAll('.deck').forEach(a => a.dispatchEvent(new Event('mouseover', {bubbles: true})))")
        self.assertEqual(page.value("typeof hit"), "undefined")

    def test_search(self):
        page = self.page(self.board)
        salts = [f"salts/salt-{number}.deck" for number in range(8)]
        odd = sorted(["even-and-odd-exchanged.deck", "odd-by-one.deck", '" onmouseover="hit=1" x="'])
        digest = hashlib.sha256(DECKS["salts/salt-3.deck"]).hexdigest()
        for words, names in (
            ("refused 7", salts),
            ("REFUSED 07:", salts),
            ("salt-3 refused 7", ["salts/salt-3.deck"]),
            ("refused 8", []),
            ("differs odd", odd),
            ("differs: odd part", odd),
            ("differs 4", odd),
            ("differs even, odd", [name for name in odd if name != "odd-by-one.deck"]),
            ("EXCHANGED deck", ["even-and-odd-exchanged.deck"]),
            ('"refused 7"', ["refused 7 is its name.deck"]),
            ("accepted night", ["night/again.deck"]),
            ("cannot be read", []),
            (digest[:6], ["salts/salt-3.deck"]),
            (digest, ["salts/salt-3.deck"]),
            (digest[:5], []),
            ("no such deck at all", []),
        ):
            with self.subTest(words):
                page.search(words)
                self.assertEqual(sorted(self.shown(page)), sorted(names))
                self.assertEqual(page.value("document.querySelector('output').textContent"), f"Filtered by \u201c{words}\u201d: {len(names)} of 23 shown.")
                self.assertEqual(page.value("document.querySelector('.none').checkVisibility()"), not names)
        page.search("")
        self.assertEqual(page.value("document.querySelectorAll('.group[hidden]').length"), 0)
        self.assertEqual(page.value("document.querySelector('.group[data-number=\"7\"]').open"), False, "folded as it was before")
        page.search("refused 7")
        page.open(page.value("location.href").removeprefix("file://"))
        self.assertEqual(self.shown(page), salts, "a search can be linked to")

    def test_counts(self):
        page = self.page(self.board)
        before = self.shown(page)
        press = "document.querySelector('.controls button[data-kind=%s]').click()"
        pressed = "[...document.querySelectorAll('button[aria-pressed=true]')].map(b => b.dataset.kind)"
        for kind, count in (("accepted", 6), ("differs", 5), ("refused", 12)):
            page.value(press % kind)
            self.assertEqual((len(self.shown(page)), len(self.shown(page, kind)), page.value(pressed)), (count, count, [kind]))
            page.picture("only-" + kind)
        page.value(press % "refused")
        self.assertEqual((self.shown(page), page.value(pressed)), (before, []))
        page.search("deck")
        page.value(press % "differs")
        self.assertEqual(page.value("document.querySelector('input').value"), "differs deck")
        self.assertEqual(len(self.shown(page)), 4)
        self.assertTrue(page.value("document.querySelector('button.unread').disabled"))

    def fits(self, page):
        """Nothing stands beyond an edge; no number is broken, and each stands under or behind its head."""
        page.value("document.querySelectorAll('main details').forEach(d => d.open = true)")
        wide = page.value("[document.documentElement.scrollWidth, innerWidth]")
        self.assertLessEqual(*wide, "nothing stands beyond the edge")
        beyond = "[...document.querySelectorAll('.group *')].filter(one => one.getBoundingClientRect().right > one.closest('.group').getBoundingClientRect().right + 0.5)"
        self.assertEqual(page.value(beyond + ".map(one => one.outerHTML.slice(0, 80))"), [], "nothing is cut off at a deck's edge")
        lines = "const lines = one => { const r = document.createRange(); r.selectNodeContents(one); return new Set([...r.getClientRects()].map(b => Math.round(b.top))).size }"
        self.assertEqual(page.value(f"{{ {lines}; [...document.querySelectorAll('tbody td')].filter(one => lines(one) > 1).length }}"), 0, "a number is on one line")
        heads = """[...document.querySelectorAll('table')].filter(table => {
            const heads = [...table.tHead.rows[0].cells].map(one => one.getBoundingClientRect());
            const under = getComputedStyle(table.tHead).display !== 'none';
            return [...table.tBodies[0].rows].some(row => [...row.cells].some((cell, k) => under
                ? k > 0 && Math.abs(cell.getBoundingClientRect().right - heads[k].right) > 1
                : k > 0 && !/claimed|worked out|difference/.test(getComputedStyle(cell, '::before').content)));
        }).length"""
        self.assertEqual(page.value(heads), 0, "numbers stand with their heads")

    def test_every_width(self):
        for size in (WIDE, TABLET, TELEPHONE, SMALL):
            for night in (False, True):
                with self.subTest(size=size, night=night):
                    page = self.page(self.board, size, night)
                    name = f"{size[0]}-{'night' if night else 'day'}"
                    page.picture(name)
                    self.fits(page)
                    page.value("document.querySelector('.deck.differs').scrollIntoView()")
                    page.picture(name + "-below")
                    back = page.value("getComputedStyle(document.body).backgroundColor")
                    self.assertEqual(max(int(n) for n in back[4:-1].split(",")) < 40, night)

    def test_paper(self):
        for night in (False, True):
            page = self.page(self.board, (700, 990), night)
            page.search("refused")
            page.search("refused 7")
            page.paper()
            page.picture("paper-night" if night else "paper-day")
            self.fits(page)
            self.assertTrue(page.value("document.querySelector('output').checkVisibility()"))
            self.assertFalse(page.value("document.querySelector('input').checkVisibility()"))
            for what in ("body", "h1", ".said", "dt", "pre"):
                colour = page.value(f"getComputedStyle(document.querySelector('{what}')).color")
                self.assertLess(max(int(n) for n in colour[4:-1].split(",")), 120, "dark on white, by night too")
            page.search("")
            page.value("document.querySelectorAll('details').forEach(d => d.open = false)")
            self.assertEqual(len(self.shown(page)), 17, "what failed is on paper where it is folded")
            pdf = base64.b64decode(page.call("Page.printToPDF", paperWidth=8.27, paperHeight=11.69)["data"])
            self.assertLess(pdf.count(b"/Type /Page\n") + pdf.count(b"/Type /Page "), 6)

    def grey(self, page):
        """Whether the light over the whole and the one in the tab are grey."""
        light = page.value("getComputedStyle(document.querySelector('h1 .light')).color")
        icon = page.value("document.querySelector('link[rel=icon]').href")
        self.assertEqual(light == "rgb(118, 118, 118)", "%23767676" in icon)
        return light == "rgb(118, 118, 118)"

    def test_age(self):
        said = "document.querySelector('.age').textContent"
        for hours, words, grey in ((0, "judged less than a minute ago,", False), (0.51, "judged 30 min ago,", False), (23.9, "judged 23 h ago,", False),
                                   (24.1, "judged 24 h ago,", True), (26, "judged 26 h ago,", True), (80, "judged 3 days ago,", True)):  # fmt: skip
            page = self.page(self.made(run_of(hours)))
            self.assertEqual((page.value(said), self.grey(page)), (words, grey))
            self.assertEqual(page.value("document.querySelector('.old-words').checkVisibility()"), grey)
            self.assertEqual(page.value("document.title"), ("Old: " if grey else "") + "The one deck is accepted")
        page.picture("old")
        page = self.page(self.made(run_of(-1)))
        self.assertTrue(self.grey(page), "a board from the future is not believed")
        self.assertTrue(page.value("document.querySelector('.ahead-words').checkVisibility()"))
        page = self.page(self.made(run_of(23)))
        self.assertFalse(self.grey(page))
        page.value("{ const now = Date.now() + 7200000; Date.now = () => now; document.dispatchEvent(new Event('visibilitychange')) }")
        self.assertTrue(self.grey(page), "a page that is left open grows old")

    def test_all_accepted(self):
        page = self.page(self.made(run_of(replaced="/home/somebody/other.so", expected=Expected(1, manifest="decks.sha256"))))
        page.picture("all-accepted")
        self.assertEqual(page.value("document.querySelector('h1').className"), "accepted")
        self.assertFalse(self.grey(page))
        back = page.value("[...document.querySelectorAll('.warning')].filter(w => w.checkVisibility()).map(w => w.textContent)")
        self.assertEqual((len(back), "TTEUYOMAL_SO" in back[0]), (1, True))

    def test_expected(self):
        expected = Expected(3, tuple(f"gone-{number}" for number in range(250)), ("extra<b>",), ("a.deck",), "decks.sha256")
        page = self.page(self.made(run_of(expected=expected)))
        page.picture("expected")
        self.assertEqual(page.value("document.querySelector('h1').className"), "refused")
        page.search("missing gone-249")
        self.assertEqual(self.shown(page, "missing"), ["gone-249"])
        page.value("document.querySelector('button[data-kind=unlisted]').click()")
        self.assertEqual(self.shown(page, "unlisted"), [])
        page.search("not listed")
        self.assertEqual(self.shown(page, "unlisted"), ["extra<b>"])

    def test_nothing_and_failed(self):
        page = self.page(self.made(run_of(), {}))
        page.picture("empty")
        self.assertIn("Nothing was judged", page.value("document.querySelector('h1').textContent"))
        self.assertEqual(page.value("document.querySelectorAll('.accepted, .controls').length"), 0)
        failed = os.path.join(self.folder, "failed.html")
        with open(failed, "wb") as out:
            out.write(board.failed(run_of(), "a worker process was killed"))
        page = self.page(failed)
        page.picture("failed")
        self.assertEqual(page.value("document.querySelector('h1').className"), "refused")
        self.assertEqual(page.value("document.querySelector('.age').textContent"), "failed less than a minute ago,")

    def test_without_javascript(self):
        file = rows_board(os.path.join(self.folder, "still.html"), run_of(), many(2000))
        page = self.page(file, script=False)
        page.picture("without-javascript")
        self.assertTrue(page.value("document.querySelector('.still').checkVisibility()"))
        self.assertFalse(page.value("document.querySelector('input').checkVisibility()"))
        counts = page.value("[...document.querySelectorAll('.controls button')].map(b => b.innerText.trim())")
        self.assertEqual(counts, ["2 refused", "0 cannot be read", "2 differs", "1996 accepted"])
        self.assertEqual(len(self.shown(page)), 4)
        page.value("document.querySelectorAll('main details').forEach(d => d.open = true)")
        self.assertEqual(len(self.shown(page)) + page.value("document.querySelector('.rest pre').innerText.trim().split('\\n').length"), 2000)

    def test_a_hundred_thousand(self):
        file = rows_board(os.path.join(self.folder, "many.html"), run_of(), many(100_000))
        page = self.page(file)
        page.picture("many")
        self.assertIn("200 of 100000 decks not accepted", page.value("document.querySelector('h1').textContent"))
        said = [f"{os.path.getsize(file) / 1e6:.1f} MB, open after {page.seconds:.2f} s"]
        self.assertLess(page.seconds, 5)
        last = hashlib.sha256(b"decks/batch-099/product-099999.deck").hexdigest()
        for words, count in (("product-0999", 100), ("refused 7", 100), ("differs even", 100), ("accepted", 99800), (last[:10], 1), ("no such", 0), ("", 0)):
            took = page.search(words)
            said.append(f"'{words}' {took:.0f} ms")
            self.assertLess(took, 1000)
            if words:
                self.assertIn(f": {count} of 100000 shown.", page.value("document.querySelector('output').textContent"))
        page.search("accepted")
        self.assertEqual(len(self.shown(page)), 100)
        page.value("document.querySelector('.group.accepted .more button').click()")
        self.assertEqual(len(self.shown(page)), 200)
        page.value("[...document.querySelectorAll('.group.accepted .deck')].pop().open = true")
        deck = page.value("[...document.querySelectorAll('.group.accepted .deck')].pop().innerText").split()
        self.assertIn(hashlib.sha256(b"decks/batch-000/product-000201.deck").hexdigest(), deck)
        print("a hundred thousand decks:", ", ".join(said))


if __name__ == "__main__":
    if not shutil.which("chromium"):
        sys.exit("tests/browser.py: chromium is not there: apt-get install -y chromium")
    from run import main

    sys.exit(main([f"__main__.Board.{name}" for name in sys.argv[1:]] or ["__main__"]))
