"""What README and the pages show is so: every command with its output, every line of Python, decks byte by byte, and the files that they name."""

import contextlib
import io
import os
import re
import shlex
import shutil
import struct
import subprocess
import tempfile
import unittest
import warnings

from common import FORTY, LIBRARY, RIGHT, RIGHT_SIX, RING, ROOT, text

from tteuyomal import Block, Refused, command, commands, decktext

README, LIBRARIES, PAGE, RULES = text("README.md"), text("docs", "LIBRARIES.md"), text("docs", "COMMAND.md"), text("docs", "RULES.md")
PAGES = [README, text("CONTRIBUTING.md"), *(text("docs", name) for name in sorted(os.listdir(os.path.join(ROOT, "docs"))) if name.endswith(".md"))]
EXAMPLES = os.path.join(ROOT, "examples", "desk")
SPELLED = r"^    ((?:[0-9A-F]{2} )+) "
# what README names and this file does not run: who runs it
ELSEWHERE = {
    "make": "tests/run.py needs what it makes",
    "pip install ./python": "tests/test_package.py",
    "gcc -O2 -Iinclude examples/c/judge.c target/staticlib/libtteuyomal.a -o target/judge-c": "tests/test_examples.py, by the first lines of judge.c",
}


def indented(first, page=README):
    """The indented lines from one that begins so to the first that is not indented."""
    lines = page[page.index("    " + first) :].splitlines()
    end = next((k for k, line in enumerate(lines) if line and not line.startswith("    ")), len(lines))
    return "\n".join(line[4:] for line in lines[:end]) + "\n"


class Shown(unittest.TestCase):
    """In a folder that has the files of examples/desk."""

    maxDiff = None

    def setUp(self):
        self.addCleanup(os.chdir, os.getcwd())
        room = tempfile.TemporaryDirectory()
        self.addCleanup(room.cleanup)
        os.chdir(room.name)
        for name in os.listdir(EXAMPLES):
            shutil.copy(os.path.join(EXAMPLES, name), room.name)

    def said(self, words):
        """What a command prints, and its exit status."""
        out = io.TextIOWrapper(io.BytesIO(), "utf-8")
        with contextlib.redirect_stdout(out), contextlib.redirect_stderr(io.StringIO()):
            status = command.main(words[1:])
        return out.buffer.getvalue().decode(), status

    def shown(self, page):
        """Runs the lines of a page that begin with $ and holds what they print against what follows them. Answers the commands and their statuses."""
        ran, wanted, printed = [], [], []
        for line in re.findall(r"^    (.*)$", page[page.index("    $ ") :].split("\n\n")[0], re.M):
            if not line.startswith("$ "):
                wanted.append(line)
                continue
            words = shlex.split(line[2:], comments=True)
            if words[0] == "cd":
                self.assertEqual(os.path.join(ROOT, *words[1].split("/")), EXAMPLES)
                continue
            self.assertEqual(wanted, printed)
            out, status = self.said(words)
            ran.append((words[1], status))
            printed, wanted = out.splitlines(), []
        self.assertEqual(wanted, printed)
        return ran


class Readme(Shown):
    def test_demonstration(self):
        self.assertEqual(self.shown(README), [("deck", 0), ("judge", 0), ("deck", 0), ("judge", 1), ("check", 1)])

    def test_every_command(self):
        """Each indented line of README is a command that is run here or, as ELSEWHERE says, by another test, what it prints, or Python."""
        demonstration, python = indented("$ cd").splitlines(), indented("from tteuyomal import").splitlines()
        lines = [line.partition("#")[0].strip() for line in re.findall(r"^    (.*)$", README, re.M) if line not in (*demonstration, *python)]
        self.assertEqual(lines, [line for line in ELSEWHERE if not line.startswith("gcc")])
        (built,) = [line for line in python if line.startswith("gcc")]
        self.assertIn(built, ELSEWHERE)
        self.assertIn(f" *     {built}\n", text("examples", "c", "judge.c"))
        for target in re.findall(r"`make (\w+)`", README):
            self.assertRegex(text("Makefile"), rf"(?m)^{target}\b.*:|^(\w+ )*{target}( \w+)*:")

    def test_table_of_commands(self):
        """Every command has its row, and its options are there; the first row is run as it stands, and the one of `verify`."""
        rows = [row for row in re.findall(r"^\| (`tteuyomal .*?) \|", README, re.M)]
        calls = [shlex.split(one) for row in rows for one in re.findall(r"`(tteuyomal [^`]*)`", row)]
        self.assertEqual({call[1] for call in calls}, {one.NAME for one in commands.ALL})
        (names,) = (action.choices for action in command._parser()._actions if action.choices)
        for call in calls:
            there = {option for action in names[call[1]]._actions for option in action.option_strings}
            self.assertLessEqual({word for word in call if word.startswith("-")}, there)
        self.said(shlex.split("tteuyomal deck product.toml -o product.deck"))
        os.mkdir("decks")
        for number in range(200):
            shutil.copy("product.deck", f"decks/product-{number}.deck")
        verify = ["tteuyomal", "verify", "notice.txt", "decks/"]
        self.assertEqual([self.said(words)[1] for words in (calls[0], verify)], [0, 0])
        os.unlink("decks/product-17.deck")
        self.assertEqual([self.said(words)[1] for words in (verify, calls[0])], [2, 2], "of 200 one is missing")

    def test_python(self):
        """Line by line: what it says behind a line is what it prints."""
        lines = [line for line in indented("from tteuyomal import").splitlines() if line and not line.startswith("gcc")]
        self.assertLessEqual(len(lines), 6)
        out, names = io.StringIO(), {}
        with contextlib.redirect_stdout(out), warnings.catch_warnings():
            warnings.simplefilter("ignore", ResourceWarning)
            exec("\n".join(lines), names)
        self.assertEqual(out.getvalue().splitlines(), [line.partition("# ")[2] for line in lines if "#" in line])
        self.assertEqual(bytes(names["deck"]), FORTY)

    def test_links(self):
        """Every page and file that a page leads to is there."""
        for page in PAGES:
            for path in re.findall(r"\]\(([^)#:]+)\)|(?<![\w/.])((?:docs|tests|compare|packages|examples|crates|include|made|rust|python)/[\w./-]*\w)", page):
                path = (path[0] or path[1]).rstrip("/").replace("NAME", "szeged")
                if not path.startswith(("python/lib", "target")):
                    self.assertTrue(os.path.exists(os.path.join(ROOT, path)), path)

    def test_length(self):
        self.assertLessEqual(README.count("\n"), 90)


class Pages(Shown):
    """The other pages."""

    def test_bytes(self):
        spelled = re.findall(SPELLED, RULES, re.M)
        self.assertEqual(bytes.fromhex("".join(spelled)), FORTY + RIGHT[:4] + RIGHT_SIX[:4])
        self.assertEqual(struct.unpack("<IQQQQ", RIGHT[4:]), tuple(map(int, re.search(r"kind 3: then (.*)", RULES)[1].split(", "))))
        record = bytes.fromhex("".join(re.findall(SPELLED, LIBRARIES, re.M)))
        self.assertEqual(LIBRARY, Block(6, RING).record(1) + Block(1, []).record(2) + record)

    def test_examples(self):
        """The files of examples/desk are what the pages say of them."""
        made = [decktext.made(text("examples", "desk", f"{name}.toml")) for name in ("product", "wrong", "library")]
        self.assertEqual(made, [FORTY + RIGHT, FORTY + RIGHT.replace(b"\x60", b"\x61"), LIBRARY])
        for name, fields in (("naphthalene", (10, 109, 52, 57, 12)), ("benzene", (6, 27, 12, 15, 3)), ("methane", (1, 0, 0, 0, 0))):
            self.assertEqual(Block.from_molfile(text("examples", "desk", f"{name}.mol")).measure().fields(), fields)

    def test_libraries(self):
        """The commands on a library, and what they print; the lines of Python."""
        self.assertEqual(self.shown(LIBRARIES), [("deck", 0)] + [("library", 0)] * 3)
        self.assertEqual(self.said(shlex.split("tteuyomal library library.deck --csv -o products.csv"))[1], 0)
        with open("products.csv", encoding="utf-8") as file:
            self.assertTrue(file.readline().startswith("position,block_1,atom_1,"))
        self.assertEqual(self.said(shlex.split("tteuyomal library library.deck --from 2 --count 1"))[1], 2)
        out = io.StringIO()
        with contextlib.redirect_stdout(out), warnings.catch_warnings():
            warnings.simplefilter("ignore", ResourceWarning)
            exec(indented("from tteuyomal import Library", LIBRARIES), {})
        self.assertIn("(13, 252, 124, 128, 16, 8)", out.getvalue())

    def test_python_of_the_command(self):
        """Line by line: what it says behind a call is what the call tells."""
        names, told = {}, 0
        for line in indented("from tteuyomal import Block, Placement, Table", PAGE).splitlines():
            call, _, words = line.partition("# ")
            if not re.match(r"atoms|refused|\d", words):
                exec(line, names)
                continue
            try:
                reply = eval(call, names)
            except Refused as refusal:
                reply = refusal
            told += 1
            self.assertTrue(words == str(reply) or words.startswith(f"{reply}: "), line)
        self.assertEqual(told, 6)

    def test_signing(self):
        """What docs/COMMAND.md says of ssh-keygen is so."""
        if not shutil.which("ssh-keygen"):
            self.skipTest("ssh-keygen is not there (Debian: openssh-client)")
        signed, verified = (line.strip() for line in PAGE.splitlines() if line.startswith("    ssh-keygen -Y"))
        room = os.getcwd()
        os.mkdir(".ssh")
        key = os.path.join(room, ".ssh", "id_ed25519")
        with open("notice.txt", "w", encoding="utf-8") as file:
            file.write("Notice of judged decks\n")
        run = lambda words: subprocess.run(["bash", "-c", words], env=os.environ | {"HOME": room}, capture_output=True).returncode
        self.assertEqual(run(f"ssh-keygen -q -t ed25519 -N '' -f {key} && echo clerk@example.org $(cat {key}.pub) >signers"), 0)
        self.assertEqual((run(signed.replace("~", room)), run(verified)), (0, 0))
        self.assertEqual(run("echo more >>notice.txt && " + verified), 255)
