"""docs/ARCHITECTURE.md is so: the recipe of an index names every file that an index touches, paths and theorems are there, and each crate has its group."""

import os
import re
import subprocess
import unittest

from common import ROOT, text

PAGE = text("docs", "ARCHITECTURE.md")
SKIPPED = ("made/", "wip/", "tools/")  # what is made; what is no part of the project yet; what turned an older text, once


def files():
    listed = subprocess.run(["git", "-C", ROOT, "ls-files"], capture_output=True, text=True)
    if listed.returncode == 0:
        return listed.stdout.splitlines()
    skipped = {".git", "target", "out", "__pycache__"}
    return [os.path.relpath(os.path.join(at, name), ROOT) for at, inner, names in os.walk(ROOT) if not skipped & set(at.split(os.sep)) for name in names]


class Architecture(unittest.TestCase):
    def test_recipe_of_an_index(self):
        recipe = PAGE[PAGE.index("**An index of a block.**") : PAGE.index("**A refusal.**")]
        said = [path for row in re.findall(r"^\| .* \|$", recipe, re.M) for path in re.findall(r"`([\w./-]+)`", row)]
        for index in ("szeged", "balaban"):
            named = [path.replace("NAME", index) for path in said if "/" in path or "." in path or path == "Makefile"]
            self.assertGreater(len(named), 40)
            for path in named:
                self.assertTrue(os.path.exists(os.path.join(ROOT, path)), path)
            for name in files():
                if name.startswith(SKIPPED) or not os.path.isfile(os.path.join(ROOT, name)):
                    continue
                with open(os.path.join(ROOT, name), encoding="utf-8", errors="replace") as file:
                    if index in file.read().lower():
                        self.assertTrue(any(name == path or path.endswith("/") and name.startswith(path) for path in named), f"the recipe does not name {name}")

    def test_files_and_names(self):
        """A file that is named as CRATE/specs/NAME is there; so is a theorem or a function that is named."""
        for path in re.findall(r"\b(\w+/(?:specs|src|proofs)/\w+\.\w+)", PAGE):
            path = path.replace("NAME", "szeged")
            self.assertTrue(os.path.exists(os.path.join(ROOT, "crates", path)) or os.path.exists(os.path.join(ROOT, path)), path)
        for crate, name in re.findall(r"`(\w+)::(\w+)`", PAGE):
            at = os.path.join(ROOT, "crates", crate, "src")
            if os.path.isdir(at):
                code = "".join(text(os.path.join(at, file)) for file in os.listdir(at) if file.endswith(".rt"))
                self.assertRegex(code, rf"\bfn {name}\b", f"{crate}::{name}")

    def test_proofs_are_short(self):
        """What `search rules` closes by itself has no answer: `docs/needs --write` takes it away."""
        said = subprocess.run([os.path.join(ROOT, "docs", "needs")], capture_output=True, text=True)
        self.assertEqual((said.returncode, said.stdout, said.stderr), (0, "", ""))

    def test_refusals(self):
        """The crates that the page says refuse have every number, each in its code or its definitions."""
        said = re.search(r"^Refusals come from (.*?); 9 from", PAGE, re.M)[1]
        numbers = set()
        for crate, span in re.findall(r"`(\w+)`[^(`]*\(([\d, to]+)\)", said):
            for first, last in re.findall(r"(\d+)(?: to (\d+))?", span):
                for number in range(int(first), int(last or first) + 1):
                    numbers.add(number)
        self.assertEqual(numbers | {9}, {int(n) for n in re.findall(r"^\| (\d+) \| .* \| .* \|$", text("docs", "RULES.md"), re.M)})
