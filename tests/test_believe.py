"""docs/BELIEVE.md is so: its counts are those of the files, and the archive calls nothing that it does not name."""

import os
import re
import subprocess
import unittest

from common import ARCHIVE, ROOT, text

PAGE = text("docs", "BELIEVE.md")


class Believe(unittest.TestCase):
    def test_counts(self):
        """The definitions of the judge, file by file; the numbers of edits, of kept inputs and of the documents' numbers."""
        said = subprocess.run([os.path.join(ROOT, "docs", "count"), "--believe", "--check"], capture_output=True, text=True)
        self.assertEqual((said.returncode, said.stderr), (0, ""), "run docs/count --believe --write")
        files = re.findall(r"^\| (crates/\S+) \| (\d+) \| (\d+) \|$", PAGE, re.M)
        total = re.search(r"^\| the judge: (\d+) files \| (\d+) \| (\d+) \|$", PAGE, re.M).groups()
        self.assertEqual(tuple(map(int, total)), (len(files), sum(int(n) for _, n, _ in files), sum(int(n) for _, _, n in files)))
        self.assertTrue(any(name.endswith("graph/specs/Graph.antt") for name, _, _ in files))
        for name, _, _ in files:
            self.assertTrue(text(*name.split("/")).startswith("-- Definitions."), name)

    def test_the_archive_calls(self):
        listed = subprocess.run(["nm", "--undefined-only", ARCHIVE], capture_output=True, text=True, check=True).stdout
        self.assertEqual(set(re.findall(r"^ +U (\w+)$", listed, re.M)), {"memcpy", "memset"})
        self.assertIn("memcpy and memset of the C library", PAGE)


class Benchmarks(unittest.TestCase):
    """docs/BENCHMARKS.md: goals that a slower library would miss, and the stack as the code in made/ has it."""

    PAGE = text("docs", "BENCHMARKS.md")

    def test_goals(self):
        rows = re.findall(r"^\| (.*?) \| [\d.]+ .s \| ([\d.]+) \| ([\d.]+) \|$", self.PAGE.split("\n## ")[1], re.M)
        self.assertGreater(len(rows), 25)
        behind = [name for name, ratio, goal in rows if float(goal) < 0.895 * float(ratio)]
        older = {"judge, 32 paths of 64 atoms", "compose, 32 paths of 64 atoms"} if "are of version 3.0.0" in self.PAGE else set()
        self.assertLessEqual(set(behind), older, "the goal of a row is at least nine tenths of what is reached")

    def test_stack(self):
        said = subprocess.run([os.path.join(ROOT, "compare", "stack"), "--check"], capture_output=True, text=True)
        self.assertEqual((said.returncode, said.stderr), (0, ""), "run compare/stack --write")
        (asked,) = re.findall(r"^#define TTEUYOMAL_STACK_BYTES (\d+)$", text("include", "tteuyomal.h"), re.M)
        self.assertIn(f"The header asks for {int(asked):,}.", self.PAGE)
