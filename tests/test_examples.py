"""The examples are built and run by the commands that their own first lines give."""

import os
import re
import subprocess
import sys
import unittest

from common import JUDGED, PYTHON, ROOT, text

WARNED = {"gcc": ["-Wall", "-Wextra", "-Wpedantic", "-Werror"], "rustc": ["-D", "warnings"]}


def build_command(*path):
    """The command after `make` in an example's first lines, with its warnings turned to errors."""
    words = re.search(r"^\W+((?:gcc|rustc) .*)$", text(*path), re.M).group(1).split()
    return words[:1] + WARNED[words[0]] + words[1:]


class Examples(unittest.TestCase):
    def judges(self, *path):
        command = build_command(*path)
        built = subprocess.run(command, cwd=ROOT, capture_output=True, text=True)
        self.assertEqual((built.returncode, built.stderr), (0, ""))
        program = os.path.join(ROOT, command[command.index("-o") + 1])
        for deck, line in JUDGED:
            with self.subTest(line):
                run = subprocess.run([program], input=deck, capture_output=True)
                self.assertEqual(run.stdout.decode(), line + "\n")
                self.assertEqual(run.returncode, {"accepted": 0, "differs": 1, "refused": 2}[line.split()[0]])
        with open("/dev/full", "wb") as full:
            self.assertEqual(subprocess.run([program], input=JUDGED[0][0], stdout=full, stderr=subprocess.DEVNULL).returncode, 2)

    def test_c(self):
        self.judges("examples", "c", "judge.c")

    def test_rust(self):
        self.judges("examples", "rust", "judge.rs")

    def test_python(self):
        script = os.path.join(ROOT, "examples", "python", "judge.py")
        run = subprocess.run([sys.executable, script], capture_output=True, text=True, env=os.environ | {"PYTHONPATH": PYTHON})
        self.assertEqual((run.returncode, run.stderr), (0, ""))
        self.assertEqual(
            run.stdout.splitlines(),
            [
                "worked out: atoms 9 W 87 even 40 odd 47 polarity 9",
                "from atom 4 of the ring of 6 to atom 2 of the ring of 3: 5",
                "with its own sheet: accepted",
                "with a wrong W: differs 2",
                "without a sheet: refused 11 at 56",
                "a verdict is true only where the sheet was accepted",
                "each bond of the ring of 6 gives ['9/2', '9/2', '9/2', '9/2', '9/2', '9/2']",
            ],
        )
