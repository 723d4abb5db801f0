"""The command against the second opinion: random decks in a folder, `tteuyomal judge --json` on it, every verdict and every field
compared with what compare/ says of the same bytes. The last line is 'N passed, M failed'.

    make && python3 tests/opinion.py [CASES [SEED]]
"""

import json
import os
import subprocess
import sys
import tempfile

from common import PYTHON, ROOT

CARGO = ["cargo", "run", "--quiet", "--offline", "--release", "--manifest-path", os.path.join(ROOT, "compare", "Cargo.toml"), "--bin", "decks", "--"]


def told(line):
    """The line that the second opinion has for what an object says."""
    said = json.loads(line)
    words = f"{said['file']}: {said['verdict']}"
    if said["verdict"] == "differs":
        words += f" {said['field']}"
    if said["verdict"] == "refused":
        return f"{words} {said['refusal']['number']} at {said['refusal']['place']}"
    return f"{words} | {' '.join(f'{key} {number}' for key, number in said['worked_out'].items())}"


def main(words):
    with tempfile.TemporaryDirectory() as room:
        folder = os.path.join(room, "decks")
        os.mkdir(folder)
        right = subprocess.run([*CARGO, folder, *words], check=True, capture_output=True, text=True).stdout.splitlines()
        command = [sys.executable, "-m", "tteuyomal", "judge", "--json", folder]
        run = subprocess.run(command, capture_output=True, text=True, env=os.environ | {"PYTHONPATH": PYTHON})
        found = [told(line) for line in run.stdout.splitlines()]
    wrong = [(one, other) for one, other in zip(right, found) if one != other]
    for one, other in wrong[:10]:
        print(f"right: {one}\nfound: {other}")
    counts = {}
    for line in right:
        verdict = line.split(": ")[1].split(" at ")[0].split(" | ")[0]
        counts[verdict] = counts.get(verdict, 0) + 1
    print(", ".join(f"{word}: {count}" for word, count in sorted(counts.items())))
    failed = len(wrong) + abs(len(right) - len(found)) + (run.returncode != 2)
    print(f"{len(right) - len(wrong)} passed, {failed} failed")
    return 1 if failed else 0


if __name__ == "__main__":
    sys.exit(main(sys.argv[1:]))
