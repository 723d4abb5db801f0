"""How many small decks (two rings of 6) the command and the package judge in a second, and how many records of an SDF `check` holds
against a table: molecules of 15 to 30 atoms and some hydrogens, 3.4 KB each, rows in another order.

    make && python3 tests/speed.py [DECKS [RECORDS]]

Prints the time on the clock, the processor time of all processes together, and decks a second by each: on a machine that does other
work too, the processor time says what two free cores would do.
"""

import os
import random
import resource
import subprocess
import sys
import tempfile
import time

from common import FORTY, PYTHON, RIGHT

import tteuyomal

DECK = FORTY + RIGHT


def processor_time():
    """What this process and the children that ended used."""
    return sum(one.ru_utime + one.ru_stime for one in map(resource.getrusage, (resource.RUSAGE_SELF, resource.RUSAGE_CHILDREN)))


def told(what, count, cores, work):
    clock, used = time.perf_counter(), processor_time()
    work()
    clock, used = time.perf_counter() - clock, processor_time() - used
    print(f"| {what} | {count} | {clock:.2f} s | {count / clock:,.0f} | {used:.2f} s | {cores * count / used:,.0f} |")


def molecules(room, count):
    """An SDF of so many records, and a table with W and polarity of each."""
    chance, kinds = random.Random(5), []
    for _ in range(200):
        atoms = chance.randint(15, 30)
        bonds = [(chance.randint(max(1, k - 3), k - 1), k) for k in range(2, atoms + 1)]
        block = tteuyomal.Block(atoms, bonds)
        hydrogens = [(chance.randint(1, atoms), atoms + 1 + k) for k in range(atoms * 5 // 6)]
        lines = ["", "  made", "", f"{atoms + len(hydrogens):3d}{len(bonds) + len(hydrogens):3d}  0  0  0  0  0  0  0  0999 V2000"]
        lines += [f"    0.0000    0.0000    0.0000 {symbol}   0  0  0  0  0  0  0  0  0  0  0  0" for symbol in "C" * atoms + "H" * len(hydrogens)]
        lines += [f"{a:3d}{b:3d}  1  0  0  0  0" for a, b in bonds + hydrogens]
        try:
            kinds.append(("\n".join([*lines, "M  END", "$$$$", ""]), block.measure()))
        except tteuyomal.Refused:  # seven bonds at an atom
            pass
    chosen = [chance.choice(kinds) for _ in range(count)]
    with open(os.path.join(room, "a.sdf"), "w", encoding="ascii") as file:
        file.writelines(f"compound {k}{text}" for k, (text, _) in enumerate(chosen))
    rows = [f"compound {k},{sheet.w},{sheet.polarity}\n" for k, (_, sheet) in enumerate(chosen)]
    chance.shuffle(rows)
    with open(os.path.join(room, "a.csv"), "w", encoding="ascii") as file:
        file.writelines(["name,W,P\n", *rows])
    return os.path.getsize(os.path.join(room, "a.sdf")) // count


def check(count):
    with tempfile.TemporaryDirectory() as room:
        size = molecules(room, count)
        for jobs in ("1", "2"):
            command = [sys.executable, "-m", "tteuyomal", "check", "a.sdf", "a.csv", "W=W", "polarity=P", "-j", jobs]
            run = lambda: subprocess.run(command, cwd=room, env=os.environ | {"PYTHONPATH": PYTHON}, stdout=subprocess.DEVNULL, check=True)
            told(f"SDF of {size} bytes a record and a table, check -j {jobs}", count, int(jobs), run)
    most = resource.getrusage(resource.RUSAGE_CHILDREN).ru_maxrss
    print(f"\nAt most {most // 1024} MB in one process.")


def main(count, records):
    print("| what | decks | clock | decks a second | processor time | decks a second by it |\n|---|---|---|---|---|---|")
    decks = [bytes(bytearray(DECK)) for _ in range(count)]
    told("in memory, judge_many, one core", count, 1, lambda: tteuyomal.judge_many(decks))
    with tempfile.TemporaryDirectory() as room:
        for number, deck in enumerate(decks):
            folder = os.path.join(room, f"{number // 1000:04d}")
            os.makedirs(folder, exist_ok=True)
            with open(os.path.join(folder, f"{number:07d}.deck"), "wb") as file:
                file.write(deck)
        for what, words in (("file tree, judge -j 2", ["judge", "-j", "2"]), ("file tree, judge --json -j 2", ["judge", "--json", "-j", "2"])):
            command = [sys.executable, "-m", "tteuyomal", *words, room]
            run = lambda: subprocess.run(command, env=os.environ | {"PYTHONPATH": PYTHON}, stdout=subprocess.DEVNULL, check=True)
            told(what, count, 2, run)
    check(records)


if __name__ == "__main__":
    main(*(int(sys.argv[k]) if len(sys.argv) > k else 100_000 for k in (1, 2)))
