"""Real molecules of more than 64 atoms, by hand: every molfile and every record of every SDF in some folders.

    make && PYTHONPATH=python python3 compare/real_large.py FOLDER..

Each is read whole, cut, matched and judged by the library. The second opinion reads the file by its own code, holds the deck and the matching
against it, and searches the file's molecule from every atom; `compare` holds what the library tells of file, deck and matching against it,
with each matching damaged 100 times. The six fields that the second opinion finds for the file are claimed of the deck and must be accepted,
by claims and by a sheet, and with each field one too large must be told wrong there. Used: Debian's source packages of rdkit and openbabel,
unpacked. The last line is 'N passed, M failed'.
"""

import collections
import os
import subprocess
import sys
import tempfile
import time

from tteuyomal import cutting, files, native, sdf
from tteuyomal.decks import Deck
from tteuyomal.files import Found
from tteuyomal.native import Refused

ROOT = os.path.dirname(os.path.dirname(os.path.abspath(__file__)))
CARGO = ["cargo", "run", "--quiet", "--offline", "--release", "--manifest-path", os.path.join(ROOT, "compare", "Cargo.toml"), "--bin", "compare", "--"]
TOO_LARGE = 1


def large(folders, told):
    """The large molecules: where each stands, its bytes, and its molecule."""
    for found in files.find(folders):
        if sdf.form_of(found.name) is None or found.fault:
            continue
        told["files"] += 1
        try:
            for number, data in sdf.Reader(Found(found.name)):
                told["records"] += 1
                try:
                    native.read_molfile(data)
                    told["of up to 64 atoms"] += 1
                    continue
                except Refused as refusal:
                    if refusal.number != TOO_LARGE:
                        told["refused, whatever their size"] += 1
                        continue
                try:
                    yield f"{found.name}, record {number}", data, native.read_whole(data)
                except Refused as refusal:
                    told["no atom, or a file of another version" if refusal.number == 1 else f"large, refused {refusal.number}"] += 1
        except files.Unread:
            told["files that can't be read"] += 1


def judged(deck, six):
    """What is wrong where six fields are claimed of a deck: nothing, or a sentence."""
    claims = [(field, str(number)) for field, number in enumerate(six, 1)]
    if native.judge_claims(deck, claims) != 0 or native.judge(deck + native.sheet_record(six)) != 0:
        return "the fields of the file are not accepted"
    for field in range(6):
        wrong = [number + (k == field) for k, number in enumerate(six)]
        if native.judge_claims(deck, [(k, str(number)) for k, number in enumerate(wrong, 1)]) != field + 1:
            return f"field {field + 1} one too large is not told by claims"
        if native.judge(deck + native.sheet_record(wrong)) != field + 1:
            return f"field {field + 1} one too large is not told by a sheet"
    return ""


def main(folders):
    told, why, wrong = collections.Counter(), collections.Counter(), []
    sizes, seconds, names = [], [], {}
    with tempfile.TemporaryDirectory() as room:
        for place, data, molecule in large(folders, told):
            told["large"] += 1
            begun = time.perf_counter()
            try:
                made = cutting.matched(molecule)
            except cutting.Uncut as fault:
                why["in parts" if "parts" in str(fault) else "a ring system of more than 64 atoms" if "ring" in str(fault) else str(fault)] += 1
                continue
            except cutting.NotMatched as fault:
                wrong.append(f"{place}: {fault}")
                continue
            seconds.append(time.perf_counter() - begun)
            sizes.append((made.placements, made.blocks, molecule.atoms))
            if any(block.atoms > 64 for _, block in Deck.from_bytes(made.deck).blocks):
                wrong.append(f"{place}: a block of more than 64 atoms")
            name = os.path.join(room, f"{len(names):06}")
            names[name] = place, made.deck
            pairs = b"".join(number.to_bytes(2, "little") for pair in made.matching for number in pair)
            for end, content in ((".mol", data), (".deck", made.deck), (".pairs", pairs)):
                with open(name + end, "wb") as file:
                    file.write(content)
        run = subprocess.run([*CARGO, "--real", room, "--cases", "100"], capture_output=True, text=True)
    lines = run.stdout.splitlines()
    for line in lines:
        name, colon, fields = line.partition(".deck: ")
        if colon and name in names:
            place, deck = names.pop(name)
            fault = judged(deck, [int(number) for number in fields.split(",")])
            told["judged"] += not fault
            wrong += [f"{place}: {fault}"] if fault else []
    wrong += [f"{place}: nothing was said by the second opinion" for place, _ in names.values()]
    if run.returncode:
        wrong.append(f"compare ended with {run.returncode}: {' '.join(lines[-3:])} {run.stderr[-500:]}")
    for words in wrong[:20]:
        print(words)
    for words, count in told.items():
        print(f"{words}: {count}")
    for words, count in why.items():
        print(f"not cut, {words}: {count}")
    print(*lines[-2:], sep="\n")
    if sizes:
        most = [max(column) for column in zip(*sizes)]
        print(f"cut and matched: {len(sizes)}; at most {most[0]} placements, {most[1]} blocks, {most[2]} atoms; {max(seconds):.3f} s the slowest, {sum(seconds):.1f} s in all")
    print(f"{told['judged']} passed, {len(wrong)} failed")
    return 1 if wrong or not sizes else 0


if __name__ == "__main__":
    sys.exit(main(sys.argv[1:]))
