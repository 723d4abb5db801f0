"""`tteuyomal check` against an independent reading: random records, whole and damaged, with random claims, in a table and as data items;
every verdict, refusal and place, and the verdict of every field. By hand; the last line is 'N passed, M failed'.

    make && python3 tests/records.py [RECORDS [SEED]]
"""

import collections
import csv
import io
import json
import math
import os
import random
import re
import subprocess
import sys
import tempfile

from common import PYTHON

FIELDS = ("atoms", "W", "even", "odd", "polarity", "largest", "Szeged", "Hosoya", "Merrifield-Simmons", "J")


# ---- the independent reading ----


class Refused(Exception):
    """A number and a place."""


def lines_of(data):
    """Each line's first byte and its characters."""
    at = 0
    while at < len(data):
        end = data.find(b"\n", at)
        line, following = (data[at:], len(data)) if end < 0 else (data[at:end].removesuffix(b"\r"), end + 1)
        yield at, line
        at = following


def three(field):
    """A field of three characters."""
    if not re.fullmatch(rb" *[0-9]+", field):
        return None
    return int(field)


def molecule(data):
    """Atoms and bonds of a molfile, and where its last line ends, by docs/RULES.md."""
    lines = list(lines_of(data))

    def line(k, least):
        if k >= len(lines):
            raise Refused(25, len(data))
        if len(lines[k][1]) < least:
            raise Refused(25, lines[k][0])
        return lines[k]

    for k in range(3):
        line(k, 0)
    at, counts = line(3, 6)
    atoms, bonds = three(counts[:3]), three(counts[3:6])
    if atoms is None or bonds is None:
        raise Refused(26, at)
    symbols = [line(4 + k, 32)[1][31:34].strip(b" ") for k in range(atoms)]
    ends = []
    for k in range(bonds):
        at, text = line(4 + atoms + k, 6)
        a, b = three(text[:3]), three(text[3:6])
        if a is None or b is None:
            raise Refused(26, at)
        if not (1 <= a <= atoms and 1 <= b <= atoms):
            raise Refused(27, at)
        ends.append((a, b))
    last = next((k for k in range(4 + atoms + bonds, len(lines)) if lines[k][1].startswith(b"M  END")), None)
    if last is None:
        raise Refused(25, len(data))
    named = collections.Counter(end for bond in ends for end in bond)
    other = {a: b for bond in ends for a, b in (bond, bond[::-1])}
    kept = [k for k in range(1, atoms + 1) if not (symbols[k - 1] == b"H" and named[k] == 1 and symbols[other[k] - 1] != b"H")]
    number = {k: place for place, k in enumerate(kept, 1)}
    return len(kept), [(number[a], number[b]) for a, b in ends if a in number and b in number], lines[last + 1 :]


def block(atoms, bonds):
    """The distances of a block, or its refusal."""
    if not 1 <= atoms <= 64:
        raise Refused(1, 0)
    if len(bonds) > 192:
        raise Refused(2, 0)
    near = [set() for _ in range(atoms + 1)]
    for place, (a, b) in enumerate(bonds, 1):
        if a == b:
            raise Refused(4, place)
        if b in near[a]:
            raise Refused(5, place)
        if len(near[a]) == 6 or len(near[b]) == 6:
            raise Refused(6, place)
        near[a].add(b)
        near[b].add(a)
    far = [[0] * (atoms + 1) for _ in range(atoms + 1)]
    for start in range(1, atoms + 1):
        seen, edge, depth = {start}, {start}, 0
        while edge:
            for one in edge:
                far[start][one] = depth
            edge = {other for one in edge for other in near[one]} - seen
            seen |= edge
            depth += 1
        if len(seen) < atoms:
            raise Refused(7, 0)
    return near, far


def fields_of(atoms, bonds, near, far):
    """The ten fields; the two of trees are None elsewhere, J is the least and the greatest that it may be, in units of 10^-9."""
    pairs = [far[i][j] for i in range(1, atoms + 1) for j in range(1, i)]
    found = [atoms, sum(pairs), sum(d for d in pairs if d % 2 == 0), sum(d for d in pairs if d % 2), pairs.count(3), max(pairs, default=0)]
    nearer = lambda a, b: sum(far[i][a] < far[i][b] for i in range(1, atoms + 1))
    found.append(sum(nearer(a, b) * nearer(b, a) for a, b in bonds))
    found += sets(near, 1, 0)[2:] if len(bonds) == atoms - 1 else [None, None]
    sums = [sum(row[1:]) for row in far]
    least = len(bonds) * sum(math.isqrt(10**18 // (sums[a] * sums[b])) for a, b in bonds) // (len(bonds) - atoms + 2) if bonds else 0
    return [*found, (least, least + 1 + len(bonds) ** 2 // (len(bonds) - atoms + 2))]


def sets(near, root, above):
    """Of the tree below an atom: sets of atoms with it, sets of bonds that leave it free, all sets of bonds, all sets of atoms."""
    under = [sets(near, one, root) for one in sorted(near[root]) if one != above]
    free = math.prod(one[2] for one in under)
    with_it, without = math.prod(one[3] - one[0] for one in under), math.prod(one[3] for one in under)
    return with_it, free, free + sum(free // one[2] * one[1] for one in under), with_it + without


def says(field, text, right):
    """What is told of one text: None where it is not read, else whether it is right."""
    text = text.strip(b" \t")
    found = re.fullmatch(rb"([0-9]+)(?:\.([0-9]*))?", text)
    if found is None:
        return None
    whole, behind = found.group(1), found.group(2) or b""
    if field < 10:
        if behind.strip(b"0") or int(whole) >= 2**64:
            return None
        return int(whole) == right
    digits = behind[:9]
    unit = 10 ** (9 - len(digits))
    if int(whole + digits) >= 2**64 or int(whole + digits) * unit >= 2**64:
        return None
    number = int(whole + digits) * unit
    return max(0, number - unit) <= right[1] and right[0] <= number + unit


def item(rest, size, name):
    """The value of a data item among the lines behind `M  END`."""
    tag = b"<" + name + b">"
    heads = [k for k, (_, line) in enumerate(rest) if line.startswith(b">") and tag in line]
    if len(heads) > 1:
        raise Refused(39, rest[heads[1]][0])
    if not heads or heads[0] + 1 == len(rest):
        return b""
    value = rest[heads[0] + 1][1]
    return b"" if value.startswith(b">") and re.search(rb"<.*>", value) else value


def told(data, asked, texts):
    """The verdict, the refusal, and the verdict of each field that is asked for; texts are None where they are data items."""
    try:
        atoms, bonds, rest = molecule(data)
        near, far = block(atoms, bonds)
        if texts is None:
            texts = {field: item(rest, len(data), FIELDS[field - 1].encode()) for field in asked}
    except Refused as fault:
        return "refused", fault.args, ["refused"] * len(asked)
    right = fields_of(atoms, bonds, near, far)
    each = []
    for field in asked:
        tree = field in (8, 9) and len(bonds) != atoms - 1
        said = says(field, texts[field], right[field - 1]) if texts[field].strip() else "none"
        each.append("no claim" if said == "none" else "not read" if said is None else "refused" if tree else "accepted" if said else "differs")
    for word in ("not read", "refused", "no claim", "differs"):
        if word in each:
            if word == "refused":
                return word, (34, 0), each
            return word, None, each
    return "accepted", None, each


# ---- random records ----


class Maker:
    """Random records with random claims."""

    def __init__(self, seed):
        self.chance = random.Random(seed)

    def graph(self):
        chance = self.chance
        atoms = chance.choice((1, 2, 3, 5, 8, 12, 16, 20, 25, 64, 65) if chance.random() < 0.1 else (4, 6, 7, 9, 11, 13))
        bonds = [(chance.randint(max(1, k - 4), k - 1), k) for k in range(2, atoms + 1)]
        for _ in range(chance.choice((0, 0, 0, 1, 2, 3)) if atoms > 2 else 0):
            bonds.append((chance.randint(1, atoms), chance.randint(1, atoms)))
        if chance.random() < 0.05 and bonds:
            bonds.pop(chance.randrange(len(bonds)))
        if chance.random() < 0.5:
            bonds = [bond for k, bond in enumerate(bonds) if bond[0] != bond[1] and not {bond, bond[::-1]} & set(bonds[:k])]
        chance.shuffle(bonds)
        symbols = [chance.choice(("C", "C", "N", "O", "H", "D", "He")) if chance.random() < 0.3 else "C" for _ in range(atoms)]
        for _ in range(chance.choice((0, 0, 2, 6))):
            symbols.append("H")
            bonds.append((chance.randint(1, atoms), len(symbols)))
        return symbols, bonds

    def record(self, title):
        symbols, bonds = self.graph()
        lines = [title, "  made", "", f"{len(symbols):3d}{len(bonds):3d}  0  0  0               999 V2000"]
        lines += [f"{self.chance.random():10.4f}{0:10.4f}{0:10.4f} {symbol:<3} 0  0  0  0" for symbol in symbols]
        lines += [f"{a:3d}{b:3d}  1  0" for a, b in bonds]
        lines += self.chance.choice(([], [], ["M  CHG  1   1   1"], [">  <W>", "1"]))
        return "\n".join([*lines, "M  END", ""]).encode()

    def damaged(self, data):
        chance, front = self.chance, data.index(b"\n") + 1
        how = chance.randrange(6)
        at = chance.randrange(front, len(data))
        if how == 0:
            return data[:at] + bytes([chance.choice(b" 0129HCx-\r")]) + data[at + 1 :]
        if how == 1:
            return data[:at] + data[at + 1 :]
        if how == 2:
            return data[:at] + bytes([chance.choice(b" 03H\n")]) + data[at:]
        if how == 3:
            return data[:at] + b"\n"
        if how == 4:
            return data.replace(b"M  END", b"M END")
        return data.replace(b"\n", b"\r\n")

    def text(self, right, field):
        """What a program may print for a number."""
        chance = self.chance
        if right is None:
            right = chance.randrange(50)
        if field == 10:
            number = chance.randint(*right) if chance.random() < 0.8 else right[0] + chance.randrange(-10**7, 10**8)
            whole = f"{max(0, number) // 10**9}.{max(0, number) % 10**9:09d}"
            return chance.choice((whole, whole[:6], whole[:3], whole[:9], whole + "123", whole + "x", f"-{whole}", whole.split(".")[0], " " + whole))
        number = right if chance.random() < 0.85 else max(0, right + chance.choice((-1, 1, 10)))
        forms = (f"{number}.0", f" {number}", f"{number}.", f"0{number}\t", f"{number}.000", f"{number}.5", f"+{number}", f"{number}e0", "nan", "inf",
                 "", " ", f"-{number}", f"{number} {number}", f"{number},", str(number + 2**64), f"{'0' * 30}{number}", f"{number}\xb2")  # fmt: skip
        return str(number) if chance.random() < 0.8 else chance.choice(forms)


def claims(maker, data, asked):
    """Texts for a record; random ones where it has no numbers."""
    try:
        atoms, bonds, _ = molecule(data)
        right = fields_of(atoms, bonds, *block(atoms, bonds))
    except Refused:
        right = [5] * 9 + [(10**9, 10**9 + 5)]
    return {field: maker.text(right[field - 1], field) for field in asked}


def run(folder, words):
    environment = os.environ | {"PYTHONPATH": PYTHON}
    done = subprocess.run([sys.executable, "-m", "tteuyomal", "check", *words, "--json"], cwd=folder, env=environment, capture_output=True)
    return [json.loads(line) for line in done.stdout.splitlines()]


def judged(count, seed, asked, with_table):
    """Makes an SDF, has it checked, and compares; how many were compared, what is otherwise, and the verdicts."""
    maker, expected, rows = Maker(seed), [], []
    with tempfile.TemporaryDirectory() as folder:
        with open(os.path.join(folder, "a.sdf"), "wb") as file:
            for k in range(count):
                data = maker.record(f"m{k}")
                texts = claims(maker, data, asked)
                if maker.chance.random() < 0.2:
                    data = maker.damaged(data)
                    data += b"" if data.endswith(b"\n") else b"\n"  # or the line behind it is none of its own
                encoded = {field: text.encode("latin-1" if not with_table else "utf-8") for field, text in texts.items()}
                if not with_table:
                    order = list(encoded) + ([maker.chance.choice(asked)] if maker.chance.random() < 0.02 else [])
                    data += b"".join(b">  <%s> (%d)\n%s\n\n" % (FIELDS[field - 1].encode(), k, encoded[field]) for field in order if maker.chance.random() < 0.98)
                elif maker.chance.random() < 0.02:
                    encoded = dict.fromkeys(asked, b"")
                else:
                    rows.append((f"m{k}", *texts.values()))
                file.write(data + b"$$$$\n")
                expected.append(told(data, asked, encoded if with_table else None))
        words = ["a.sdf", *(f"{FIELDS[field - 1]}={FIELDS[field - 1]}" for field in asked)]
        if with_table:
            maker.chance.shuffle(rows)
            table = io.StringIO()
            csv.writer(table).writerows([("name", *(FIELDS[field - 1] for field in asked)), *rows])
            with open(os.path.join(folder, "a.csv"), "w", encoding="utf-8", newline="") as file:
                file.write(table.getvalue())
            words.insert(1, "a.csv")
        found = run(folder, words)
    wrong = []
    for place, (right, one) in enumerate(zip(expected, found), 1):
        refusal = (one["refusal"]["number"], one["refusal"]["place"]) if "refusal" in one else None
        said = one["verdict"], refusal, list(one["fields"].values())
        if said != right:
            wrong.append((place, right, said))
    missing = abs(len(expected) - len(found))
    return len(expected), wrong, missing, collections.Counter(word if word != "refused" else f"refused {why[0]}" for word, why, _ in expected)


def main(words):
    count, seed = (int(words[0]) if words else 20_000), (int(words[1]) if len(words) > 1 else 1)
    passed = failed = 0
    for asked in ((2, 5), (1, 2, 3, 4, 5, 6, 7, 10), (2, 8, 9)):
        for with_table in (True, False):
            total, wrong, missing, verdicts = judged(count // 6 + 1, seed, asked, with_table)
            print(f"{' '.join(FIELDS[field - 1] for field in asked)}, {'a table' if with_table else 'data items'}: {dict(sorted(verdicts.items()))}", flush=True)
            for place, right, said in wrong[:5]:
                print(f"record {place}\n  right {right}\n  told  {said}")
            passed, failed, seed = passed + total - len(wrong), failed + len(wrong) + missing, seed + 1
    print(f"{passed} passed, {failed} failed")
    return 1 if failed else 0


if __name__ == "__main__":
    sys.exit(main(sys.argv[1:]))
