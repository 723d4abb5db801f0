"""Real codes judged in one line each, on the SDFs of Debian's rdkit-data and some made molecules; writes docs/CODES.md. By hand:

    apt-get install python3-rdkit rdkit-data libcdk-java default-jdk-headless python3-openbabel python3-igraph python3-networkx
    make && /usr/bin/python3 compare/codes/run.py [FOLDER]

FOLDER keeps the one SDF, the tables and what `tteuyomal check` said.
"""

import collections
import json
import os
import shutil
import subprocess
import sys
import tempfile

import printing

HERE = os.path.dirname(os.path.abspath(__file__))
ROOT = os.path.dirname(os.path.dirname(HERE))
SIX = [f"{name}={name}" for name in printing.FIELDS]
PACKAGES = ("rdkit-data", "python3-rdkit", "libcdk-java", "python3-openbabel", "python3-igraph", "python3-networkx")

# a code: what it was asked, its table, and the fields
CODES = [
    ("RDKit", "SDMolSupplier, GetDistanceMatrix", "rdkit", SIX),
    ("RDKit", "GetNumHeavyAtoms", "rdkit", ["atoms=heavy"]),
    ("RDKit", "BalabanJ", "rdkit", ["J=BalabanJ"]),
    ("RDKit", "removeHs=False, GetDistanceMatrix", "rdkit-hydrogens", SIX),
    ("RDKit", "GetDistanceMatrix(useBO=True)", "rdkit-orders", SIX[1:2] + SIX[5:]),
    ("CDK", "WienerNumbersDescriptor", "cdk", ["W=WPATH", "polarity=WPOL"]),
    ("CDK", "removeHydrogens, TopologicalMatrix", "cdk", SIX),
    ("CDK", "AtomCountDescriptor", "cdk", ["atoms=AtomCount"]),
    ("Open Babel", "DeleteHydrogens, OBMolAtomBFSIter", "openbabel", SIX),
    ("Open Babel", "NumHvyAtoms", "openbabel", ["atoms=heavy"]),
    ("Open Babel", "NumAtoms as read", "openbabel", ["atoms=read"]),
    ("Open Babel", "DeleteHydrogens, GetGTDVector", "openbabel", ["largest=gtd"]),
    ("igraph", "path_length_hist, diameter", "igraph", SIX),
    ("igraph", "average_path_length times pairs", "igraph", ["W=average"]),
    ("networkx", "wiener_index, diameter", "networkx", ["atoms=atoms", "W=W", "largest=largest"]),
]
VERDICTS = ("accepted", "differs", "refused", "not read", "no claim")


def printed(folder, path, name):
    """A table for each code of the molecules of an SDF."""
    tables = {
        "rdkit": printing.rdkit(path), "rdkit-hydrogens": printing.rdkit(path, removeHs=False), "rdkit-orders": printing.rdkit(path, useBO=True),
        "openbabel": printing.openbabel(path), "igraph": printing.igraph(path), "networkx": printing.networkx(path),
    }  # fmt: skip
    for code, rows in tables.items():
        printing.write(os.path.join(folder, f"{name}{code}.csv"), rows)
    with open(os.path.join(folder, f"{name}cdk.csv"), "wb") as file:
        command = ["java", "-cp", "/usr/share/java/*", os.path.join(HERE, "Cdk.java"), path]
        subprocess.run(command, check=True, stdout=file, stderr=subprocess.DEVNULL)


def gathered(folder):
    """The SDFs of rdkit-data as one, and their names."""
    listed = subprocess.run(["dpkg", "-L", "rdkit-data"], check=True, capture_output=True, text=True).stdout.split()
    parts = sorted(path for path in listed if path.endswith(".sdf"))
    with open(os.path.join(folder, "molecules.sdf"), "wb") as file:
        for part in parts:
            with open(part, "rb") as one:
                file.write(one.read())
    return [os.path.basename(part) for part in parts]


def checked(folder, molecules, table, fields):
    """The objects, what is said at the end, and the line that asked."""
    words = ["check", molecules, f"{table}.csv", *fields, "--by", "number"]
    environment = os.environ | {"PYTHONPATH": os.path.join(ROOT, "python")}
    run = subprocess.run([sys.executable, "-m", "tteuyomal", *words, "--json"], cwd=folder, env=environment, capture_output=True, text=True)
    found = [json.loads(line) for line in run.stdout.splitlines()]
    if not found:
        sys.exit(run.stderr)
    return found, run.stderr.splitlines(), "tteuyomal " + " ".join(words)


def counted(found):
    """How many of each verdict each field got."""
    counts = {}
    for one in found:
        for field, verdict in one["fields"].items():
            counts.setdefault(field, dict.fromkeys(VERDICTS, 0))[verdict] += 1
    return counts


def all_right(said):
    """The questions of which no field differs or is not read."""
    return {(code, asked) for code, asked, (found, _, _) in said if not any(counts["differs"] or counts["not read"] for counts in counted(found).values())}


def table_of(said):
    """The questions of which all is accepted; and a row for each other: the verdicts of its fields, those with the same ones together, and the smallest
    molecule that is not accepted."""
    right = all_right(said)
    yield "Accepted throughout: " + "; ".join(f"{code} {asked} ({', '.join(counted(found))})" for code, asked, (found, _, _) in said if (code, asked) in right) + ".\n\n"
    yield "| code | asked | accepted / differs / not read | the smallest that is not accepted |\n|---|---|---|---|\n"
    for code, asked, (found, told, _) in said:
        if (code, asked) in right:
            continue
        alike = {}
        for field, counts in counted(found).items():
            alike.setdefault((counts["accepted"], counts["differs"], counts["not read"], counts["no claim"]), []).append(field)
        cells = [f"{', '.join(fields)} {yes} / {no} / {unread}" + f", {none} not printed" * (none > 0) for (yes, no, unread, none), fields in alike.items()]
        shown = [words.strip() for words in told if (" differs: " in words or " not read: " in words) and words.startswith("  ")]
        yield f"| {code} | {asked} | {'; '.join(cells)} | {shown[0]} |\n"


def of_made(said, titles, right):
    """What codes print of the made molecules that is not accepted, where they were right on all real ones: of each question the first field that is wrong."""
    wrong = {}
    for code, asked, (found, _, _) in said:
        for one in found if (code, asked) in right else ():
            for field in [field for field, verdict in one["fields"].items() if verdict in ("differs", "not read")][:1]:
                wrong.setdefault(titles[one["record"] - 1], {}).setdefault((field, one["worked_out"][field]), []).append(f"{code} {asked} {one['claimed'][field]}")
    yield "| molecule | right | printed |\n|---|---|---|\n"
    for title, fields in wrong.items():
        for (field, worked_out), those in fields.items():
            yield f"| {title} | {field} {worked_out} | {'; '.join(those)} |\n"


def main(words):
    with tempfile.TemporaryDirectory() as room:
        folder = os.path.abspath(words[0]) if words else room
        os.makedirs(folder, exist_ok=True)
        parts = gathered(folder)
        shutil.copy(os.path.join(HERE, "made.sdf"), folder)
        for molecules, name in (("molecules.sdf", ""), ("made.sdf", "made-")):
            printed(folder, os.path.join(folder, molecules), name)
        query = ["dpkg-query", "-W", "-f", "${Package} ${Version}, ", *PACKAGES]
        versions = subprocess.run(query, check=True, capture_output=True, text=True).stdout.removesuffix(", ")
        real = [(code, asked, checked(folder, "molecules.sdf", table, fields)) for code, asked, table, fields in CODES]
        made = [(code, asked, checked(folder, "made.sdf", f"made-{table}", fields)) for code, asked, table, fields in CODES]
        titles = [record.partition("\n")[0] for record in printing.records(os.path.join(folder, "made.sdf"))]
    with open(os.path.join(HERE, "page.md"), encoding="utf-8") as file:
        text = file.read().replace("{files}", ", ".join(parts)).replace("{versions}", versions).replace("{records}", str(len(real[0][2][0])))
    refused = collections.Counter((one["refusal"]["number"], one["refusal"]["words"]) for one in real[0][2][0] if "refusal" in one)
    text = text.replace("{refused}", "; ".join(f"{count} by {number}, {words}" for (number, words), count in sorted(refused.items())))
    tables = {"table": table_of(real), "made": of_made(made, titles, all_right(real))}
    for name, lines in tables.items():
        text = text.replace(f"<!-- {name} -->\n", "".join(lines))
    with open(os.path.join(ROOT, "docs", "CODES.md"), "w", encoding="utf-8") as file:
        file.write(text)
    return 0


if __name__ == "__main__":
    sys.exit(main(sys.argv[1:]))
