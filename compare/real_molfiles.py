"""Real molfiles against RDKit, by hand: atoms, bonds and W of every file, and of the first record of every SDF.

    apt-get install python3-rdkit rdkit-data openbabel
    make && PYTHONPATH=python /usr/bin/python3 compare/real_molfiles.py FOLDER..

Of a list of SMILES (.smi) RDKit writes each molecule as a molfile, once with all its hydrogens and once without.
A file that the library reads must have the atoms, the bonds and W that RDKit's own reader finds once each H with one
bond, to an atom that isn't H, is left out. RDKit calls a D and a T of a file an H with an isotope; by docs/RULES.md the
symbol in the file decides, so it is looked up there. A refusal is held against the rules by what RDKit sees: 1 is a
molecule of 0 or more than 64 atoms, or a V3000 file, whose V2000 part says 0; 6 an atom of too many bonds, 7 one in parts.
The last lines are the figures of docs/BENCHMARKS.md.
"""

import collections
import os
import sys
import time

from rdkit import Chem, RDLogger

import tteuyomal
from tteuyomal import native

RDLogger.DisableLog("rdApp.*")
ENDINGS = (".mol", ".sdf", ".sd", ".mdl", ".smi")


def made(data):
    """Molfiles of the molecules of a list of SMILES."""
    for line in data.decode("latin-1").splitlines():
        words = line.split()
        molecule = Chem.MolFromSmiles(words[0]) if words else None
        if molecule is not None and molecule.GetNumAtoms() > 0:
            yield Chem.MolToMolBlock(molecule).encode("latin-1")
            yield Chem.MolToMolBlock(Chem.AddHs(molecule)).encode("latin-1")


def records(data):
    """The records of a file: one, or those of an SDF."""
    at = 0
    while at < len(data):
        end = data.find(b"\n$$$$", at)
        if end < 0:
            yield data[at:]
            return
        yield data[at : end + 1]
        at = data.find(b"\n", end + 1) + 1 or len(data)


def spelled_d_or_t(record):
    """Of each atom line whether its symbol is D or T; then no end of lines where it is not."""
    for line in record.split(b"\n")[4:]:
        yield line[31:34].strip() in (b"D", b"T")
    while True:
        yield False


def by_rdkit(record):
    """Atom count, bonds and W by RDKit, hydrogens left out by the rule; None where it can't read the record."""
    try:
        molecule = Chem.MolFromMolBlock(record.decode("latin-1"), sanitize=False, removeHs=False, strictParsing=False)
    except Exception:
        return None
    if molecule is None:
        return None
    is_h = [atom.GetAtomicNum() == 1 and not heavy for atom, heavy in zip(molecule.GetAtoms(), spelled_d_or_t(record))]
    drop = []
    for atom in molecule.GetAtoms():
        if is_h[atom.GetIdx()] and atom.GetDegree() == 1 and not is_h[atom.GetNeighbors()[0].GetIdx()]:
            drop.append(atom.GetIdx())
    editable = Chem.RWMol(molecule)
    for at in sorted(drop, reverse=True):
        editable.RemoveAtom(at)
    atoms = editable.GetNumAtoms()
    bonds = sorted(tuple(sorted((b.GetBeginAtomIdx() + 1, b.GetEndAtomIdx() + 1))) for b in editable.GetBonds())
    if atoms == 0:
        return 0, bonds, 0, 0, 0
    far = Chem.GetDistanceMatrix(editable, force=True)
    parts = len(Chem.GetMolFrags(editable))
    degree = max(atom.GetDegree() for atom in editable.GetAtoms())
    return atoms, bonds, int(sum(far[i][j] for i in range(atoms) for j in range(i))), parts, degree


def fits(refused, seen, record):
    """Whether a refusal is what RDKit's molecule asks for; True where RDKit can't say."""
    if b"V3000" in b"".join(record.split(b"\n")[3:4]):
        return refused.number == 1
    if seen is None:
        return True
    atoms, bonds, _, parts, degree = seen
    if refused.number == 1:
        return atoms == 0 or atoms > 64
    if refused.number == 2:
        return len(bonds) > 192
    if refused.number == 6:
        return degree > 6
    if refused.number == 7:
        return parts > 1
    return refused.number in (5, 25, 26, 27)


def main(folders):
    files = [os.path.join(path, name) for folder in folders for path, _, names in os.walk(folder) for name in sorted(names) if name.lower().endswith(ENDINGS)]
    told = collections.Counter()
    wrong = []
    ours = theirs = 0.0
    read_bytes = 0
    for path in files:
        with open(path, "rb") as file:
            data = file.read()
        for at, record in enumerate(made(data) if path.endswith(".smi") else records(data)):
            told["records"] += 1
            begin = time.perf_counter()
            try:
                block = native.read_molfile(record)
                fields = native.indices(block.atoms, block.bonds)
                refused = None
            except tteuyomal.Refused as fault:
                refused = fault
            middle = time.perf_counter()
            seen = by_rdkit(record)
            ours += middle - begin
            theirs += time.perf_counter() - middle
            read_bytes += len(record)
            if refused is not None:
                told[f"refused {refused.number}"] += 1
                if not fits(refused, seen, record):
                    wrong.append((path, at, str(refused), seen))
                continue
            told["read"] += 1
            if seen is None:
                told["read, RDKit can't"] += 1
                continue
            bonds = sorted(tuple(sorted(bond)) for bond in block.bonds)
            if (block.atoms, bonds, fields.w) != seen[:3]:
                wrong.append((path, at, (block.atoms, len(bonds), fields.w), seen))
            else:
                told["same atoms, bonds and W"] += 1
    for case in wrong[:20]:
        print("OTHER", *case)
    print(f"files {len(files)}, records {told.pop('records')}, {read_bytes} bytes; others: {len(wrong)}")
    for name, count in sorted(told.items()):
        print(f"| {name} | {count} |")
    print(f"seconds through Python: {ours:.1f} here, {theirs:.1f} in RDKit with its distances")
    return 1 if wrong else 0


if __name__ == "__main__":
    sys.exit(main(sys.argv[1:]))
