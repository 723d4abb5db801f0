"""What RDKit, Open Babel, igraph and networkx print of each record of an SDF, each as a user would ask it: a table for each code."""

import csv

FIELDS = ("atoms", "W", "even", "odd", "polarity", "largest")


def records(path):
    """The records as a script cuts them."""
    with open(path, encoding="latin-1", newline="") as file:
        text = file.read().replace("\r\n", "\n")
    return [part.removeprefix("\n") if not part.startswith("\n\n") else part[1:] for part in ("\n" + text).split("\n$$$$") if part.strip()]


def of_distances(far):
    """The fields of a matrix of distances, as a script adds them up; numbers stay what the matrix has."""
    count = len(far)
    pairs = [far[i][j] for i in range(count) for j in range(i)]
    even, odd = (sum(d for d in pairs if d % 2 == rest) for rest in (0, 1))
    return [count, sum(pairs), even, odd, sum(1 for d in pairs if d == 3), max(pairs, default=0)]


def rdkit(path, **how):
    """RDKit's reader, GetDistanceMatrix and BalabanJ."""
    from rdkit import Chem, RDLogger
    from rdkit.Chem import GraphDescriptors

    RDLogger.DisableLog("rdApp.*")
    orders = how.pop("useBO", False)
    yield ("record", *FIELDS, "heavy", "BalabanJ")
    for number, molecule in enumerate(Chem.SDMolSupplier(path, **how), 1):
        if molecule is None:
            yield (number, *[""] * 8)
            continue
        far = Chem.GetDistanceMatrix(molecule, useBO=orders).tolist()
        try:
            fine = GraphDescriptors.BalabanJ(molecule)
        except Exception:
            fine = ""
        yield (number, *of_distances(far), molecule.GetNumHeavyAtoms(), fine)


def openbabel(path):
    """Open Babel's reader; DeleteHydrogens and the search by its iterator; its GTD vector; the atoms as read."""
    from openbabel import openbabel as ob

    ob.obErrorLog.SetOutputLevel(0)
    conversion = ob.OBConversion()
    conversion.SetInFormat("sdf")
    yield ("record", *FIELDS, "heavy", "gtd", "read")
    for number, record in enumerate(records(path), 1):
        molecule = ob.OBMol()
        if not conversion.ReadString(molecule, record + "\n$$$$\n"):
            yield (number, *[""] * 9)
            continue
        read, heavy = molecule.NumAtoms(), molecule.NumHvyAtoms()
        molecule.DeleteHydrogens()
        far = [[0] * molecule.NumAtoms() for _ in range(molecule.NumAtoms())]
        for start in range(molecule.NumAtoms()):
            for atom, depth in ob.OBMolAtomBFSIter(molecule, start + 1):
                far[start][atom.GetIdx() - 1] = depth - 1
        gtd = ob.vectorInt()
        molecule.GetGTDVector(gtd)
        yield (number, *of_distances(far), heavy, max(gtd, default=""), read)


def edges(record):
    """Atoms and bonds of a molfile, hydrogens left out by the rule."""
    lines = record.split("\n")
    atoms, bonds = int(lines[3][:3]), int(lines[3][3:6])
    symbols = [line[31:34].strip() for line in lines[4 : 4 + atoms]]
    ends = [(int(line[:3]) - 1, int(line[3:6]) - 1) for line in lines[4 + atoms : 4 + atoms + bonds]]
    partners = [[b if a == k else a for a, b in ends if k in (a, b)] for k in range(atoms)]
    kept = [k for k in range(atoms) if not (symbols[k] == "H" and len(partners[k]) == 1 and symbols[partners[k][0]] != "H")]
    place = {k: at for at, k in enumerate(kept)}
    return len(kept), [(place[a], place[b]) for a, b in ends if a in place and b in place]


def igraph(path):
    """igraph's histogram of path lengths, its diameter, and its average times the number of pairs."""
    import igraph

    yield ("record", *FIELDS, "average")
    for number, record in enumerate(records(path), 1):
        count, bonds = edges(record)
        graph = igraph.Graph(count, bonds)
        bins = {int(start): size for start, _, size in graph.path_length_hist(directed=False).bins()} if count > 1 else {}
        even, odd = (sum(k * size for k, size in bins.items() if k % 2 == rest) for rest in (0, 1))
        average = graph.average_path_length(directed=False) * (count * (count - 1) // 2)
        yield (number, count, even + odd, even, odd, bins.get(3, 0), graph.diameter(directed=False), average)


def networkx(path):
    """networkx's Wiener index and diameter."""
    import networkx

    yield ("record", "atoms", "W", "largest")
    for number, record in enumerate(records(path), 1):
        count, bonds = edges(record)
        graph = networkx.Graph(bonds)
        graph.add_nodes_from(range(count))
        try:
            yield (number, count, networkx.wiener_index(graph), networkx.diameter(graph))
        except networkx.NetworkXError:
            yield (number, count, networkx.wiener_index(graph), "")


def write(path, rows):
    """A table of rows."""
    with open(path, "w", encoding="utf-8", newline="") as file:
        csv.writer(file).writerows(rows)
