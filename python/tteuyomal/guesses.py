"""What may be the cause where a program's numbers differ. These are guesses, shown as such, and no part of any verdict: here alone a
molfile and a printed number are read without the library."""

from __future__ import annotations

import math
from collections import deque
from collections.abc import Iterable, Iterator
from typing import Any, NamedTuple

from .native import Fields, Refused

ATOMS, W, EVEN, ODD, POLARITY, LARGEST, J = 1, 2, 3, 4, 5, 6, 10
_MOST = 250  # atoms of a file that is looked at

HYDROGENS = "hydrogens counted: with all atoms of the file the number is the printed one"
ISOTOPES = "isotopic hydrogens kept (M  ISO or a mass): with them the number is the printed one"
ISOTOPES_THERE = "isotopic hydrogens in the file (M  ISO, a mass, D or T)"
HEAVY = "D and T left out as hydrogens: without them the number is the printed one"
TYPE_4 = "bond type 4 in the file (aromatic)"
ALIASES = "alias lines in the file (A  n): some codes keep the hydrogens of such a file"
ORDERS = "bond orders as weights: a distance of 1/order a bond gives the printed number"
ORDERS_THERE = "bond orders as weights, perhaps: the molecule has double or triple bonds"
TWICE = "doubled, or each pair counted twice"
HALF = "halved"
PART = "one part of the sum doubled or halved"
EXCHANGED = "even and odd exchanged"
ONE_MORE = "one too many: atoms on the way counted, not bonds"
PARTS = "in parts, as a salt or a solvate: no path, and codes print what they like"


class Drawn(NamedTuple):
    """A molfile as it is drawn: symbols, which atoms have a mass of their own, bonds with their types, and the lines behind."""

    symbols: list[str]
    masses: set[int]
    bonds: list[tuple[int, int, int]]
    more: list[str]


def drawn(record: bytes) -> Drawn | None:
    """What a V2000 molfile draws; None where it is none."""
    lines = record.decode("latin-1").split("\n")
    try:
        atoms, bonds = int(lines[3][:3]), int(lines[3][3:6])
        if not 0 < atoms <= _MOST:
            return None
        rows = lines[4 : 4 + atoms]
        masses = {k for k, line in enumerate(rows) if line[34:36].strip() not in ("", "0")}
        ends = [(int(line[:3]) - 1, int(line[3:6]) - 1, int(line[6:9] or 1)) for line in lines[4 + atoms : 4 + atoms + bonds]]
        if any(not 0 <= end < atoms for a, b, _ in ends for end in (a, b)):
            return None
        found = Drawn([line[31:34].strip() for line in rows], masses, ends, lines[4 + atoms + bonds :])
    except (ValueError, IndexError):
        return None
    for line in found.more:
        if line.startswith("M  END"):
            break
        if line.startswith("M  ISO"):
            masses.update(int(word) - 1 for word in line.split()[3::2] if word.isdigit())
    return found


def of_refusal(record: bytes, refusal: Refused) -> tuple[tuple[int, str], ...]:
    """What may be the cause of a refusal."""
    return ((0, PARTS),) if refusal.number == 7 else ()


def of_claims(
    record: bytes, wrong: dict[int, str], texts: dict[int, str], right: Fields, worked: tuple[Any, ...]
) -> tuple[tuple[int, str], ...]:
    """What may be the cause of each wrong claim: a field and a guess each."""
    numbers = {field: number for field, text in texts.items() if (number := _number(text)) is not None}
    found = [(field, guess) for field in wrong for guess in _by_number(field, numbers, right)]
    if LARGEST in wrong and numbers.get(LARGEST) == worked[LARGEST - 1] + 1:
        found.append((LARGEST, ONE_MORE))
    file = drawn(record)
    if file is not None:
        found += _by_file(file, wrong, numbers)
    return tuple(found)


def _number(text: str) -> float | None:
    try:
        number = float(text)
    except ValueError:
        return None
    return number if math.isfinite(number) else None


def _by_number(field: int, numbers: dict[int, float], right: Fields) -> Iterator[str]:
    """Guesses from the right numbers alone."""
    said = numbers.get(field)
    if said is None:
        return
    even, odd = right.even, right.odd
    if field in (EVEN, ODD) and even != odd and numbers.get(EVEN, odd) == odd and numbers.get(ODD, even) == even:
        yield EXCHANGED
    if field == W and said in (2 * even + odd, even + 2 * odd, even / 2 + odd, even + odd / 2):
        yield PART
    if field <= POLARITY and (own := right[field - 1]):
        if said == 2 * own:
            yield TWICE
        if said == own / 2:
            yield HALF


def _by_file(file: Drawn, wrong: dict[int, str], numbers: dict[int, float]) -> Iterator[tuple[int, str]]:
    """Guesses from what the file has."""
    every = set(range(len(file.symbols)))
    hydrogens = _hydrogens(file, {"H"})
    marked = {k for k in every if file.symbols[k] in ("H", "D", "T") and (k in file.masses or file.symbols[k] != "H")}
    graphs = [(HYDROGENS, every if hydrogens else set()), (ISOTOPES, every - (hydrogens - file.masses) if hydrogens & file.masses else set())]
    graphs.append((HEAVY, every - hydrogens - _hydrogens(file, {"D", "T"}) if marked - hydrogens else set()))
    fitted = set()
    for guess, kept in graphs:
        if kept:
            fields = _fields(file, kept)
            for field in wrong:
                if fields.get(field) is not None and fields[field] == numbers.get(field):
                    fitted.add(field)
                    yield field, guess
    types = {kind for _, _, kind in file.bonds}
    weighted = types & {2, 3, 4} and {W, J} & set(wrong)
    fit = _weighted(file, every - hydrogens) if weighted else {}
    for field in wrong:
        if field not in fitted:
            yield from ((field, guess) for guess in _there(file, marked, types))
        if field in fit and field in numbers and abs(fit[field] - numbers[field]) <= 1e-3 * max(1.0, abs(fit[field])):
            yield field, ORDERS
        elif field == J and types & {2, 3, 4}:
            yield field, ORDERS_THERE


def _there(file: Drawn, marked: set[int], types: set[int]) -> Iterator[str]:
    """What is in the file, whether or not it has to do with the number."""
    if 4 in types:
        yield TYPE_4
    if any(line.startswith("A  ") for line in file.more):
        yield ALIASES
    if marked:
        yield ISOTOPES_THERE


def _hydrogens(file: Drawn, symbols: set[str]) -> set[int]:
    """The atoms of these symbols with one bond, to an atom of another."""
    partners: dict[int, list[int]] = {}
    for a, b, _ in file.bonds:
        partners.setdefault(a, []).append(b)
        partners.setdefault(b, []).append(a)
    return {a for a, others in partners.items() if file.symbols[a] in symbols and len(others) == 1 and file.symbols[others[0]] not in symbols}


def _partners(file: Drawn, kept: set[int]) -> dict[int, list[tuple[int, float]]]:
    found: dict[int, list[tuple[int, float]]] = {a: [] for a in sorted(kept)}
    for a, b, kind in file.bonds:
        if a in kept and b in kept:
            length = 1 / {2: 2, 3: 3, 4: 1.5}.get(kind, 1)
            found[a].append((b, length))
            found[b].append((a, length))
    return found


def _fields(file: Drawn, kept: set[int]) -> dict[int, float]:
    """The first six fields of the atoms that are kept, by a plain search; only their number where they are in parts."""
    partners, counts = _partners(file, kept), [0] * (len(kept) + 1)
    for start in partners:
        far, queue = {start: 0}, deque([start])
        while queue:
            one = queue.popleft()
            for other, _ in partners[one]:
                if other not in far:
                    far[other] = far[one] + 1
                    queue.append(other)
        if len(far) < len(kept):
            return {ATOMS: len(kept)}
        for distance in far.values():
            counts[distance] += 1
    pairs = [count // 2 for count in counts]
    even, odd = (sum(k * pairs[k] for k in range(first, len(pairs), 2)) for first in (2, 1))
    largest = max((k for k in range(1, len(pairs)) if pairs[k]), default=0)
    return {ATOMS: len(kept), W: even + odd, EVEN: even, ODD: odd, POLARITY: pairs[3] if len(pairs) > 3 else 0, LARGEST: largest}


def _weighted(file: Drawn, kept: set[int]) -> dict[int, float]:
    """W and J with a length of 1/order for each bond; nothing where it would take long."""
    if len(kept) > 40:
        return {}
    partners, sums = _partners(file, kept), {}
    for start in partners:
        far = {start: 0.0}
        waiting = deque([start])
        while waiting:
            one = waiting.popleft()
            for other, length in partners[one]:
                if far[one] + length < far.get(other, math.inf) - 1e-12:
                    far[other] = far[one] + length
                    waiting.append(other)
        sums[start] = sum(far.values())
    bonds = [(a, b) for a, b, _ in file.bonds if a in kept and b in kept]
    found = {W: sum(sums.values()) / 2}
    if all(sums.values()) and bonds:
        found[J] = len(bonds) / (len(bonds) - len(kept) + 2) * _roots(bonds, sums)
    return found


def _roots(bonds: Iterable[tuple[int, int]], sums: dict[int, float]) -> float:
    return sum(1 / math.sqrt(sums[a] * sums[b]) for a, b in bonds)
