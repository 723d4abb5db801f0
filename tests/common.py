"""What the test files share: where things stand, and decks in the form of the rules."""

import os
import struct
import sys

ROOT = os.path.dirname(os.path.dirname(os.path.abspath(__file__)))
HEADER = os.path.join(ROOT, "include", "tteuyomal.h")
ARCHIVE = os.path.join(ROOT, "target", "staticlib", "libtteuyomal.a")
PYTHON = os.path.join(ROOT, "python")

sys.path.insert(0, PYTHON)


def text(*path):
    with open(os.path.join(ROOT, *path), encoding="utf-8") as file:
        return file.read()


# two rings of 6 joined by a bond: atoms 12 W 198 even 96 odd 102 polarity 14
FORTY = bytes.fromhex(
    "12 00 01 00 01 00 06 00 06 00 01 02 02 03 03 04 04 05 05 06 06 01"
    "0E 00 02 00 02 00 01 00 00 00 00 00 01 00 01 00 01 01"
)


def sheet(*fields):
    return struct.pack("<HHIQQQQ", 36, 3, *fields)


def sheet_of_six(*fields):
    return struct.pack("<HHIQQQQI", 40, 4, *fields)


RIGHT = sheet(12, 198, 96, 102, 14)
RIGHT_SIX = sheet_of_six(12, 198, 96, 102, 14, 7)
RING = [(1, 2), (2, 3), (3, 4), (4, 5), (5, 6), (6, 1)]

# a ring of 6 and one atom: the atom or another ring at atom 1, the atom at atom 4; two products
LIBRARY = bytes.fromhex(
    "12 00 01 00 01 00 06 00 06 00 01 02 02 03 03 04 04 05 05 06 06 01 06 00 01 00 02 00 01 00 00 00"
    "11 00 05 00 01 00 02 00 01 02 02 00 01 01 00 01 04 01 02 00 01"
)

# a deck to be judged, and the line that says the verdict
JUDGED = [
    (FORTY + RIGHT, "accepted"),
    (FORTY + sheet(12, 198, 97, 102, 14), "differs 3"),
    (FORTY + sheet(13, 198, 97, 102, 14), "differs 1"),
    (FORTY, "refused 11 at 40"),
    (b"", "refused 11 at 0"),
    (FORTY + RIGHT + b"\0", "refused 11 at 80"),
    (FORTY + RIGHT_SIX, "accepted"),
    (FORTY + sheet_of_six(12, 198, 96, 102, 14, 6), "differs 6"),
    (FORTY + sheet_of_six(12, 198, 96, 102, 15, 6), "differs 5"),
    (FORTY + RIGHT_SIX[:-1], "refused 11 at 40"),
    (FORTY + RIGHT_SIX + RIGHT, "refused 11 at 84"),
    (FORTY + b"\x28\0\x03\0" + RIGHT_SIX[4:], "refused 13 at 40"),
    (FORTY + b"\x24\0\x04\0" + RIGHT[4:], "refused 13 at 40"),
    (bytes(32769), "refused 20 at 0"),
]
