"""docs/RULES.md has every refusal, with words, place and order, and every limit. The header, Python, README and the code are held against it."""

import importlib
import os
import re
import unittest

from common import ROOT, text

RULES, HEADER, README = text("docs", "RULES.md"), text("include", "tteuyomal.h"), text("README.md")


def section(name):
    return RULES[RULES.index(f"\n## {name}\n") :].split("\n## ", 2)[1]


def rules_words():
    """number -> (words, place)"""
    rows = re.findall(r"^\| (\d+) \| (.*?) \| (.*?) \|$", section("Refusals"), re.M)
    return {int(number): (words, place) for number, words, place in rows}


def header_words():
    enum = re.search(r"enum tteuyomal_refusal \{(.*?)\n\};", HEADER, re.S).group(1)
    entries = re.findall(r"TTEUYOMAL_\w+ = (\d+),?\s*/\*(.*?)\*/", enum, re.S)
    return {int(number): " ".join(words.split()) for number, words in entries}


def limits():
    """name -> value, of the table of limits"""
    rows = re.findall(r"^\| .* \| (`.*`) \| ([\d,]+) \|$", section("Limits"), re.M)
    return {name: int(value.replace(",", "")) for names, value in rows for name in re.findall(r"`([^`]+)`", names)}


class Words(unittest.TestCase):
    maxDiff = None

    def test_numbers(self):
        numbers = re.findall(r"^\| (\d+) \| .* \| .* \|$", section("Refusals"), re.M)
        self.assertEqual(numbers, [str(k) for k in range(1, len(numbers) + 1)], "each number is there once, in order")
        enum = re.search(r"enum tteuyomal_refusal \{(.*?)\n\};", HEADER, re.S).group(1)
        self.assertEqual(len(re.findall(r"TTEUYOMAL_\w+ =", enum)), len(header_words()), "each number is there once, with words")
        self.assertTrue(39 <= len(numbers) <= 253)

    def test_header(self):
        self.assertEqual(header_words(), {number: words for number, (words, _) in rules_words().items()})

    def test_c(self):
        listed = re.search(r"words\[\] = \{\n\s*\"\",\n(.*?)\n\s*\};", HEADER, re.S).group(1)
        self.assertEqual(dict(enumerate(re.findall(r'"(.*?)",', listed), 1)), header_words())

    def test_python(self):
        from tteuyomal import native

        self.assertEqual(native.WORDS, {number: words for number, (words, _) in rules_words().items()})

    def test_readme(self):
        """README has no table of its own: its number of refusals, and each that it shows, are those of the rules."""
        self.assertEqual(re.findall(r"(\d+) refusals", README), [str(len(rules_words()))])
        for number, said in re.findall(r"refused (\d+) at \d+: ([^\n]*)", README):
            self.assertEqual(said, rules_words()[int(number)][0])

    def test_places(self):
        """The header says of the same numbers that their place is 0."""
        said = re.search(r" 0 for ([\d, ]*and \d+)\. \*/", HEADER)[1]
        self.assertEqual({int(n) for n in re.findall(r"\d+", said)}, {n for n, (_, place) in rules_words().items() if place == "0"})

    def test_order(self):
        """Each number has its turn in some function's order."""
        table = RULES[RULES.index("- a block: 1, 2;") :].split("\n\n")[0]
        turns = {int(n) for n in re.findall(r"\b\d+\b", re.sub(r"\(.*?\)", "", table))}
        self.assertEqual(set(rules_words()) - turns, set())
        self.assertLessEqual(turns, set(rules_words()))


class Limits(unittest.TestCase):
    def test_definitions(self):
        """The definitions, the code and Python have the values of the table."""
        files = [os.path.join(at, name) for at, _, names in os.walk(os.path.join(ROOT, "crates")) for name in names if "out" not in at.split(os.sep)]
        specs = "\n".join(text(file) for file in files if file.endswith(".antt") and text(file).startswith("-- Definitions."))
        known = limits()
        self.assertLessEqual({"most_atoms", "limit", "longest_deck", "half::ATOMS", "files.LONGEST_FILE"}, set(known))
        for name, value in known.items():
            with self.subTest(name):
                crate, _, constant = name.partition("::")
                module, _, attribute = name.partition(".")
                if attribute:
                    self.assertEqual(getattr(importlib.import_module(f"tteuyomal.{module}"), attribute), value)
                    continue
                if constant:
                    code = "\n".join(text(file) for file in files if file.endswith(".rt") and os.sep + os.path.join(crate, "src") in file)
                    found = re.findall(rf"const {constant}: \w+ = (.*);", code)
                else:
                    found = re.findall(rf"^abbrev pub {name} : ℕ\n{name} = (.*)$", specs, re.M)
                self.assertEqual(len(found), 1, found)
                self.assertEqual(eval(found[0], {"most_atoms": known["most_atoms"], "limit": known["limit"], "ATOMS": known["half::ATOMS"], "LIMIT": known["block::LIMIT"]}), value)

    def test_header(self):
        defines = dict(re.findall(r"^#define (TTEUYOMAL_\w+_BYTES) (\d+)$", HEADER, re.M))
        most = limits()
        atoms, bonds = most["most_atoms"], most["most_bytes"] // 2
        self.assertEqual(int(defines["TTEUYOMAL_BONDS_BYTES"]), most["most_bytes"])
        self.assertEqual(int(defines["TTEUYOMAL_DECK_BYTES"]), most["longest_deck"])
        self.assertEqual(int(defines["TTEUYOMAL_MOLFILE_BYTES"]), 50 + 70 * atoms + 22 * bonds)
        self.assertEqual(int(defines["TTEUYOMAL_CLAIM_BYTES"]), 2 + most["claims._ROOM"])

    def test_readme(self):
        """The sentence of README that has the limits."""
        said = re.search(r"A block has at most (\d+) atoms and (\d+) bonds at each; a deck (\d+) blocks, (\d+) placements and ([\d,]+) bytes", README)
        self.assertEqual([int(n.replace(",", "")) for n in said.groups()], [limits()[n] for n in ("most_atoms", "limit", "most_blocks", "most_placements", "longest_deck")])
