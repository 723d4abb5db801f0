"""docs/COMMAND.md is so: the names in objects, by the commands that say them; the options that it speaks of; how a notice begins; sizes."""

import json
import os
import re
import unittest
from unittest import mock

from common import FORTY, RIGHT, text
from test_check import molfile
from test_command import GOOD, REFUSED, WRONG, Room

from tteuyomal import Block, command, commands, files

PAGE = text("docs", "COMMAND.md")
SQUARES = [pair for k in range(20) for pair in ((3 * k + 1, 3 * k + 2), (3 * k + 1, 3 * k + 3), (3 * k + 2, 3 * k + 4), (3 * k + 3, 3 * k + 4))]
LARGE = molfile("large", "C" * 65, [(k, k + 1) for k in range(1, 65)]).encode()


def listed():
    """The names of the table of objects, each with the commands that it stands in."""
    rows = re.findall(r"^\| (`.*?) \| (.*?) \| .* \|$", PAGE[PAGE.index("## Objects") :], re.M)
    return {name: {"judge", "check", "sheet", "measure"} if where == "all" else set(where.split(", ")) for names, where in rows for name in re.findall(r"`(.*?)`", names)}


class Objects(Room):
    def test_names(self):
        """Every name that an object has stands in the table, and every name of the table in some object."""
        for name, data in (("a", GOOD), ("b", WRONG), ("c", REFUSED), ("d", FORTY), ("e\n", GOOD), ("f", FORTY + RIGHT)):
            self.put(name, data)
        os.symlink("nowhere", os.path.join(self.decks, "g"))
        tree, ring = Block(4, [(1, 2), (2, 3), (3, 4)]).molfile(), Block(3, [(1, 2), (2, 3), (3, 1)]).molfile()
        for name, data in (("a.mol", tree), ("b.sdf", ring + b"$$$$\n" + tree), ("c.mol", b""), ("d", ring), ("e.mol", Block(61, SQUARES).molfile()), ("f.mol", LARGE)):
            self.put(name, data, self.folder("molecules"))
        claimed = self.put("claimed\n.sdf", ring + b">  <W>\n6\n\n$$$$\n" + b"$$$$\n".join((tree, b"", tree)), self.room)
        found = {}
        for replaced in ("", "other.so"):
            with mock.patch("tteuyomal.native.REPLACED", replaced):
                for words in (["judge", self.decks], ["judge", self.put("h", FORTY + RIGHT), "--against", os.path.join(self.room, "molecules", "f.mol")], ["sheet", self.decks], ["measure", os.path.join(self.room, "molecules"), os.path.join(self.decks, "e\n")],
                              ["check", claimed, os.path.join(self.room, "molecules"), "W=W"]):  # fmt: skip
                    for line in self.run_command(words[0], "--json", *words[1:])[1].splitlines():
                        for name in json.loads(line):
                            found.setdefault(name, set()).add(words[0])
        self.assertEqual(found, listed())

    def test_the_fields_have_one_name_each(self):
        names = re.findall(r"`(\w+)`", re.search(r"the same names in every command: (.*?)\.", PAGE)[1])
        said = [json.loads(self.run_command(*words)[1]) for words in (
            ["judge", "--json", self.put("a", GOOD)], ["sheet", "--six", "--json", self.put("b", FORTY)],
            ["measure", "--json", self.put("c.mol", Block(6, [(1, 2), (2, 3), (3, 4), (4, 5), (5, 6), (6, 1)]).molfile())])]  # fmt: skip
        self.assertEqual((list(said[0]["claimed"]), list(said[0]["worked_out"])), (names[:5], names[:5]))
        self.assertEqual(list(said[1]["worked_out"]), names)
        self.assertEqual([name for name in said[2]["indices"] if name in names], names)

    def test_notice(self):
        """The notice of the page has the heads of a notice, in order; so have its lines."""
        shown = [line[4:] for line in PAGE[PAGE.index("    Notice of judged decks") :].split("\nThe lines of hashes")[0].splitlines()]
        self.put("product-1.deck", GOOD)
        self.put("product-17.deck", WRONG)
        self.put("product-2.deck", GOOD)
        manifest = self.put("decks.sha256", b"product-1.deck\nproduct-17.deck\nproduct-2.deck\n", self.room)
        self.run_command("notice", self.decks, "-o", os.path.join(self.room, "n"), "--manifest", manifest)
        written = self.read(os.path.join(self.room, "n")).decode()
        head = lambda lines: [line.split(":")[0] for line in lines if re.match(r"[A-Z][\w' -]*: ", line)]
        self.assertEqual([one for one in head(written.splitlines()) if one != "Manifest"], head(shown))
        self.assertIn("\n".join(line for line in shown if line.startswith("Not accepted")), written)
        self.assertEqual([line for line in shown if line.endswith(":")], [line for line in written.splitlines() if line.endswith(":")])
        names = lambda lines: [line.split("  ")[1] for line in lines if re.match(r"[0-9a-f.]+  ", line)]
        self.assertEqual(names(shown), names(written.splitlines()))


class Options(unittest.TestCase):
    def test_there(self):
        """What the page calls an option or a command is one."""
        parser = command._parser()
        (names,) = (action.choices for action in parser._actions if action.choices)
        there = {option for one in names.values() for action in one._actions for option in action.option_strings}
        for option in re.findall(r"(?<![\w-])--?[a-z]+\b(?![^`\n]*ssh)", re.sub(r".*(ssh-keygen|sha256sum).*", "", PAGE)):
            self.assertIn(option, there)
        called = set(re.findall(r"(?<!from )tteuyomal ([a-z]+)", PAGE))
        self.assertLessEqual(called - {"notice"}, set(names))
        self.assertEqual(set(names), {one.NAME for one in commands.ALL})

    def test_statuses(self):
        """Every command says its statuses, and 1 is said by those alone that the page names."""
        one = {name for line in PAGE.splitlines() if line.startswith("| 1 |") for name in re.findall(r"`(\w+)`", line)}
        for each in commands.ALL:
            self.assertTrue(each.STATUS.endswith("."), each.NAME)
            says = re.search(r"\b1\b", each.STATUS) is not None or "that of `judge`" in each.STATUS
            self.assertEqual(says, each.NAME in one, each.NAME)

    def test_sizes(self):
        for size in (files.LONGEST, files.LONGEST_FILE):
            self.assertIn(f"at most {size:,}", PAGE)


if __name__ == "__main__":
    unittest.main()
