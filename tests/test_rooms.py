"""The package's rooms: no file uses one that uses it, by whatever way, in the package and in compare; every command has a file of its
own, and says in its own words what it does."""

import ast
import importlib
import os
import re
import unittest

from common import PYTHON, ROOT

from tteuyomal import commands

PACKAGE = os.path.join(PYTHON, "tteuyomal")
LONGEST = 700  # lines of a file


def files_of(folder, ending):
    """The files under a folder, each with its name as its users write it."""
    for path, _, names in os.walk(folder):
        for name in names:
            if name.endswith(ending):
                file = os.path.join(path, name)
                yield os.path.relpath(file, folder)[: -len(ending)].split(os.sep), file


def circles(uses):
    """The circles in who uses whom, each by the names on it."""
    found, done = set(), set()

    def follow(name, way):
        if name in way:
            found.add(tuple(way[way.index(name) :]))
        elif name not in done:
            for other in sorted(uses.get(name, ())):
                follow(other, [*way, name])
            done.add(name)

    for name in sorted(uses):
        follow(name, [])
    return found


def python_uses(file, parts):
    """The modules of the package that a file imports, wherever in it."""
    with open(file, encoding="utf-8") as source:
        for node in ast.walk(ast.parse(source.read())):
            if isinstance(node, ast.ImportFrom) and node.level:
                base = [*parts[: len(parts) - node.level], *(node.module or "").split(".")] if node.module else parts[: len(parts) - node.level]
                for one in node.names:
                    yield ".".join([*base, one.name])
                yield ".".join(base)


def rust_uses(file, parts):
    """The modules of its crate that a file names, its tests left out."""
    with open(file, encoding="utf-8") as source:
        text = source.read().split("#[cfg(test)]")[0]
    for start, path, several in re.findall(r"\b(crate|super)::([a-z_:]+)(\{[^}]*\})?", text):
        base = [*(parts[:-1] if start == "super" else []), *path.strip(":").split("::")]
        for end in range(1, len(base) + 1):
            yield "::".join(base[:end])
        for one in re.findall(r"\w+", several):
            yield "::".join([*base, one])


class Rooms(unittest.TestCase):
    def test_a_circle_is_found(self):
        self.assertEqual(circles({"a": {"b"}, "b": {"c"}, "c": {"b"}, "d": set()}), {("b", "c")})
        self.assertEqual(circles({"a": {"b", "c"}, "b": {"c"}, "c": set()}), set())

    def test_no_circle_in_the_package(self):
        uses = {".".join(parts): set(python_uses(file, parts)) for parts, file in files_of(PACKAGE, ".py")}
        self.assertGreater(sum(len(those & set(uses)) for those in uses.values()), 50)
        self.assertEqual(circles({name: those & set(uses) - {name} for name, those in uses.items()}), set())

    def test_no_circle_in_compare(self):
        source = os.path.join(ROOT, "compare", "src")
        for folder in (source, os.path.join(source, "bin", "compare"), os.path.join(source, "bin", "bench")):
            uses = {}
            for parts, file in files_of(folder, ".rs"):
                if folder != source or parts[0] != "bin":
                    uses["::".join(parts).removesuffix("::mod")] = set(rust_uses(file, parts))
            self.assertGreater(sum(len(those & set(uses)) for those in uses.values()), 4)
            self.assertEqual(circles({name: those & set(uses) - {name} for name, those in uses.items()}), set())

    def test_a_file_for_each_command(self):
        there = {parts[0] for parts, _ in files_of(os.path.join(PACKAGE, "commands"), ".py")} - {"__init__", "common"}
        self.assertEqual({one.NAME for one in commands.ALL}, there)
        for one in commands.ALL:
            self.assertEqual(one, importlib.import_module(f"tteuyomal.commands.{one.NAME}"))
            self.assertTrue(one.WORDS)

    def test_no_file_is_long(self):
        for parts, file in files_of(PACKAGE, ".py"):
            with open(file, encoding="utf-8") as source:
                self.assertLess(len(source.readlines()), LONGEST, parts)


if __name__ == "__main__":
    unittest.main()
