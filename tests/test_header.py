"""The header is C and C++ as the compilers have them with all warnings, and declares just what the archive has."""

import os
import re
import subprocess
import unittest

from common import ARCHIVE, HEADER, ROOT, text

WARNINGS = ["-Wall", "-Wextra", "-Wpedantic", "-Wconversion", "-Wshadow", "-Wundef", "-Werror", "-fsyntax-only"]
CALLER = '#include "tteuyomal.h"\nint main(void) { return tteuyomal_is_refusal(0) + (int)tteuyomal_where(0) + (int)tteuyomal_what(0) + *tteuyomal_words(1); }\n'

# How the header writes what a function takes, in the words of the code and in those of the Rust declarations; a slice is a pointer and a length.
ONE = {"usize": "size_t", "u64": "uint64_t", "u16": "uint16_t", "u8": "uint8_t", "f64": "double", "c_double": "double"}
MANY = {"&[": "const %s *", "&mut [": "%s *"}


def taken(words):
    """The parameters of one function of the code, as the header has them."""
    found = []
    for name, kind in re.findall(r"(\w+): ([^,]+?),?\s*(?=\w+:|$)", " ".join(words.split())):
        slice = re.fullmatch(r"(&(?:mut )?\[)(\w+)\]", kind)
        pointer = re.fullmatch(r"\*(const|mut) (\w+)", kind)
        if slice:
            found += [(MANY[slice[1]] % ONE[slice[2]], name), ("size_t", name + "_len")]
        elif pointer:
            found.append(((MANY["&["] if pointer[1] == "const" else MANY["&mut ["]) % ONE[pointer[2]], name))
        else:
            found.append((ONE[kind], name))
    return found


def declared(words):
    """The parameters of one function of the header."""
    parts = [] if words.strip() == "void" else [" ".join(part.split()) for part in words.split(",")]
    return [tuple(re.fullmatch(r"(.*?[ *])(\w+)", part).group(1, 2)) for part in parts]


class Header(unittest.TestCase):
    def compiles(self, *command):
        run = subprocess.run(
            [*command, *WARNINGS, "-I", HEADER.rsplit("/", 1)[0], "-"], input=CALLER, capture_output=True, text=True
        )
        self.assertEqual((run.returncode, run.stderr), (0, ""))

    def test_c(self):
        for standard in ("c99", "c11", "c17"):
            with self.subTest(standard):
                self.compiles("gcc", f"-std={standard}", "-Wstrict-prototypes", "-x", "c")

    def test_cxx(self):
        for standard in ("c++11", "c++17"):
            with self.subTest(standard):
                self.compiles("g++", f"-std={standard}", "-x", "c++")

    def test_stack(self):
        """What is asked for is more than the code in made/ takes on any input, with room for memcpy and memset."""
        (asked,) = re.findall(r"^#define TTEUYOMAL_STACK_BYTES (\d+)$", text("include", "tteuyomal.h"), re.M)
        said = subprocess.run([os.path.join(ROOT, "compare", "stack")], capture_output=True, text=True, check=True).stdout
        self.assertGreater(int(re.search(r"^The most: (\d+) bytes\.$", said, re.M)[1]), 4096)
        self.assertLess(int(re.search(r"^The most: (\d+) bytes\.$", said, re.M)[1]) + 8192, int(asked))

    def test_declares_what_the_archive_has(self):
        listed = subprocess.run(["nm", "--defined-only", "-g", ARCHIVE], capture_output=True, text=True, check=True).stdout
        there = set(re.findall(r"^[0-9a-f]+ T (tteuyomal_\w+)$", listed, re.M))
        declared = set(re.findall(r"^(?:tteuyomal_reply|uint64_t) (tteuyomal_\w+)\(", text("include", "tteuyomal.h"), re.M))
        self.assertEqual(declared, there)

    def test_signatures(self):
        """The header, the code, and both Rust declarations name the same parameters of the same types in the same order."""
        header = {
            name: [(kind.strip() if "*" not in kind else kind, word) for kind, word in declared(words)]
            for name, words in re.findall(r"^(?:tteuyomal_reply|uint64_t) (tteuyomal_\w+)\(([^)]*)\);", text("include", "tteuyomal.h"), re.M)
        }
        self.assertGreater(len(header), 30)
        folder = os.path.join(ROOT, "crates", "tteuyomal", "src")
        code = "".join(text("crates", "tteuyomal", "src", name) for name in sorted(os.listdir(folder)))
        exported = {name: taken(words) for name, words in re.findall(r'extern "C" fn (tteuyomal_\w+)\(([^)]*)\)', code)}
        self.assertEqual(header, exported)
        for path in (("compare", "src", "archive.rs"), ("rust", "src", "functions.rs")):
            with self.subTest(path):
                for name, words in re.findall(r"pub fn (tteuyomal_\w+)\(([^)]*)\)", text(*path)):
                    self.assertEqual((name, taken(words)), (name, header[name]))
