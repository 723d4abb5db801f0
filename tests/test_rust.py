"""The Rust crate in rust/: its tests, its C functions against the header, its words against the header's."""

import os
import re
import subprocess
import unittest

from common import ROOT, text
from test_words import header_words

TYPES = {"const uint8_t *": "*const u8", "uint8_t *": "*mut u8", "uint64_t *": "*mut u64", "double *": "*mut c_double", "double ": "c_double"}
TYPES |= {"const uint16_t *": "*const u16", "uint16_t *": "*mut u16", "size_t ": "usize", "uint16_t ": "u16", "uint64_t ": "u64"}


def declared():
    """The C functions of the header: their parameters' names and types, as Rust writes them."""
    found = {}
    for name, parameters in re.findall(r"^(?:tteuyomal_reply|uint64_t) (tteuyomal_\w+)\((.*?)\);", text("include", "tteuyomal.h"), re.M | re.S):
        pairs = re.findall(r"((?:const )?\w+ \*?)(\w+)", "" if parameters == "void" else parameters)
        found[name] = [f"{one}: {TYPES[kind]}" for kind, one in pairs]
    return found


class Rust(unittest.TestCase):
    maxDiff = None

    def test_functions(self):
        found = re.findall(r"pub fn (tteuyomal_\w+)\((.*?)\) -> u64;", text("rust", "src", "functions.rs"), re.S)
        self.assertEqual({name: [one.strip() for one in rest.split(",") if one.strip()] for name, rest in found}, declared())

    def test_words(self):
        listed = re.search(r"const WORDS: &\[&str\] = &\[(.*?)\];", text("rust", "src", "reply.rs"), re.S).group(1)
        self.assertEqual(dict(enumerate(re.findall(r'"(.*?)"', listed), 1)), header_words())

    def test_table(self):
        (size,) = re.findall(r"#define TTEUYOMAL_TABLE_BYTES (\d+)", text("include", "tteuyomal.h"))
        self.assertIn(f"TABLE_BYTES: usize = {size};", text("rust", "src", "table.rs"))

    def test_crate(self):
        folder = {"CARGO_TARGET_DIR": os.path.join(ROOT, "target", "rust")}
        command = ["cargo", "test", "--offline", "--quiet", "--manifest-path", os.path.join(ROOT, "rust", "Cargo.toml")]
        run = subprocess.run(command, capture_output=True, text=True, env=os.environ | folder)
        self.assertEqual(run.returncode, 0, run.stdout + run.stderr)
