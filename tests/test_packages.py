"""What an admin gets: wheels and source archives of the same bytes each time, with a tag that their symbols allow; man pages that
man reads without a complaint; completions that the shells take."""

import email
import hashlib
import os
import shutil
import subprocess
import sys
import tarfile
import tempfile
import unittest
import zipfile

from common import PYTHON, ROOT

sys.path.insert(0, PYTHON)
import builder  # noqa: E402

MANUAL = os.path.join(ROOT, "packages", "manual")


def printed(what):
    return subprocess.run([sys.executable, MANUAL, what], capture_output=True, text=True, check=True).stdout


class Archives(unittest.TestCase):
    def test_the_same_bytes(self):
        for build in (builder.build_wheel, builder.build_sdist):
            with self.subTest(build.__name__), tempfile.TemporaryDirectory() as one, tempfile.TemporaryDirectory() as other:
                names = build(one), build(other)
                first, second = (open(os.path.join(folder, name), "rb").read() for folder, name in zip((one, other), names))
                self.assertEqual(names[0], names[1])
                self.assertEqual(first, second)

    def test_wheel(self):
        with tempfile.TemporaryDirectory() as room:
            name = builder.build_wheel(room)
            with zipfile.ZipFile(os.path.join(room, name)) as wheel:
                (about,) = (one for one in wheel.namelist() if one.endswith("/METADATA"))
                said = email.message_from_bytes(wheel.read(about))
                self.assertIn("tteuyomal/commands/judge.py", wheel.namelist())
        self.assertRegex(name, r"-py3-none-manylinux_2_\d+_(x86_64|aarch64)\.whl$")
        self.assertEqual((said["License"], said["Version"]), ("Apache-2.0", builder._project()["version"]))
        self.assertIn("maintainers of Tteuyomal", said["Author-Email"])
        self.assertIn("tteuyomal", said.get_payload())

    def test_tag(self):
        head = b"\x7fELF" + bytes(14)
        self.assertEqual(builder.tag(head + b"\x3e\0 GLIBC_2.14 GLIBC_2.2.5"), "py3-none-manylinux_2_14_x86_64")
        self.assertEqual(builder.tag(head + b"\xb7\0"), "py3-none-manylinux_2_17_aarch64")
        for other in (b"", head + b"\x08\0"):
            with self.assertRaises(SystemExit):
                builder.tag(other)

    def test_source(self):
        with tempfile.TemporaryDirectory() as room:
            name = builder.build_sdist(room)
            with tarfile.open(os.path.join(room, name)) as archive:
                names = {one.split("/", 1)[1] for one in archive.getnames()}
                archive.extractall(room)
            there = os.path.join(room, name[: -len(".tar.gz")])
            build = "import builder; print(builder.build_wheel('..'))"
            wheel = subprocess.run([sys.executable, "-Bc", build], cwd=there, capture_output=True, text=True, check=True).stdout.strip()
            with zipfile.ZipFile(os.path.join(room, wheel)) as archive:
                archive.extractall(os.path.join(room, "installed"))
            alone = os.environ | {"PYTHONPATH": os.path.join(room, "installed")}
            said = subprocess.run([sys.executable, "-m", "tteuyomal", "--version"], env=alone, cwd=room, capture_output=True, text=True).stdout
        self.assertLessEqual({"PKG-INFO", "LICENSE", "README.md", "builder.py", "pyproject.toml", "tteuyomal/__init__.py", "made/aarch64.s"}, names)
        self.assertFalse([one for one in names if one.endswith((".so", "made.txt"))], "what was made here is not in it")
        code = hashlib.sha256(open(os.path.join(ROOT, "made", f"{os.uname().machine}.s"), "rb").read()).hexdigest()
        self.assertIn(f", code {code} for {os.uname().machine}, proved by the gate", said)


@unittest.skipUnless(shutil.which("dpkg-deb") and shutil.which("dpkg-architecture"), "no Debian here (dpkg, dpkg-dev)")
class Debian(unittest.TestCase):
    def made(self):
        """The packages, by the front of their names."""
        run = subprocess.run(["make", "-s", "deb"], cwd=ROOT, capture_output=True, text=True)
        self.assertEqual(run.returncode, 0, run.stdout + run.stderr)
        found = {}
        for path in run.stdout.split():
            with open(os.path.join(ROOT, path), "rb") as file:
                found[os.path.basename(path).split("_")[0]] = file.read()
        return found

    def test_packages(self):
        first = self.made()
        major = builder._project()["version"].split(".")[0]
        self.assertEqual(set(first), {"tteuyomal", "python3-tteuyomal", "libtteuyomal-dev", f"libtteuyomal{major}"})
        self.assertEqual(first, self.made(), "the same bytes each time")

    @unittest.skipUnless(shutil.which("lintian"), "no lintian here (Debian: lintian)")
    def test_lintian(self):
        self.made()
        debs = [os.path.join("target", "deb", name) for name in os.listdir(os.path.join(ROOT, "target", "deb"))]
        run = subprocess.run(["lintian", "--allow-root", "--fail-on", "error,warning", *debs], cwd=ROOT, capture_output=True, text=True)
        self.assertEqual((run.returncode, run.stdout), (0, ""), run.stderr)


class Types(unittest.TestCase):
    @unittest.skipUnless(shutil.which("mypy"), "no mypy here (Debian: mypy)")
    def test_mypy(self):
        run = subprocess.run(["mypy", "--no-incremental"], cwd=PYTHON, capture_output=True, text=True)
        self.assertEqual((run.returncode, run.stderr), (0, ""), run.stdout)


class Manual(unittest.TestCase):
    @unittest.skipUnless(shutil.which("man"), "no man here")
    def test_pages(self):
        for what in ("command", "functions"):
            with self.subTest(what):
                page = printed(what)
                run = subprocess.run(["man", "--warnings", "-l", "-"], input=page, capture_output=True, text=True, env=os.environ | {"MANWIDTH": "80"})
                self.assertEqual((run.returncode, run.stderr), (0, ""))

    def test_every_command_and_function(self):
        from tteuyomal import commands

        page = printed("command")
        for one in commands.ALL:
            self.assertIn(f"\n.SS {one.NAME}\n", page)
        with open(os.path.join(ROOT, "include", "tteuyomal.h"), encoding="utf-8") as file:
            declarations = [line for line in file if line.startswith("tteuyomal_reply tteuyomal_")]
        page = printed("functions")
        for line in declarations:
            self.assertIn(line.split("(")[0], page)

    def test_completions(self):
        self.assertEqual(subprocess.run(["bash", "-n"], input=printed("bash"), text=True).returncode, 0)
        words = 'COMP_WORDS=(tteuyomal ju); COMP_CWORD=1; _tteuyomal; echo "${COMPREPLY[@]}"\n'
        run = subprocess.run(["bash"], input=printed("bash") + words, capture_output=True, text=True)
        self.assertEqual(run.stdout, "judge\n")
        self.assertTrue(printed("zsh").startswith("#compdef tteuyomal\n"))
        if shutil.which("zsh"):
            self.assertEqual(subprocess.run(["zsh", "-n"], input=printed("zsh"), text=True).returncode, 0)
