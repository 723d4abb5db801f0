"""Builds the wheel that `pip install` puts in place, and the source archive (PEP 517), with the standard library alone.

The shared object stands in tteuyomal/ after `make`; where it does not, it is made here in the same way, of the assembly in made/, which the
source archive has too. The same files make the same bytes: no time of day is in them, but the one that SOURCE_DATE_EPOCH names.
"""

import base64
import gzip
import hashlib
import io
import os
import re
import shutil
import subprocess
import tarfile
import time
import tomllib
import zipfile

HERE = os.path.dirname(os.path.abspath(__file__))
ROOT = os.path.dirname(HERE)
SHARED = os.path.join(HERE, "tteuyomal", "libtteuyomal.so")
WRITTEN = (".py", ".typed", ".css", ".js")
MADE = ("libtteuyomal.so", "made.txt")
ASSEMBLY = ("made/code", "made/x86_64.s", "made/aarch64.s")
OLDEST = 315532800  # 1980, the first time that a zip file can name

# the machine by the number that stands in the head of its shared objects, and the oldest C library that pip has a tag for
MACHINES = {62: ("x86_64", 5), 183: ("aarch64", 17)}


def tag(shared):
    """The tag of a wheel with this shared object: its machine, and the C library that its symbols need."""
    if shared[:4] != b"\x7fELF" or int.from_bytes(shared[18:20], "little") not in MACHINES:
        raise SystemExit("tteuyomal/libtteuyomal.so is no shared object for x86-64 or Arm")
    machine, oldest = MACHINES[int.from_bytes(shared[18:20], "little")]
    needed = [int(minor) for minor in re.findall(rb"GLIBC_2\.(\d+)", shared)]
    return f"py3-none-manylinux_2_{max([oldest, *needed])}_{machine}"


def _project():
    with open(os.path.join(HERE, "pyproject.toml"), "rb") as file:
        return tomllib.load(file)["project"]


def _text(*path):
    with open(os.path.join(*path), encoding="utf-8") as file:
        return file.read()


def _metadata(project):
    (author,) = project["authors"]
    lines = [
        "Metadata-Version: 2.1",
        f"Name: {project['name']}",
        f"Version: {project['version']}",
        f"Summary: {project['description']}",
        f"Author-Email: {author['name']} <{author['email']}>",
        f"License: {project['license']['text']}",
        *(f"Project-URL: {what}, {where}" for what, where in project["urls"].items()),
        *(f"Classifier: {words}" for words in project["classifiers"]),
        f"Requires-Python: {project['requires-python']}",
        "License-File: LICENSE",
        "Description-Content-Type: text/markdown",
    ]
    return "\n".join(lines) + "\n\n" + _text(HERE, project["readme"])


def _top():
    """Where the licence and made/ stand: above this folder in the repository, in it in the source archive."""
    return HERE if os.path.isfile(os.path.join(HERE, "PKG-INFO")) else ROOT


def _make_shared(version):
    """Makes the shared object of this machine's assembly."""
    top, name = _top(), f"libtteuyomal.so.{version.split('.')[0]}"
    for words in (["assemble"], ["shared", name]):
        if subprocess.run(["sh", os.path.join(top, "made", "code"), *words]).returncode != 0:
            raise SystemExit("tteuyomal/libtteuyomal.so is not there and can't be made: that needs a C compiler, and made/ with this machine's code")
    for name in MADE:
        shutil.copy(os.path.join(top, "target", "staticlib", name), os.path.join(HERE, "tteuyomal"))


def _about(project, tag_):
    """The files that describe the package, by name."""
    return {
        "METADATA": _metadata(project),
        "LICENSE": _text(_top(), "LICENSE"),
        "WHEEL": f"Wheel-Version: 1.0\nGenerator: builder\nRoot-Is-Purelib: false\nTag: {tag_}\n",
        "entry_points.txt": "[console_scripts]\n" + "".join(f"{name} = {where}\n" for name, where in project["scripts"].items()),
    }


def _write(file, contents, name, about):
    """Writes a wheel: what is to be installed, by name, and what describes it."""
    folder = f"{name}.dist-info"
    contents = dict(contents) | {f"{folder}/{key}": text.encode() for key, text in about.items()}
    rows = []
    with zipfile.ZipFile(file, "w", zipfile.ZIP_DEFLATED) as wheel:
        for key in sorted(contents):
            wheel.writestr(_entry(key), contents[key], zipfile.ZIP_DEFLATED)
            digest = base64.urlsafe_b64encode(hashlib.sha256(contents[key]).digest()).rstrip(b"=").decode()
            rows.append(f"{key},sha256={digest},{len(contents[key])}\n")
        wheel.writestr(_entry(f"{folder}/RECORD"), "".join(rows) + f"{folder}/RECORD,,\n", zipfile.ZIP_DEFLATED)


def _when():
    """The time that everything in an archive has."""
    return max(OLDEST, int(os.environ.get("SOURCE_DATE_EPOCH") or OLDEST))


def _entry(name):
    """A file in the wheel, readable by everybody."""
    entry = zipfile.ZipInfo(name, time.gmtime(_when())[:6])
    entry.external_attr = 0o100644 << 16
    return entry


def _build(wheel_directory, contents):
    with open(SHARED, "rb") as file:
        tag_ = tag(file.read())
    project = _project()
    name = f"{project['name']}-{project['version']}"
    file = f"{name}-{tag_}.whl"
    _write(os.path.join(wheel_directory, file), contents, name, _about(project, tag_))
    return file


def _package(endings):
    """The files of the package that end so, by name."""
    contents = {}
    for folder, _, names in os.walk(os.path.join(HERE, "tteuyomal")):
        for path in (os.path.join(folder, name) for name in names if name.endswith(endings)):
            with open(path, "rb") as file:
                contents[os.path.relpath(path, HERE)] = file.read()
    return contents


def build_wheel(wheel_directory, config_settings=None, metadata_directory=None):
    if not os.path.isfile(SHARED):
        _make_shared(_project()["version"])
    return _build(wheel_directory, _package(WRITTEN + MADE))


def build_editable(wheel_directory, config_settings=None, metadata_directory=None):
    if not os.path.isfile(SHARED):
        _make_shared(_project()["version"])
    return _build(wheel_directory, {"tteuyomal.pth": HERE.encode() + b"\n"})


def build_sdist(sdist_directory, config_settings=None):
    """The package with its builder and the assembly for every machine: what it is installed of."""
    project = _project()
    name = f"{project['name']}-{project['version']}"
    contents = _package(WRITTEN)
    for key in ("builder.py", "pyproject.toml", project["readme"]):
        contents[key] = _text(HERE, key).encode()
    for key in ("LICENSE", *ASSEMBLY):
        contents[key] = _text(_top(), key).encode()
    contents["PKG-INFO"] = _metadata(project).encode()
    packed = io.BytesIO()
    with tarfile.open(fileobj=packed, mode="w", format=tarfile.PAX_FORMAT) as archive:
        for key in sorted(contents):
            entry = tarfile.TarInfo(f"{name}/{key}")
            entry.size, entry.mtime, entry.mode = len(contents[key]), _when(), 0o644
            archive.addfile(entry, io.BytesIO(contents[key]))
    file = f"{name}.tar.gz"
    with open(os.path.join(sdist_directory, file), "wb") as out:
        out.write(gzip.compress(packed.getvalue(), mtime=_when()))
    return file
