#!/usr/bin/env python3
"""Checks a crate over the sources of the crates below it, whose functions' proofs it takes as holes: so a crate can be worked on before those below it prove.

    tools/over.py CRATE [--real A,B] [--specs | WORD ..]

    --real A,B   crates below whose proofs are taken as they are
    --specs      the crate's definitions and laws alone, all of them, its functions' proofs as holes too
    WORD ..      words for `rattle check`, as --only F; without any, every function of the crate

It prints what the check says of the crate. `no holes`, or `depends on a hole in` a crate below, is the most that it says of a function: `rt ci` proves it.
What it keeps lies in the user's cache."""
import hashlib
import os
import re
import subprocess
import sys
from pathlib import Path

ROOT = Path(__file__).resolve().parent.parent
KIT = Path(subprocess.run(["rt", "doc"], capture_output=True, text=True, check=True).stdout.strip()).parent
# outside of the checkout: no file of a crate may stand in it elsewhere
OVER = Path(os.environ.get("XDG_CACHE_HOME") or Path.home() / ".cache") / "tteuyomal" / "over" / hashlib.sha256(str(ROOT).encode()).hexdigest()[:16]
HOLE = "use Rattle.{crate}.proofs.{path}.Statement.{{statement}}\n\npub {name}_spec : {{M : Type 1}} → statement M\n{name}_spec = ?\n"


def rows():
    """What each crate uses, by crates.txt, and whether it is a static library."""
    lines = (line.split("#")[0] for line in (ROOT / "crates.txt").read_text().splitlines())
    return {line.split(":")[0].split()[0]: (line.split(":")[1].split(), "staticlib" in line.split(":")[0]) for line in lines if ":" in line}


def below(crate, of, found=()):
    """The crates below a crate, lower ones first."""
    for other in of[crate][0]:
        if other in of and other not in found:
            found = (*below(other, of, found), other)
    return found


def put_aside(crate):
    """A copy of a crate in which each function that has proof files has a hole for its proof; a file that would stay the same is not written."""
    here, there, wanted = ROOT / "crates" / crate, OVER / "crates" / crate, set()
    for file in here.rglob("*"):
        path = file.relative_to(here)
        if not file.is_file() or path.parts[0] not in ("src", "specs", "proofs"):
            continue
        text, name = file.read_bytes(), file.parent.name
        if path.parts[0] == "proofs" and len(path.parts) > 2 and file.name in ("Answers.antt", "Invariants.antt", "Proof.antt") and not name.startswith("+"):
            path = path.parent / "Proof.antt"
            text = HOLE.format(crate=crate, path=".".join(path.parts[1:-1]), name=name).encode()
        wanted.add(path)
        to = there / path
        if not to.exists() or to.read_bytes() != text:
            to.parent.mkdir(parents=True, exist_ok=True)
            to.write_bytes(text)
    for file in [it for it in there.rglob("*") if it.is_file()]:
        if file.relative_to(there) not in wanted:
            file.unlink()


def root(folder):
    return folder / "src" / ("main.rt" if (folder / "src" / "main.rt").exists() else "lib.rt")


def all_functions(crate):
    """Words that ask for every function of a crate: those of its root, and its modules."""
    text = root(ROOT / "crates" / crate).read_text()
    names = re.findall(r"(?m)^(?:pub )?mod (\w+);", text) + re.findall(r"(?m)^(?:pub(?:\([a-z]+\))? )?(?:const )?fn (\w+)", text)
    return [word for name in names for word in ("--only", f"{crate}::{name}")]


def main():
    words, of = sys.argv[1:], rows()
    if not words or words[0] not in of:
        sys.exit(__doc__)
    crate, real = words.pop(0), []
    if words == ["--real"]:
        sys.exit(__doc__)
    if words[:1] == ["--real"]:
        real, words = words[1].split(","), words[2:]
    specs = words == ["--specs"]
    asked = [] if specs else words or all_functions(crate)
    others = below(crate, of)
    for other in [*(it for it in others if it not in real), *([crate] if specs else [])]:
        put_aside(other)
    folder = (OVER if specs else ROOT) / "crates" / crate
    said = [KIT / "bin" / "rattle", "check", "--crate-name", crate, root(folder), "--allow-holes", "-L", f"dependency={KIT}/rlibs"]
    for name in sorted({"std"} | {it for other in (crate, *others) for it in of[other][0] if it not in of}):
        said += ["--extern", f"{name}={KIT}/rlibs/{name}.rlib"]
    for other in others:
        said += ["--lib", f"{other}:{','.join([*of[other][0], 'std'])}={root((ROOT if other in real else OVER) / 'crates' / other)}"]
    said += ["--antt-project", KIT / "rattle" / "logic" / "antt-project.json", "--logic-built", KIT / "logic_built", "--incremental", OVER / "kept"]
    said += ["--crate-type", "staticlib"] if of[crate][1] else []
    (OVER / "kept").mkdir(parents=True, exist_ok=True)
    ran = subprocess.run([*map(str, said), *asked], cwd=folder, capture_output=True, text=True)
    passed_over = tuple(f"fn {other}::" for other in others) + ("so far:", "statements ", "logic ")
    for line in (ran.stdout + ran.stderr).splitlines():
        if not line.startswith(passed_over):
            print(line.replace(f"{ROOT}/", ""))
    return ran.returncode


if __name__ == "__main__":
    sys.exit(main())
