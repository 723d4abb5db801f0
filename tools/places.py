#!/usr/bin/env python3
"""Counts the places of docs/DESIGN-PASS.md in crates/*/src, by kind and crate.

    tools/places.py [-v] [KIND ..]     KIND: 1a, 3 ..; -v lists each place

It reads text, not the language: a kind is a pattern, and the page says what of it is no place."""
import collections
import re
import sys
from pathlib import Path

ROOT = Path(__file__).resolve().parent.parent
Function = collections.namedtuple("Function", "crate file line name params result requires body at")
FN = re.compile(r"(?m)^[ \t]*(?:pub(?:\([a-z]+\))? )?(?:extern\s+\S*\s*)?(?:const )?fn (?P<name>\w+)(?:<[^(]*>)?\(")
TYPE = re.compile(r"(?m)^(?P<marks>(?:[ \t]*#\[[^\]]*\]\s*)*)[ \t]*(?:pub(?:\([a-z]+\))? )?(?P<kind>struct|enum) (?P<name>\w+)")
NUMBER = re.compile(r"usize|u64|u8|u16")
# Functions whose answer may be none, and say it by a number; those that answer by a number and have no none are not among them.
NONE = r"first_|place|place_of|partner|number_in|match_place|number|number_of|header_from|line_from|skip|start_after"
CONVERTS = """is_digit digit is_blank is_white is_apart is_good is_h low last_digit sheet_kind code_of reply_code verdict_code written_code match_code row_of sight_of arm_row row_arm
    fields_of sheet_for queue_for put_decimal put_three refused sites_refused deck_refused library_refused le16_at two_at pair number key numbered same_number wide wide_byte wide_two""".split()
LOGIC = "one_if both either is_pair one_if_same one_if_bond one_if_greater is_feed opening heft grown given back is_at".split()


def closes(text, i, opening, closing):
    """Where the bracket that opens at i closes."""
    depth = 0
    while i < len(text):
        depth += (text[i] == opening) - (text[i] == closing)
        if not depth:
            return i
        i += 1
    return len(text) - 1


def blanked(text):
    """Text with its comments and strings made blank, each character in its place."""
    return re.sub(r'//[^\n]*|"(?:\\.|[^"\\])*"', lambda m: re.sub(r"[^\n]", " ", m[0]), text)


def parts(text):
    """What stands between the commas that are in no bracket."""
    found, depth, now = [], 0, ""
    for c in text:
        depth += (c in "([{<") - (c in ")]}>")
        if c == "," and not depth:
            found.append(now)
            now = ""
        else:
            now += c
    return [" ".join(it.split()) for it in [*found, now] if it.strip()]


def sources():
    lines = (line.split("#")[0] for line in (ROOT / "crates.txt").read_text().splitlines())
    for crate in (line.split(":")[0].split()[0] for line in lines if ":" in line):
        for file in sorted((ROOT / "crates" / crate / "src").rglob("*.rt")):
            yield crate, file, file.read_text()


def functions():
    for crate, file, raw in sources():
        text = blanked(raw)
        for m in FN.finditer(text):
            end = closes(text, m.end() - 1, "(", ")")
            params = [tuple(x.strip() for x in it.replace("mut ", "").split(":", 1)) for it in parts(text[m.end() : end]) if ":" in it]
            rest = re.match(r"\s*(?:->\s*([^{]*?))?(?=\s*(?:requires|ensures|where|\{))", text[end + 1 :])
            i, needs = end + 1 + (rest.end() if rest else 0), []
            while clause := re.match(r"\s*(?:where[^{]*)?(requires|ensures)\*?\s*\w*\s*\{", text[i:]):
                j = closes(text, i + clause.end() - 1, "{", "}")
                if clause[1] == "requires":
                    needs.append(" ".join(raw[i + clause.end() : j].split()))
                i = j + 1
            start = text.find("{", i)
            body = text[start : closes(text, start, "{", "}") + 1]
            result = " ".join((rest[1] or "").split()) if rest else ""
            yield Function(crate, file, text.count("\n", 0, m.start("name")) + 1, m["name"], params, result, needs, body, text.count("\n", 0, start) + 1)


def types():
    for crate, file, raw in sources():
        text = blanked(raw)
        for m in TYPE.finditer(text):
            start = text.find("{", m.end())
            body = "" if start < 0 or ";" in text[m.end() : start] else text[start + 1 : closes(text, start, "{", "}")]
            fields = [re.sub(r"^pub(\([a-z]+\))? ", "", re.sub(r"#\[[^\]]*\]", "", it).strip()) for it in parts(body)]
            derives = re.findall(r"\w+", " ".join(re.findall(r"derive\(([^)]*)\)", m["marks"])))
            yield crate, file, text.count("\n", 0, m.start("kind")) + 1, m["kind"], m["name"], fields, derives


def of_types(put):
    for crate, file, line, kind, name, fields, derives in types():
        said = f"{kind} {name} {{ {', '.join(fields)} }}"
        if kind == "enum":
            variants = [re.match(r"\w+", it)[0] for it in fields if re.match(r"\w+", it)]
            if "Refused" in variants or name in ("Value", "Word", "Printed", "Step"):
                put("1a own Option or Result", crate, file, line, said)
        elif re.search(r"\breply: (Reply|Result<)", " ".join(fields)):
            put("1b a reply, with an empty value beside it", crate, file, line, said)
        elif re.search(r"\b(fine|sound|whole|refused|open|high|loose): bool\b", " ".join(fields)):
            put("1b a flag, with a value beside it", crate, file, line, said)
        if not {"Clone", "Copy", "PartialEq", "Eq", "Debug"} & set(derives):
            put("4a a type with no derive but Drop", crate, file, line, said)
        kinds = dict(tuple(x.strip() for x in it.split(":", 1)) for it in fields if ":" in it)
        arrays = [it for it, of in kinds.items() if of.startswith("[") or of in ("BlockTable", "DistanceRow")]
        if kind == "struct" and arrays and set(kinds) & {"count", "len", "n", "largest", "asked"}:
            put("6a an array with its length or top beside it (struct)", crate, file, line, said)
        if len(arrays) > 1:
            put("6c parallel arrays (struct)", crate, file, line, said)


def of_function(f, put):
    def each(kind, pattern, what=None):
        for m in re.finditer(pattern, f.body):
            put(kind, f.crate, f.file, f.at + f.body.count("\n", 0, m.start()), f"{f.name}: {what or ' '.join(m[0].split())}")

    def whole(kind):
        put(kind, f.crate, f.file, f.line, f"fn {f.name} -> {f.result}")

    if NUMBER.fullmatch(f.result) and "fault" in f.name:
        whole("1c a refusal as a bare number, 0 for none")
    elif f.result == "usize" and re.match(rf"({NONE})", f.name) and f.name not in ("first_atoms", "first_missing"):
        whole("1d none as a number (0, the length, 1000)")
    each("1e a refusal made of a number", r"Refusal \{\s*number(?::\s*\w+)?,|\brefused\(\d+[^)]*\)")
    each("1f a refusal handed on by hand", r"(?:::Refused|Err)\((\w+)\)\s*=>\s*(?:\{\s*return\s+)?(?:\w+::Refused|Err)\(\1\)|let (?:Reply::Fine|Ok\(\(\)\)) = \w+ else|if let (?:Reply::Refused|Err)\(\w+\) = \w+")
    for name, of in f.params:
        if of == "bool" and name in ("greatest", "kind", "listed", "bytes", "hex"):
            put("7a a bool that says which step to run", f.crate, f.file, f.line, f"fn {f.name}({name}: bool)")
        if name in ("letter", "parity", "mark", "which") and of != "bool" or name == "kind" and of == "usize":
            put("1g a number for a kind (parameter)", f.crate, f.file, f.line, f"fn {f.name}({name}: {of})")
    each("7c a table by a letter or byte", r"match (letter|byte|value)\b")
    each("4c `as`", r"\bas (u8|u16|u32|u64|usize|f64|i32)\b")
    each("4b a call of wide, wide_byte, wide_two, larger", r"\b(wide|wide_byte|wide_two|larger)\(")
    flat = " ".join(f.body.split())
    if re.fullmatch(r"\{ if (\w+) <=? (\w+) \{ (\1|\2) \} else \{ (\1|\2) \} \}", flat) or f.name in ("larger", "fewer", "up_to_eight", "within", "less", "fraction"):
        whole("4d min, max or a difference by hand (function)")
    each("4e min or max by hand (expression)", r"if (\w+(?:\.\w+)?) < (\w+) \{ (\1|\2) \} else \{ (\1|\2) \}")
    if f.name in LOGIC and len(flat) < 170:
        whole("4f a bool as a number, or && and ||, by hand (function)")
    if f.name in CONVERTS:
        whole("4g a conversion by hand (function)")
    for i, (name, of) in enumerate(f.params):
        for other, size in f.params[i + 1 : i + 3]:
            if re.search(r"\[|BlockTable|StepRow|CountRow", of) and size == "usize" and (other in ("count", "held", "len") or (name, other) in (("sites", "n"), ("part", "m"))):
                put("6b an array and its length (parameters)", f.crate, f.file, f.line, f"fn {f.name}({name}: {of}, {other}: usize)")
    names = [name for name, _ in f.params]
    for one, two in (("ones", "twos"), ("xs", "ys"), ("odd", "even"), ("rows", "counts")):
        if one in names and two in names:
            put("6d parallel arrays (parameters)", f.crate, f.file, f.line, f"fn {f.name}({one}, {two})")


def of_loops(f, put):
    for m in re.finditer(r"\b(while|loop|for)\b", f.body):
        start = f.body.find("{", m.end())
        asked, body = " ".join(f.body[m.end() : start].split()), f.body[start : closes(f.body, start, "{", "}") + 1]
        if m[1] == "for" and " in " not in asked:
            continue
        moved = [it for it in re.findall(r"\w+", asked) if re.search(rf"\b{it} (\+=|-=) (\d+|[A-Z_]+)\b|\b{it} = {it} [-+] ", body)]
        if m[1] == "for":
            kind = "3z `for`: no place"
        elif m[1] == "loop":
            kind = "3d `loop`"
        elif re.search(r"& \((\w+) - 1\)", body):
            kind = "3b over the atoms of a set"
        elif moved:
            kind = "3a an index counted by hand" + (", downwards" if re.search(rf"\b{moved[0]} -= |\b{moved[0]} = {moved[0]} - ", body) else "")
        else:
            kind = "3c a place that a call moves (cursor, Euclid, merge)"
        put(kind, f.crate, f.file, f.at + f.body.count("\n", 0, m.start()), f"{f.name}: {m[1]} {asked}")


def of_contracts(found, put):
    for crate in dict.fromkeys(f.crate for f in found):
        facts = collections.defaultdict(set)
        for f in (f for f in found if f.crate == crate):
            for fact in (it for clause in f.requires for it in clause.split(" × ")):
                facts[re.sub(r"\b(now|old|entry)\b", "_", re.sub(r"^\(+|\)+$", "", fact.strip()))].add(f.name)
        for fact, names in facts.items():
            if len(names) > 2:
                put("5a a fact in three or more contracts", crate, ROOT / "crates" / crate / "src", 0, f"{len(names)} functions: {fact}")


def main():
    wanted = [it for it in sys.argv[1:] if it != "-v"]
    places = collections.defaultdict(list)

    def put(kind, crate, file, line, what):
        places[kind].append((crate, f"{file.relative_to(ROOT)}{f':{line}' if line else ''}  {what}"))

    found = list(functions())
    of_types(put)
    for f in found:
        of_function(f, put)
        of_loops(f, put)
    of_contracts(found, put)
    for name in ("Answers.antt", "Invariants.antt"):
        for file in sorted(it for it in (ROOT / "crates").glob(f"*/proofs/**/{name}") if "out" not in it.relative_to(ROOT).parts):
            put(f"8 {name}", file.relative_to(ROOT).parts[1], file, 0, f"{len(file.read_text().splitlines())} lines")
    for kind in sorted(it for it in places if not wanted or it.startswith(tuple(wanted))):
        crates = collections.Counter(crate for crate, _ in places[kind])
        print(f"{len(places[kind]):5}  {kind}: " + ", ".join(f"{crate} {n}" for crate, n in crates.most_common()))
        if "-v" in sys.argv:
            print("".join(f"         {what}\n" for _, what in places[kind]), end="")


if __name__ == "__main__":
    main()
