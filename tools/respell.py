#!/usr/bin/env python3
"""Bring the repository's own names of definitions and lemmas to today's spelling. Run at the top of the repository, after port.py:

    python3 tools/respell.py            # turns the files, writes tools/respelled.tsv, and checks
    python3 tools/respell.py --check    # only checks that each name imported from an own module is declared there

The rules (running it twice changes nothing the second time):
- a camelCase name becomes snake_case (`saidReply`: `said_reply`), in .antt files and in the ghost parts of .rt files;
- predicates (functions into Type) that begin lower case become UpperCamel (in GIVE_WAY);
- in a lemma's name a dash becomes `_` (`not-read`: `not_read`) but where it joins two whole names that the statement speaks of
  (`walks-length`), or follows `unique`, or a type at the head of the name; a name of several words is joined by `_` (`unique-is_outside`);
- a lemma that would have its function's name gets `_lem`: SPECIAL and GIVE_WAY list those that would fall together in some file.
Untouched: names from src/*.rt, strings, what is imported from outside, what Rattle generates (goals, steps, `tie.`, `c.`), and the
declarations of proof files (proofs/**/Proof.antt, whose dashed names are those of goals). Edits are turned with their files, and their projections are
written tight; those whose text doesn't stand even so are named at the end.
"""
import collections
import os
import re
import subprocess
import sys

# names that would fall together with another name in a file that speaks of them, or would read badly: old: new
SPECIAL = {
    'getD-table': 'get_or-table',
    # a lemma that would have its function's name
    'arm-placed': 'arm_placed_lem',
    'all-carried': 'all_carried_lem',
    'add-told': 'add_told_lem',
    'at-two': 'at_two_lem',
    'atom-line': 'atom_line_lem',
    'block-alone': 'block_alone_lem',
    'blocks-reply': 'blocks_reply_lem',
    'bond-line': 'bond_line_lem',
    'candidate-number': 'candidate_number_lem',
    'claim-of': 'claim_of_lem',
    'compose-told': 'compose_told_lem',
    'counts-line': 'counts_line_lem',
    'deck-reply': 'deck_reply_lem',
    'distance-at': 'distance_at_lem',
    'drawn-near': 'drawn_near_lem',
    'drop-told': 'drop_told_lem',
    'even-of': 'even_of_lem',
    'even-one': 'even_one_lem',
    'fields-reply': 'fields_reply_lem',
    'first-wrong': 'first_wrong_lem',
    'in-row': 'in_row_lem',
    'is-number': 'is_number_lem',
    'largest-root': 'largest_root_lem',
    'look-told': 'look_told_lem',
    'no-block': 'no_block_lem',
    'odd-of': 'odd_of_lem',
    'odd-one': 'odd_one_lem',
    'opened-near': 'opened_near_lem',
    'product-deck': 'product_deck_lem',
    'shape-by': 'shape_by_lem',
    'site-seen': 'site_seen_lem',
    'sites-from': 'sites_from_lem',
    'six-fields': 'six_fields_lem',
    'steps-by': 'steps_by_lem',
    'table-answer': 'table_answer_lem',
    'table-left': 'table_left_lem',
    'text-alone': 'text_alone_lem',
    'wants-greatest': 'wants_greatest_lem',
}

# names that stand in snake case already and have to give way, by the files that speak of them (a prefix of the path): old: new. The third is
# the name that they give way to, by which a first run is known from a second (there none stands).
GIVE_WAY = {
    ('crates/adjacency/specs/Values.antt', 'is_digit', 'isDigit'): 'is_digit_lem',
    ('crates/text/proofs/Written.antt', 'is_digit', 'isDigit'): 'is_digit_lem',
    ('crates/printed/proofs/Decimal.antt', 'is_digit', 'isDigit'): 'is_digit_lem',
    ('crates/text/proofs/Numbers.antt', 'all_digits', 'allDigits'): 'all_digits_lem',
    ('crates/text/proofs/number_of_two/Proof.antt', 'all_digits', 'allDigits'): 'all_digits_lem',
    ('crates/text/proofs/number/Proof.antt', 'all_digits', 'allDigits'): 'all_digits_lem',
    ('crates/half/specs/Reads.antt', 'pair_place', 'pairPlace'): 'pair_place_lem',
    ('crates/sets/proofs/Peel.antt', 'at_one', 'atOne'): 'at_one_lem',
    ('crates/summary/specs/Examples.antt', 'one_way', 'oneWay'): 'one_way_lem',
    ('crates/text/specs/Laws.antt', 'no_number', 'noNumber'): 'no_number_lem',
    ('crates/molfile/proofs/two_numbers/Proof.antt', 'no_number', 'noNumber'): 'no_number_lem',
    ('crates/balaban/proofs/Squares.antt', 'root_in', 'rootIn'): 'root_in_lem',
    ('crates/queues/specs/Storage.antt', 'held_by', 'heldBy'): 'held_by_lem',
    ('crates/written_out/specs/Walked.antt', 'walk_from', 'walkFrom'): 'walk_from_lem',
    # predicates that begin lower case; the name they give way to is their own
    ('crates/poly/proofs/Examples.antt', 'refuses', 'refuses'): 'Refuses',
    ('crates/block/proofs/Replies.antt', 'refuses', 'refuses'): 'Refuses',
    ('crates/block/specs/Faults.antt', 'numbered', 'numbered'): 'Numbered',
}

# a name of the source and a definition, or an operator and its uses, that may have one name: (file, old)
MAY_MEET = {
    ('crates/deck/src/lib.rt', 'payloadAt'),
}

# words at the head of a lemma's name that are names themselves
HEADS = {'unique'}

CAMEL = re.compile(r"^[a-z][a-z0-9]*[A-Z]")
TOKEN = re.compile(r"[^\s(){}\[\].,;λ\"`|:=→×⟨⟩@\\]+")
DECLARED = re.compile(r"^([ ]*)((?:(?:pattern|unfoldable|abbrev|pub|axiom)\s+)*)([^\s:(){}.,;λ\"|]+)(?:\s*\{[^}:]*\})?\s*:(?=\s|$)")
USE = re.compile(r"^[ ]*(?:unfoldable\s+)?(?:pub\s+)?(?:ghost\s+)?use\s+([\w+.]+?)(?:\.\{([^}]*)\}|\s+as\s+(\S+?))?;?\s*$", re.M)
MARKS = ('pattern', 'unfoldable', 'abbrev', 'pub', 'axiom')


def tracked():
    out = subprocess.run(('git', 'ls-files'), capture_output=True, text=True).stdout
    return [f for f in out.split('\n') if f and os.path.isfile(f) and not os.path.islink(f)]


def read(f):
    with open(f, encoding='utf-8') as h:
        return h.read()


def snake(word):
    """a camelCase word in snake case; another as it is"""
    if not CAMEL.match(word):
        return word
    word = re.sub(r"([a-z0-9])([A-Z])", r"\1_\2", word)
    word = re.sub(r"([A-Z])([A-Z][a-z])", r"\1_\2", word)
    return word.lower()


def module_file(path):
    """the file of an own module, or None where Rattle makes it or it is from outside"""
    p = path.split('.')
    if len(p) < 4 or p[0] != 'Rattle' or p[2] not in ('specs', 'proofs'):
        return None
    f = 'crates/' + '/'.join(p[1:]) + '.antt'
    return f if os.path.isfile(f) else None


def is_proof(f):
    return f.endswith('/Proof.antt')


def declarations(text):
    """each declared name with its signature, fields and constructors and local definitions too"""
    found = []
    lines = text.split('\n')
    for i, line in enumerate(lines):
        m = re.match(r"^[ ]*(?:pub\s+)?(?:record|data)\s+([^\s:(){}.,;]+)", line)
        if m:
            found.append((m.group(1), line))
            continue
        if line.lstrip().startswith('--'):
            continue
        m = DECLARED.match(line)
        if not m or m.group(3) in MARKS:
            continue
        deep, j = len(m.group(1)), i + 1
        while j < len(lines) and lines[j].strip() and len(lines[j]) - len(lines[j].lstrip()) > deep and not lines[j].lstrip().startswith('--'):
            j += 1
        found.append((m.group(3), '\n'.join([line[m.end():]] + lines[i + 1:j])))
    return found


def imports(text):
    """for each use line: the path, the names that it takes (name, as), the alias of the module"""
    out = []
    for m in USE.finditer(text):
        names = []
        if m.group(2) is not None:
            for n in m.group(2).split(','):
                w = n.split()
                if w:
                    names.append((w[0], w[-1]))
        out.append((m.group(1), names, m.group(3)))
    return out


def fields(text):
    """the fields of a text's records"""
    out, deep = set(), None
    for line in text.split('\n'):
        m = re.match(r"^( *)(?:pub +)?record +[^\s:(){}.,;]+", line)
        if m:
            deep = len(m.group(1))
            continue
        if deep is not None and line.strip() and len(line) - len(line.lstrip()) <= deep:
            deep = None
        m = DECLARED.match(line)
        if deep is not None and m:
            out.add(m.group(3))
    return out


def binders(signature):
    bound = set()
    for m in re.finditer(r"[({]([^(){}:]+) :", signature):
        bound.update(m.group(1).split())
    for m in re.finditer(r"λ ([^.]*)\.", signature):
        bound.update(m.group(1).split())
    return bound


def turn_dashes(name, signature, functions):
    parts = [snake(p) for p in name.split('-')]
    if '' in parts:
        return '-'.join(parts)
    bound = binders(signature)
    known = {snake(t).replace('-', '_') for t in TOKEN.findall(signature) if t not in bound}
    known |= {t.strip('◌') for t in known}

    def is_known(seg):
        s = '_'.join(seg)
        return (s in known and len(s) > 1 and not s.isdigit()) or ('_' in s and s in functions) or (s[0].isupper() and len(s) > 1)

    # into as long known names as can be, from the left
    segments, i = [], 0
    while i < len(parts):
        for j in range(len(parts), i, -1):
            if is_known(parts[i:j]):
                segments.append(('_'.join(parts[i:j]), True))
                i = j
                break
        else:
            segments.append((parts[i], False))
            i += 1
    left = segments[0]
    if left[0] in HEADS and len(segments) > 1:
        return left[0] + '-' + '_'.join(s for s, _ in segments[1:])
    out = left[0]
    for k, seg in enumerate(segments[1:]):
        keep = (left[1] and seg[1]) or (k == 0 and left[0][0].isupper())
        out += ('-' if keep else '_') + seg[0]
        left = seg
    return out


class Respelling:
    def __init__(self):
        files = tracked()
        self.antt = [f for f in files if f.startswith('crates/') and f.endswith('.antt')]
        self.rt = [f for f in files if f.startswith('crates/') and f.endswith('.rt')]
        self.edits = [f for f in files if f.startswith('crates/') and f.endswith('.edit')]
        self.pages = [f for f in files if f in ('README.md', 'CONTRIBUTING.md') or re.match(r"docs/[^/]*\.md$", f)]
        # scripts that speak of names in strings
        self.scripts = [f for f in files if f in ('docs/count', 'docs/marks', 'tests/test_words.py')]
        self.text = {f: read(f) for f in self.antt + self.rt + self.edits + self.pages + self.scripts}
        self.functions = set()
        for f in self.rt:
            self.functions.update(re.findall(r"\bfn\s+(\w+)", self.text[f]))
        self.declared = {f: declarations(self.text[f]) for f in self.antt}
        self.where = collections.defaultdict(set)
        self.by_crate = collections.defaultdict(set)
        found = collections.defaultdict(list)
        for f in self.antt:
            for name, signature in self.declared[f]:
                self.where[name].add(f)
                if '-' in name.strip('-') and not is_proof(f):
                    found[name].append(turn_dashes(name, signature, self.functions))
                    self.by_crate[f.split('/')[1]].add(name)
        self.way = {(f, old): new for (f, old, witness), new in GIVE_WAY.items() if witness in self.where}
        # one name, one spelling: the one with most dashes
        self.dashed = {n: SPECIAL.get(n) or sorted(news, key=lambda x: (-x.count('-'), x))[0] for n, news in found.items()}
        self.fields = {n for f in self.antt for n in fields(self.text[f]) if n in self.dashed}
        self.outer = {f: {n for path, taken, _ in imports(self.text[f]) for _, n in taken if module_file(path) is None} for f in self.antt}
        self.scope = {f: self.scope_of(f) for f in self.antt + self.rt}
        self.used = collections.defaultdict(set)
        self.locals = {f: self.locals_of(f) for f in self.antt if not is_proof(f)}

    def locals_of(self, f):
        """the dashed names that a file binds for itself: parameters, patterns, let"""
        code = [line[:comment_at(line, '--')] for line in self.text[f].split('\n') if not re.match(r"\s*(unfoldable )?(pub )?use ", line)]
        seen = {m.group(0) for line in code for m in TOKEN.finditer(line)}
        bare = {m.group(0) for line in code for m in TOKEN.finditer(line) if not line[:m.start()].endswith('.')}
        names = self.scope[f][0]
        spoken = seen | {snake(x) for x in seen} | {self.dashed[n] for n in names}
        out = {}
        for n in bare:
            if re.match(r"^[a-z]\w*(-\w+)+'*$", n) and n not in names and n not in self.outer[f] and n not in self.fields:
                new = '_'.join(snake(p) for p in n.split('-')).lower()
                taken = {x for path, taken, _ in imports(self.text[f]) for _, x in taken}
                if n not in taken and new not in spoken and new not in taken:
                    out[n] = new
        return out

    def scope_of(self, f):
        """the dashed names that a file speaks of, and the aliases of own modules"""
        names, roots = set(), set()
        if f.endswith('.antt') and not is_proof(f):
            names.update(n for n, _ in self.declared[f] if n in self.dashed)
        for path, taken, alias in imports(self.text[f]):
            g = module_file(path)
            if g is None or is_proof(g):
                # what Rattle makes or the kit has keeps its name
                continue
            names.update(n for n, _ in taken if n in self.dashed)
            if alias:
                roots.add(alias)
        return names, roots

    def new(self, f, token, before):
        """the new name of a token of a file; before: what stands before it on its line"""
        bare = token.strip('◌')
        if not before.endswith('.') and self.way.get((f, bare)):
            return token.replace(bare, self.way[(f, bare)])
        if '-' in token.strip('-'):
            names, roots = self.scope.get(f, ((), ()))
            if token in self.fields and token not in self.outer.get(f, ()):
                mine = {n for n, _ in self.declared.get(f, ())}
                if not is_proof(f) or token not in mine and token.replace('-', '_') not in self.functions:
                    return self.dashed[token]
            if not before.endswith('.') and token in self.locals.get(f, {}):
                return self.locals[f][token]
            if before.endswith('.'):
                root = re.search(r"([^\s(){}.,;λ]+)\.$", before)
                if root and root.group(1) in roots and token in self.dashed:
                    return self.dashed[token]
            elif token in names:
                return self.dashed[token]
            # a capital says that it is no goal or step
            turned = '-'.join(snake(p) for p in token.split('-'))
            return self.dashed.get(token, turned) if turned != token else token
        if bare in SPECIAL:
            return token.replace(bare, SPECIAL[bare])
        return token.replace(bare, snake(bare)) if bare else token

    def turn_code(self, f, line, rust):
        """what is no comment of a line of a file; strings stay"""
        out, before = [], ''
        for k, piece in enumerate(re.split(r'("(?:[^"\\]|\\.)*")', line)):
            if k % 2 == 0:
                last, done = 0, ''
                for m in TOKEN.finditer(piece):
                    token = new = m.group(0)
                    ahead = before + piece[:m.start()]
                    if rust:
                        # marks of the source that cling to a name
                        w = re.match(r"^([&*!<>?'+#-]*)(.*?)([&!<>?#-]*)$", token)
                        if w.group(2):
                            token, new = w.group(2), self.new(f, w.group(2), ahead + w.group(1))
                            done += piece[last:m.start()] + w.group(1) + new + w.group(3)
                        else:
                            done += piece[last:m.end()]
                    else:
                        new = self.new(f, token, ahead)
                        done += piece[last:m.start()] + new
                    if new != token:
                        self.used[token].add((f, new))
                    last = m.end()
                out.append(done + piece[last:])
            else:
                out.append(piece)
            before += piece
        return ''.join(out)

    def turn_comment(self, f, line, rust):
        """a comment: what stands in backticks, and camelCase names"""
        table = self.by_crate[f.split('/')[1]]

        def ticked(inner):
            if inner in self.dashed:
                return self.dashed[inner]
            if re.match(r"^[A-Z]\w*-[\w-]*$", inner) and inner not in self.where:
                # port.py gave a capital to what is declared with none
                small = inner[0].lower() + inner[1:]
                small = self.dashed.get(small) or small.replace('-', '_')
                return small if small in self.where or small in self.dashed.values() else inner
            if '-' in inner and inner not in self.where and inner.replace('-', '_') in self.where:
                return inner.replace('-', '_')
            return self.turn_code(f, TOKEN.sub(lambda t: self.dashed[t.group(0)] if t.group(0) in table else t.group(0), inner), rust)
        return ''.join('`' + ticked(p[1:-1]) + '`' if k % 2 else self.turn_words(p) for k, p in enumerate(re.split(r"(`[^`\n]*`)", line)))

    def turn_words(self, piece):
        """the camelCase names in plain words"""
        def one(m):
            t = m.group(0)
            return snake(t) if CAMEL.match(t) and (t in self.where or snake(t) in self.where) else t
        return re.sub(r"(?<![\w./])[a-z]\w*(?![\w/])", one, piece)

    def turn_text(self, f, text, rust):
        out = []
        for line in text.split('\n'):
            cut = comment_at(line, '//' if rust else '--')
            out.append(self.turn_code(f, line[:cut], rust) + (self.turn_comment(f, line[cut:], rust) if cut is not None else ''))
        return align(text.split('\n'), out)

    def turn_edit(self, f, text):
        target = edit_target(f, text)
        rust = target.endswith('.rt')
        out = []
        for line in text.split('\n'):
            m = re.match(r"^(?:old|new): ?", line)
            if line.startswith('file:'):
                target = edit_target(f, line)
                rust = target.endswith('.rt')
            if m:
                line = m.group(0) + self.turn_text(target, line[m.end():], rust)
                if not rust:
                    line = tight(line)
            elif line.startswith('#'):
                line = self.turn_comment(target, line, rust)
            out.append(line)
        return '\n'.join(out)

    def turn_script(self, text):
        def quoted(m):
            inner = m.group(1)
            if inner in self.dashed:
                return '"' + self.dashed[inner] + '"'
            turned = snake(inner).replace('-', '_')
            return '"' + (turned if turned != inner and inner not in self.where and turned in self.where or CAMEL.match(inner) and inner in self.where else inner) + '"'
        return re.sub(r'"([^"\s\\/]+)"', quoted, text)

    def turn_page(self, text):
        def ticked(m):
            inner = m.group(1)
            if inner in self.dashed:
                return '`' + self.dashed[inner] + '`'
            if '-' in inner and inner not in self.where and inner.replace('-', '_') in self.where:
                # port.py turned it
                return '`' + inner.replace('-', '_') + '`'
            return m.group(0) if re.search(r"[/\"$]|--|::", inner) else '`' + self.turn_words(inner) + '`'
        out, fenced = [], False
        for line in text.split('\n'):
            if line.startswith('```'):
                fenced = not fenced
            out.append(line if fenced else re.sub(r"`([^`\n]+)`", ticked, line))
        return align(text.split('\n'), out)


def comment_at(line, mark):
    """where a comment begins, outside strings; None where there is none"""
    i, inside = 0, False
    while i < len(line):
        c = line[i]
        if inside:
            if c == '\\':
                i += 1
            elif c == '"':
                inside = False
        elif c == '"' and not (i and line[i - 1] in "'\\" and line[i + 1:i + 2] == "'"):
            inside = True
        elif line.startswith(mark, i) and (mark == '//' or i == 0 or line[i - 1].isspace()) and (mark == '//' or line[i + 2:i + 3] in ('', ' ')):
            return i
        i += 1
    return None


def align(old, new):
    """the text of new lines, where tables whose columns stood in line stand in line again"""
    out = list(new)
    row = re.compile(r"^(\s*(?:--|//)?\s*)\|.*\|\s*$")
    i = 0
    while i < len(new):
        j = i
        while j < len(new) and row.match(new[j]):
            j += 1
        if j - i >= 2 and old[i:j] != new[i:j]:
            bars = {tuple(k for k, c in enumerate(x) if c == '|') for x in old[i:j]}
            cells = [[c.strip() for c in re.sub(r"^\s*(?:--|//)?\s*\|", '', x).rstrip()[:-1].split('|')] for x in new[i:j]]
            if len(bars) == 1 and len({len(c) for c in cells}) == 1:
                head = row.match(new[i]).group(1)
                width = [max(len(c[k]) for c in cells if not re.match(r"^-+$", c[k])) for k in range(len(cells[0]))]
                for n, c in enumerate(cells):
                    if all(re.match(r"^-+$", x) for x in c):
                        out[i + n] = head + '|' + '|'.join('-' * (w + 2) for w in width) + '|'
                    else:
                        out[i + n] = head + '|' + '|'.join(' ' + x + ' ' * (w - len(x)) + ' ' for x, w in zip(c, width)) + '|'
        i = max(j, i + 1)
    return '\n'.join(out)


def tight(text):
    """projections of an edit written as today: `(s .many)` as `s.many`"""
    for _ in range(3):
        text = re.sub(r"\(([^\W\d][\w']*(?:\.\w+)*) \.([a-z_]\w*)\)", r"\1.\2", text)
        text = re.sub(r"(?<=[\w')]) \.([a-z_]\w*)", r".\1", text)
    return text


def applies(text, f, turned):
    """whether the replacements of an edit can be made, each where its text stands once"""
    target, now, old = None, {}, None
    for line in text.split('\n'):
        m = re.match(r"^(file|old|new): ?(.*)$", line)
        if not m:
            continue
        kind, rest = m.groups()
        if kind == 'file':
            target = os.path.normpath(os.path.join('/'.join(f.split('/')[:2]), rest.strip()))
            if target not in turned and target not in now:
                return False
            now.setdefault(target, turned.get(target, ''))
        elif kind == 'old':
            old = rest
        else:
            if not old or now[target].count(old) != 1:
                return False
            now[target] = now[target].replace(old, rest)
    return True


def edit_target(f, text):
    m = re.search(r"^file: (.*)$", text, re.M)
    return os.path.normpath(os.path.join('/'.join(f.split('/')[:2]), m.group(1).strip())) if m else ''


def check(r):
    """each name taken from an own module is declared there or handed on; the complaints"""
    bad, exports = [], {}

    def exported(f):
        if f not in exports:
            text = read(f)
            exports[f] = {n for n, _ in declarations(text)}
            for line in re.findall(r"^[ ]*(?:unfoldable\s+)?pub\s+use\s.*$", text, re.M):
                exports[f].update(n for _, taken, _ in imports(line) for _, n in taken)
        return exports[f]
    for f in r.antt + r.rt:
        text = read(f)
        for path, taken, alias in imports(text):
            g = module_file(path)
            if g is None:
                continue
            bad.extend(f'{f}: {path} has no {n}' for n, _ in taken if n not in exported(g))
            if alias:
                for m in re.finditer(r"(?<![\w.'])" + re.escape(alias) + r"\.([^\s(){}.,;λ]+)", text):
                    if m.group(1) not in exported(g):
                        bad.append(f'{f}: {alias}.{m.group(1)} is not in {path}')
    mine = {n for f in r.antt for n in fields(r.text[f])}
    for f in r.antt:
        if is_proof(f):
            continue
        known = {n for n, _ in r.declared[f]} | {n for _, taken, _ in imports(r.text[f]) for _, n in taken}
        for i, line in enumerate(r.text[f].split('\n'), 1):
            for m in TOKEN.finditer(line[:comment_at(line, '--')]):
                n = m.group(0)
                if '-' in n.strip('-') and n not in known and n.replace('-', '_') in mine:
                    bad.append(f'{f}:{i}: {n} is a field no more')
    return bad


def falls_together(r):
    """names that would be one in a module, or in a file that speaks of both"""
    bad = []
    for f in r.antt:
        by = collections.defaultdict(set)
        for n, _ in r.declared[f]:
            by[r.new(f, n, '')].add(n)
        bad.extend(f'{f}: {sorted(olds)} all become {new}' for new, olds in by.items() if len(olds) > 1)
    spoken = collections.defaultdict(dict)
    for old, places in r.used.items():
        for f, new in places:
            spoken[f].setdefault(new, set()).add(old)
    for f, table in spoken.items():
        if not f.endswith(('.antt', '.rt')):
            continue
        rust = f.endswith('.rt')
        seen = collections.defaultdict(list)
        for i, line in enumerate(r.text[f].split('\n'), 1):
            code = re.sub(r'"(?:[^"\\]|\\.)*"', '""', line[:comment_at(line, '//' if rust else '--')])
            for m in TOKEN.finditer(code):
                t = m.group(0).strip('◌')
                if rust:
                    t = t.strip("&*!<>?#'-")
                    after = code[m.end():]
                    if re.search(r"(\bfn |::|\.)$", code[:m.start()]) or re.match(r"\(|::", after) or re.match(r"\s*(pub )?use ", code):
                        continue
                elif code[:m.start()].endswith('.'):
                    continue
                seen[t].append(i)
        for new, olds in sorted(table.items()):
            if len(olds) > 1:
                bad.append(f'{f}: {sorted(olds)} all become {new}')
            unfinished = all(o not in r.where and '-' not in o or o.startswith('◌') for o in olds)
            if new.strip('◌') in seen and (f, new.strip('◌')) not in r.way and not unfinished and not any((f, o) in MAY_MEET for o in olds):
                bad.append(f'{f}: {sorted(olds)[0]} becomes {new}, which stands at line {seen[new.strip("◌")][:6]}')
    return bad


def main():
    r = Respelling()
    if sys.argv[1:] == ['--check']:
        bad = check(r)
        print('\n'.join(bad + [f'respell: {len(bad)} names taken from a module that has none such']))
        return 1 if bad else 0
    turned = {f: r.turn_text(f, r.text[f], False) for f in r.antt}
    turned.update((f, r.turn_text(f, r.text[f], True)) for f in r.rt)
    turned.update((f, r.turn_edit(f, r.text[f])) for f in r.edits)
    left = [f for f in r.edits if not applies(turned[f], f, turned)]
    turned.update((f, r.turn_script(r.text[f])) for f in r.scripts)
    turned.update((f, r.turn_page(r.text[f])) for f in r.pages)
    bad = falls_together(r)
    print('\n'.join(bad + [f'respell: {len(bad)} names fall together']))
    rows = set()
    for old, places in r.used.items():
        where = {g.split('/')[1] for g in r.where.get(old) or r.where.get('◌' + old + '◌') or () if not is_proof(g)}
        for f, new in places:
            rows.update((c, old, new) for c in where or {f.split('/')[1]})
    changed = [f for f in turned if turned[f] != r.text[f]]
    print(f'respell: {len(changed)} files to turn, {len({x[1] for x in rows})} names')
    print('\n'.join([f'{f}: its text does not stand' for f in left] + [f'respell: {len(left)} edits to mend by hand']))
    if sys.argv[1:] == ['--dry']:
        print('\n'.join('\t'.join(x) for x in sorted(rows)))
        return 1 if bad else 0
    if bad:
        return 1
    for f in changed:
        with open(f, 'w', encoding='utf-8') as h:
            h.write(turned[f])
    if rows:
        with open('tools/respelled.tsv', 'w', encoding='utf-8') as h:
            h.write('crate\told\tnew\n' + ''.join('\t'.join(x) + '\n' for x in sorted(rows)))
    return 0


if __name__ == '__main__':
    sys.exit(main())
