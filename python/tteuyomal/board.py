"""The morning board: one file of HTML with a light over the whole and a light for each deck. It needs no network and loads nothing.

Decks that are alike are a group. The first of a group are written out as cards, with drawing and words; each of the others is a
line of text, so that a board of many decks opens at once. board.js turns lines into elements when somebody wants to see them, and
without JavaScript they can be read as they stand.
"""

from __future__ import annotations

import base64
import contextlib
import hashlib
import html
import itertools
import os
import shutil
import tempfile
import urllib.parse
from collections import Counter
from collections.abc import Iterable, Iterator
from typing import IO, Any, NamedTuple

from . import drawing, explain, files
from .claims import FIELDS, SHORT
from .judging import ACCEPTED, DIFFERS, REFUSED, UNREAD, Judged, Tally
from .notice import relative
from .run import Expected, Run, unmet

FULL = 50  # decks of a group that are written out
FEW = 3  # a group of so many decks is open from the start
DRAWN = 200  # decks of each verdict that are drawn
GROUPS = 200  # groups by their reason; whatever else can't be read is one group more
HELD = 8192  # bytes of a deck that are handed over for its card; a deck that the rules accept has fewer
WORDS_OF_EXPLAIN = 60  # lines of explain's words on a card

ORDER = (REFUSED, UNREAD, DIFFERS, ACCEPTED)  # what differs or is refused stands first
KINDS = {UNREAD: "unread", "not listed": "unlisted"}  # how a verdict of several words is called in a class and in a search

# a light is a colour, a shape and a word
_SHAPES = {
    "accepted": '<circle class="shape" cx="12" cy="12" r="11"/><path class="sign" d="M6.5 12.5l3.7 3.8 7.3-8"/>',
    "differs": '<path class="shape" d="M12 1L23.5 22.5H.5z"/><path class="sign" d="M7.5 14h9M7.5 18h9M14.5 11l-5 9"/>',
    "refused": '<path class="shape" d="M7.4 1h9.2L23 7.4v9.2L16.6 23H7.4L1 16.6V7.4z"/><path class="sign" d="M8 8l8 8M16 8l-8 8"/>',
    "unread": '<path class="shape" d="M2 2h20v20H2z"/><path class="sign" d="M9 9.5a3 3 0 1 1 3 3v2M12 18v.1"/>',
    "nothing": '<path class="shape" d="M2 2h20v20H2z"/><path class="sign" d="M7 12h10"/>',
}
_SHAPE_OF = {"missing": "nothing", "unlisted": "unread", "changed": "refused"}
_ICON_COLOURS = {"accepted": "#1a7f37", "differs": "#bf8700"}
_RED = "#cf222e"


def kind_of(word: str) -> str:
    """A verdict as a class and as a word of the search."""
    return KINDS.get(word, "-".join(word.split()))


def _shape(kind: str) -> str:
    name = _SHAPE_OF.get(kind, kind)
    return name if name in _SHAPES else "unread"


def light(kind: str) -> str:
    """The light of a verdict."""
    return f'<svg class="light" viewBox="0 0 24 24" aria-hidden="true"><use href="#{_shape(kind)}-light"/></svg>'


def icon(kind: str) -> str:
    """The light in the browser's tab, as an address that loads nothing."""
    shape = _SHAPES[_shape(kind)].replace('class="sign"', 'fill="none" stroke="#fff" stroke-width="2.4" stroke-linecap="round"')
    colour = _ICON_COLOURS.get(kind, _RED)
    drawn = f'<svg xmlns="http://www.w3.org/2000/svg" viewBox="0 0 24 24" fill="{colour}">{shape}</svg>'
    return "data:image/svg+xml," + urllib.parse.quote(drawn)


def text(words: str) -> str:
    """Words from outside, as HTML shows them. What can't be printed or turns the writing round is replaced."""
    if not words.isprintable():
        words = "".join(one if one.isprintable() or one == "\n" else "\ufffd" for one in words)
    return html.escape(words, quote=True)


def named(name: str) -> str:
    """A name from outside: it keeps its own direction and turns no other word round."""
    return f"<bdi>{text(files.shown(name))}</bdi>"


# ---- a deck ----


class Alike(NamedTuple):
    """What decks of one group have in common. Groups stand in this order."""

    rank: int
    number: int
    wrong: tuple[int, ...]
    words: str
    kind: str


class Row(NamedTuple):
    """A deck on its way to the board: its group, its line, and what its card is made from."""

    alike: Alike
    line: str
    judged: Judged  # its name is the one that is shown; bytes that are no use on a card are left out

    @property
    def word(self) -> str:
        """The verdict."""
        return self.judged.word


def row(judged: Judged, folder: str) -> Row:
    """One deck."""
    name = files.shown(relative(judged.name, folder))
    useful = judged.data if len(judged.data) <= HELD else b""
    line = f"{text(name)}\t{text(_said(judged))}\t{judged.sha256}\n"
    return Row(_alike(judged), line, judged._replace(name=name, data=useful))


def _wrong(judged: Judged) -> list[int]:
    """The places of the fields that are claimed wrongly; one that is not claimed is not wrong."""
    return [k for k in judged.wrong() if judged.claimed[k] is not None]


def _alike(judged: Judged) -> Alike:
    word = judged.word
    wrong = tuple(_wrong(judged)) if word == DIFFERS else ()
    words = word
    if wrong:
        words = f"{word}: {', '.join(FIELDS[k] for k in wrong)}"
    elif word == REFUSED:
        words = f"{word} {judged.number}: {judged.words}"
    elif judged.fault:
        words = f"{word}: {judged.fault}"
    rank = ORDER.index(word) if word in ORDER else 0
    return Alike(rank, judged.number if word == REFUSED else 0, wrong, words, kind_of(word))


def _said(judged: Judged) -> str:
    """What a line says besides name and SHA-256. Only what is claimed stands there; `≠` parts a wrong claim from what is worked out."""
    if judged.claimed:
        wrong = _wrong(judged)
        fields = zip(SHORT, judged.claimed, judged.worked)
        return ", ".join(
            f"{name} {claim}" + (f"≠{number}" if k in wrong else "")
            for k, (name, claim, number) in enumerate(fields)
            if claim is not None
        )
    if judged.word == REFUSED:
        return f"at {judged.place}" + (f" ({judged.note})" if judged.note else "")
    return judged.fault


def _difference(claim: Any, number: Any) -> str:
    """How much too great a wrong claim is, or too small."""
    if isinstance(claim, str) and claim.isascii() and claim.isdigit() and len(claim) < 20:
        claim = int(claim)  # to be shown: what is wrong the library said
    if isinstance(claim, int) and isinstance(number, int):
        return f"{claim - number:+d}".replace("-", "\u2212")
    return ""


def _together(words: str) -> str:
    """Words that stay on one line."""
    return text(words).replace(" ", "&nbsp;")


def _summary(judged: Judged) -> str:
    """What a folded card says: of a deck that differs only what is wrong, field by field, a number with its name."""
    if judged.word != DIFFERS:
        return text(_said(judged))
    parts = []
    for k in _wrong(judged):
        claim, number = judged.claimed[k], judged.worked[k]
        by = _difference(claim, number)
        parts.append(f"{_together(f'{FIELDS[k]} {claim}')}, {_together(f'worked out {number}')}" + (f" ({by})" if by else ""))
    return "; ".join(parts)


def _table(judged: Judged) -> str:
    """The fields. Where numbers are long, a narrow page puts them below each other."""
    if not judged.claimed:
        return ""
    wrong = _wrong(judged)
    rows = []
    for k, (name, claim, number) in enumerate(zip(FIELDS, judged.claimed, judged.worked)):
        if claim is None and number is None:
            continue
        mark = ' class="wrong"' if k in wrong else ""
        said = f"<td{mark}>{text(str(claim))}</td>" if claim is not None else '<td class="unclaimed">not claimed</td>'
        by = f"<td>{_difference(claim, number)}</td>" if k in wrong else ""
        rows.append(f'<tr><th scope="row">{name}</th>{said}<td>{text(str(number))}</td>{by}</tr>')
    long = max(len(str(number)) for number in (*judged.claimed, *judged.worked)) > 9
    heads = "".join(f'<th scope="col">{name}</th>' for name in ("claimed", "worked out", *(["difference"] if wrong else [])))
    return f'<table{" class=long" if long else ""}><thead><tr><td></td>{heads}</tr></thead><tbody>{"".join(rows)}</tbody></table>'


def _words(judged: Judged) -> str:
    """What `tteuyomal explain` says, without what the card has already. Long lists of records are cut in the middle."""
    if not judged.sha256 or len(judged.data) != judged.size:
        return ""
    lines = list(itertools.islice(explain.explained(judged), 2, None))
    if judged.claimed:
        lines = [*itertools.takewhile(bool, lines), "", lines[-1]]
    if len(lines) > WORDS_OF_EXPLAIN:
        half = WORDS_OF_EXPLAIN // 2
        lines[half:-half] = [f".. {len(lines) - 2 * half} lines more: `tteuyomal explain` has them all .."]
    words = text("\n".join(lines))
    if judged.word == REFUSED:
        return f'<pre class="words">{words}</pre>'
    return f'<details class="words"><summary>The deck in words</summary><pre class="words">{words}</pre></details>'


def _guesses(judged: Judged) -> str:
    """What was done to a large molecule, and what may be the cause of what differs, said to be a guess."""
    found = sorted({words for _, words in getattr(judged, "guessed", ())})
    cut = f"<p>{text(words.capitalize())}.</p>" if (words := getattr(judged, "cut", "")) else ""
    return cut + (f"<p>A guess at the cause, no part of the verdict: {text('; '.join(found))}.</p>" if found else "")


def card(judged: Judged, picture: str, words: str) -> str:
    """A deck that is written out: one line until it is opened."""
    kind = kind_of(judged.word)
    said = f'<span class="said">{_summary(judged)}</span>'
    sha = f'<p>SHA-256 <code class="sha">{judged.sha256}</code></p>' if judged.sha256 else ""
    return (
        f'<details class="deck {kind}"><summary>{light(kind)}<bdi class="name">{text(judged.name)}</bdi> {said}</summary>'
        f'<div class="body">{_table(judged)}{picture}{words}{sha}</div></details>\n'
    )


# ---- the page ----


class _Group:
    """The decks that are alike: cards first, then lines."""

    def __init__(self, lines: Any) -> None:
        self.count = 0
        self.cards: list[str] = []
        self.lines = lines

    def write(self, file: IO[bytes], alike: Alike, opened: bool) -> None:
        """The group as it stands on the board."""
        number = f' data-number="{alike.number}"' if alike.number else ""
        wrong = f' data-wrong="{" ".join(SHORT[k] for k in alike.wrong)}"' if alike.wrong else ""
        _put(file, [_group_head(alike.kind, self.count, alike.words, opened, number + wrong), *self.cards])
        if self.count > len(self.cards):
            _put(file, [_rest_head(self.count - len(self.cards), bool(self.cards))])
            self.lines.seek(0)
            shutil.copyfileobj(self.lines, file)
            _put(file, ["</pre></details>\n"])
        _put(file, ["</details>\n"])


def _group_head(kind: str, count: int, words: str, opened: bool, more: str = "") -> str:
    return (
        f'<details class="group {kind}" data-kind="{kind}" data-count="{count}"{more}{" open" if opened else ""}>'
        f'<summary>{light(kind)}<b>{count}</b> <span>{text(words)}</span> <i></i></summary>\n'
    )


def _rest_head(count: int, others: bool) -> str:
    return f'<details class="rest"><summary>{count}{" more" if others else ""}, a line each</summary><pre>\n'


class Page:
    """A board in the making: decks are added one by one, and it is written when all are there. Use it in a `with`."""

    def __init__(self, run: Run, what: str = "deck") -> None:
        self.run = run
        self.what = what  # what a row is: a deck or a molecule
        self._groups: dict[Alike, _Group] = {}
        self._counts: Counter[str] = Counter()
        self._drawn: Counter[str] = Counter()
        self._parts = contextlib.ExitStack()

    def __enter__(self) -> Page:
        return self

    def __exit__(self, *_: object) -> None:
        self._parts.close()

    def add(self, row: Row) -> None:
        """Puts a deck on the board."""
        group = self._group(row.alike)
        group.count += 1
        self._counts[row.word] += 1
        if len(group.cards) < FULL:
            words = _words(row.judged) if self.what == "deck" else _guesses(row.judged)
            group.cards.append(card(row.judged, self._picture(row.judged), words))
        else:
            group.lines.write(row.line.encode("utf-8"))

    def _group(self, alike: Alike) -> _Group:
        if alike not in self._groups and len(self._groups) >= GROUPS and not alike.number and not alike.wrong:
            alike = alike._replace(words=alike.words.split(":")[0])
        if alike not in self._groups:
            self._groups[alike] = _Group(self._parts.enter_context(tempfile.SpooledTemporaryFile(1 << 18)))
        return self._groups[alike]

    def _picture(self, judged: Judged) -> str:
        """The drawing, or why there is none. Where RDKit isn't there, the page's foot says so once."""
        if not judged.worked or not judged.data or not drawing.there():
            return ""
        self._drawn[judged.word] += 1
        if self._drawn[judged.word] > DRAWN:
            return f'<p class="undrawn">Not drawn: only the first {DRAWN} of each verdict are.</p>'
        picture = drawing.svg(judged.data)
        return f"<figure>{picture}</figure>" if picture else '<p class="undrawn">Not drawn: too large for a small picture.</p>'

    def write(self, file: IO[bytes], tally: Tally) -> None:
        """Writes the page. Its light goes by the tally, which must count what was added: a light never stands for a deck that isn't there."""
        if self._counts != Counter({word: count for word, count in tally.counts.items() if count}):
            raise ValueError(f"the board has {dict(self._counts)}, and the tally counts {tally.counts}")
        kind, title = summary(tally, self.run.expected, self.what)
        _put(file, _head(kind, title, self.run, "judged" if tally.found else f"looked for {self.what}s"))
        _put(file, _about(self.run, tally.found, self.what))
        _put(file, ["</header>\n", *self._controls(tally), f'<main data-fields="{"|".join(SHORT)}" data-names="{text("|".join(FIELDS))}">\n'])
        _put(file, _names(self.run.expected))
        alone = len(self._groups) == 1
        for alike in sorted(self._groups):
            group = self._groups[alike]
            most = FULL if alone else FEW if alike.kind != kind_of(ACCEPTED) else 0
            group.write(file, alike, group.count <= most)
        most = max((group.count for group in self._groups.values()), default=0)
        _put(file, ['<p class="none" hidden></p>\n</main>\n', *_foot(self.what, most), _tail()])

    def _controls(self, tally: Tally) -> Iterator[str]:
        """Search and counts. A count is a label where JavaScript is off."""
        if not tally.total and not unmet(self.run.expected, tally.found):
            return
        yield '<div class="controls"><div>\n'
        hint = "name, refused 7, differs odd, SHA-256"
        yield f'<input type="search" hidden placeholder="{hint}" aria-label="Search: {hint}" autocomplete="off" spellcheck="false">\n'
        words = [*ORDER, *(word for word in tally.counts if word not in ORDER)]
        beside = [(word, len(names)) for word, _, names in _unexpected(self.run.expected)]
        for word, count in [*((word, tally.counts[word]) for word in words), *beside]:
            if count or word in ORDER:
                kind = kind_of(word)
                button = f'<button type="button" class="{kind}" data-kind="{kind}" data-word="{word}" data-count="{count}" aria-pressed="false" disabled>'
                yield f"{button}{light(kind)}<span><b>{count}</b> {word}</span></button>\n"
        yield '<output role="status"></output>\n</div></div>\n'


def failed(run: Run, why: str) -> bytes:
    """The board of a run that failed: it is red, says why, and stands where an older board would be believed."""
    parts = [
        *_head("refused", "The run failed: no verdict stands here", run, "failed"),
        f'<p class="why">{text(why.strip())}</p>\n',
        *_about(run, None, "deck"),
        "</header>\n<main><p>What an earlier board under this name showed does not hold for this run. Judge again.</p></main>\n",
        _tail(),
    ]
    return "".join(parts).encode("utf-8")


def summary(tally: Tally, expected: Expected | None = None, what: str = "deck") -> tuple[str, str]:
    """The light over the whole board, and its words. It is green only if there was a deck, every one was accepted, and nothing that
    was expected is missing, not listed or changed."""
    accepted, wrong = tally.counts[ACCEPTED], unmet(expected, tally.found, what)
    bad, rows = tally.found - accepted, tally.total - tally.found
    if rows:
        wrong = [f"{_so_many(rows, 'row')} of the table with no molecule", *wrong]
    if not tally.found:
        kind, title = "nothing", f"Nothing was judged: no {what} was found"
    elif bad:
        kind, title = "refused" if tally.status == 2 or wrong else "differs", f"{bad} of {_so_many(tally.found, what)} not accepted"
    elif wrong:
        return "refused", f"Not what was expected: {'; '.join(wrong)}"
    else:
        kind, title = "accepted", f"The one {what} is accepted" if accepted == 1 else f"All {_so_many(accepted, what)} are accepted"
    return kind, "; ".join([title, *wrong])


def _so_many(count: int, what: str) -> str:
    return f"{count} {what}{'' if count == 1 else 's'}"


def _unexpected(expected: Expected | None) -> list[tuple[str, str, tuple[str, ...]]]:
    """What is not as it was expected: a word, what that says, and the names."""
    if expected is None:
        return []
    return [
        ("missing", "missing: expected, and not here", expected.missing),
        ("not listed", "not listed: here, and not expected", expected.unlisted),
        ("changed", "changed: other bytes than listed", expected.changed),
    ]


def _names(expected: Expected | None) -> Iterator[str]:
    """What is not as it was expected, by name."""
    for word, words, names in _unexpected(expected):
        if names:
            kind = kind_of(word)
            yield _group_head(kind, len(names), words, len(names) <= FULL, " data-beside")
            for name in names[:FULL]:
                yield f'<div class="deck {kind}">{light(kind)}<bdi class="name">{text(files.shown(name))}</bdi></div>\n'
            if len(names) > FULL:
                yield _rest_head(len(names) - FULL, True)
                yield from (text(files.shown(name)) + "\n" for name in names[FULL:])
                yield "</pre></details>\n"
            yield "</details>\n"


def _head(kind: str, title: str, run: Run, done: str) -> Iterator[str]:
    """What stands first: the light, how old it is, and which library judged where it is not the package's own."""
    script, style = _part("board.js"), _part("board.css")
    policy = f"default-src 'none'; img-src data:; style-src {_allowed(style)}; script-src {_allowed(script)}; base-uri 'none'; form-action 'none'"
    yield '<!doctype html>\n<html lang="en">\n<head>\n<meta charset="utf-8">\n'
    yield f'<meta http-equiv="Content-Security-Policy" content="{policy}">\n'
    yield '<meta name="viewport" content="width=device-width, initial-scale=1">\n'
    yield f'<link rel="icon" href="{icon(kind)}">\n<title>{text(title)}</title>\n<style>{style}</style>\n</head>\n<body>\n'
    yield '<svg class="shapes" aria-hidden="true">'
    yield from (f'<symbol id="{name}-light" viewBox="0 0 24 24">{shape}</symbol>' for name, shape in _SHAPES.items())
    yield f'</svg>\n<header>\n<h1 class="{kind}">{light(kind)}<span>{text(title)}</span></h1>\n'
    begun = f'<time datetime="{run.begun:%Y-%m-%dT%H:%M:%SZ}">{run.begun:%Y-%m-%d %H:%M:%S} UTC</time>'
    yield f'<p class="when"><span class="age">{done}</span> {begun}</p>\n'
    yield '<p class="warning old-words" hidden>This board is a day old or more, so its lights are grey. Judge again before you go by it.</p>\n'
    yield (
        '<p class="warning ahead-words" hidden>By this computer\'s clock this board was made in the future, so its lights are grey: '
        "one of the two clocks is wrong.</p>\n"
    )
    yield '<p class="still">Without JavaScript this page can\'t search and can\'t tell its age: go by the date.</p>\n'
    if run.replaced:
        yield (
            '<p class="warning">Not the library of the package judged here: the variable TTEUYOMAL_SO was set, to '
            f"{named(run.replaced)}. Compare its SHA-256 before you trust a light.</p>\n"
        )


def _about(run: Run, total: int | None, what: str) -> Iterator[str]:
    """The run: what was judged, where, by which library, and what was expected."""
    rows = [
        ("Folder", named(run.folder) if run.folder else ""),
        ("Expected", _expectation(run.expected, total, what)),
        ("Program", named(run.program) if run.program else ""),
        *((text(one.capitalize()), f"{named(name)} {_sha(sha256)}") for one, name, sha256 in run.inputs),
        ("Run", " on ".join(named(one) for one in (run.number, run.host) if one)),
        ("Library", f"Tteuyomal {text(run.version)} {_sha(run.sha256)}" if run.version or run.sha256 else ""),
    ]
    yield "<dl>\n"
    yield from (f"<div><dt>{name}</dt><dd>{said}</dd></div>\n" for name, said in rows if said)
    yield "</dl>\n"


def _sha(digits: str) -> str:
    return f"SHA-256 <code>{text(digits)}</code>" if digits else ""


def _expectation(expected: Expected | None, total: int | None, what: str) -> str:
    if expected is None:
        return ""
    by = f"those of the manifest {named(expected.manifest)}" if expected.manifest else ""
    said = ", ".join(part for part in (_so_many(expected.count, what) if expected.count is not None else "", by) if part)
    if total is None:
        return said
    wrong = unmet(expected, total, what)
    return f'{said}: <strong class="short">{text("; ".join(wrong))}</strong>' if wrong else f"{said}: all are here"


def _foot(what: str, most: int) -> Iterator[str]:
    """What a light means, and what is drawn and said where; the largest group has so many."""
    if not most:
        return
    if what == "deck":
        yield "<footer><p>Nothing stored was compared with. Each light holds the fields that a deck's sheet claims against those that the "
        yield "library worked out from the blocks and placements of that same deck.</p>"
    else:
        yield f"<footer><p>Nothing stored was compared with. Each light holds what was claimed of a {what} against what the library worked "
        yield f"out from that same {what}; what was not claimed was not judged.</p>"
    if drawing.there():
        yield "<p>Drawings show bonds alone, every atom alike, joins between placements heavier. What is refused has no molecule to draw.</p>"
    else:
        yield "<p>There are no drawings: RDKit was not there where this board was made.</p>"
    if most > FULL:
        told = " and told in words; <code>tteuyomal explain</code> tells any other" if what == "deck" else ""
        yield f"<p>Of a group the first {FULL} are drawn{told}.</p>"
    yield "</footer>\n"


def _tail() -> str:
    return f"<script>{_part('board.js')}</script>\n</body>\n</html>\n"


def _allowed(part: str) -> str:
    """What lets a browser take this one part of the page as style or script, and no other."""
    return f"'sha256-{base64.b64encode(hashlib.sha256(part.encode()).digest()).decode()}'"


def _put(file: IO[bytes], parts: Iterable[str]) -> None:
    for part in parts:
        file.write(part.encode("utf-8"))


def _part(name: str) -> str:
    with open(os.path.join(os.path.dirname(os.path.abspath(__file__)), name), encoding="utf-8") as file:
        return file.read()
