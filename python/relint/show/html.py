"""The layout as one HTML page that needs no other file: a card for each finding, with the two ways in colours.

All text of others becomes text of the page, never markup, and a policy in the page lets only its own style and script run.
"""
from __future__ import annotations

import base64
import difflib
import hashlib
import os
from html import escape
from itertools import groupby
from typing import Dict, Iterator, List, Sequence, Tuple

from ..base.model import ELSEWHERE, Finding, Offer, Summary, Text
from ..base.safe import SERVER_COMMAND, escaped
from ..base.words import counted, danger, offer_words, quoted, rule_of, rule_text, try_line, use_words
from ..engine.ask import as_text
from ..options import Options
from .terminal import (
    LETTERS, MOST_LINES, class_of, counts, drawn, facts, is_shown, legend, letters_of, other_words, result, rows, signs_of,
    took, unshown, why_words, worst_first,
)

HERE = os.path.dirname(os.path.realpath(__file__))
MOST_ROWS, COLOURS, MOST_CODES = 2000, 6, 600


def _own(name: str) -> str:
    """The text of a file beside this one."""
    with open(os.path.join(HERE, name), encoding="utf-8") as file:
        return file.read()


def text(shown: str) -> str:
    """Returns a text as markup: `&`, `<`, `>` and quotes as entities, and what can't be seen as escapes of Python."""
    return escape(escaped(shown[:MOST_CODES] + (" .." if len(shown) > MOST_CODES else ""), but="\n\t"), quote=True)


def _pinned(source: str) -> str:
    """The hash of a script or style, in the form in which a policy of the page allows it."""
    return "'sha256-" + base64.b64encode(hashlib.sha256(source.encode("utf-8")).digest()).decode("ascii") + "'"


def _coloured(letter: str, shown: str) -> str:
    """Markup for a part of the pattern, in the colour of its letter."""
    return f'<b class="p{LETTERS.index(letter) % COLOURS}">{text(shown)}</b>'


def _line(shown: str, signs: Dict[int, str]) -> str:
    """A source line as markup, with its parts in the colours of their letters."""
    groups = groupby(range(len(shown)), lambda at: signs.get(at, ""))
    parts = [(letter, "".join(shown[at] for at in places)) for letter, places in groups]
    return "".join(_coloured(letter, part) if letter else text(part) for letter, part in parts)


def _source(finding: Finding) -> Iterator[str]:
    """Yields the source lines of a finding and, if its parts aren't in them, its pattern."""
    letters = letters_of(drawn(finding))
    signs = signs_of(finding, letters, "")
    lines = [f'<span class="number">{number:>5}  </span>{_line(shown.rstrip(), signs.get(number, {}))}'
             for number, shown in finding.lines[:MOST_LINES]]
    left = len(finding.lines) - len(lines)
    lines += [f'<span class="number">   .. {counted(left, "line")} more</span>'] if left else []
    if lines:
        yield f'<pre tabindex="0" role="region" aria-label="Source"><code>{chr(10).join(lines)}</code></pre>'
    if finding.site is not None and (not signs or not finding.is_own):
        pattern = as_text(finding.pattern)
        marked = {at: letter for (start, end), letter in letters.items() for at in range(start, end)}
        yield f"<h3>The pattern</h3><pre tabindex=\"0\"><code>{_line(pattern[:MOST_CODES], marked)}</code></pre>"


def _ways(finding: Finding) -> Iterator[str]:
    """Yields why a finding is slow, with the ways of its text in colours."""
    why, reading = why_words(finding), drawn(finding)
    if not why:
        return
    yield f"<h3>Why</h3><p>{text(why)}.</p>"
    if reading is None:
        return
    lines = []
    for name, row in rows(reading):
        cells = text(row) if name == "text" else "".join(
            _coloured(it, it) if it in LETTERS else '<span class="bar">|</span>' if it == "|" else it for it in row)
        lines.append(f'<span class="number">{name:<8}</span>{cells}')
    note = legend(reading, finding.pattern)
    yield f'<pre tabindex="0" role="region" aria-label="The ways"><code>{chr(10).join(lines)}</code></pre>'
    yield f'<p class="muted">{text(note)}</p>' if note else ""


def _difference(old: Text, new: Text) -> Tuple[str, str]:
    """Two patterns as literals, in markup: what only the old one has is in `<del>`, what only the new one has in `<ins>`."""
    first, second = quoted(old), quoted(new)
    left, right = [], []
    for kind, a, b, c, d in difflib.SequenceMatcher(None, first[:2000], second[:2000], autojunk=False).get_opcodes():
        same = kind == "equal"
        left.append(text(first[a:b]) if same or a == b else f"<del>{text(first[a:b])}</del>")
        right.append(text(second[c:d]) if same or c == d else f"<ins>{text(second[c:d])}</ins>")
    return "".join(left), "".join(right)


def _offer(finding: Finding, offer: Offer) -> str:
    """An offer, with what it changes."""
    old, new = _difference(finding.site.pattern if finding.site else offer.pattern, offer.pattern)
    return (f"<h3>{text(offer.kind.capitalize())}</h3><div class=\"diff\"><code><span class=\"muted\">now </span>{old}</code>"
            f"<code><span class=\"muted\">new </span>{new}</code></div><p>{text(offer_words(offer))}</p>")


def card(finding: Finding, summary: Summary, number: int) -> str:
    """Returns the card of a finding; `number` is used in its ids, and is different for each card."""
    entry, site, uses = finding.entry, finding.site, finding.uses
    place = f"{entry.path}:{entry.place.line}:{entry.place.column}" if entry.place else entry.path
    kinds = [class_of(finding).split()[0]] + ([] if finding.is_own else [ELSEWHERE])
    notes = [*(site.said if site else ()), *([finding.reason] if finding.reason else [])]
    held = [f"{it.name} ({it.path}:{it.line})" for it in (site.holders if site else ())]
    notes += [f"from {', '.join(held)}"] if held else []
    if uses is not None and uses.uses and not uses.lost:
        notes.append("used by " + ", ".join(map(use_words, uses.uses[:5])))
    parts = [
        f'<article class="card {text(" ".join(kinds))}" aria-labelledby="f{number}"><div class="head">',
        f'<h2 class="mono" id="f{number}">{text(place)}</h2>',
        f'<span class="badge">{text(rule_of(finding))} {text(class_of(finding))}</span></div>',
        f'<p class="danger">{text(danger(finding, summary.steps_a_second))}</p>', *_source(finding),
        *(f'<p class="muted">{text(it)}</p>' for it in notes), *_ways(finding),
    ]
    command = try_line(finding)
    if command:
        parts.append('<h3>Try it (Ctrl-C stops it)</h3>'
                     f'<pre tabindex="0"><code id="t{number}">{escape(escaped(command))}</code></pre>'
                     f'<button type="button" hidden data-copies="t{number}">Copy</button>')
    parts += [_offer(finding, it) for it in finding.offers]
    return "".join([*parts, "</article>"])


def _others(findings: Sequence[Finding]) -> Iterator[str]:
    """Yields the table of the entries that aren't shown in full."""
    if not findings:
        return
    yield f'<details id="others"><summary>{counted(len(findings), "entry", "entries")} more</summary>'
    yield '<input id="filter" type="search" hidden placeholder="Filter" aria-label="Filter the entries">'
    yield "<table><thead><tr><th>Place</th><th>Rule</th><th>What is said</th></tr></thead><tbody>"
    for it in findings[:MOST_ROWS]:
        place = f"{it.entry.path}:{it.place.line}:{it.place.column}"
        said = danger(it) if is_shown(it) else other_words(it)
        yield f'<tr><td class="mono">{text(place)}</td><td>{text(rule_of(it))}</td><td>{text(said)}</td></tr>'
    yield "</tbody></table>"
    left = len(findings) - MOST_ROWS
    yield f"<p>and {left:,} more, which rlt check --all --format concise names</p></details>" if left > 0 else "</details>"


def _rules(findings: Sequence[Finding]) -> Iterator[str]:
    """Yields what the page of rules says of the rules of the findings."""
    for code in sorted({rule_of(it) for it in findings}):
        title, body = rule_text(code) or ("", "")
        if body:
            yield f"<details><summary>{text(code)}: {text(title)}</summary>"
            yield "".join(f"<p>{escape(escaped(it))}</p>" for it in body.split("\n") if it.strip()) + "</details>"


def lines(findings: Sequence[Finding], summary: Summary, options: Options) -> Iterator[str]:
    """Yields the lines of the page; no build server finds a command in them, though a reader sees and copies it as it is."""
    return (SERVER_COMMAND.sub("#&#35;", it) for it in _lines(findings, summary, options))


def _lines(findings: Sequence[Finding], summary: Summary, options: Options) -> Iterator[str]:
    style, script = _own("page.css"), _own("page.js")
    policy = "; ".join(("default-src 'none'", f"style-src {_pinned(style)}", f"script-src {_pinned(script)}",
                        "base-uri 'none'", "form-action 'none'"))
    shown = worst_first(findings)
    ranked = {id(it) for it in shown}
    rest: List[Finding] = [*shown[options.most:], *(it for it in findings if id(it) not in ranked)]
    yield "<!DOCTYPE html>"
    yield f'<html lang="en"><head><meta charset="utf-8"><meta http-equiv="Content-Security-Policy" content="{escape(policy)}">'
    yield '<meta name="viewport" content="width=device-width, initial-scale=1"><meta name="referrer" content="no-referrer">'
    yield f"<title>relint: {text(result(findings))}</title><style>{style}</style></head><body>"
    yield f"<header><h1>relint</h1><p>{text(result(findings))}</p><ul class=\"counts\">"
    for number, name in (it.split(" ", 1) for it in counts(findings)):
        yield f"<li><b>{text(number)}</b>{text(name)}</li>"
    yield '</ul><ul class="facts">'
    yield from (f"<li>{text(it)}</li>" for it in facts(findings, summary, options))
    yield "</ul></header><main>"
    cards = enumerate(summary.clock.within(shown[:options.most]), 1)
    yield from (card(it, summary, number) for number, it in cards)
    yield from (f'<p class="danger">{text(it)}</p>' for it in unshown(summary))
    yield from _others(rest)
    yield from _rules(shown)
    yield '</main><p id="status" class="muted" role="status"></p>'
    yield f"<footer>{text(took(summary))}; rlt {text(summary.version)}</footer>"
    yield f"<script>{script}</script></body></html>"
