"""Puts new patterns into sources: as a unified diff, or into the files.

The literals of a pattern are changed in place if they can be, and then keep their prefix and quotes; otherwise a new literal
takes the place of the first one, and the others become empty. A file is left alone if it isn't what was judged, if its
literals don't give just the new pattern afterwards, or if the program finds anything else in it then.
"""
from __future__ import annotations

import difflib
import math
import os
import re
import sys
import tempfile
import time
from bisect import bisect_left, bisect_right
from contextlib import suppress
from dataclasses import dataclass
from itertools import accumulate
from typing import Dict, Iterator, List, NamedTuple, Optional, Sequence, Tuple, Union

from ..base.model import NEW, WIDER, Entry, Finding, Literal, Offer, Site, Text
from ..base.safe import OpenError, WriteError, is_seen, names_below, place_of, read_below, reason, replace_file, visible
from ..base.words import counted
from ..code.source import BYTES_ESCAPE, ESCAPE, RAW_CODE, STRING
from ..engine.ask import as_text
from ..engine.engine import judge
from ..options import Options

LITERAL = re.compile(r"([rRbBuU]*)('''|\"\"\"|'|\")")
LINES = re.compile(r"[^\n]*\n|[^\n]+")
KINDS = ("fix", "better", "advice")
# What stands behind the backslash of an escape that Python knows; in bytes, those with u, U and N aren't any.
KNOWN = "\\'\"abfnrtvxuUN01234567"
SECONDS, MOST_MATCHED = 60.0, 4_000_000
# So many lines before and behind a change are in a diff.
CONTEXT = 3


class Unchangeable(Exception):
    """Raised if a file or a literal can't be changed; the message says why in a clause."""


@dataclass(frozen=True)
class Written:
    """What became of a file: how many of its findings were fixed and made better, or why it was left as it was.

    `lost` are words for each thing that couldn't be kept, such as the file's owner.
    """

    path: str
    fixed: int = 0
    better: int = 0
    why: str = ""
    lost: Tuple[str, ...] = ()


@dataclass(frozen=True)
class Edit:
    """A change of a source's text: what is from the offset `start` up to `end` is replaced by `text`."""

    start: int
    end: int
    text: str


class Spelled:
    """A literal of a source: where each character of its value is written, and how new ones are written in it."""

    def __init__(self, literal: Literal) -> None:
        """Takes the literal. Raises Unchangeable if it is an f-string or can't be read."""
        found = LITERAL.match(literal.text)
        if found is None or not STRING.fullmatch(literal.text):
            raise Unchangeable("a literal of it can't be read")
        self.quote, prefix = found[2], found[1].lower()
        self.raw, self.is_bytes = "r" in prefix, "b" in prefix
        self.end = literal.end - len(self.quote)
        self.units: List[Tuple[int, int]] = []
        self.value = ""
        form = RAW_CODE if self.raw else BYTES_ESCAPE if self.is_bytes else ESCAPE
        for it in form.finditer(literal.text, found.end(), len(literal.text) - len(self.quote)):
            value, at = self._meant(it[0]), literal.start + it.start()
            # (an escape that Python doesn't know stays as it is, backslash and all)
            size = len(it[0]) if len(value) == 1 else 1
            self.units += [(at + one, at + one + size) for one in range(len(value))]
            self.value += value

    def _meant(self, text: str) -> str:
        """Returns what a character or an escape of it means: nothing at a line that goes on."""
        if self.raw or text[0] != "\\":
            return "\n" if text in ("\r\n", "\r") else text
        if text[1] in "\r\n":
            return ""
        if text[1] not in KNOWN or self.is_bytes and text[1] in "uUN":
            return text
        try:
            found = text.encode("ascii").decode("unicode_escape")
        except ValueError as error:
            raise Unchangeable("an escape of it can't be read") from error
        return chr(ord(found) & 0xFF) if self.is_bytes else found

    def written(self, text: str) -> str:
        """Returns how new characters are written in it; raises Unchangeable if it is raw and can't hold them."""
        if self.raw:
            if self.quote[0] in text or "\n" in text and len(self.quote) == 1 or "\r" in text:
                raise Unchangeable("a raw literal can't hold it")
            return text
        return "".join(map(self._escaped, text))

    def _escaped(self, letter: str) -> str:
        """Returns how one character is written in it, if it isn't raw."""
        if letter in ("\\", self.quote[0]):
            return "\\" + letter
        if letter == "\n":
            return letter if len(self.quote) == 3 else "\\n"
        if letter.isprintable() and (ord(letter) < 127 or not self.is_bytes):
            return letter
        return f"\\x{ord(letter):02x}" if ord(letter) < 256 else f"\\U{ord(letter):08x}"


def value_of(literals: Sequence[Literal]) -> Text:
    """Returns the value of literals, one behind the other; raises Unchangeable."""
    spelled = [Spelled(it) for it in literals]
    text = "".join(it.value for it in spelled)
    if not spelled or len({it.is_bytes for it in spelled}) != 1:
        raise Unchangeable("its literals can't be read")
    return text.encode("latin-1", "replace") if spelled[0].is_bytes else text


def edits(site: Site, new: Text) -> List[Edit]:
    """Returns the edits after which the literals of a site give the new pattern: in place, or else as one new literal.

    Raises Unchangeable if they don't give its pattern now, or can't give the new one.
    """
    if value_of(site.literals) != site.pattern or isinstance(new, str) != isinstance(site.pattern, str):
        raise Unchangeable("its literals don't give the pattern")
    with suppress(Unchangeable):
        found = _in_place([Spelled(it) for it in site.literals], as_text(new))
        if value_of(_after(site, found)) == new:
            return found
    found = _anew(site, new)
    if value_of(_after(site, found)) != new:
        raise Unchangeable("its literals can't hold the new pattern")
    return found


def _in_place(spelled: List[Spelled], new: str) -> List[Edit]:
    """The edits that change only what differs, each inside one literal; raises Unchangeable if one can't hold its part."""
    ends = list(accumulate(len(it.units) for it in spelled))
    found: List[Edit] = []
    for start, end, text in _changes("".join(it.value for it in spelled), new, [0, *ends]):
        # (the new text goes into the literal with the first character that is replaced, or the first one that reaches there)
        holder = bisect_right(ends, start) if start < end else bisect_left(ends, start)
        for at, literal in enumerate(spelled):
            begin = ends[at] - len(literal.units)
            low, high = max(start, begin) - begin, min(end, ends[at]) - begin
            if at == holder and text or low < high:
                first = literal.units[low][0] if low < len(literal.units) else literal.end
                last = literal.units[high - 1][1] if high > low else first
                found.append(Edit(first, last, literal.written(text) if at == holder else ""))
    return found


def _changes(old: str, new: str, borders: Sequence[int]) -> List[Tuple[int, int, str]]:
    """The changes from the old value to the new one: just one if it replaces no line end and goes over no border."""
    start = len(os.path.commonprefix([old, new]))
    same = min(len(os.path.commonprefix([old[start:][::-1], new[start:][::-1]])), min(len(old), len(new)) - start)
    end, middle = len(old) - same, new[start:len(new) - same]
    if "\n" not in old[start:end] and not any(start < it < end for it in borders):
        return [(start, end, middle)]
    if (end - start) * len(middle) > MOST_MATCHED:
        raise Unchangeable("too much of it changes")
    matcher = difflib.SequenceMatcher(None, old[start:end], middle, autojunk=False)
    return [(start + a, start + b, middle[c:d]) for tag, a, b, c, d in matcher.get_opcodes() if tag != "equal"]


def _anew(site: Site, new: Text) -> List[Edit]:
    """The edits that put the whole pattern in place of the first literal, and make the others empty."""
    found = LITERAL.match(site.literals[0].text)
    quote = found[2] if found else "'"
    text, prefix = as_text(new), "" if isinstance(new, str) else "b"
    is_plain = quote[0] not in text and "\r" not in text and (len(quote) == 3 or "\n" not in text) and text.isprintable()
    whole = f"{prefix}r{quote}{text}{quote}" if is_plain and not text.endswith("\\") else ascii(new)
    return [Edit(it.start, it.end, whole if at == 0 else f"{prefix}''") for at, it in enumerate(site.literals)]


def _after(site: Site, changed: Sequence[Edit]) -> List[Literal]:
    """The literals of a site after edits."""
    found = []
    for it in site.literals:
        own = [one for one in changed if it.start <= one.start < it.end]
        text = applied(it.text, [Edit(one.start - it.start, one.end - it.start, one.text) for one in own])
        found.append(Literal(text, it.start, it.start + len(text)))
    return found


def applied(text: str, changed: Sequence[Edit]) -> str:
    """Returns the text after the edits, which may come in any order but mustn't overlap."""
    parts, at = [], len(text)
    for it in sorted(changed, key=lambda one: (one.start, one.end), reverse=True):
        parts += [text[it.end:at], it.text]
        at = it.start
    return "".join([text[:at], *reversed(parts)])


def literal_of(site: Site, new: Text) -> str:
    """Returns the literals of a site as they are with the new pattern in them; raises Unchangeable."""
    return " ".join(it.text for it in _after(site, edits(site, new)) if Spelled(it).value) or '""'


# Files


def chosen(finding: Finding, advice: bool = False) -> Optional[Offer]:
    """Returns the offer that `rlt fix` takes for a finding: a fix or, with `advice`, else what is better, else advice."""
    if finding.state != NEW or finding.site is None or not finding.site.literals or finding.site.cell is not None:
        return None
    kinds = KINDS if advice else KINDS[:1]
    fitting = [it for it in finding.offers if it.kind in kinds and it.proof == "proved" and not it.needs]
    return min(fitting, key=lambda it: KINDS.index(it.kind)) if fitting else None


class Change:
    """A file with new patterns in it, in memory. `data` is what was read, and `text` what is to be written."""

    def __init__(self, path: str, data: bytes, picked: Sequence[Tuple[Finding, Offer]]) -> None:
        """Takes the bytes of the file, and its findings with their offers. Raises Unchangeable."""
        self.path, self.data, self.picked = path, data, picked
        try:
            text = data.decode("utf-8")
        except UnicodeDecodeError as error:
            raise Unchangeable("it isn't UTF-8") from error
        self.front, text = ("\ufeff", text[1:]) if text.startswith("\ufeff") else ("", text)
        changed: List[Edit] = []
        for finding, offer in picked:
            assert finding.site is not None
            if any(text[it.start:it.end] != it.text for it in finding.site.literals):
                raise Unchangeable("it isn't what was judged: run the command again")
            changed += edits(finding.site, offer.pattern)
        ordered = sorted(changed, key=lambda it: (it.start, it.end))
        if any(one.end > other.start for one, other in zip(ordered, ordered[1:])):
            raise Unchangeable("two changes overlap")
        self.edits = ordered
        self.text = self.front + applied(text, changed)

    def done(self, lost: Sequence[str] = ()) -> Written:
        """Returns what became of the file."""
        better = sum(offer.kind == "better" for _, offer in self.picked)
        return Written(self.path, len(self.picked) - better, better, lost=tuple(lost))

    def verify(self, findings: Sequence[Finding], options: Options, deadline: float) -> None:
        """Has the program judge the file as it was and as it is to be.

        Raises Unchangeable if it doesn't find what `findings` say, or afterwards anything else but the changed classes; raises
        ProgramError if it can't be run.
        """
        entries = [it.entry for it in findings if it.entry.path == self.path and it.is_own]
        with tempfile.TemporaryDirectory(prefix="relint-") as folder:
            paths = [os.path.join(folder, it) for it in ("before.py", "after.py")]
            for path, data in zip(paths, (self.data, self.text.encode("utf-8"))):
                with open(path, "wb") as file:
                    file.write(data)
            found = judge(paths, options, min(deadline, time.monotonic() + SECONDS))
        before, after = ([it for it in found.entries if it.path == path] for path in paths)
        if found.late or found.slow or list(map(_key, before)) != list(map(_key, entries)):
            raise Unchangeable("it isn't what was judged: run the command again")
        places = {finding.entry.place for finding, _ in self.picked}
        both = list(zip(before, after))
        is_same = len(before) == len(after) and all(
            one.call == other.call and (one.place in places and _is_no_worse(one, other) or _key(one)[2:] == _key(other)[2:])
            for one, other in both)
        if not is_same:
            raise Unchangeable("the program finds something else in it afterwards")

    def diff(self, folder: str = os.curdir) -> Iterator[str]:
        """Yields the lines of a unified diff in git's format, for `patch -p1` in the folder. Raises Unchangeable."""
        text = self.data.decode("utf-8")
        edited = [Edit(it.start + len(self.front), it.end + len(self.front), it.text) for it in self.edits]
        old, new = LINES.findall(text), LINES.findall(self.text)
        name = "/".join(names_below(self.path, folder) or [self.path.lstrip("/")])
        yield f"--- {header_name(f'a/{name}')}\n"
        yield f"+++ {header_name(f'b/{name}')}\n"
        for it in hunks(old, new, blocks(text, edited)):
            yield it if it.endswith("\n") else it + "\n\\ No newline at end of file\n"


class Block(NamedTuple):
    """Lines that edits change: from `old` to `old_end` before them, and from `new` to `new_end` afterwards."""

    old: int
    old_end: int
    new: int
    new_end: int


def blocks(text: str, edited: Sequence[Edit]) -> List[Block]:
    """Returns the lines of a text that edits change, in order; no two blocks touch each other."""
    starts = [0, *(it.end() for it in re.finditer("\n", text))]
    found: List[Block] = []
    more = 0
    for it in edited:
        first, last = bisect_right(starts, it.start) - 1, bisect_right(starts, it.end)
        own = it.text.count("\n") - text.count("\n", it.start, it.end)
        if found and first <= found[-1].old_end:
            before = found.pop()
            end = max(before.old_end, last)
            found.append(before._replace(old_end=end, new_end=end + more + own))
        else:
            found.append(Block(first, last, first + more, last + more + own))
        more += own
    return found


def hunks(old: Sequence[str], new: Sequence[str], changed: Sequence[Block]) -> Iterator[str]:
    """Yields the lines of a unified diff for blocks of changed lines, without its two first lines.

    The time doesn't hang on what the lines are, as it does where a diff looks for equal ones.
    """
    groups: List[List[Block]] = []
    for it in changed:
        if groups and it.old - groups[-1][-1].old_end <= 2 * CONTEXT:
            groups[-1].append(it)
        else:
            groups.append([it])
    for group in groups:
        at, end = max(0, group[0].old - CONTEXT), min(len(old), group[-1].old_end + CONTEXT)
        start, more = group[0].new - (group[0].old - at), group[-1].new_end - group[-1].old_end
        yield f"@@ -{_range(at, end - at)} +{_range(start, end + more - start)} @@\n"
        for it in group:
            yield from (f" {line}" for line in old[at:it.old])
            yield from (f"-{line}" for line in old[it.old:it.old_end])
            yield from (f"+{line}" for line in new[it.new:it.new_end])
            at = it.old_end
        yield from (f" {line}" for line in old[at:end])


def _range(start: int, length: int) -> str:
    """A range of lines as a unified diff writes it."""
    return f"{start + 1}" if length == 1 else f"{start + (length > 0)},{length}"


def _key(entry: Entry) -> Tuple[object, ...]:
    """What has to be the same in an entry of a file that didn't change; its place and call come first."""
    verdict = entry.verdict
    return (entry.place, entry.call, entry.kind, verdict and (verdict.kind, verdict.degree, verdict.limit), entry.cause)


def _is_no_worse(one: Entry, other: Entry) -> bool:
    """Whether a changed entry has a class that isn't higher than it was."""
    if other.cause in WIDER:
        # (relint-ask judged the new pattern, and the literals give just that)
        return True
    ranks = [it.verdict.rank() if it.verdict is not None else -1 for it in (one, other)]
    return 0 <= ranks[1] and (ranks[1] <= ranks[0] or ranks[0] < 0)


def header_name(name: str) -> str:
    """Returns a name as git reads it in the headers of a diff; raises Unchangeable if it can't be encoded."""
    try:
        coded = [it.encode("utf-8", "surrogateescape") for it in name]
    except UnicodeEncodeError as error:
        raise Unchangeable("its name can't stand in a diff") from error
    written = "".join("\\" + it if it in '"\\' else it if is_seen(it) else "".join(f"\\{one:03o}" for one in its)
                      for it, its in zip(name, coded))
    # (a tab marks the end of a name with blanks)
    return f'"{written}"' if written != name else name + "\t" if " " in name else name


def _by_path(findings: Sequence[Finding], advice: bool) -> Dict[str, List[Tuple[Finding, Offer]]]:
    """The findings that `chosen` has an offer for, with it, by their paths."""
    found: Dict[str, List[Tuple[Finding, Offer]]] = {}
    for it in findings:
        offer = chosen(it, advice)
        if offer is not None:
            found.setdefault(it.entry.path, []).append((it, offer))
    return found


def changes(
    findings: Sequence[Finding], folders: Sequence[str], options: Options, deadline: float = math.inf,
) -> Iterator[Union[str, Written]]:
    """Puts the chosen offers into the files below the folders, each whole or not at all; yields what became of each.

    With `options.diff` it writes nothing, but yields the lines, with their ends, of a unified diff before that. `findings`
    have to be all those of their files. Raises ProgramError if the program that checks the files can't be run.
    """
    for path, picked in _by_path(findings, options.advice).items():
        lost: Sequence[str] = ()
        try:
            change = Change(path, read_below(path, folders), picked)
            change.verify(findings, options, deadline)
            if options.diff:
                yield from list(change.diff())
            else:
                folder = place_of(path, folders)[0] or os.curdir
                lost = replace_file(path, change.text.encode("utf-8"), folder, change.data)
            yield change.done(lost)
        except (OpenError, WriteError, Unchangeable, OSError) as error:
            yield Written(path, why=reason(error))


def fix(findings: Sequence[Finding], folders: Sequence[str], options: Options, deadline: float) -> Tuple[List[str], int]:
    """Does what `rlt fix` does: writes, or with `options.diff` shows; returns lines without their ends, and the status.

    The status is 0 if no finding is left, and 1 otherwise. Raises ProgramError.
    """
    count = sum(it.state == NEW for it in findings)
    every = list(changes(findings, folders, options, deadline))
    done = [it for it in every if isinstance(it, Written)]
    fixed, better = sum(it.fixed for it in done), sum(it.better for it in done)
    status = 1 if count > fixed else 0
    if options.diff:
        for it in done:
            if it.why and sys.stderr is not None:
                print(visible(f"rlt: {it.path}: left as it is: {it.why}"), file=sys.stderr)
        return [it.rstrip("\n") for it in every if isinstance(it, str)], status
    lines: List[str] = []
    for it in done:
        lines.append(f"{it.path}: " + (f"left as it is: {it.why}" if it.why else _counts(it.fixed, it.better)))
        lines += [f"{it.path}: {lost}" for lost in it.lost]
    left = f", {count - fixed - better} left" if count > fixed + better else ""
    lines.append(f"{counted(count, 'finding')}: {_counts(fixed, better, True)}{left}" if count else "no findings")
    return list(map(visible, lines)), status


def _counts(fixed: int, better: int, always: bool = False) -> str:
    """How many findings were fixed and made better; those that were fixed even if there are none, with `always`."""
    parts = [f"{fixed} fixed"] * (always or fixed > 0) + [f"{better} better, still a finding"] * (better > 0)
    return ", ".join(parts)
