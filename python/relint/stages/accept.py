"""The accepted file, and the comments that hide findings: what a team, or the author of a line, takes on with a reason.

The file is JSON with one entry a line, sorted, so that changes of it are easy to read and to merge. An entry accepts one
finding of its pattern, flags, mode and function whose class is no worse: in its file, or elsewhere once the pattern is gone
from there. If the pattern was replaced in its function by one of a better class, that one stays accepted. Others may have
written the file, so what isn't in its form is refused.
"""
from __future__ import annotations

import json
import os
import shlex
from dataclasses import dataclass, replace
from functools import lru_cache
from typing import Any, Dict, FrozenSet, Iterable, List, Mapping, NamedTuple, Optional, Sequence, Set, Tuple

from ..base.model import ACCEPTED, IGNORED, KNOWN, NEW, OTHER, WARNED, Finding
from ..base.safe import OpenError, WriteError, is_below, read_below, replace_file, visible
from ..base.words import class_word, flag_letters, quoted, rule_of
from ..options import Options

MOST_BYTES, MOST_ROWS, LONGEST_REASON = 16_777_216, 100_000, 1000
VERSION = 1
KEYS = ("path", "function", "pattern", "flags", "mode", "class", "reason", "who")
NEEDED = ("path", "pattern", "mode", "class")
EXPONENTIAL, UNDECIDED, REFUSED = "exponential", "undecided", "refused"
OWN_ACCEPT = "this change accepts it itself, which doesn't count before a maintainer has merged {}"
OLD_NAME = "accepted {}; rlt accept {} --reason {} moves that"
OWN_IGNORE = "its noqa comes with this change, so it doesn't count: a maintainer can rlt accept {}"

# A pattern as a literal, the letters of its flags, its mode, and the function around it: what stays if lines or files move.
Key = Tuple[str, str, str, str]
# For each line with an ignoring comment, the codes that it names, or None if it names none.
Ignores = Mapping[int, Optional[Sequence[str]]]


class AcceptError(Exception):
    """Raised if the accepted file can't be used; the message says why, and `status` is the exit status."""

    def __init__(self, message: str, status: int = 2) -> None:
        super().__init__(message)
        self.status = status


@dataclass(frozen=True, order=True)
class Row:
    """An entry of the file. `path` is relative to the file's folder, `cost` is the class; `line` is where the file has it."""

    path: str
    function: str
    pattern: str
    flags: str
    mode: str
    cost: str
    reason: str = ""
    who: str = ""
    line: int = 0

    @property
    def key(self) -> Key:
        """What a finding has to have that the entry accepts."""
        return self.pattern, self.flags, self.mode, self.function

    def text(self) -> str:
        """Returns the entry as a line of JSON, without a line end; values that are empty are left out."""
        values = zip(KEYS, (self.path, self.function, self.pattern, self.flags, self.mode, self.cost, self.reason, self.who))
        return json.dumps({name: it for name, it in values if it or name in NEEDED}, separators=(", ", ": "))

    def same(self) -> "Row":
        """Returns the entry without its line, to be compared with one of another version of the file."""
        return replace(self, line=0)


@dataclass(frozen=True)
class Accepted:
    """The accepted file: its path and entries. `added` are those that the change since the earlier commit brings.

    With `locked`, these aren't among `rows`, so they accept nothing.
    """

    file: str
    rows: Tuple[Row, ...] = ()
    added: Tuple[Row, ...] = ()
    locked: bool = False

    @property
    def folder(self) -> str:
        """The folder of the file, which the paths of entries are relative to."""
        return os.path.dirname(self.file) or "."

    def text(self) -> str:
        lines = ",\n".join(it.text() for it in sorted(self.rows))
        return f'{{"version": {VERSION}, "accepted": [' + (f"\n{lines}\n" if lines else "") + "]}\n"

    def path_of(self, finding: Finding) -> str:
        """Returns the path of a finding's file relative to the folder of the accepted file."""
        return _relative(finding.entry.path, self.folder)


@lru_cache(maxsize=4096)
def _relative(path: str, folder: str) -> str:
    """A path relative to a folder."""
    return os.path.relpath(path, folder).replace(os.sep, "/")


class Split(NamedTuple):
    """Findings with their states. `unused` are the entries that accept nothing; `moved` has new entries for old ones.

    `renamed` has the entry that accepts the pattern of a finding, by its number, in another function of its file.
    """

    findings: List[Finding]
    unused: List[Row]
    moved: Dict[Row, Row]
    renamed: Dict[int, Row]


def key_of(finding: Finding) -> Optional[Key]:
    """Returns what makes a finding the same after a move, or None if its pattern or its flags aren't known."""
    site = finding.site
    if site is None or site.flags is None:
        return None
    return quoted(site.pattern), flag_letters(site.flags), finding.mode, site.function


def class_of(finding: Finding) -> str:
    """Returns the class of a finding as an entry has it: exponential, degree N, undecided or refused."""
    verdict = finding.verdict
    if verdict is None:
        return REFUSED
    rank = verdict.rank()
    return UNDECIDED if rank < 0 else EXPONENTIAL if rank == 1_000_000 else f"degree {rank}"


def class_words(finding: Finding) -> str:
    """Returns the class of a finding for people, such as "cubic"."""
    return class_word(finding.verdict) if finding.verdict is not None else "not judged"


def _rank(cost: str) -> int:
    """A number that is greater for a worse class; what isn't decided or judged is least."""
    return 1_000_000 if cost == EXPONENTIAL else int(cost[7:]) if cost.startswith("degree ") else -1


# ---- reading and writing

def load(options: Options, earlier: Optional[bytes] = None) -> Accepted:
    """Returns the accepted file that the options name; it has no entries if there is none.

    With a baseline commit, `earlier` are the bytes that the file has there, or None if it isn't there. Raises AcceptError if
    the file can't be read, isn't in its form, or was named and isn't there.
    """
    rows: Tuple[Row, ...] = ()
    if os.path.lexists(options.accepted):
        try:
            data = read_below(options.accepted, [options.folder, os.path.dirname(options.accepted) or "."], MOST_BYTES)
        except OpenError as error:
            raise AcceptError(f"{visible(options.accepted)} can't be read: {error}", 3) from error
        rows = read(data, options.accepted)
    elif options.accepted_named and options.word != "accept" and earlier is None:
        raise AcceptError(f"{visible(options.accepted)} isn't there; rlt accept makes it", 3)
    if not options.baseline_commit:
        return Accepted(options.accepted, rows)
    before = read(earlier, f"{options.accepted} in {options.baseline_commit}") if earlier is not None else ()
    known = {it.same() for it in before}
    added = tuple(it for it in rows if it.same() not in known)
    return Accepted(options.accepted, before if options.locked else rows, added, options.locked)


def read(data: bytes, name: str) -> Tuple[Row, ...]:
    """Returns the entries in the bytes of an accepted file, called `name`. Raises AcceptError if it isn't in its form."""
    shown = visible(name)
    try:
        text = data.decode("utf-8")
        document = json.loads(text, parse_float=_no_number, parse_constant=_no_number, parse_int=_whole)
    except (ValueError, RecursionError) as error:
        raise AcceptError(f"{shown}: no JSON: {visible(str(error)[:100])}") from error
    rows = document.get("accepted") if isinstance(document, dict) and document.get("version") == VERSION else None
    if not isinstance(rows, list) or len(rows) > MOST_ROWS:
        raise AcceptError(f"{shown}: no accepted file of version {VERSION}, or too large (rlt accept --all begins a new one)")
    numbers = _numbers(text)
    return tuple(_row(it, f"{shown}: entry {at}", numbers) for at, it in enumerate(rows, 1))


def _no_number(_: str) -> int:
    """Always raises ValueError: an accepted file has no fractions."""
    raise ValueError("a number that rlt doesn't write")


def _whole(digits: str) -> int:
    """The whole number that a few digits write."""
    return int(digits) if len(digits) < 10 else _no_number(digits)


def _numbers(text: str) -> Dict[str, int]:
    """The numbers of the lines that have an entry each, by what is written there."""
    found: Dict[str, int] = {}
    for number, line in enumerate(text.split("\n"), 1):
        found.setdefault(line.strip().rstrip(","), number)
    return found


def _row(found: Any, place: str, numbers: Mapping[str, int]) -> Row:
    """The entry that a value of JSON describes. Raises AcceptError, which begins with `place`, if it describes none."""
    values = found if isinstance(found, dict) else {}
    if not set(NEEDED) <= set(values) <= set(KEYS):
        raise AcceptError(f"{place}: the keys {', '.join(NEEDED)} are wanted, and no others than {', '.join(KEYS)}")
    if not all(isinstance(it, str) and len(it) <= 100_000 and "\0" not in it for it in values.values()):
        raise AcceptError(f"{place}: a value is no text")
    if os.path.isabs(values["path"]) or ".." in values["path"].split("/") or not values["path"]:
        raise AcceptError(f"{place}: the path {visible(values['path'][:60])} doesn't lie below the file's folder")
    cost = values["class"]
    degree = cost[7:] if cost.startswith("degree ") else ""
    if cost not in (EXPONENTIAL, UNDECIDED, REFUSED) and not (degree.isascii() and degree.isdigit() and len(degree) < 7):
        raise AcceptError(f"{place}: the class is none of exponential, degree N, undecided and refused")
    row = Row(*(values.get(it, "") for it in KEYS))
    return replace(row, line=numbers.get(row.text(), 1))


def write(accepted: Accepted, options: Options) -> List[str]:
    """Writes the accepted file; returns words for what couldn't be kept. Raises AcceptError if it can't be written."""
    below = options.folder if is_below(accepted.file, [options.folder]) else accepted.folder
    try:
        return replace_file(accepted.file, accepted.text().encode("ascii"), below)
    except WriteError as error:
        raise AcceptError(f"{visible(accepted.file)} can't be written: {error}", 4) from error


# ---- comparing

def can_be_accepted(finding: Finding, options: Options) -> bool:
    """Returns whether a finding is one that an entry may accept: a finding, or a pattern that isn't decided or judged."""
    if finding.state != OTHER:
        return finding.state in (NEW, WARNED)
    is_refused = finding.verdict is None and finding.entry.kind == "refused"
    return finding.is_open(options.max_degree) or is_refused and finding.entry.call is not None


def split(findings: Sequence[Finding], accepted: Accepted, options: Options) -> Split:
    """Returns the findings with the state ACCEPTED, and the reason, where an entry accepts them; their order stays.

    Entries of the same file come first, then those whose pattern is gone from their file, then those whose pattern was
    replaced in its function by one of a better class. With locked entries, a finding that the change itself accepts stays
    new, and its `reason` says so; one that was accepted in another function of its file has that as `reason`.
    """
    answer, moved, done = list(findings), {}, set()
    rows = _Rows(accepted, {(accepted.path_of(it), key_of(it)) for it in findings})
    waiting = [at for at, it in enumerate(findings)
               if key_of(it) is not None and (it.state == KNOWN or can_be_accepted(it, options))]
    # (a finding that was there before takes its entry along, so that the entry can't accept a copy of it too)
    waiting.sort(key=lambda at: findings[at].state != KNOWN)
    for take in (rows.same, rows.gone, rows.better):
        for at in (it for it in waiting if it not in done):
            row = take(answer[at])
            if row is not None:
                done.add(at)
                moved[row] = _now(row, answer[at], accepted)
                if answer[at].state != KNOWN:
                    answer[at] = replace(answer[at], state=ACCEPTED, reason=row.reason)
    added = {it.key for it in accepted.added} if accepted.locked else set()
    for at in (it for it in waiting if it not in done and answer[it].state != KNOWN and key_of(answer[it]) in added):
        answer[at] = replace(answer[at], reason=OWN_ACCEPT.format(visible(accepted.file)))
    unused, renamed = rows.unused(), {}
    for at in (it for it in waiting if it not in done and answer[it].state in (NEW, WARNED) and not answer[it].reason):
        row = rows.renamed(answer[at])
        if row is not None:
            renamed[at] = row
            answer[at] = replace(answer[at], reason=_old_name(answer[at], row))
    return Split(answer, unused, {old: new for old, new in moved.items() if old != new}, renamed)


def _old_name(finding: Finding, row: Row) -> str:
    """What is said of a finding that was accepted in another function: the command that moves the acceptance."""
    under = f"under its old name, {row.function}" if row.function else "when it stood outside functions"
    place = f"{visible(finding.entry.path)}:{finding.place.line}:{finding.place.column}"
    return OLD_NAME.format(under, shlex.quote(place), shlex.quote(row.reason) if row.reason else "WORDS")


class _Rows:
    """The entries that may accept a finding; each accepts one. Findings of one key have one class."""

    def __init__(self, accepted: Accepted, here: Set[Tuple[str, Optional[Key]]]) -> None:
        """Takes the file, and the files of the findings with the keys that are in them."""
        self.accepted = accepted
        self.used: Set[int] = set()
        self.by_place: Dict[Any, List[int]] = {}
        self.by_key: Dict[Any, List[int]] = {}
        self.by_function: Dict[Any, List[int]] = {}
        self.by_pattern: Dict[Any, List[int]] = {}
        files = {path for path, _ in here}
        for at in sorted(range(len(accepted.rows)), key=lambda it: _rank(accepted.rows[it].cost)):
            row = accepted.rows[at]
            self.by_place.setdefault((row.path, row.key), []).append(at)
            if (row.path, row.key) not in here:
                self.by_function.setdefault((row.path, row.mode, row.function), []).append(at)
                self.by_pattern.setdefault((row.path, row.key[:3]), []).append(at)
                if row.path in files or not os.path.lexists(os.path.join(accepted.folder, row.path)):
                    self.by_key.setdefault(row.key, []).append(at)

    def same(self, finding: Finding) -> Optional[Row]:
        """Takes an entry of the finding's file and key."""
        return self._taken(self.by_place.get((self.accepted.path_of(finding), key_of(finding)), []), finding, 0)

    def gone(self, finding: Finding) -> Optional[Row]:
        """Takes an entry of the finding's key whose pattern is gone from its file."""
        return self._taken(self.by_key.get(key_of(finding), []), finding, 0)

    def better(self, finding: Finding) -> Optional[Row]:
        """Takes an entry of the finding's file, function and mode whose pattern is gone and whose class is worse."""
        function = finding.site.function if finding.site else ""
        name = self.accepted.path_of(finding), finding.mode, function
        return self._taken(self.by_function.get(name, []), finding, 1) if _rank(class_of(finding)) >= 0 else None

    def renamed(self, finding: Finding) -> Optional[Row]:
        """Takes an entry of the finding's file, pattern, flags and mode that is gone from its function."""
        key = key_of(finding)
        return self._taken(self.by_pattern.get((self.accepted.path_of(finding), key[:3] if key else None), []), finding, 0)

    def _taken(self, numbers: List[int], finding: Finding, least: int) -> Optional[Row]:
        """Takes the entry of the worst class, if that is worse than the finding's by `least` or more."""
        while numbers and numbers[-1] in self.used:
            numbers.pop()
        row, cost = (self.accepted.rows[numbers[-1]] if numbers else None), class_of(finding)
        if row is None or not (row.cost == cost and not least or _rank(row.cost) >= max(0, _rank(cost) + least)):
            return None
        self.used.add(numbers.pop())
        return row

    def unused(self) -> List[Row]:
        """Returns the entries that weren't taken."""
        return [it for at, it in enumerate(self.accepted.rows) if at not in self.used]


def _now(row: Row, finding: Finding, accepted: Accepted) -> Row:
    """An entry with the place, the pattern and the class that its finding has now."""
    pattern, flags, mode, function = key_of(finding) or row.key
    return replace(row, path=accepted.path_of(finding), pattern=pattern, flags=flags, mode=mode, function=function,
                   cost=class_of(finding))


def ignored(
    findings: Sequence[Finding], ignores: Mapping[str, Ignores], options: Options,
) -> Tuple[List[Finding], Tuple[Tuple[str, int], ...]]:
    """Returns the findings with the state IGNORED where a comment hides them, and the comments that hide nothing.

    A comment counts on the lines of the pattern. With `options.locked`, none counts: whatever stood before is known already.
    """
    answer: List[Finding] = []
    used = set()
    for it in findings:
        rows = ignores.get(it.entry.path, {})
        last = max((number for number, _ in it.lines), default=it.place.line)
        numbers = [at for at in range(it.place.line, min(last, it.place.line + 50) + 1) if at in rows]
        hides = [at for at in numbers if _names(rows[at], rule_of(it))]
        used |= {(it.entry.path, at) for at in hides}
        if hides and it.state in (NEW, WARNED):
            place = f"{visible(it.entry.path)}:{it.place.line}"
            it = replace(it, reason=OWN_IGNORE.format(place)) if options.locked else replace(it, state=IGNORED, reason="")
        answer.append(it)
    lost = [(path, at) for path, rows in ignores.items() for at in rows if (path, at) not in used and _is_ours(rows[at])]
    return answer, tuple(sorted(lost))


def _names(codes: Optional[Sequence[str]], rule: str) -> bool:
    """Whether a comment with these codes hides a rule; a code hides all that begin with it, and no codes hide everything."""
    return codes is None or any(it and rule.startswith(it.upper()) for it in codes)


def _is_ours(codes: Optional[Sequence[str]]) -> bool:
    """Whether a comment names a rule of this tool, so that it should hide something."""
    return any(it.upper().startswith("RLT") for it in codes or ())


# ---- changing

def checked_reason(text: str) -> str:
    """Returns a reason with single blanks between its words. Raises AcceptError if it is empty, too long or no UTF-8."""
    words = " ".join(text.split())
    if not words or len(words) > LONGEST_REASON or any("\ud800" <= it <= "\udfff" for it in words):
        raise AcceptError(f"--reason WORDS is wanted, of 1 to {LONGEST_REASON:,} characters: why is it acceptable?")
    return words


def row_of(finding: Finding, accepted: Accepted, reason: str) -> Row:
    """Returns an entry that accepts a finding. Raises AcceptError if its pattern isn't known, or its file lies elsewhere."""
    key, path = key_of(finding), accepted.path_of(finding)
    place = f"{visible(finding.entry.path)}:{finding.place.line}"
    if key is None:
        raise AcceptError(f"{place}: the pattern or its flags aren't known, so it can't be accepted")
    if path.startswith("../"):
        raise AcceptError(f"{place}: it doesn't lie below the folder of {visible(accepted.file)}")
    return Row(path, key[3], key[0], key[1], key[2], class_of(finding), reason)


def at_place(finding: Finding, place: Tuple[str, int, int]) -> bool:
    """Returns whether a finding is at a place: a file with a line that its pattern has, or also its first column."""
    file, line, column = place
    if os.path.normpath(finding.entry.path) != os.path.normpath(file):
        return False
    last = max((number for number, _ in finding.lines), default=finding.place.line)
    return finding.place.line <= line <= max(last, finding.place.line) and column in (0, finding.place.column)


def with_finding(accepted: Accepted, finding: Finding, reason: str, old: Optional[Row] = None) -> Accepted:
    """Returns the file with an entry for a finding; one that accepts it already gets the new reason and class.

    `old` is the entry that goes for it. Raises AcceptError as `row_of` does.
    """
    new = row_of(finding, accepted, reason)
    is_known = finding.state == ACCEPTED
    same = [it for it in accepted.rows if is_known and (it.path, it.key) == (new.path, new.key) or it == old]
    return replace(accepted, rows=(*(it for it in accepted.rows if it not in same[:1]), new))


def old_entries(accepted: Accepted, findings: Sequence[Finding], options: Options) -> List[Tuple[Finding, Row]]:
    """Returns the findings of a run that are accepted in another function of their file, each with that entry."""
    return [(findings[at], row) for at, row in _again(accepted, findings, options).renamed.items()]


def _again(accepted: Accepted, findings: Sequence[Finding], options: Options) -> Split:
    """What `split` says of the findings of a run, which it was given already."""
    def first(it: Finding) -> Finding:
        """A finding as it was before."""
        is_bad = it.verdict is not None and it.verdict.is_finding(options.max_degree)
        state = (NEW if is_bad else OTHER) if it.state == ACCEPTED else it.state
        return replace(it, state=state, reason="")

    return split(list(map(first, findings)), accepted, options)


def dead(said: Split, accepted: Accepted, files: Iterable[str], options: Options) -> List[Row]:
    """Returns the entries that accept nothing any more, as `split` says, of files that were judged or are gone.

    Those of classes that are no findings by the options, and of functions with other names, aren't among them.
    """
    judged = {_relative(it, accepted.folder) for it in files}
    renamed = set(said.renamed.values())
    return [it for it in said.unused if it not in renamed and not 0 <= _rank(it.cost) <= options.max_degree
            and (it.path in judged or not os.path.lexists(os.path.join(accepted.folder, it.path)))]


def pruned(accepted: Accepted, findings: Sequence[Finding], options: Options) -> Accepted:
    """Returns the file without the entries that accept nothing and whose files were looked at or are gone.

    `findings` are those of a run. Entries whose findings moved or got better are brought up to date.
    """
    said = _again(accepted, findings, options)
    looked: FrozenSet[str] = frozenset(accepted.path_of(it) for it in findings)

    def is_stale(row: Row) -> bool:
        """Whether an entry that accepts nothing can go."""
        path = os.path.join(accepted.folder, row.path)
        return row.path in looked or not os.path.lexists(path) or is_below(path, options.paths)

    stale = {it for it in said.unused if is_stale(it)}
    return replace(accepted, rows=tuple(said.moved.get(it, it) for it in accepted.rows if it not in stale))
