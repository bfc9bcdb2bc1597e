"""Runs `relint check` over shares of the files, and reads reports.

Anyone may have written a report, so everything in one is checked: its size, its types, its numbers, and the names in it. It
is read piece by piece and entry by entry, so that it takes little memory, and reading stops when time runs out.
"""
from __future__ import annotations

import codecs
import json
import os
import re
import select
import time
from dataclasses import dataclass, field
from typing import Any, Callable, Dict, Iterable, Iterator, List, Mapping, Optional, Sequence, Set, Tuple

from ..base.model import CALLS, KINDS, Bound, Entry, Family, NotLooked, Place, Text, Verdict
from ..base.words import CAUSES
from ..options import Options
from .program import READ_AT_A_TIME, ProgramError, Running, located

# The bytes of a report, and of one value in it.
MOST_BYTES, MOST_OF_A_VALUE = 268_435_456, 67_108_864
MOST_ENTRIES = 500_000
MOST_NUMBER, MOST_DEGREE, MOST_CODES, MOST_PLACES = 4_294_967_295, 999_999, 1_000_000, 100_000
COUNTS = ("findings", "refused", "undecided")
WORD = re.compile(r"[a-z][a-z0-9-]{0,40}")
# The two forms of a quoted text: a raw one without escapes, and one with the escapes that relint writes.
QUOTED = re.compile(
    r'''(b?)(?:r"([^"\x00-\x1f]*)"|"((?:[^"\\\x00-\x1f]|\\[\\"nrt]|\\x[0-9a-f]{2}|\\u[0-9a-f]{4}|\\U[0-9a-f]{8})*)")''')
ESCAPE = re.compile(r'\\(?:([\\"nrt])|x(..)|u(....)|U(........))')
SINGLE = {"n": "\n", "r": "\r", "t": "\t"}
# The seconds of one run: so many, and those of one file more for each thousand files. A share that takes longer is cut.
SECONDS_OF_A_FILE, FILES_OF_THE_SECONDS, FILES_OF_A_CUT = 20.0, 1000, 64
LEAST_OF_A_SHARE, MOST_OF_A_SHARE, SHARES_A_JOB = 16, 512, 4
# (each system takes as many bytes of words, each with a pointer)
MOST_WORD_BYTES, BYTES_A_WORD = 120_000, 16
# Called with the number of files that were judged, of all files, and of the findings so far.
Progress = Callable[[int, int, int], None]


class ReportError(Exception):
    """Raised if a text isn't a report of relint; the message says why."""


@dataclass(frozen=True)
class Report:
    """The entries of a report, in order; `late` says that time ran out before all were read."""

    entries: Tuple[Entry, ...]
    late: bool = False


@dataclass(frozen=True)
class Judged:
    """What a run of the program over files said: its entries in the order of the files.

    `not_looked` are the files and folders that it refused as a whole. `slow` are the files that took too long by themselves,
    so their patterns have to be asked one by one, and `left` are those that weren't judged before time ran out. `late` says
    that it ran out.
    """

    entries: Tuple[Entry, ...]
    not_looked: Tuple[NotLooked, ...] = ()
    slow: Tuple[str, ...] = ()
    left: Tuple[str, ...] = ()
    late: bool = False


# Reading.

def read_text(quoted: Any) -> Text:
    """Returns the value of a text that relint quotes, such as r"00" or b"\\xff". Raises ReportError if it isn't quoted so."""
    found = QUOTED.fullmatch(quoted) if isinstance(quoted, str) else None
    if found is None:
        raise ReportError("a text that isn't quoted as relint quotes it")
    is_bytes, raw, inside = found.groups()
    try:
        text = raw if raw is not None else ESCAPE.sub(_code, inside) if "\\" in inside else inside
        return text.encode("latin-1") if is_bytes else text
    except (ValueError, OverflowError) as error:
        raise ReportError("a text that isn't quoted as relint quotes it") from error


def _code(found: "re.Match[str]") -> str:
    """The character of an escape."""
    if found[1]:
        return SINGLE.get(found[1], found[1])
    return chr(int(found[found.lastindex or 0], 16))


def _text(found: Mapping[str, Any], key: str, known: Sequence[str] = ()) -> str:
    """The text under a key, which is one of `known` if these are given, and that UTF-8 has."""
    value = found[key]
    if not isinstance(value, str) or not value or "\0" in value or known and value not in known:
        raise ReportError(f"{key} is no text, or none that relint writes")
    try:
        value.encode("utf-8")
    except UnicodeEncodeError as error:
        raise ReportError(f"{key} is no text that UTF-8 has") from error
    return value


def _word(found: Mapping[str, Any], key: str) -> str:
    """The word in small letters, such as the name of a cause, under a key."""
    value = _text(found, key)
    if not WORD.fullmatch(value):
        raise ReportError(f"{key} is no word")
    return value


def _number(found: Mapping[str, Any], key: str, least: int = 0, most: int = MOST_NUMBER) -> int:
    """The whole number under a key."""
    value = found[key]
    if type(value) is not int or not least <= value <= most:
        raise ReportError(f"{key} is no number from {least} to {most}")
    return value


def _list(value: Any) -> List[Any]:
    """The value itself, which must be a list that isn't too long."""
    if not isinstance(value, list) or len(value) > MOST_PLACES:
        raise ReportError("a list is no list, or too long")
    return value


def _place(found: Any) -> Place:
    """The place that an object has under `line` and `column`."""
    return Place(_number(found, "line", 1), _number(found, "column", 1))


def _places(found: Mapping[str, Any], key: str) -> Tuple[Place, ...]:
    """The places in the list under a key; none if there is no such key."""
    return tuple(map(_place, _list(found[key]))) if found.get(key) else ()


def read_family(found: Any) -> Family:
    """Returns the family that a value of JSON describes. Raises ReportError, KeyError or TypeError if it describes none."""
    heads, pumps = (tuple(map(read_text, _list(found[it]))) for it in ("heads", "pumps"))
    if len(heads) != len(pumps) + 1 or len({type(it) for it in (*heads, *pumps)}) != 1:
        raise ReportError("a family whose heads and pumps don't go together")
    if sum(map(len, (*heads, *pumps))) > MOST_CODES:
        raise ReportError(f"a family of more than {MOST_CODES:,} characters")
    return Family(heads, pumps)


def read_verdict(found: Any) -> Verdict:
    """Returns the class that a value of JSON describes. Raises ReportError, KeyError or TypeError if it describes none."""
    kind = _text(found, "kind", KINDS[:3])
    family = read_family(found["family"]) if "family" in found else None
    if kind == "degree":
        return Verdict(kind, _number(found, "degree", 0, MOST_DEGREE), family=family)
    if kind == "exponential":
        return Verdict(kind, family=family)
    bounds = {key.replace("-", "_"): _bound(found[key]) for key in ("at-least", "at-most") if key in found}
    return Verdict(kind, None, _word(found, "limit"), _number(found, "over"), **bounds)  # type: ignore[arg-type]


def _bound(found: Any) -> Bound:
    """The bound that a value of JSON describes."""
    verdict = read_verdict({"kind": "degree", **found})
    return Bound(verdict.kind, verdict.degree, _word(found, "law"), verdict.family)


def read_entry(found: Any) -> Entry:
    """Returns the entry that a value of JSON describes. Raises ReportError, KeyError, TypeError or AttributeError if none."""
    kind = _text(found, "kind", KINDS)
    return Entry(
        path=_text(found, "path"),
        kind=kind,
        place=_place(found) if "line" in found or "column" in found else None,
        call=_text(found, "call", CALLS) if "call" in found else None,
        verdict=read_verdict(found) if kind in KINDS[:3] else None,
        cause=_word(found, "cause") if kind == "refused" else None,
        fault=_place(found["fault"]) if "fault" in found else None,
        suggest=read_text(found["suggest"]) if "suggest" in found else None,
        becomes=read_verdict(found["becomes"]) if "becomes" in found else None,
        dropped=_places(found, "dropped"),
        merged=_places(found, "merged"),
        passed=_places(found, "passed"),
    )


def _whole(digits: str) -> int:
    """The whole number that these digits write; Python takes long to compute the value of a million digits."""
    return int(digits) if len(digits) < 20 else _no_number(digits)


def _no_number(_: str) -> int:
    """Always raises ReportError: for fractions, exponents, NaN and infinities, and numbers that are too long."""
    raise ReportError("the report has a number that relint doesn't write")


DECODER = json.JSONDecoder(parse_int=_whole, parse_float=_no_number, parse_constant=_no_number)
BLANK = re.compile(r"[ \t\r\n]*")


class _Late(Exception):
    """Raised if time runs out while a report is read."""


class _Reader:
    """Reads a report from its bytes, which come in parts, entry by entry."""

    def __init__(self, parts: Iterable[bytes], deadline: float) -> None:
        """Takes the parts, and the time of `time.monotonic` at which reading stops."""
        self.parts, self.deadline = iter(parts), deadline
        self.decode = codecs.getincrementaldecoder("utf-8")().decode
        self.text, self.at, self.size, self.inside = "", 0, 0, 0
        self.is_whole = False
        self.entries: List[Entry] = []

    def more(self) -> bool:
        """Reads at least as much again as is left of the text; returns whether there was more."""
        found = [self.text[self.at:]]
        wanted = self.size + len(found[0])
        while not self.is_whole and self.size <= wanted:
            if time.monotonic() > self.deadline:
                raise _Late
            part = next(self.parts, None)
            self.is_whole = part is None
            found.append(self.decode(part or b"", self.is_whole))
            self.count(part or b"")
        self.text, self.at = "".join(found), 0
        if len(self.text) > MOST_OF_A_VALUE:
            raise ReportError(f"the report has a value of more than {MOST_OF_A_VALUE:,} characters")
        return len(self.text) > len(found[0])

    def count(self, part: bytes) -> None:
        """Counts a part. Raises ReportError if the report is too large so far, or no report of relint has its form."""
        self.size += len(part)
        self.inside += part.count(b"[") + part.count(b"{")
        if self.size > MOST_BYTES:
            raise ReportError(f"the report has more than {MOST_BYTES:,} bytes")
        # (lists and objects take memory; reports of relint have far fewer)
        if self.inside > self.size // 16 + 10_000:
            raise ReportError("the report has more lists and objects than any report of relint of its size")

    def blanks(self) -> None:
        """Goes over blanks."""
        while True:
            match = BLANK.match(self.text, self.at)
            self.at = match.end() if match else self.at
            if self.at < len(self.text) or not self.more():
                return

    def token(self, wanted: str) -> bool:
        """Goes over blanks, and over the character `wanted` if it is there; returns whether it was."""
        self.blanks()
        is_there = self.text.startswith(wanted, self.at)
        self.at += is_there
        return is_there

    def need(self, wanted: str) -> None:
        """Goes over the character `wanted`. Raises ReportError if it isn't there."""
        if not self.token(wanted):
            raise ReportError(f"the report is no JSON: {wanted} is wanted")

    def value(self) -> Any:
        """Returns the next value of JSON."""
        self.blanks()
        while True:
            try:
                found, end = DECODER.raw_decode(self.text, self.at)
                # (of a number, only a part may have been read)
                if end < len(self.text) or not self.more():
                    self.at = end
                    return found
            except ValueError:
                if not self.more():
                    raise

    def report(self) -> None:
        self.need("{")
        seen: Set[str] = set()
        while True:
            key = self.value()
            if not isinstance(key, str):
                raise ReportError("this JSON is no report of relint check --format json, or of rlt")
            self.need(":")
            if key == "entries" and key not in seen:
                self.list()
            else:
                value = self.value()
                if key == "version" and (type(value) is not int or value not in (1, 2)):
                    raise ReportError("this JSON is a report of an unknown version")
                if key in COUNTS and (type(value) is not int or value < 0):
                    raise ReportError(f"the report has something else than a number under {key}")
            seen.add(key)
            if not self.token(","):
                break
        self.need("}")
        self.blanks()
        if not {"entries", "version"} <= seen or self.at < len(self.text):
            raise ReportError("this JSON is no report of relint check --format json, or of rlt")

    def list(self) -> None:
        self.need("[")
        if self.token("]"):
            return
        while True:
            if time.monotonic() > self.deadline:
                raise _Late
            if len(self.entries) >= MOST_ENTRIES:
                raise ReportError(f"the report has more than {MOST_ENTRIES:,} entries")
            self.entry()
            if not self.token(","):
                self.need("]")
                return

    def entry(self) -> None:
        try:
            self.entries.append(read_entry(self.value()))
        except ReportError as error:
            raise ReportError(f"entry {len(self.entries) + 1} of the report: {error}") from error
        except (KeyError, TypeError, AttributeError) as error:
            raise ReportError(f"entry {len(self.entries) + 1} of the report lacks what such an entry has") from error


def read_report(parts: Iterable[bytes], deadline: float = float("inf")) -> Report:
    """Returns the report in a JSON text, as far as it was read at the time `deadline` of `time.monotonic`.

    The text comes in parts. Raises ReportError if it isn't a report, or exceeds the limits of this module.
    """
    reader = _Reader(parts, deadline)
    try:
        reader.report()
    except _Late:
        return Report(tuple(reader.entries), True)
    except RecursionError as error:
        raise ReportError("the report is nested too deep") from error
    except ValueError as error:
        raise ReportError(f"the report is no JSON: {str(error)[:200]}") from error
    return Report(tuple(reader.entries))


# Judging.

@dataclass
class _Share:
    """Files for one run: the number that orders it among the others, and what its run wrote so far."""

    order: Tuple[int, ...]
    files: Sequence[str]
    running: Optional[Running] = None
    until: float = 0.0
    parts: List[bytes] = field(default_factory=list)
    size: int = 0


def judge(files: Sequence[str], options: Options, deadline: float, progress: Optional[Progress] = None) -> Judged:
    """Returns what `relint check` says about the files, in their order, by at most `options.jobs` runs at a time.

    It stops at the time `deadline` of `time.monotonic`. `progress` is told how many files were judged, of how many, and the
    findings. Raises ProgramError if the program can't be run or gives no report.
    """
    return _Judge(options, deadline, progress).judged(files)


class _Judge:
    """Runs the program over shares of files, and cuts the shares that take too long."""

    def __init__(self, options: Options, deadline: float, progress: Optional[Progress]) -> None:
        self.progress, self.max_degree = progress, options.max_degree
        self.done = self.every = self.findings = 0
        self.words = [located("relint"), "check", "--format", "json", "--report", "2", f"--mode={options.mode}",
                      f"--max-pairs={options.max_pairs}", "--"]
        self.jobs, self.deadline = max(1, options.jobs), deadline
        self.waiting: List[_Share] = []
        self.busy: Dict[int, _Share] = {}
        self.reports: Dict[Tuple[int, ...], Report] = {}
        self.slow: List[Tuple[Tuple[int, ...], str]] = []

    def judged(self, files: Sequence[str]) -> Judged:
        """Returns what all runs said."""
        self.every = len(files)
        self.waiting = [_Share((at,), it) for at, it in enumerate(shares(files, self.jobs))][::-1]
        try:
            while (self.waiting or self.busy) and time.monotonic() < self.deadline:
                while self.waiting and len(self.busy) < self.jobs:
                    self.start(self.waiting.pop())
                self.wait()
        finally:
            left = sorted((*self.waiting, *self.busy.values()), key=lambda it: it.order)
            for it in self.busy.values():
                assert it.running is not None
                it.running.end()
        entries = [entry for order in sorted(self.reports) for entry in self.reports[order].entries]
        late = bool(left) or any(it.late for it in self.reports.values())
        lost = [not_looked(it) for it in entries if it.call is None]
        slow = tuple(path for _, path in sorted(self.slow))
        return Judged(tuple(entries), tuple(lost), slow, tuple(path for it in left for path in it.files), late)

    def start(self, share: _Share) -> None:
        """Starts the run of a share."""
        share.running = Running([*self.words, *share.files])
        seconds = SECONDS_OF_A_FILE * (1 + len(share.files) / FILES_OF_THE_SECONDS)
        share.until = min(self.deadline, time.monotonic() + seconds)
        self.busy[share.running.out] = share

    def wait(self) -> None:
        """Waits until a run has written something, has ended or is late, and takes what it wrote."""
        first = min(it.until for it in self.busy.values())
        ready = select.select(list(self.busy), [], [], max(0.0, first - time.monotonic()))[0]
        for out in ready:
            share = self.busy[out]
            part = os.read(out, READ_AT_A_TIME)
            share.parts.append(part)
            share.size += len(part)
            if not part:
                self.take(share)
            elif share.size > MOST_BYTES:
                self.cut(share)
        for share in list(self.busy.values()):
            if time.monotonic() >= share.until:
                self.cut(share)

    def end(self, share: _Share, at_once: bool = False) -> int:
        """Ends the run of a share, and returns its status."""
        assert share.running is not None
        del self.busy[share.running.out]
        return share.running.end(at_once)

    def take(self, share: _Share) -> None:
        """Reads the report of a share whose run has ended, and tells how far all runs are."""
        status = self.end(share)
        if status in (5, -6, -9, -11):
            self.queue(share)  # (it is out of memory, or crashed: fewer files take less)
            return
        if status not in (0, 1, 3):
            raise ProgramError(f"{self.words[0]} check ended with status {status}: is it relint?")
        try:
            self.reports[share.order] = report = read_report(share.parts, self.deadline)
        except ReportError as error:
            raise ProgramError(f"the report of {self.words[0]} can't be read: {error}") from error
        if self.progress is not None:
            self.done += len(share.files)
            self.findings += sum(it.verdict is not None and it.verdict.is_finding(self.max_degree) for it in report.entries)
            self.progress(self.done, self.every, self.findings)

    def cut(self, share: _Share) -> None:
        """Ends the run of a share that takes too long or writes too much, and lets its files be judged in smaller shares."""
        self.end(share, at_once=True)
        if share.until < self.deadline or share.size > MOST_BYTES:
            self.queue(share)
        else:
            self.waiting.append(share)

    def queue(self, share: _Share) -> None:
        """Puts smaller shares of the files to those that wait; a single file is slow."""
        if len(share.files) == 1:
            self.slow.append((share.order, share.files[0]))
            return
        size = FILES_OF_A_CUT if len(share.files) > FILES_OF_A_CUT else 1
        cut = [_Share((*share.order, at), share.files[at:at + size]) for at in range(0, len(share.files), size)]
        self.waiting += cut[::-1]


def not_looked(entry: Entry) -> NotLooked:
    """Returns the file or folder that an entry without a call is about, as one that wasn't looked at."""
    word = entry.cause or entry.kind
    return NotLooked(entry.path, CAUSES.get(word, word), fails=entry.kind in ("unreadable", "not-plain"))


def shares(paths: Sequence[str], jobs: int) -> Iterator[List[str]]:
    """Yields the paths in order, in shares for runs of which `jobs` go on at a time, each short enough for a command line."""
    most = max(LEAST_OF_A_SHARE, min(MOST_OF_A_SHARE, -(-len(paths) // (jobs * SHARES_A_JOB))))
    share: List[str] = []
    size = 0
    for path in paths:
        bytes_of_path = len(os.fsencode(path)) + BYTES_A_WORD
        if share and (len(share) == most or size + bytes_of_path > MOST_WORD_BYTES):
            yield share
            share, size = [], 0
        share.append(path)
        size += bytes_of_path
    if share:
        yield share
