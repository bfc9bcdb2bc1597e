"""The types that the stages hand on: one `Finding` for each entry of a run, and the parts of it.

All but `Clock` are frozen. A stage takes findings and returns findings, each with one group of fields filled in. Spans are
pairs of offsets, from 0, the end excluded: in a pattern they count its characters (or bytes), in a source its characters.
Lines and columns count from 1.
"""
from __future__ import annotations

import time
from dataclasses import dataclass, field
from typing import Any, Iterator, List, Mapping, Optional, Sequence, Tuple, TypeVar, Union

Text = Union[str, bytes]
Span = Tuple[int, int]
Item = TypeVar("Item")
# So many entries are shown even if time ran out; of the time that is left, this part is for what is shown one by one.
MOST_AFTER, PART_OF_THE_REST = 100, 0.75

MODES = ("search", "match", "fullmatch")
CALLS = ("compile", "match", "search", "fullmatch", "findall", "finditer", "split", "sub", "subn")
# What an entry can say, by the words of the program's report. The first three are verdicts.
KINDS = ("degree", "exponential", "undecided", "refused", "unreadable", "too-deep-folder", "not-plain")
# How an entry's class is known: by the program, which read the literal in the source itself; by relint-ask, for such a
# literal whose pattern the program doesn't analyse; by relint-ask, for a pattern that this package found in the source; or
# only by a trial.
PROVED, BEYOND, ELSEWHERE, SEEN = "proved", "beyond", "elsewhere", "seen"
# The causes for which the program refuses patterns that relint-ask may judge all the same.
WIDER = ("lookaround", "inner-anchor")
# What becomes of an entry. Only those in state NEW make the command fail.
NEW, ACCEPTED, UNUSED, IGNORED, WARNED, KNOWN, OTHER = "new", "accepted", "unused", "ignored", "warned", "known", "other"


@dataclass(frozen=True, order=True)
class Place:
    """A place in a source: line and column, from 1. Columns count characters."""

    line: int
    column: int


@dataclass(frozen=True)
class Family:
    """Texts that show a class: text k is heads[0], then each pump k times, followed by the next head.

    There is one head more than pumps, and all are `str` or all are `bytes`.
    """

    heads: Tuple[Text, ...]
    pumps: Tuple[Text, ...]

    def text(self, k: int) -> Text:
        """Returns text k of the family; `k` is at least 0."""
        parts: List[Any] = [self.heads[0]]
        for pump, head in zip(self.pumps, self.heads[1:]):
            parts += [pump * k, head]
        empty: Any = self.heads[0][:0]
        joined: Text = empty.join(parts)
        return joined

    def length(self, k: int) -> int:
        return sum(map(len, self.heads)) + k * sum(map(len, self.pumps))


@dataclass(frozen=True)
class Bound:
    """A bound of an undecided class that a law gives: `law` names the law. `family` shows a lower bound."""

    kind: str
    degree: Optional[int]
    law: str
    family: Optional[Family] = None


@dataclass(frozen=True)
class Verdict:
    """The class of a pattern in a mode: how the steps of a match grow with the length of the text, at worst.

    `kind` is degree, exponential or undecided. An undecided pattern exceeded the limit named by `limit`, whose value is
    `over`; `at_least` and `at_most` are the bounds that laws give all the same. `family` has texts that show the class.
    `beyond` names what of the pattern only relint-ask judges, as causes of WIDER; None if the program judges it too.
    """

    kind: str
    degree: Optional[int] = None
    limit: Optional[str] = None
    over: Optional[int] = None
    family: Optional[Family] = None
    at_least: Optional[Bound] = None
    at_most: Optional[Bound] = None
    beyond: Optional[Tuple[str, ...]] = None

    def is_finding(self, max_degree: int) -> bool:
        """Returns whether the class, or what it is at least, is exponential or a degree above `max_degree`."""
        shown: Union[Verdict, Bound] = self.at_least if self.kind == "undecided" and self.at_least else self
        return shown.kind == "exponential" or shown.kind == "degree" and (shown.degree or 0) > max_degree

    def is_open(self, max_degree: int) -> bool:
        """Returns whether it isn't known if the class is a finding: it is undecided, and no bound settles it."""
        if self.kind != "undecided" or self.is_finding(max_degree):
            return False
        return self.at_most is None or (self.at_most.degree or 0) > max_degree

    def rank(self) -> int:
        """Returns a number by which worse classes are greater: exponential is worst, then higher degrees; open ones are -1."""
        shown: Union[Verdict, Bound] = self.at_least if self.kind == "undecided" and self.at_least else self
        if shown.kind == "exponential":
            return 1_000_000
        return shown.degree or 0 if shown.kind == "degree" else -1


@dataclass(frozen=True)
class Entry:
    """One entry of the program's report, about a pattern or about a whole file. `kind` is one of KINDS.

    `place` is where the pattern's first literal begins, or where the program refuses the file; `call` is the function of `re`
    that takes the pattern, and None for a file. `verdict` is there for the first three kinds. `cause` names why a pattern or
    file is refused, and `fault` is the place of what is refused in a literal. `suggest` is a simpler pattern that matches the
    same texts, and `becomes` its class; `dropped`, `merged` and `passed` are the places of branches that can go, of
    quantifiers that can go, and of branches whose test exceeded a limit.
    """

    path: str
    kind: str
    place: Optional[Place] = None
    call: Optional[str] = None
    verdict: Optional[Verdict] = None
    cause: Optional[str] = None
    fault: Optional[Place] = None
    suggest: Optional[Text] = None
    becomes: Optional[Verdict] = None
    dropped: Tuple[Place, ...] = ()
    merged: Tuple[Place, ...] = ()
    passed: Tuple[Place, ...] = ()


@dataclass(frozen=True)
class Literal:
    """A string literal of a source, with its prefix and quotes, and where it starts and ends."""

    text: str
    start: int
    end: int


@dataclass(frozen=True)
class Holder:
    """A name that holds a part of a pattern, with the path of the file and the line that bind it."""

    name: str
    path: str
    line: int


@dataclass(frozen=True)
class Site:
    """A pattern as the source has it.

    `flags` are those of its call as a number of `re`, and None if they aren't known. `literals` are the literals that give
    it, one behind the other; there are none for a pattern that isn't a literal of its call, and then `end` is the place just
    behind the code that gives it. `offsets` are the offsets in the source of each character of the pattern and of its end; ()
    if they aren't known. `function` is the name of the class and function around it, as "Reader.rows"; "" at the top.
    `in_tests` says that only tests use it. `taker` is what takes the pattern, as "django.core.validators.RegexValidator", and
    "" for `re` itself. `holders` are the names that hold parts of it, `notes` sentences for people, `stands_in` says that a
    word stands in it for a part that isn't known. `cell` is the number of a notebook's cell.
    """

    pattern: Text
    flags: Optional[int]
    literals: Tuple[Literal, ...] = ()
    offsets: Tuple[int, ...] = ()
    end: Optional[Place] = None
    function: str = ""
    in_tests: bool = False
    taker: str = ""
    holders: Tuple[Holder, ...] = ()
    notes: Tuple[str, ...] = ()
    stands_in: bool = False
    cell: Optional[int] = None

    @property
    def said(self) -> Tuple[str, ...]:
        """The notes, and that it is in a test."""
        return (*self.notes, *(["in a test"] if self.in_tests else []))


@dataclass(frozen=True)
class Use:
    """A call that matches the pattern: its method (a name of CALLS, but not "compile"), and its file and line.

    `position` says that it may give a position from which to match. `sees` is what the code sees of the match: "truth"
    (whether there is one), "spans" (where) or "groups" (the groups too). `repeated` says that the call may be tried at one
    position after the other, as in a loop over `P.match(text, at)`, so that it costs what a search costs.
    """

    method: str
    path: str
    line: int
    position: bool = False
    sees: str = "groups"
    repeated: bool = False

    @property
    def mode(self) -> str:
        """The mode whose class the use has: "match", "fullmatch" or "search"."""
        return self.method if self.method in ("match", "fullmatch") and not self.repeated else "search"


@dataclass(frozen=True)
class Uses:
    """The uses of a pattern. If `lost` isn't "", they aren't all known, and it says why in a clause.

    `is_read` says that the code reads the pattern or its flags.
    """

    uses: Tuple[Use, ...] = ()
    is_read: bool = False
    lost: str = ""


@dataclass(frozen=True)
class Decision:
    """What a matcher decided at a part of the pattern: `side` is "left", "right", "round" or "stop"."""

    at: Optional[Span]
    side: str


@dataclass(frozen=True)
class Step:
    """How one character is read: by which part of the pattern, or by the search itself, and the decisions before."""

    place: Optional[Span]
    took: Tuple[Decision, ...] = ()


@dataclass(frozen=True)
class Reading:
    """A text that can be read in several ways. Each way has one `Step` for each character of the text.

    An exponential pattern has two ways, which part at the character `parts`. A split of a degree has three: staying in the
    loop before, going over, and staying in the loop behind; `loops` are the spans of these two loops, None where it is what
    the search skips.
    """

    text: Text
    ways: Tuple[Tuple[Step, ...], ...]
    parts: Optional[int] = None
    loops: Tuple[Optional[Span], ...] = ()


@dataclass(frozen=True)
class Why:
    """Why a pattern costs what it costs: one reading for an exponential one, one for each split of a degree."""

    readings: Tuple[Reading, ...] = ()

    @property
    def drawn(self) -> Optional[Reading]:
        """The reading that is drawn: of an exponential pattern, or the last one of two loops, if there is one."""
        inner = [it for it in self.readings if it.parts is not None or None not in it.loops]
        return next(iter((inner or list(self.readings))[-1:]), None)


@dataclass(frozen=True)
class Growth:
    """A text that shows the cost: text k of a family, its length, and its steps, which were counted.

    `factor` is by how much the steps grow with one pump more, for an exponential pattern. `family` is None if it is that of
    the class.
    """

    k: int
    length: int
    steps: int
    factor: Optional[float] = None
    family: Optional[Family] = None


@dataclass(frozen=True)
class Offer:
    """A pattern to put in place of the old one. `kind` is one of "fix", "better" and "advice".

    A fix is no finding any more, and the code can't notice it; what is better is still a finding; advice changes what a group
    holds or which texts match, as `differs` says in one clause. `literal` is how the new pattern is written in the source.
    `proof` is "proved" if the programs proved what is said, and "checked" if only trials were made. `unread` says in a clause
    which part of a match may be another one, as no use reads it. `hard_to_read` marks a pattern that is right but long.
    """

    kind: str
    pattern: Text
    literal: str
    verdict: Verdict
    proof: str = "proved"
    differs: str = ""
    rule: str = ""
    hard_to_read: bool = False
    needs: str = ""
    unread: str = ""


@dataclass(frozen=True)
class Seen:
    """What a trial showed: which Python, the length of the text, the seconds that the match exceeded."""

    python: str
    length: int
    seconds: float
    k: int
    family: Optional[Family] = None


@dataclass(frozen=True)
class Finding:
    """An entry of a run, with what is known of it; a field that isn't known is None or empty.

    `known` is PROVED, BEYOND, ELSEWHERE or SEEN. `mode` is the mode of the use under which the class is worst or, if the uses
    aren't known, the one in which `entry` was judged; `by_mode` has the classes in the modes that were asked. `state` is NEW,
    ACCEPTED, UNUSED (no use reaches the cost), IGNORED (a comment hides it), WARNED (a lower degree that is shown too), KNOWN
    (it stands in the earlier commit already) or OTHER (no finding). `reason` is why it was accepted. `lines` are the source
    lines to show, each with its number.
    """

    entry: Entry
    known: str = PROVED
    mode: str = "search"
    state: str = OTHER
    reason: str = ""
    site: Optional[Site] = None
    uses: Optional[Uses] = None
    by_mode: Mapping[str, Verdict] = field(default_factory=dict)
    growth: Optional[Growth] = None
    why: Optional[Why] = None
    offers: Tuple[Offer, ...] = ()
    seen: Optional[Seen] = None
    lines: Tuple[Tuple[int, str], ...] = ()

    @property
    def verdict(self) -> Optional[Verdict]:
        """The class in the mode `mode`, or that of the entry."""
        return self.by_mode.get(self.mode, self.entry.verdict)

    @property
    def is_own(self) -> bool:
        """Whether the program itself read the pattern, or that there is one, in the source."""
        return self.known in (PROVED, BEYOND)

    @property
    def pattern(self) -> Text:
        """The pattern, or "" if it isn't known."""
        return self.site.pattern if self.site is not None else ""

    @property
    def place(self) -> Place:
        """The place of the entry; line 1, column 1 if it has none."""
        return self.entry.place or Place(1, 1)

    def is_open(self, max_degree: int) -> bool:
        """Returns whether the entry has a verdict that leaves open if it is a finding."""
        verdict = self.verdict
        return verdict is not None and verdict.is_open(max_degree)

    def fails_strictly(self, max_degree: int) -> bool:
        """Returns whether the entry fails with --strict only: its pattern isn't decided or judged, and nobody accepted it."""
        is_pattern = self.entry.call is not None
        return is_pattern and self.state == OTHER and (self.verdict is None or self.is_open(max_degree))

    def rank(self) -> int:
        """Returns a number by which worse findings are greater; -1 if the class isn't known."""
        return self.verdict.rank() if self.verdict is not None else -1


@dataclass(frozen=True)
class NotLooked:
    """Something that wasn't looked at, with the reason as a clause; `count` is how many, if `path` is only the first.

    `fails` says that the status is 3: it was named, or the system refused to read it. `is_part` says that some of it was
    judged.
    """

    path: str
    why: str
    count: int = 1
    fails: bool = False
    is_part: bool = False


@dataclass(frozen=True)
class Narrowed:
    """Something that narrows what is looked at or what fails: where it is written, its name and value, how much it hides."""

    source: str
    what: str
    hides: int = 0


@dataclass
class Clock:
    """The time of `time.monotonic` at which a run ends; `left` says how many entries weren't shown before it."""

    end: float = float("inf")
    until: float = float("inf")
    left: int = 0

    def share(self, of: int) -> None:
        """Gives the layout that is written next one of so many equal shares of the time that is left."""
        now = time.monotonic()
        self.until = now + (self.end - now) / of * PART_OF_THE_REST

    def within(self, items: Sequence[Item]) -> Iterator[Item]:
        """Yields the items until the time is over, but at least MOST_AFTER."""
        for number, it in enumerate(items):
            if number >= MOST_AFTER and time.monotonic() >= self.until:
                self.left = max(self.left, len(items) - number)
                return
            yield it


@dataclass(frozen=True)
class Summary:
    """What a run did, besides its findings: for the last lines and for the status.

    `files` and `patterns` count what was judged. `not_looked` is named in every format. `unused_ignores` are the ignore
    comments that hid nothing. `late` says that time ran out before all was done, and `clock` how much is left for showing
    it. `version` is that of the package.
    """

    files: int = 0
    patterns: int = 0
    seconds: float = 0.0
    not_looked: Tuple[NotLooked, ...] = ()
    narrowed: Tuple[Narrowed, ...] = ()
    notes: Tuple[str, ...] = ()
    unused_ignores: Tuple[Tuple[str, int], ...] = ()
    added_accepts: Tuple[Tuple[str, int, str], ...] = ()
    late: bool = False
    steps_a_second: Optional[int] = None
    folders: Tuple[str, ...] = (".",)
    version: str = ""
    clock: Clock = field(default_factory=Clock, compare=False)
