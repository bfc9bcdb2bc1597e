"""Gets from relint-ask why patterns cost so much, and chooses for each finding a text that shows its cost.

A family has a text for each number k, which repeats parts of it k times. The text that is shown keeps a search busy for a time
worth telling: about a minute for an exponential pattern, about 20 seconds for another, unless that needs too long a text. Its
steps are counted. Where the ways show that less than a family repeats does the same, a family of shorter texts is tried too.
"""
from __future__ import annotations

import math
from dataclasses import dataclass, field, replace
from typing import Any, Dict, List, Mapping, NamedTuple, Optional, Sequence, Tuple

from ..base.model import NEW, WARNED, Decision, Family, Finding, Growth, Reading, Span, Step, Text, Verdict, Why
from ..base.words import STEPS_A_SECOND, root_of
from ..engine.ask import as_text, question
from ..engine.engine import ReportError, read_text
from ..engine.run import Run

SECONDS_EXPONENTIAL, SECONDS_DEGREE = 60, 20
# (relint-ask counts the steps of texts of up to 65,536 characters)
LONGEST_SHOWN = 65_000
# The lengths of the texts whose steps are counted first.
FIRST_LENGTHS = {True: (12, 24), False: (400, 800)}
# The steps of a text of so many are no number any more. A shorter family isn't taken if its text misses what is wanted by FAR.
MOST_STEPS, FAR, MOST_ROUNDS = 10**36, 4.0, 4
MOST_WAYS = 10_000
# No text is looked for any more after so many findings, the worst first, and how many searches go on at a time.
MOST_FINDINGS, AT_A_TIME = 2_000, 64


@dataclass
class _Search:
    """The search for the text to show for one finding, among those of a family; `why` is the reason that goes with it.

    `points` are the steps that were counted, by k.
    """

    at: int
    finding: Finding
    family: Family
    why: Optional[Why]
    verdict: Verdict
    wanted: float
    points: Dict[int, int] = field(default_factory=dict)
    tried: int = 0
    result: Optional[Growth] = None

    @property
    def is_exponential(self) -> bool:
        """Whether the class is exponential."""
        return self.verdict.rank() == 1_000_000

    @property
    def grows(self) -> int:
        """How many characters a text has more than the one before."""
        return sum(map(len, self.family.pumps))

    def k_of(self, length: float) -> int:
        """The number of the longest text of at most this length, at least 1."""
        return max(1, int((length - self.family.length(0)) // self.grows))

    def first(self) -> List[int]:
        """The numbers of the texts whose steps are counted first."""
        short, long = (self.k_of(it) for it in FIRST_LENGTHS[self.is_exponential])
        return [short, long if long > short else short + 1]

    def guess(self) -> Optional[int]:
        """The number of the text that should take the wanted steps, or None before the first ones are counted."""
        known = sorted(self.points)
        if len(known) < 2:
            return None
        near = min(known, key=lambda it: abs(math.log(max(1, self.points[it])) - math.log(self.wanted)))
        times = self.wanted / max(1, self.points[near])
        if self.is_exponential:
            return max(1, near + round(math.log(times) / math.log(max(self._factor(known), 1.0001))))
        # (the steps grow as the degree says)
        power: float = times ** (1 / max(1, self.verdict.rank()))
        return max(1, round(near * power))

    def next(self) -> Optional[int]:
        """The number of the text to count now, or None once `result` is set, or if nothing is known."""
        guess = self.guess()
        k = min(self.k_of(LONGEST_SHOWN), _rounded(guess, self.is_exponential)) if guess is not None else 0
        if guess is not None and k not in self.points and self.tried < MOST_ROUNDS:
            self.tried += 1
            return k
        known = sorted(self.points)
        if known:
            # (of what was counted, the text that was looked for, or else what is nearest to the wanted steps)
            near = k if k in self.points else min(known, key=self._miss)
            factor = self._factor(known) if self.is_exponential and len(known) > 1 else None
            self.result = Growth(near, self.family.length(near), self.points[near], factor, self.family)
        return None

    def is_far(self) -> bool:
        """Whether the result misses the wanted steps by far, or there is none."""
        return self.result is None or self.is_exponential and self._miss(self.result.k) > math.log(FAR)

    def _miss(self, k: int) -> float:
        """By how much a counted text misses the wanted steps."""
        return abs(math.log(max(1, self.points[k])) - math.log(self.wanted))

    def _factor(self, known: Sequence[int]) -> float:
        """By how much the steps grow with one pump more, from the last two numbers of texts that were counted."""
        low, high = known[-2:] if len(known) > 1 else (known[-1], known[-1])
        if high == low:
            return 1.0
        return math.exp((math.log(max(1, self.points[high])) - math.log(max(1, self.points[low]))) / (high - low))


def _rounded(k: int, exactly: bool) -> int:
    """A number with at most two digits that aren't zero, unless it is wanted exactly."""
    size: int = 10 ** max(0, len(str(k)) - 2)
    return k if exactly else max(1, round(k / size) * size)


def told(findings: Sequence[Finding], run: Run) -> List[Finding]:
    """Returns the findings with the reason for the cost of each one, and a text that shows it; raises ProgramError."""
    return grown(explained(findings, run), run)


def grown(findings: Sequence[Finding], run: Run) -> List[Finding]:
    """Returns the findings with a text that shows the cost of each one in its mode; raises ProgramError as the asker does."""
    rate = run.steps_a_second or STEPS_A_SECOND
    found = list(findings)
    wanted = _worst_first(found)[:MOST_FINDINGS]
    for start in range(0, len(wanted), AT_A_TIME):
        rivals = [_searches(at, found[at], rate) for at in wanted[start:start + AT_A_TIME]]
        _count([(it, k) for some in rivals for it in some for k in it.first()], run)
        best = list(map(_best, rivals))
        _finish(best, run)
        again = [some[0] for some, it in zip(rivals, best) if it is not some[0] and it.is_far()]
        _finish(again, run)
        for it in (*best, *again):
            if it.result is not None:
                found[it.at] = replace(it.finding, growth=it.result, why=it.why)
    return found


def _worst_first(findings: Sequence[Finding]) -> List[int]:
    """The numbers of the findings that are shown and whose class has texts, the worst first."""
    shown = [at for at, it in enumerate(findings) if it.state in (NEW, WARNED) and family_of(it) is not None]
    return sorted(shown, key=lambda at: -findings[at].rank())


def family_of(finding: Finding) -> Optional[Family]:
    """Returns the texts of a finding's class; None if it has none that grow, or if the pattern isn't known."""
    verdict, site = finding.verdict, finding.site
    if verdict is None or site is None or site.flags is None:
        return None
    family = verdict.family or (verdict.at_least.family if verdict.at_least else None)
    return family if family is not None and any(family.pumps) and verdict.rank() > 0 else None


def _count(asked: Sequence[Tuple[_Search, int]], run: Run) -> None:
    """Asks for the steps of texts of searches."""
    answers = run.asker.ask_all([_cost(it, k) for it, k in asked]) if asked and not run.is_late() else []
    for (it, k), answer in zip(asked, answers):
        steps = _steps(answer)
        if steps is not None and steps < MOST_STEPS:
            it.points[k] = steps
        else:
            it.tried = MOST_ROUNDS


def _finish(searches: Sequence[_Search], run: Run) -> None:
    """Asks for the steps of texts until each of the searches has its result, or time is over."""
    while True:
        asked = [(it, k) for it in searches if it.result is None for k in [it.next()] if k is not None]
        if not asked or run.is_late():
            return
        _count(asked, run)


def _best(rivals: Sequence[_Search]) -> _Search:
    """The search whose text should be the shortest; of equal ones the last, which repeats less."""
    best = rivals[0]
    for it in rivals[1:]:
        new, old = it.guess(), best.guess()
        if new is not None and (old is None or it.family.length(new) < best.family.length(old) + best.grows):
            best = it
    return best


def _searches(at: int, finding: Finding, rate: int) -> List[_Search]:
    """The searches for a finding that has texts: one with the family of its class, and one with a shorter one."""
    verdict, family = finding.verdict, family_of(finding)
    assert verdict is not None and family is not None
    seconds = SECONDS_EXPONENTIAL if verdict.rank() == 1_000_000 else SECONDS_DEGREE
    shorter = shortened(family, finding.why, verdict.rank() == 1_000_000)
    every = [(family, finding.why), *([shorter] if shorter is not None and shorter[0] != family else [])]
    return [_Search(at, finding, one, why, verdict, float(seconds * rate)) for one, why in every]


def _cost(search: _Search, k: int) -> Dict[str, Any]:
    """The question how many steps text k takes."""
    site = search.finding.site
    assert site is not None and site.flags is not None
    return question("cost", site.pattern, site.flags, mode=search.finding.mode, text=as_text(search.family.text(k)))


def _steps(answer: Mapping[str, Any]) -> Optional[int]:
    """The steps in an answer, or None if it has none."""
    steps = answer.get("steps")
    if answer.get("answer") != "cost" or not isinstance(steps, str) or not steps.isascii() or not steps.isdigit():
        return None
    return int(steps) if len(steps) < 50 else MOST_STEPS


def explained(findings: Sequence[Finding], run: Run) -> List[Finding]:
    """Returns the findings with the reason for the cost of each one, as far as relint-ask tells it; raises ProgramError."""
    found = list(findings)
    wanted = _worst_first(found)[:run.options.most] if not run.is_late() else []
    asked = []
    for at in wanted:
        site, verdict = found[at].site, found[at].verdict
        assert site is not None and site.flags is not None
        # (an undecided search costs at least what its match costs)
        mode = "match" if verdict is not None and verdict.kind == "undecided" else found[at].mode
        asked.append(question("ways", site.pattern, site.flags, mode=mode, pairs=run.options.max_pairs))
    for at, answer in zip(wanted, run.asker.ask_all(asked)):
        found[at] = replace(found[at], why=why_of(answer))
    return found


def why_of(answer: Mapping[str, Any]) -> Optional[Why]:
    """Returns what an answer to a question `ways` says, or None if it says nothing that can be shown."""
    try:
        readings = [_reading(answer["twin"])] if "twin" in answer else [_reading(it) for it in answer.get("splits", ())]
        return Why(tuple(readings)) if readings else None
    except (ReportError, KeyError, TypeError, ValueError, AttributeError, IndexError):
        return None


# ---- shorter texts

class Shorter(NamedTuple):
    """A family that repeats less than another one, and the reason that goes with it."""

    family: Family
    why: Optional[Why]


def shortened(family: Family, why: Optional[Why], is_exponential: bool) -> Optional[Shorter]:
    """Returns a family that repeats less, as far as the ways of a reading show one; nothing is known of its cost."""
    reading = why.drawn if why is not None else None
    if reading is None or why is None:
        return None
    size = (_twin_size if is_exponential else _split_size)(reading)
    less = replace(reading, text=reading.text[:size], ways=tuple(it[:size] for it in reading.ways))
    new = replace(why, readings=tuple(less if it is reading else it for it in why.readings))
    if is_exponential:
        if family.pumps != (reading.text,) or size == len(reading.text):
            return None
        return Shorter(Family((_without_end(family.heads[0], reading.text), family.heads[1]), (less.text,)), new)
    unit = root_of(less.text)
    pumps = tuple(unit if unit in it else root_of(it) for it in family.pumps)  # type: ignore[operator]
    if set(pumps) == {unit} and all(unit * (len(it) // len(unit)) == it for it in family.heads[1:-1]):
        # (all of it is one run)
        last = family.heads[-1]
        while last.startswith(unit):  # type: ignore[arg-type]
            last = last[len(unit):]
        return Shorter(Family((_without_end(family.heads[0], unit), last), (unit,)), new)
    return Shorter(Family(family.heads, pumps), new)


def _without_end(text: Text, word: Text) -> Text:
    """A text without the copies of a word at its end."""
    while word and text.endswith(word):  # type: ignore[arg-type]
        text = text[:-len(word)]
    return text


def _twin_size(reading: Reading) -> int:
    """How many characters of an exponential pattern's text do already: read in two ways, they lead back to the same place.

    Of a text that is copies of a shorter one, one way is enough.
    """
    one, two = reading.ways
    start, size = one[-1].place, len(reading.text)
    for at in range(1, size):
        ends = (one[at - 1].place, two[at - 1].place)
        is_back = ends == (start, start) or start in ends and len(root_of(reading.text[:at])) == len(root_of(reading.text))
        if is_back and one[:at] != two[:at]:
            return at
    return size


def _split_size(reading: Reading) -> int:
    """How many characters of a text that two loops share do already: each of the three ways ends at its place."""
    before, over, behind = reading.ways
    ends = before[-1].place, over[-1].place, behind[-1].place
    found = (at for at, it in enumerate(zip(before, over, behind), 1) if tuple(step.place for step in it) == ends)
    return next(found, len(reading.text))


def _reading(found: Mapping[str, Any]) -> Reading:
    """The text with its ways that a value describes."""
    text = read_text(found["text"])
    ways = tuple(tuple(_step(it) for it in way) for way in found["ways"])
    if any(len(it) != len(text) for it in ways) or len(text) > MOST_WAYS:
        raise ReportError("a way that doesn't go with its text")
    parts = found.get("parts")
    return Reading(text, ways, parts if type(parts) is int and 0 <= parts < len(text) else None,
                   tuple(_span(it) for it in found.get("loops", ())))


def _step(found: Mapping[str, Any]) -> Step:
    """The reading of a character that a value describes."""
    return Step(_span(found["place"]), tuple(Decision(_span(it["at"]), str(it["side"])) for it in found["took"]))


def _span(found: Any) -> Optional[Span]:
    """The span that a value describes, or None for null."""
    if found is None:
        return None
    start, end = found
    if type(start) is not int or type(end) is not int or not 0 <= start <= end:
        raise ReportError("a span that is none")
    return start, end
