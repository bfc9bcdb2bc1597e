"""Tries findings with the running Python: how long a text has to be for a match to exceed a limit of time.

A class is a statement about a defined machine; this is an experiment. A finding's family are texts, numbered by k, that show
its class. A trial matches longer and longer texts of the family. For a pattern that relint can't judge, the texts come from
looser forms of it that relint can judge; what is seen then isn't proved.
"""
from __future__ import annotations

import math
import re
import time
from contextlib import closing
from dataclasses import dataclass, replace
from typing import Any, Dict, List, Mapping, Optional, Sequence, Tuple

from ..base.model import NEW, SEEN, Family, Finding, Seen, Verdict
from ..base.rate import LEAST, MOST, python_name
from ..engine.ask import Asker, as_text, letters, question
from .loosen import forms
from .tries import Trials

CONFIRMED, NOT_SEEN, NOT_TRIED = "confirmed", "not seen", "not tried"
OVER, LONGEST = 1.0, 100_000
# A trial may take PATIENCE times longer by the clock than its process may use the processor.
PATIENCE = 10
SHORT_CUTS = ("this Python may take a short cut that the defined machine doesn't have, as merging (a|b) to [ab], or looking"
              " for the next letter before it goes on")
# The rate is the median of so many matches that took long enough.
LEAST_SECONDS, MOST_SAMPLES = 0.02, 9
MOST_TRIALS = 5
# Times below this fraction of the limit are too short to be compared, so they count as this fraction.
LEAST_PART = 0.002
# An exponential time grows at least with this power of the length where it is measured: 2**k does from k = 9 on.
LEAST_EXPONENTIAL, ALLOWED = 6.0, 0.6
LOOSENED = ("lookaround", "backreference", "conditional", "atomic", "possessive", "inner-anchor")


@dataclass(frozen=True)
class Limits:
    """The seconds of processor time that a match has to exceed, the longest text, how many trials run at once, until when."""

    over: float = OVER
    longest: int = LONGEST
    jobs: int = 1
    until: float = math.inf


@dataclass(frozen=True)
class Outcome:
    """What a trial showed: CONFIRMED, NOT_SEEN, or NOT_TRIED, with `why` it isn't the first.

    `k` and `length` are those of the last text, and `seconds` those of its match, or the limit that it exceeded. `times` has
    k, length and seconds of each match that ended.
    """

    result: str
    k: int = 0
    length: int = 0
    seconds: float = 0.0
    why: str = ""
    times: Tuple[Tuple[int, int, float], ...] = ()


def _texts(family: Family) -> Dict[str, List[str]]:
    """A family as questions have it."""
    return {"heads": list(map(as_text, family.heads)), "pumps": list(map(as_text, family.pumps))}


def _question(finding: Finding, limits: Limits) -> Optional[Dict[str, Any]]:
    """The question for the process of a trial; None if the pattern can't be tried with the texts of its class."""
    site, verdict = finding.site, finding.verdict
    family = verdict.family if verdict is not None else None
    if verdict is None or family is None or site is None or site.flags is None:
        return None
    if isinstance(family.heads[0], bytes) != isinstance(site.pattern, bytes):
        return None
    return {"pattern": as_text(site.pattern), "flags": site.flags, "bytes": isinstance(site.pattern, bytes),
            "mode": finding.mode, **_texts(family), "seconds": limits.over, "longest": limits.longest,
            "exponential": (verdict.at_least or verdict).kind == "exponential"}


def _outcome(answer: Optional[Mapping[str, Any]], limits: Limits) -> Outcome:
    """What the answer of a trial shows."""
    if answer is None:
        return Outcome(NOT_TRIED, why="Python ended early, or the machine is too busy")
    if "refused" in answer:
        return Outcome(NOT_TRIED, why=f"this Python doesn't take the pattern: {answer['refused']}")
    times = tuple((int(k), int(length), float(took)) for k, length, took in answer.get("times", ()))
    if answer.get("over"):
        k, length = answer["over"]
        return Outcome(CONFIRMED, int(k), int(length), limits.over, times=times)
    if not times:
        return Outcome(NOT_TRIED, why=f"its first text is longer than {limits.longest:,} characters")
    why = "the match needs too much memory" if answer.get("why") == "memory" else SHORT_CUTS
    return Outcome(NOT_SEEN, *times[-1], why, times)


def confirmed(findings: Sequence[Finding], limits: Limits) -> List[Outcome]:
    """Returns what trials of findings show, in order, each in the mode of its worst use with the family of its class."""
    questions = [_question(it, limits) for it in findings]
    with closing(Trials(limits.jobs, (40 * limits.over + 60) * PATIENCE, limits.until)) as trials:
        found = iter(trials.ask_all([it for it in questions if it is not None]))
        return [_outcome(next(found), limits) if question is not None else Outcome(
            NOT_TRIED, why="there are no texts to try" if it.site and it.verdict else "its pattern isn't known")
                for it, question in zip(findings, questions)]


def rate_of(findings: Sequence[Finding], outcomes: Sequence[Outcome], asker: Asker) -> Optional[int]:
    """Returns the steps that this Python does in a second, if the confirmed findings show it; raises ProgramError."""
    rates: List[float] = []
    for finding, outcome in zip(findings, outcomes):
        timed = [it for it in outcome.times if it[2] >= LEAST_SECONDS]
        site, verdict = finding.site, finding.verdict
        if outcome.result == CONFIRMED and timed and site is not None and verdict is not None and verdict.family is not None:
            k, _, took = timed[-1]
            more = {"mode": finding.mode, "k": k, **_texts(verdict.family)}
            answer = asker.ask(question("cost", site.pattern, site.flags or 0, **more))
            if answer.get("answer") == "cost" and str(answer.get("steps")).isdigit():
                rates.append(int(answer["steps"]) / took)
        if len(rates) == MOST_SAMPLES:
            break
    found = round(sorted(rates)[(len(rates) - 1) // 2]) if rates else 0
    return found if LEAST <= found <= MOST else None


# Patterns that relint can't judge


def power_of(outcome: Outcome, seconds: float) -> float:
    """Returns the power of the length with which the times of a confirmed trial grew up to the limit; 0 if it isn't known.

    It is measured from the first text whose time is long enough to be compared, and from the text before it.
    """
    before: List[Tuple[int, float]] = []
    least = math.inf
    # (a text that took more time than a longer one was disturbed by something else)
    for _, length, took in reversed([it for it in outcome.times if 0 < it[1] < outcome.length]):
        least = min(least, took)
        before.insert(0, (length, least))
    if not before:
        return 0.0
    floor = seconds * LEAST_PART
    begun = [*[it for it in before if it[1] < floor][-1:], *[it for it in before if it[1] >= floor][:1]]
    return max(math.log(seconds / max(took, floor)) / math.log(outcome.length / length) for length, took in begun)


def seen_class(verdict: Verdict, power: float, max_degree: int) -> Optional[Verdict]:
    """Returns the class if the times grew about as it says, otherwise the degree that was seen; None if that is no finding."""
    degree = verdict.degree or 0
    if power >= (LEAST_EXPONENTIAL if verdict.kind == "exponential" else degree - ALLOWED):
        return verdict
    seen = int(power + ALLOWED)
    return replace(verdict, kind="degree", degree=seen) if seen > max_degree else None


def hangs(findings: Sequence[Finding], asker: Asker, limits: Limits, max_degree: int) -> List[Finding]:
    """Returns the findings; those not judged that were seen to hang are of the kind SEEN now. Raises ProgramError."""
    found = list(findings)
    places = [at for at, it in enumerate(findings) if _is_to_be_tried(it)]
    made = {at: _chosen(findings[at], asker, max_degree) for at in places}
    for number in range(MOST_TRIALS):
        left = [at for at in places if number < len(made[at]) and found[at].known != SEEN]
        if time.monotonic() > limits.until:
            break
        asked = [replace(findings[at], by_mode={findings[at].mode: made[at][number]}) for at in left]
        for at, outcome in zip(left, confirmed(asked, limits)):
            power = power_of(outcome, limits.over)
            its = seen_class(made[at][number], power, max_degree) if outcome.result == CONFIRMED else None
            if its is not None:
                seen = Seen(python_name(), outcome.length, limits.over, outcome.k, its.family)
                found[at] = replace(findings[at], known=SEEN, state=NEW, seen=seen, by_mode={findings[at].mode: its})
    return found


def _is_to_be_tried(finding: Finding) -> bool:
    """Whether relint can't judge a pattern that is known: it is refused for what forms leave out, or undecided."""
    site, entry = finding.site, finding.entry
    if site is None or site.flags is None or site.stands_in or letters(site.flags) is None:
        return False
    return finding.is_open(0) if finding.verdict is not None else entry.kind == "refused" and entry.cause in LOOSENED


def _chosen(finding: Finding, asker: Asker, max_degree: int) -> List[Verdict]:
    """The classes of a pattern's forms that are findings, the worst first; few."""
    site = finding.site
    assert site is not None and site.flags is not None
    made = forms(site.pattern, site.flags & ~int(re.DEBUG), finding.verdict is not None)
    verdicts = asker.verdicts([(it, site.flags, finding.mode) for it in made])
    worst: Dict[object, Verdict] = {}
    for verdict in verdicts:
        if verdict is not None and verdict.family is not None and verdict.is_finding(max_degree):
            worst.setdefault(verdict.family, verdict)
    return sorted(worst.values(), key=lambda it: -it.rank())[:MOST_TRIALS]
