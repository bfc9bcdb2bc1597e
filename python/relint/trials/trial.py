"""Tries patterns on texts with the running Python's `re`; each match has a limit of time.

It answers lines of JSON on standard input. `tries.Trials` runs it as a script, so it imports nothing of the package.
"""
from __future__ import annotations

import json
import math
import re
import resource
import signal
import sys
import time
import warnings
from typing import Any, Dict, List, Optional, Sequence, Tuple

MATCH_SECONDS, WHOLE_SECONDS = 0.02, 8.0
MEMORY = 1 << 30
MOST_SLOW = 3
REPEATED = ("finditer", "position")
# What a pattern may still be beside another one: the same in texts, spans and groups; texts and spans; texts; or nothing.
GROUPS_TOO, SPANS_TOO, TEXTS_ALONE, OTHER = "a", "b", "c", "-"
# While a match takes less than the fraction QUICK of the limit, k grows by half. Then the last two times are used to estimate
# the k at which the limit is reached.
QUICK, STEEPEST = 0.02, 1.5


class TookLong(Exception):
    """Raised in a match that exceeds its limit of time."""


def _stop(*_: Any) -> None:
    """Raises TookLong; this is the handler of the timer's signal."""
    raise TookLong


def _found(pattern: Any, text: Any, call: str) -> List[Any]:
    """What a call finds: for each match all spans and the last group; `position` searches from the middle of the text."""
    if call == "finditer":
        return [[*it.regs, it.lastindex] for it in pattern.finditer(text)]
    found = pattern.search(text, len(text) // 2) if call == "position" else getattr(pattern, call)(text)
    return [[*found.regs, found.lastindex]] if found else []


def _limited(pattern: Any, text: Any, call: str) -> Optional[List[Any]]:
    """What a call finds, or None if it takes too long."""
    try:
        signal.setitimer(signal.ITIMER_REAL, MATCH_SECONDS)
        try:
            return _found(pattern, text, call)
        finally:
            signal.setitimer(signal.ITIMER_REAL, 0)
    except TookLong:
        return None


def _kind(wanted: List[Any], right: Any) -> Tuple[str, int]:
    """What `right` may still be, and on how many of the `wanted` calls it was compared; one that tells goes to the front."""
    kind, slow, compared = GROUPS_TOO, 0, 0
    for at, (text, call, found) in enumerate(wanted):
        now = _limited(right, text, call)
        if now is None:
            slow += 1
            if slow > MOST_SLOW:
                break
            continue
        compared += 1
        if now == found:
            continue
        if call not in REPEATED and bool(now) != bool(found):
            wanted.insert(0, wanted.pop(at))
            return OTHER, compared
        kind = max(kind, SPANS_TOO if [it[0] for it in now] == [it[0] for it in found] else TEXTS_ALONE)
    return kind, compared


def _code(asked: Dict[str, Any], text: str) -> Any:
    """A text of a question, or the bytes for it."""
    return text.encode("latin-1") if asked["bytes"] else text


def _work(asked: Dict[str, Any], kept: Dict[str, Any]) -> Dict[str, Any]:
    """Returns the answer to a question; `kept` has what the first pattern of the question before finds."""
    ends = time.monotonic() + WHOLE_SECONDS
    first = {key: value for key, value in asked.items() if key != "others"}
    if kept.get("first") != first:
        left, wanted = re.compile(_code(asked, asked["pattern"]), asked["flags"]), []
        for text in (_code(asked, it) for it in asked["texts"]):
            for call in asked["calls"] if time.monotonic() < ends else ():
                found = _limited(left, text, call)
                wanted += [(text, call, found)] if found is not None else []
        # (texts with a match tell more)
        wanted.sort(key=lambda it: (not it[2], len(it[0])))
        kept.update(first=first, wanted=wanted)
    kinds: List[str] = []
    least = len(kept["wanted"])
    for other in asked["others"]:
        if time.monotonic() > ends:
            kinds, least = [*kinds, GROUPS_TOO], 0
            continue
        try:
            kind, compared = _kind(kept["wanted"], re.compile(_code(asked, other), asked["flags"]))
        except (re.error, OverflowError, RecursionError, UnicodeEncodeError):
            kind, compared = OTHER, 0
        kinds.append(kind)
        least = min(least, compared)
    return {"kinds": kinds, "compared": least}


def next_k(measured: Sequence[Tuple[int, int, float]], seconds: float, is_exponential: bool) -> int:
    """Returns the next k to try, from those tried before, each with its length and seconds; there has to be one.

    It is half as much again or, if the last two times are long enough, the k at which they lead to the limit.
    """
    k, _, took = measured[-1]
    most = max(k + 1, int(k * STEEPEST))
    if took < seconds * QUICK or len(measured) < 2:
        return most
    earlier, _, before = measured[-2]
    growth = math.log(took / before) if 0 < before < took else 0.0
    if growth <= 0:
        return most
    if is_exponential:
        wanted = k + math.log(seconds / took) * (k - earlier) / growth
    else:
        # (capped, since the power of an almost flat growth overflows)
        wanted = k * math.exp(min(1.0, math.log(seconds / took) * math.log(k / earlier) / growth))
    return min(most, max(k + 1, math.ceil(wanted * 1.01)))


def _grown(asked: Dict[str, Any]) -> Dict[str, Any]:
    """Matches longer and longer texts of a family; returns k, length and seconds of each, and the one that took too long."""
    match = getattr(re.compile(_code(asked, asked["pattern"]), asked["flags"] & ~int(re.DEBUG)), asked["mode"])
    heads, pumps, seconds = asked["heads"], asked["pumps"], asked["seconds"]
    fixed, grows = sum(map(len, heads)), sum(map(len, pumps))
    last = max(asked["longest"] - fixed, 0) // grows if grows else 1
    measured: List[Tuple[int, int, float]] = []
    k = min(1, last)
    while k and (not measured or measured[-1][0] < last):
        text = _code(asked, heads[0] + "".join(pump * k + head for pump, head in zip(pumps, heads[1:])))
        begun = time.process_time()
        try:
            signal.setitimer(signal.ITIMER_PROF, seconds)
            try:
                match(text)
            finally:
                signal.setitimer(signal.ITIMER_PROF, 0)
        except TookLong:
            return {"times": measured, "over": [k, len(text)]}
        except MemoryError:
            return {"times": measured, "over": None, "why": "memory"}
        measured.append((k, len(text), time.process_time() - begun))
        if measured[-1][2] >= seconds:
            return {"times": measured[:-1], "over": [k, len(text)]}
        k = min(last, next_k(measured, seconds, asked["exponential"]))
    return {"times": measured, "over": None}


def _main() -> None:
    """Answers one line of standard input after another."""
    warnings.simplefilter("ignore")
    resource.setrlimit(resource.RLIMIT_AS, (MEMORY, MEMORY))
    resource.setrlimit(resource.RLIMIT_CORE, (0, 0))
    for it in (signal.SIGALRM, signal.SIGPROF):
        signal.signal(it, _stop)
    kept: Dict[str, Any] = {}
    for line in sys.stdin.buffer:
        try:
            asked = json.loads(line)
            # (what even a signal doesn't end, such as the compiling of a pattern, ends the process)
            most = math.ceil(time.process_time() + 40 * asked.get("seconds", 0) + 60)
            resource.setrlimit(resource.RLIMIT_CPU, (most, resource.getrlimit(resource.RLIMIT_CPU)[1]))
            answer = _grown(asked) if "heads" in asked else _work(asked, kept)
        except (re.error, OverflowError, RecursionError, MemoryError, ValueError, TookLong) as error:
            answer = {"refused": " ".join(str(error).split())[:200]}
        sys.stdout.write(json.dumps(answer) + "\n")
        sys.stdout.flush()


if __name__ == "__main__":
    _main()
