"""Decides what is offered in place of a pattern: a fix, what is better but still a finding, or advice.

A *fix* is no finding any more, and the code can't notice it, as far as its uses are known. relint-ask proves all of that.
Everything else is *advice*, which says in a clause what differs. Nothing is called proved for which only trials were made.
"""
from __future__ import annotations

import os
import re
import time
from dataclasses import replace
from functools import lru_cache
from typing import Any, List, Optional, Tuple

from ..base.model import Finding, Offer, Site, Text
from ..base.safe import OpenError, read_below
from ..base.words import quoted
from ..engine.ask import Asker
from ..trials.tries import Trials
from .edits import Unchangeable, literal_of
from .search import EVERY_METHOD, Cure, How, Search

SECONDS, MOST_BYTES = 20.0, 1 << 20
PYTHON = re.compile(r"^(?:requires-python|python_requires)[ \t]*=[ \t]*[\"']?[ \t]*>=[ \t]*(\d{1,2})\.(\d{1,3})", re.M)
READ = "the same, but your code reads the pattern itself"
HARD = "it finds the same"
SEES = ("truth", "spans", "groups")
_trial = Trials()


def how_of(finding: Finding, max_degree: int) -> How:
    """Returns how code uses the pattern of a finding, which has a site with flags.

    If not all uses are known, a compiled pattern may be used in any way, and a call of `re` as it is.
    """
    flags = (finding.site.flags or 0) & ~int(re.DEBUG) if finding.site is not None else 0
    uses, call = finding.uses, finding.entry.call or "compile"
    if uses is None or uses.lost or not uses.uses:
        methods = EVERY_METHOD if call == "compile" else frozenset([call])
        return How(methods, flags, call == "compile", "groups", finding.mode, max_degree)
    sees = max((it.sees for it in uses.uses), key=SEES.index)
    position = any(it.position or it.repeated for it in uses.uses)
    return How(frozenset(it.method for it in uses.uses), flags, position, sees, finding.mode, max_degree)


def offers(finding: Finding, run: Any) -> Tuple[Offer, ...]:
    """Returns what may be put in place of a finding's pattern, the best first; nothing for one that isn't known in whole.

    `run` has an `asker`, the `options`, and the time `deadline` of `time.monotonic` at which to end. Raises ProgramError if
    relint-ask can't be run.
    """
    site = finding.site
    if site is None or site.flags is None or site.stands_in:
        return ()
    until = min(run.deadline, time.monotonic() + SECONDS)
    how = replace(how_of(finding, run.options.max_degree), has_atomic=_python_of(run.chosen.root) >= (3, 11))
    cures = cures_of(site.pattern, how, run.asker, until, finding.entry.suggest)
    found = [offer_of(site, it, run.options.max_degree) for it in cures]
    if finding.uses is not None and finding.uses.is_read:
        found = [it if it.kind == "advice" else replace(it, kind="advice", differs=READ) for it in found]
    return tuple(found)


@lru_cache(maxsize=8)
def _python_of(root: str) -> Tuple[int, int]:
    """The least version of Python that the project at `root` says it needs; (0, 0) if it says none."""
    for name in ("pyproject.toml", "setup.cfg"):
        try:
            text = read_below(os.path.join(root, name), [root], MOST_BYTES).decode("utf-8", "replace")
        except OpenError:
            continue
        found = PYTHON.search(text)
        if found:
            return int(found[1]), int(found[2])
    return (0, 0)


def cures_of(pattern: Text, how: How, asker: Asker, until: float, suggestion: Optional[Text] = None) -> List[Cure]:
    """Returns the cures of a pattern, the best first, and at most one of each kind."""
    try:
        cures = Search(pattern, how, asker, _trial, until).run(suggestion)
    except RecursionError:
        return []
    if any(not it.differs and not it.hard_to_read and it.top <= how.max_degree and it.is_proved for it in cures):
        return cures[:1]
    return cures


def offer_of(site: Site, cure: Cure, max_degree: int) -> Offer:
    """Returns a cure as an offer for the literals of a site."""
    kind = "advice" if cure.differs or cure.hard_to_read else "fix" if cure.top <= max_degree else "better"
    try:
        literal = literal_of(site, cure.pattern) if site.literals else quoted(cure.pattern)
    except Unchangeable:
        literal = quoted(cure.pattern)
    differs = cure.differs or (HARD if cure.hard_to_read else "")
    proof, needs = ("proved", "") if cure.is_proved else ("checked", "" if cure.differs else "Python 3.11")
    return Offer(kind, cure.pattern, literal, cure.verdict, proof, differs, "+".join(cure.steps), cure.hard_to_read, needs,
                 cure.unread)


def close() -> None:
    """Ends the process that tries patterns; the next search starts another."""
    _trial.close()
