"""Findings of patterns that the program doesn't judge, or doesn't read in the sources itself.

Workers find patterns by name, in pieces, in frameworks and notebooks, and relint-ask judges them: these findings are known as
ELSEWHERE. Of the literals that the program itself reads, relint-ask judges some that the program refuses, those with
lookaround of one character or with a `$` at the end of a branch: these are known as BEYOND.
"""
from __future__ import annotations

from dataclasses import replace
from typing import Dict, List, Mapping, NamedTuple, Optional, Sequence, Tuple

from ..base.model import BEYOND, ELSEWHERE, OTHER, PROVED, WIDER, Entry, Finding, Place, Site, Verdict
from ..engine.ask import question, verdict_of
from ..engine.run import Run


class Placed(NamedTuple):
    """A place that takes a pattern: the file, the place, the function of `re` or one like it, the mode, and the pattern.

    `site` has flags; those that aren't known give no place. `lines` are lines of source to show.
    """

    path: str
    place: Place
    call: str
    mode: str
    site: Site
    lines: Tuple[Tuple[int, str], ...] = ()


def judged(placed: Sequence[Placed], run: Run) -> List[Finding]:
    """Returns a finding for each place, in order, whatever its class; a pattern that is refused has the cause.

    Their state is OTHER. Raises ProgramError if relint-ask can't be run.
    """
    pairs = run.options.max_pairs
    asked = [question("class", it.site.pattern, it.site.flags or 0, mode=it.mode, pairs=pairs) for it in placed]
    found: List[Finding] = []
    for it, answer in zip(placed, run.asker.ask_all(asked)):
        verdict = verdict_of(answer)
        cause = None if verdict is not None else str(answer.get("cause") or "time")
        entry = Entry(it.path, verdict.kind if verdict is not None else "refused", it.place, it.call, verdict, cause)
        found.append(Finding(entry, ELSEWHERE, it.mode, OTHER, site=it.site, lines=it.lines))
    return found


def is_asked(finding: Finding) -> bool:
    """Returns whether relint-ask may judge a finding all the same: the program refuses its literal for a cause of WIDER."""
    return finding.known == PROVED and finding.entry.kind == "refused" and finding.entry.cause in WIDER


def with_classes(finding: Finding, classes: Mapping[str, Verdict]) -> Finding:
    """Returns a refused finding with its classes by modes, as BEYOND; as it is unless relint-ask judges it in its own mode.

    A class counts only if relint-ask says too that the pattern is beyond the profile: so the program, which refuses the
    pattern, and the worker that read it for relint-ask read the same.
    """
    counted = {mode: verdict for mode, verdict in classes.items() if verdict.beyond}
    return replace(finding, known=BEYOND, by_mode=counted) if finding.mode in counted else finding


def together(files: Sequence[str], *parts: Sequence[Finding]) -> List[Finding]:
    """Returns findings in the order of the files, and in each by their places; of two at one place the first one counts."""
    order = {path: at for at, path in enumerate(files)}
    seen: Dict[Tuple[str, Optional[Place]], Optional[Verdict]] = {}
    found: List[Finding] = []
    for part in parts:
        for it in part:
            key = (it.entry.path, it.entry.place)
            if it.entry.place is None or key not in seen:
                found.append(it)
        seen.update({(it.entry.path, it.entry.place): it.verdict for it in part})
    return sorted(found, key=lambda it: (order.get(it.entry.path, -1), it.entry.place or Place(0, 0)))
