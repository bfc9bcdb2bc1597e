"""`rlt confirm` and `rlt record`: what this Python takes for findings, and what a running program makes."""
from __future__ import annotations

import json
import sys
import tempfile
import time
from contextlib import closing
from dataclasses import replace
from typing import List, Sequence, Tuple

from ..base import rate
from ..base.model import NEW, OTHER, WARNED, Finding, Summary
from ..base.safe import WriteError, line, visible, write
from ..base.words import class_word, counted
from ..engine.ask import Asker
from ..engine.run import Run
from ..files import Chosen
from ..options import Options, OptionsError, version
from ..stages import growth, pipeline
from ..trials import confirm as confirming
from ..trials import record as recording
from ..trials.confirm import CONFIRMED, NOT_SEEN, NOT_TRIED, Limits, Outcome
from .terminal import facts


def limits_of(options: Options, until: float) -> Limits:
    """Returns the limits of trials."""
    return Limits(float(options.over), options.longest, options.jobs, until)


def confirm(options: Options) -> int:
    """Does `rlt confirm`, and returns the status of the run. Raises what `pipeline.run` does, and Unwritten."""
    until = time.monotonic() + options.seconds
    findings, summary = pipeline.run(replace(options, most=0))
    status = pipeline.status_of(findings, summary, options)
    tried = [it for it in findings if it.state in (NEW, WARNED)]
    outcomes = confirming.confirmed(tried, limits_of(options, until))
    if sys.stderr is not None:
        for it in facts(findings, summary, options):
            print(f"rlt: {visible(it)}", file=sys.stderr)
    lines = [_line(*it) for it in zip(tried, outcomes)] + [_sum(outcomes)]
    write("".join(f"{line(it)}\n" for it in lines) if options.format == "terminal" else _json(tried, outcomes, options))
    with closing(Asker(options, until)) as asker:
        found = confirming.rate_of(tried, outcomes, asker)
    if not options.quiet and sys.stderr is not None:
        print(f"rlt: {visible(_kept(found))}", file=sys.stderr)
    return status if status > 1 else 0


def _kept(found: "int | None") -> str:
    """Keeps a rate, and says where, or why none is kept."""
    if found is None:
        return "no rate is kept: no finding was confirmed by a match that took long enough"
    try:
        return f"{rate.keep(found)}: about {float(f'{found:.2g}'):,.0f} steps a second"
    except WriteError as error:
        return f"no rate is kept: {error}"


def _line(finding: Finding, outcome: Outcome) -> str:
    """The line for a finding."""
    said = class_word(finding.verdict) if finding.verdict is not None else finding.entry.kind
    start = f"{finding.entry.path}:{finding.place.line}:{finding.place.column}: {finding.entry.call}: {said}: {outcome.result}"
    if outcome.result == CONFIRMED:
        return f"{start}: {rate.python_name()} takes over {outcome.seconds:g} s on a text of {outcome.length:,} characters"
    if outcome.result == NOT_SEEN:
        return f"{start} up to {outcome.length:,} characters, which took {outcome.seconds:.3f} s: {outcome.why}"
    return f"{start}: {outcome.why}"


def _sum(outcomes: Sequence[Outcome]) -> str:
    """The last line."""
    counts = [(it, sum(one.result == it for one in outcomes)) for it in (CONFIRMED, NOT_SEEN, NOT_TRIED)]
    said = ", ".join(f"{count} {it}" for it, count in counts if count or it != NOT_TRIED)
    return f"{counted(len(outcomes), 'finding')}: {said}"


def _json(tried: Sequence[Finding], outcomes: Sequence[Outcome], options: Options) -> str:
    """All results as a line of JSON."""
    rows = [{"path": finding.entry.path, "line": finding.place.line, "column": finding.place.column,
             "call": finding.entry.call, "result": outcome.result.replace(" ", "-"), "length": outcome.length,
             "k": outcome.k, "took": outcome.seconds, "why": outcome.why} for finding, outcome in zip(tried, outcomes)]
    whole = {"findings": rows, "python": rate.python_name(), "over": options.over, "longest": options.longest}
    return json.dumps(whole, sort_keys=True) + "\n"


def record(options: Options) -> Tuple[List[Finding], Summary, int]:
    """Does `rlt record` but for showing; returns findings, summary and status. Raises OptionsError and ProgramError."""
    if not options.arguments:
        raise OptionsError("give the program behind --, as in: rlt record -- pytest tests")
    begun = time.monotonic()
    with closing(Asker(options)) as asker, tempfile.TemporaryDirectory(prefix="rlt-record-") as folder:
        def found() -> List[Finding]:
            """What was recorded so far; the service keeps its answers, so nothing is asked twice."""
            return recording.findings_of(recording.read_notes(folder, options.below).found, asker, options.mode,
                                         options.max_degree)

        ended = recording.ran(options.arguments, folder, found)
        asker.deadline = time.monotonic() + options.seconds
        findings, noted = found(), recording.read_notes(folder, options.below)
        run = Run(options, Chosen(".", (".",)), None, asker, asker.deadline, steps_a_second=rate.kept())
        if options.trials:
            findings = confirming.hangs(findings, asker, limits_of(options, asker.deadline), options.max_degree)
        findings = growth.told(findings, run)
    made = ", ".join(f"{count:,} by {name}" for name, count in recording.counted_by_engine(noted.found)) or "none"
    processes = counted(noted.processes, "process", "processes")
    notes = [f"the program ended with status {ended}; patterns that {processes} made: {made}"]
    if noted.left_out or noted.wrong:
        notes.append(f"left out: {noted.left_out:,} above a limit, {noted.wrong:,} notes that can't be read")
    summary = Summary(patterns=len(findings), seconds=time.monotonic() - begun, notes=tuple(notes), late=asker.late,
                      steps_a_second=run.steps_a_second, version=version())
    is_strict = options.strict and any(it.state == OTHER for it in findings)
    status = 3 if asker.late else 1 if any(it.state == NEW for it in findings) or is_strict else 0
    return findings, summary, status
