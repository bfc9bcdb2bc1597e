"""The stages of a run, in order: each takes findings and returns findings with one group of fields filled in."""
from __future__ import annotations

import importlib
import os
import time
from contextlib import ExitStack, contextmanager
from dataclasses import replace
from typing import Dict, Iterator, List, Mapping, NamedTuple, Optional, Sequence, Tuple

from ..base import rate
from ..base.model import (
    IGNORED, MODES, NEW, OTHER, PROVED, UNUSED, WARNED, WIDER, Clock, Entry, Finding, NotLooked, Summary, Text, Uses,
    Verdict,
)
from ..base.safe import OpenError, Scratch, is_below, parts_named, read_named, visible
from ..base.words import counted, listed
from ..engine.ask import Asker
from ..engine.engine import MOST_BYTES, Judged, Progress, ReportError, judge, not_looked, read_report
from ..engine.run import Run
from ..files import DEEP, WHY, Earlier, choose
from ..options import CONTROL, Options, version
from . import accept, across, beyond, growth, known, reach
from .pool import Pool
from .worker import Worker

# The part of the total time after which nothing new is begun; the rest is for what has to be done with what was found.
PART_OF_THE_TIME = 0.85
# The part of that in which reports are read.
PART_OF_READING = 0.4
# One worker is forked at once for so many files.
FILES_OF_A_WORKER = 32
# Fixes are looked for until all processors have taken so many seconds.
SECONDS_OF_FIXES = 10.0
REPORTED = (".py", ".pyi", ".ipynb")
MODES_OF_CALLS = {"match": "match", "fullmatch": "fullmatch"}
TOO_MANY = "the project has too many files to look for its uses"
LATE = "time ran out"
MOST_NAMED = 5


def run(options: Options, progress: Optional[Progress] = None) -> Tuple[List[Finding], Summary]:
    """Returns the findings of a run, in the order of the files, and what else it has to say.

    `progress` is called now and then with the files that are judged, all files, and the findings so far. Raises FilesError,
    GitError, ProgramError, ReportError and AcceptError.
    """
    with opened(options, progress) as it:
        findings = staged(it)
        return findings, summary_of(findings, it)


def status_of(findings: Sequence[Finding], summary: Summary, options: Options) -> int:
    """Returns the exit status: 3 if something wasn't read or judged in time, 1 for a finding, or with --strict if it fails."""
    if summary.late or any(it.fails for it in summary.not_looked):
        return 3
    if any(it.state == NEW for it in findings):
        return 1
    is_unclear = summary.not_looked or summary.unused_ignores or any(
        it.fails_strictly(options.max_degree) for it in findings)
    return 1 if options.strict and is_unclear else 0


@contextmanager
def opened(options: Options, progress: Optional[Progress] = None) -> Iterator[Run]:
    """Chooses the files, and starts what stages share; ends it at the end. Raises FilesError and GitError."""
    begun = time.monotonic()
    deadline = begun + options.seconds * PART_OF_THE_TIME
    chosen = choose(options, deadline)
    earlier = Earlier(options.baseline_commit, options.folder, deadline) if options.baseline_commit else None
    asker = Asker(options, deadline)
    with ExitStack() as stack:
        scratch = stack.enter_context(Scratch()) if earlier is not None else ""
        folders = (*chosen.folders, scratch) if scratch else chosen.folders
        early = 1 + len(chosen.files) // FILES_OF_A_WORKER
        pool = stack.enter_context(Pool(options.jobs, Worker(folders).work, deadline, early))
        made = Run(options, chosen, pool, asker, deadline, begun, earlier, scratch, progress, rate.kept())
        for it in (asker.close, made.close, *([earlier.close] if earlier is not None else [])):
            stack.callback(it)
        yield made


def staged(run: Run) -> List[Finding]:
    """Returns the findings after all stages. Raises what `run` does, except FilesError and GitError of the files."""
    findings = found(run)
    findings = judged_as_used(findings, run)
    findings = tried(findings, run) if run.options.trials else findings
    findings = accepted(findings, run)
    return mended(growth.told(findings, run), run)


def summary_of(findings: Sequence[Finding], run: Run) -> Summary:
    """Returns what a run did, besides its findings."""
    lost = list(dict.fromkeys((*run.chosen.not_looked, *run.not_looked)))
    if run.earlier is not None and run.options.locked:
        lost = known.with_brought(lost, run)
    if run.asker.missing:
        run.notes.append(f"{run.asker.missing}; without it, no class as used, no text and no fix is known")
    missed = sum(it.count for it in run.not_looked if not it.is_part)
    return Summary(
        files=run.files - missed, patterns=sum(it.entry.call is not None for it in findings),
        seconds=time.monotonic() - run.begun, not_looked=tuple(lost), narrowed=run.chosen.narrowed,
        notes=tuple(dict.fromkeys((*run.chosen.notes, *run.notes))), unused_ignores=run.unused_ignores,
        added_accepts=run.added_accepts, late=run.late or run.asker.late or run.pool.late, steps_a_second=run.steps_a_second,
        folders=run.chosen.folders, version=version(), clock=Clock(run.begun + run.options.seconds),
    )


# ---- the program

def found(run: Run) -> List[Finding]:
    """Returns a finding for each entry of the program, or of the reports that are named."""
    judged = _reported(run) if run.options.reports else _judged(run)
    run.late = run.late or judged.late or run.chosen.late
    run.not_looked += judged.not_looked
    run.not_looked += [NotLooked(it, "it took too long", fails=True) for it in judged.slow]
    if judged.left:
        run.not_looked.append(NotLooked(judged.left[0], LATE, len(judged.left), True))
    entries = [*map(_entry_of, run.chosen.not_looked), *judged.entries]
    findings = reach.reached([first(it, run.options) for it in entries], run)
    return [it if it.known == PROVED else replace(it, state=state_of(it.verdict, run.options)) for it in findings]


def _judged(run: Run) -> Judged:
    """What the program says about the files."""
    files, data = run.chosen.files, run.chosen.data
    run.files = len(files) + len(run.chosen.notebooks)
    if data is None:
        return judge(files, run.options, run.deadline, run.progress)
    with Scratch() as folder:
        path = os.path.join(folder, "source.py")
        with open(path, "wb") as out:
            out.write(data)
        judged = judge([path], run.options, run.deadline)
    return replace(
        judged, entries=tuple(replace(it, path=files[0]) for it in judged.entries), slow=tuple(files[:len(judged.slow)]),
        not_looked=tuple(replace(it, path=files[0]) for it in judged.not_looked), left=tuple(files[:len(judged.left)]))


def _reported(run: Run) -> Judged:
    """What the reports that are named say. Raises ReportError for one that is none, or names what relint wouldn't read."""
    entries: Dict[Entry, None] = {}
    late = False
    until = run.begun + (run.deadline - run.begun) * PART_OF_READING
    for path in run.options.reports:
        try:
            report = read_report(parts_named(path, MOST_BYTES), until)
        except (OpenError, ReportError) as error:
            raise ReportError(f"{visible(path)}: {error}") from error
        entries.update(dict.fromkeys(report.entries))
        late = late or report.late
    # (what has no call is only named, and never read)
    paths = dict.fromkeys(it.path for it in entries if it.call is not None)
    lost = next((it for it in paths if not may_be_reported(it)), None)
    if lost is not None:
        raise ReportError(f"a report names {visible(lost)}, which is no Python source below the current folder")
    run.files = len({it.path for it in entries})
    run.chosen.files += paths
    return Judged(tuple(entries), tuple(not_looked(it) for it in entries if it.call is None), late=late)


def may_be_reported(path: str) -> bool:
    """Returns whether a report may name a path: that of a Python source below the current folder."""
    return is_below(path, ["."]) and path.endswith(REPORTED) and not set(CONTROL) & set(path.lower().split("/"))


def _entry_of(lost: NotLooked) -> Entry:
    """The entry for something that wasn't given to the program."""
    is_unreadable = lost.fails and "link" not in lost.why
    kind = "too-deep-folder" if lost.why == WHY[DEEP] else "unreadable" if is_unreadable else "not-plain"
    return Entry(visible(lost.path), kind)


def first(entry: Entry, options: Options) -> Finding:
    """Returns the finding of an entry, as the program judged it."""
    mode = MODES_OF_CALLS.get(entry.call or "", options.mode if entry.call == "compile" else "search")
    return Finding(entry, mode=mode, state=state_of(entry.verdict, options))


def state_of(verdict: Optional[Verdict], options: Options) -> str:
    """Returns the state that a class gives: NEW, WARNED or OTHER."""
    if verdict is None:
        return OTHER
    if verdict.is_finding(options.max_degree):
        return NEW
    return WARNED if options.warn_degree is not None and verdict.is_finding(options.warn_degree) else OTHER


# ---- sites and uses

def judged_as_used(findings: List[Finding], run: Run) -> List[Finding]:
    """Returns the findings with their sites, uses, and the class under the worst use; as they are if no time is left."""
    if run.is_late():
        return findings
    wanted = _wanted(findings, run)
    looked = across.look(wanted.places, run.pool, wanted.data, bool(run.options.reports))
    answer, local = list(findings), {}
    for path, numbers in wanted.numbers.items():
        file = looked.get(path)
        if file is None:
            continue
        run.ignores[path] = file.ignores
        for row, at in enumerate(numbers):
            if answer[at].known == PROVED:
                answer[at] = replace(answer[at], site=file.sites[row], lines=tuple(file.lines[row]))
            local[at] = file.local[row]
    if run.is_late():
        return answer
    _ask(answer, local, run)
    uses = _uses(answer, local, run)
    return [_as_used(it, uses.get(at), run.options) if it.by_mode or at in uses else it for at, it in enumerate(answer)]


class _Wanted(NamedTuple):
    """What is to be looked at: for each file its places, and the numbers of their findings; and the bytes of files."""

    places: Dict[str, List[Tuple[int, int, str]]]
    numbers: Dict[str, List[int]]
    data: Mapping[str, bytes]


def _wanted(findings: Sequence[Finding], run: Run) -> _Wanted:
    """The places of the findings that have to be looked at in their sources."""
    files, data = run.chosen.files, run.chosen.data
    wanted = _Wanted({}, {}, {files[0]: data} if data is not None else {})
    whole: Dict[str, bool] = {}
    refused = run.options.word == "accept" or run.options.trials or _accepts_refused(run.options)
    for at, it in enumerate(findings):
        entry = it.entry
        if entry.call is None or entry.place is None or it.site is not None and it.site.cell is not None:
            continue
        is_refused = entry.kind == "refused" and (refused or entry.cause in WIDER)
        is_wanted = it.state != OTHER or it.is_open(run.options.max_degree) or is_refused
        # (a match that is tried from place to place, as a search is, may cost one degree more)
        is_wanted = is_wanted or entry.call == "match" and state_of(_worse(entry.verdict), run.options) != OTHER
        if not is_wanted and entry.call == "compile" and entry.verdict is not None and it.mode != "fullmatch":
            if entry.path not in whole:
                whole[entry.path] = b"fullmatch" in run.data(entry.path)
            is_wanted = whole[entry.path]
        if is_wanted:
            wanted.places.setdefault(entry.path, []).append((entry.place.line, entry.place.column, entry.call))
            wanted.numbers.setdefault(entry.path, []).append(at)
    if run.options.strict:
        for path in files:
            if path not in wanted.places and b"RLT" in run.data(path):
                wanted.places[path], wanted.numbers[path] = [], []
    return wanted


def _worse(verdict: Optional[Verdict]) -> Optional[Verdict]:
    """A class that is one degree worse."""
    return verdict if verdict is None or verdict.degree is None else replace(verdict, degree=verdict.degree + 1)


def _accepts_refused(options: Options) -> bool:
    """Whether the accepted file may have entries for patterns that aren't judged, which have to be looked at for that."""
    try:
        return os.path.lexists(options.accepted) and b'"refused"' in read_named(options.accepted, accept.MOST_BYTES)
    except OpenError:
        return False


def _modes(finding: Finding, local: Optional[across.LocalUses], options: Options) -> List[str]:
    """The modes in which the class of a finding has to be asked; `local` are its uses in its own file."""
    entry, own = finding.entry, finding.mode
    is_repeated = entry.call == "match" and local is not None and any(it.repeated for it in local.uses)
    if entry.verdict is None:
        every = MODES if entry.call == "compile" else (own, "search") if is_repeated else (own,)
        return list(every) if beyond.is_asked(finding) else []
    if is_repeated:
        return ["search"] if entry.verdict.kind != "undecided" else [own, "search"]
    modes = list(MODES) if entry.call == "compile" else [own]
    is_settled = state_of(entry.verdict, options) == OTHER and not entry.verdict.is_open(options.max_degree)
    if is_settled and own == "search":
        # (a match costs no more than a search)
        modes = [it for it in modes if it != "match"]
    return [it for it in modes if it != own or entry.verdict.kind == "undecided"]


def _ask(findings: List[Finding], local: Mapping[int, across.LocalUses], run: Run) -> None:
    """Puts the classes to the findings in the modes that uses can have, and those of undecided ones anew, for their bounds."""
    asked: List[Tuple[int, Tuple[Text, int, str]]] = []
    for at, it in enumerate(findings):
        if it.site is not None and it.site.flags is not None:
            asked += [(at, (it.site.pattern, it.site.flags, mode)) for mode in _modes(it, local.get(at), run.options)]
    by_mode: Dict[int, Dict[str, Verdict]] = {}
    for (at, (_, _, mode)), verdict in zip(asked, run.asker.verdicts([it for _, it in asked])):
        if verdict is not None:
            by_mode.setdefault(at, {})[mode] = verdict
    for at, verdicts in by_mode.items():
        entry = findings[at].entry
        if entry.verdict is None:
            findings[at] = beyond.with_classes(findings[at], verdicts)
            continue
        own = {} if findings[at].mode in verdicts else {findings[at].mode: entry.verdict}
        findings[at] = replace(findings[at], by_mode={**own, **verdicts})


def _uses(findings: Sequence[Finding], local: Mapping[int, across.LocalUses], run: Run) -> Dict[int, Uses]:
    """The uses of the patterns of the findings, by their numbers; only where another use could matter, all files are read."""
    known: Dict[int, Uses] = {}
    asked: Dict[int, Tuple[str, across.LocalUses]] = {}
    for at, uses in local.items():
        it = findings[at]
        is_bad = any(state_of(verdict, run.options) != OTHER for verdict in (it.entry.verdict, *it.by_mode.values()))
        if is_bad and not uses.lost and uses.names:
            asked[at] = (it.entry.path, uses)
        else:
            known[at] = across.alone(it.entry.path, uses)
    if not asked:
        return known
    files = run.chosen.project(across.PROJECT_ENDINGS)
    if files is None or run.is_late():
        why = TOO_MANY if files is None else LATE
        return {**known, **{at: replace(across.alone(*it), lost=why) for at, it in asked.items()}}
    return {**known, **across.across(files, asked, run.pool)}


def _as_used(finding: Finding, uses: Optional[Uses], options: Options) -> Finding:
    """Returns a finding with its uses, the mode of the worst one, and the state that follows."""
    whole = replace(finding, uses=uses)
    state = state_of(whole.verdict, options)
    if uses is None or uses.lost or not uses.uses or finding.entry.call not in ("compile", "match"):
        return replace(whole, state=state)
    modes = {it.mode for it in uses.uses}

    def badness(mode: str) -> Tuple[int, int, int]:
        """A tuple that is greater for a worse mode: findings, then what isn't known, and of equal ones search, then match."""
        # (a match costs no more than a search)
        is_bounded = mode in (finding.mode, "match") and finding.mode in (mode, "search")
        verdict = finding.by_mode.get(mode, finding.entry.verdict if is_bounded else None)
        is_open = verdict is None or verdict.is_open(options.max_degree)
        is_bad = verdict is not None and state_of(verdict, options) != OTHER
        order = ("fullmatch", "match", "search").index(mode)
        return (2 if is_bad else 1 if is_open else 0), verdict.rank() if verdict is not None else -1, order

    worst = max(modes, key=badness)
    level = badness(worst)[0]
    if level == 2:
        seen = replace(whole, mode=worst)
        return replace(seen, state=state_of(seen.verdict, options))
    if level == 1:
        return replace(whole, state=state) if state != OTHER else replace(whole, mode=worst, state=OTHER)
    return replace(whole, mode=worst, state=UNUSED if state != OTHER else OTHER)


# ---- what is seen, what is accepted, and what helps

def tried(findings: List[Finding], run: Run) -> List[Finding]:
    """Returns the findings with those that trials on this Python show, among what can't be judged. Raises ProgramError."""
    confirm = importlib.import_module("..trials.confirm", __package__)
    limits = confirm.Limits(float(run.options.over), run.options.longest, run.options.jobs, run.deadline)
    seen: List[Finding] = confirm.hangs(findings, run.asker, limits, run.options.max_degree)
    return seen


def accepted(findings: List[Finding], run: Run) -> List[Finding]:
    """Returns the findings with the states ACCEPTED, IGNORED and KNOWN. Raises AcceptError and GitError."""
    before = run.earlier.data(run.options.accepted) if run.earlier is not None else None
    file = accept.load(run.options, before)
    run.added_accepts = tuple((file.file, it.line, it.reason) for it in file.added)
    # (first what was there, so that an entry for it can't accept a copy too)
    if run.earlier is not None:
        findings = known.known(findings, run, lambda it: judged_as_used(found(it), it), across.PROJECT_ENDINGS)
    said = accept.split(findings, file, run.options)
    if _is_whole(run):
        # (without the files that aren't read, of which nothing is known)
        lost = {it.path for it in run.not_looked}
        files = [it for it in (*run.chosen.files, *run.chosen.notebooks) if it not in lost]
        run.notes += dead_words(accept.dead(said, file, files, run.options))
    findings = said.findings
    findings, run.unused_ignores = accept.ignored(findings, run.ignores, run.options)
    if run.earlier is not None:
        run.notes += _own_ignores(findings)
    return findings


def _own_ignores(findings: Sequence[Finding]) -> List[str]:
    """The line on what a change hides itself: findings with an ignoring comment that didn't stand in the earlier commit."""
    hidden = [f"{visible(it.entry.path)}:{it.place.line}" for it in findings if it.state == IGNORED]
    said = f"noqa comments hide {counted(len(hidden), 'finding')} of this change: {listed(hidden, MOST_NAMED)}"
    return [said] if hidden else []


def _is_whole(run: Run) -> bool:
    """Whether a run looked at the whole project, as far as its configuration says."""
    options = run.options
    is_named = options.are_named or bool(options.reports) or options.locked or options.word != "check"
    return not is_named and os.path.realpath(os.curdir) == run.chosen.root and not run.is_late()


def dead_words(rows: Sequence[accept.Row]) -> List[str]:
    """Returns the line on entries of the accepted file that accept nothing any more, if there are any."""
    match, them = ("matches", "it") if len(rows) == 1 else ("match", "them")
    said = f"{counted(len(rows), 'accepted entry', 'accepted entries')} {match} nothing; rlt accept --prune removes {them}"
    return [said] if rows else []


def mended(findings: List[Finding], run: Run) -> List[Finding]:
    """Returns the findings with what may be put in their place, the worst first until SECONDS_OF_FIXES have gone.

    `rlt fix` takes all the time of the run.
    """
    order = [at for at, it in enumerate(findings) if it.state in (NEW, WARNED)]
    if not order or run.is_late():
        return findings
    # (most runs have nothing to mend, and loading this takes as long as judging many files)
    offers = importlib.import_module("..mend.offers", __package__)
    is_fix = run.options.word == "fix"
    limited = replace(run, deadline=run.deadline if is_fix else min(run.deadline, time.monotonic() + SECONDS_OF_FIXES))
    wanted = sorted(order, key=lambda it: -findings[it].rank())[:None if is_fix else run.options.most]
    try:
        for number, at in enumerate(wanted):
            if time.monotonic() >= limited.deadline:
                left = f"{len(wanted) - number:,} of {len(order):,} findings"
                run.notes.append(f"fixes: no time was left for {left}; rlt fix --diff looks for them too")
                break
            findings[at] = replace(findings[at], offers=offers.offers(findings[at], limited))
    finally:
        offers.close()
    return findings
