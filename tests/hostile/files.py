"""Gives hostile files to the tools, each to a process of its own, and says what they did that they must never do."""
from __future__ import annotations

import json
import os
import subprocess
from dataclasses import dataclass, field
from pathlib import Path
from typing import Any, Dict, FrozenSet, Iterator, List, Optional, Sequence, Tuple

from hostile import inputs, tree
from hostile.runs import LAYOUTS, SHOWN, Place
from hostile.watch import TRACEBACK, WITHOUT_RIGHTS, Watch, dangers, headers

FORKS = Path(__file__).with_name("forks.py")
AT_ONCE = 4
# (far above what a case takes, whatever else the machine does: it ends only what hangs)
SECONDS = 1800
# The most memory that a tool may take for a file of some hundred kilobytes, and what it can't get more of.
MOST_MEGABYTES, LIMIT_MEGABYTES = 600, 2500
REFUSED = frozenset([2])
STOPPED = frozenset([2, 3])
_SHOWN = 200


@dataclass(frozen=True)
class Case:
    """A tool, or the program, with a hostile file. `statuses` are those that it may end with.

    Where the file is one that has to be `refused`, nothing is written to standard output, and one line to standard error.
    """

    name: str
    tool: str
    words: Sequence[str]
    statuses: FrozenSet[int]
    input: bytes = b""
    refused: bool = False
    raw: bool = False
    diff: bool = False
    seconds: float = SECONDS
    hides: Sequence[str] = field(default_factory=list)


@dataclass(frozen=True)
class Came:
    """What came of a case."""

    status: Optional[int]
    megabytes: float
    out: str
    err: str


def _for_reports(given: inputs.Given, path: str) -> Iterator[Case]:
    """A report, for each word that reads one."""
    refused, name = given.refused, given.name
    shown = REFUSED if refused else SHOWN
    # (what is refused is refused before a layout is asked for)
    for layout in ("terminal",) if refused else LAYOUTS:
        yield Case("rlt --format %s, report %s" % (layout, name), "rlt", ["--from", path, "--format", layout, "--all"], shown,
                   refused=refused, raw=layout not in ("terminal", "concise", "github"))
    yield Case("rlt fix --diff, report " + name, "rlt", ["fix", "--from", path, "--diff"], shown, refused=refused, diff=True)
    if not refused:
        yield Case("rlt confirm, report " + name, "rlt", ["confirm", "--from", path, "--longest", "500"], shown)


def reports(folder: Path, outside: Path) -> List[Case]:
    """Every hostile report, for each word that reads one."""
    found: List[Case] = []
    for number, given in enumerate([*inputs.no_reports(), *inputs.odd_reports(str(outside / "secret.py"))]):
        found += _for_reports(given, _kept(folder, "report-%d.json" % number, given.data))
    for name in ("fifo.py", "/dev/zero", "link_zero.py", "link_out.py", "locked/file.py", "locked", "none.json"):
        found.append(Case("rlt --from " + name, "rlt", ["--from", name], STOPPED, refused=True))
    return found


def _kept(folder: Path, name: str, data: bytes) -> str:
    (folder / name).write_bytes(data)
    return str(folder / name)


def options(folder: Path, program: Path) -> List[Case]:
    """Settings, baselines and certificates for the program; configurations, accepted files and notebooks for rlt."""
    found: List[Case] = []
    for option, givens in (("settings", inputs.settings()), ("baseline", inputs.baselines())):
        for given in givens:
            path = _kept(folder, "%s-%s" % (option, given.name), given.data)
            found.append(Case("relint check --%s %s" % (option, given.name), "", [
                str(program), "check", "--" + option, path, "finding.py"], REFUSED, refused=True))
    for given in (*inputs.settings(), *inputs.configurations()):
        # (a configuration lies in a folder of its own, whose accepted file it may name)
        (folder / ("config-" + given.name)).mkdir(exist_ok=True)
        path = _kept(folder / ("config-" + given.name), "relint.toml", given.data)
        found.append(Case("rlt --config, " + given.name, "rlt", ["--config", path, "finding.py"], STOPPED, refused=True))
    for given in inputs.accepted():
        path = _kept(folder, "accepted-" + given.name, given.data)
        found.append(Case("rlt --accepted, " + given.name, "rlt", ["--accepted", path, "finding.py"], STOPPED, refused=True))
    for name in ("fifo.py", "/dev/zero", "link_zero.py", "locked/file.py", "locked", "none"):
        for option in ("config", "accepted"):
            found.append(Case("rlt --%s %s" % (option, name), "rlt", ["--" + option, name, "finding.py"], STOPPED,
                              refused=True))
    for given in inputs.certificates():
        path = _kept(folder, "certificate-" + given.name, given.data)
        found.append(Case("relint verify, certificate " + given.name, "", [str(program), "verify", "(a|a)*b", path], REFUSED,
                          refused=True))
    for given in inputs.notebooks():
        path = _kept(folder, "notebook-%s.ipynb" % given.name, given.data)
        found.append(Case("rlt, notebook " + given.name, "rlt", ["--all", "--", path], SHOWN))
    return found


def sources(folder: Path) -> List[Case]:
    """Sources that parsers choke on, for the words that read sources."""
    found: List[Case] = []
    for given in inputs.sources():
        path = _kept(folder, "source-%s.py" % "".join(it if it.isalnum() else "_" for it in given.name), given.data)
        found.append(Case("rlt, source " + given.name, "rlt", ["--all", "--", path], SHOWN))
        found.append(Case("rlt --format html, source " + given.name, "rlt", ["--format", "html", "--", path], SHOWN, raw=True))
        found.append(Case("rlt fix --diff, source " + given.name, "rlt", ["fix", "--diff", "--", path], SHOWN, diff=True))
    return found


def _job(case: Case, number: int, watch: Watch, folder: Path) -> Dict[str, Any]:
    return {"tool": case.tool, "words": list(case.words), "cwd": str(watch.made.top), "seconds": case.seconds,
            "given": _kept(folder, "given-%d" % number, case.input), "out": str(folder / ("out-%d" % number)),
            "err": str(folder / ("err-%d" % number)), "megabytes": LIMIT_MEGABYTES}


def run(cases: Sequence[Case], watch: Watch, place: Place, folder: Path) -> List[Came]:
    """Runs the cases, and returns what came of each."""
    jobs = [_job(case, number, watch, folder) for number, case in enumerate(cases)]
    command = [place.python, "-I", "-B", str(FORKS), str(place.top / "python"), str(AT_ONCE)]
    words = [*WITHOUT_RIGHTS, *command] if os.geteuid() == 0 and watch.locks else command
    ended = subprocess.run(words, input="".join(json.dumps(job) + "\n" for job in jobs).encode("ascii"), env=watch.environment,
                           cwd=str(folder), stdout=subprocess.PIPE, check=True)
    answers = [json.loads(line) for line in ended.stdout.decode("ascii").splitlines()]
    return [_came(job, answer) for job, answer in zip(jobs, answers)]


def _came(job: Dict[str, Any], answer: List[Any]) -> Came:
    texts = [_text(job["out"]), _text(job["err"])]
    return Came(answer[0], answer[2], texts[0], texts[1])


def _text(path: str) -> str:
    try:
        with open(path, "rb") as opened:
            return opened.read().decode("utf-8", "surrogateescape")
    except OSError:
        return ""


def complaints(case: Case, came: Came) -> List[str]:
    """What is wrong with what came of a case, each thing in a line."""
    if came.status is None:
        return ["no answer in %g seconds" % case.seconds]
    found = []
    if came.status not in case.statuses:
        found.append("the status is %d: %s" % (came.status, _tail(came.err)))
    if TRACEBACK.search(came.err):
        found.append("a traceback: " + _tail(came.err))
    if tree.SECRET in came.out + came.err:
        found.append("it shows what lies outside of the repository")
    if came.megabytes > MOST_MEGABYTES:
        found.append("it takes %d MB" % came.megabytes)
    if not case.raw:
        out = headers(came.out) if case.diff else came.out
        found += ["it writes " + it for it in dangers(out + "\n" + came.err, not (case.diff or out.startswith("{")))]
    return found + _of_refusal(case, came)


def _of_refusal(case: Case, came: Came) -> List[str]:
    if not case.refused or came.status not in case.statuses:
        return []
    found = []
    if came.out:
        found.append("it refuses the file and writes " + _tail(came.out))
    if came.err.count("\n") != 1 or len(came.err) > 1000:
        found.append("it refuses the file in %d lines: %s" % (came.err.count("\n"), _tail(came.err)))
    return found


def _tail(text: str) -> str:
    return repr(text.strip()[-_SHOWN:])


def every(watch: Watch, place: Place, folder: Path) -> Tuple[List[Case], List[Came]]:
    """All cases, with what came of each. Files are written to the folder, which is empty."""
    kept = folder / "kept"
    kept.mkdir()
    cases = [*reports(kept, watch.made.outside), *options(kept, place.program), *sources(kept)]
    return cases, run(cases, watch, place, folder)
