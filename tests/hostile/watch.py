"""Runs a tool over the hostile repository, and says what it did that it must never do."""
from __future__ import annotations

import os
import re
import shutil
import signal
import subprocess
import tempfile
import unicodedata
from dataclasses import dataclass, field
from pathlib import Path
from typing import Dict, FrozenSet, List, Optional, Sequence, Tuple

from hostile import tree

# Root reads everything: without these two rights it is told, as others are, what may not be read.
WITHOUT_RIGHTS = ["setpriv", "--bounding-set=-dac_override,-dac_read_search", "--inh-caps=-dac_override,-dac_read_search"]
COMMAND = re.compile(r"::(?:error|warning|notice) (?:file=[^:,\r\n]*,(?:line=[0-9]+,col=[0-9]+,)?)?title=[^:,\r\n]*::")
TRACEBACK = re.compile(r"^Traceback \(most recent call last\)|^Fatal Python error|Segmentation fault", re.MULTILINE)
ANY_STATUS = frozenset(range(7))
_SHOWN, _KINDS = 160, 3


@dataclass(frozen=True)
class Run:
    """A run of a tool, and what may come of it.

    `words` are the command; `input` is given to standard input; `statuses` are those that the page of the tool has; `shows`
    and `hides` are texts of one of the two outputs; `may_change` are patterns for paths that it may write. The outputs of
    `relint` itself are `raw`: they name files as they are. A `diff` has the lines of a source as they are, below its headers.
    `front` is put before the folders of PATH.
    """

    name: str
    words: Sequence[str]
    statuses: FrozenSet[int] = ANY_STATUS
    input: bytes = b""
    shows: Sequence[str] = ()
    hides: Sequence[str] = ()
    may_change: Sequence[str] = ()
    raw: bool = False
    diff: bool = False
    front: Optional[str] = None
    environment: Dict[str, str] = field(default_factory=dict)
    seconds: float = 1800
    locked: bool = True


@dataclass(frozen=True)
class Answer:
    """How a run ended, and what it wrote. The status is below 0 if a signal ended it, None if it had to be ended."""

    status: Optional[int]
    out: str
    err: str


def may_lock() -> bool:
    """Whether a run can be kept from reading what its user may not read."""
    if os.geteuid() != 0:
        return True
    if not shutil.which("setpriv"):
        return False
    return subprocess.run([*WITHOUT_RIGHTS, "true"], stderr=subprocess.DEVNULL, check=False).returncode == 0


class Watch:
    """Runs tools in a hostile repository."""

    def __init__(self, made: tree.Repository, environment: Dict[str, str]) -> None:
        self.made = made
        self.environment = dict(environment, HOSTILE_SECRET=tree.SECRET)
        self.locks = may_lock()

    def run(self, run: Run) -> Answer:
        """Runs a tool, and waits as long as it may take."""
        environment = dict(self.environment, **run.environment)
        if run.front is not None:
            environment["PATH"] = run.front + environment["PATH"]
        words = [*WITHOUT_RIGHTS, *run.words] if os.geteuid() == 0 and self.locks and run.locked else list(run.words)
        with tempfile.TemporaryFile() as given, tempfile.TemporaryFile() as out, tempfile.TemporaryFile() as err:
            given.write(run.input)
            given.seek(0)
            started = subprocess.Popen(words, cwd=str(self.made.top), env=environment, stdin=given, stdout=out, stderr=err,
                                       start_new_session=True)
            status: Optional[int] = None
            try:
                status = started.wait(run.seconds)
            except subprocess.TimeoutExpired:
                pass
            finally:
                _end(started)
            texts = []
            for stream in (out, err):
                stream.seek(0)
                texts.append(stream.read(50_000_000).decode("utf-8", "surrogateescape"))
        return Answer(status, texts[0], texts[1])

    def complaints(self, run: Run) -> List[str]:
        """Runs a tool; returns each thing that is wrong with what it did, in a line."""
        before, before_outside = tree.snapshot(self.made.top), tree.snapshot(self.made.outside)
        self.made.sprung()
        answer = self.run(run)
        found = ["it ran what the repository holds: " + name for name in self.made.sprung()]
        changed = tree.changes(before, tree.snapshot(self.made.top))
        found += ["it changed %r" % path for path in changed if not any(re.fullmatch(it, path) for it in run.may_change)]
        found += ["it changed %r outside" % it for it in tree.changes(before_outside, tree.snapshot(self.made.outside))]
        found += [*_of_end(run, answer), *_of_texts(run, answer)]
        return found


def _end(started: "subprocess.Popen[bytes]") -> None:
    """Ends a process and all that it began."""
    try:
        os.killpg(started.pid, signal.SIGKILL)
    except ProcessLookupError:
        pass
    started.wait()


def _of_end(run: Run, answer: Answer) -> List[str]:
    if answer.status is None:
        return ["no answer in %g seconds" % run.seconds]
    if answer.status not in run.statuses:
        return ["the status is %d: %s" % (answer.status, _short(answer.err or answer.out))]
    return []


def _of_texts(run: Run, answer: Answer) -> List[str]:
    whole = answer.out + "\n" + answer.err
    found = []
    if TRACEBACK.search(whole):
        found.append("a traceback: " + _short(answer.err[-_SHOWN:]))
    if tree.SECRET in whole:
        found.append("it shows what lies outside of the repository")
    if not run.raw:
        out = headers(answer.out) if run.diff else answer.out
        found += ["it writes " + it for it in dangers(out + "\n" + answer.err, not (run.diff or out.startswith("{")))]
    found += ["%r isn't shown: %s" % (text, _short(whole)) for text in run.shows if text not in whole]
    found += ["%r is shown" % text for text in run.hides if text in whole]
    return found


def headers(diff: str) -> str:
    """The lines of a difference that aren't lines of a file."""
    return "\n".join(line for line in diff.split("\n") if line[:1] not in (" ", "+", "-") or line[:4] in ("--- ", "+++ "))


def dangers(text: str, for_people: bool = True) -> List[str]:
    """What a terminal, or the log of a build server, would obey in a text: each kind once, with its line.

    What isn't `for_people` is JSON, which a build server is given as a file.
    """
    found: Dict[str, str] = {}
    for line in text.split("\n"):
        for kind in _dangers_of(line, for_people):
            found.setdefault(kind, line)
    more = ["%d other things" % (len(found) - _KINDS)] if len(found) > _KINDS else []
    return ["%s: %r" % (kind, line.strip()[:_SHOWN]) for kind, line in list(found.items())[:_KINDS]] + more


def _dangers_of(line: str, for_people: bool) -> List[str]:
    kinds = ["the code U+%04X" % ord(it) for it in sorted(set(line)) if is_obeyed(it)]
    if line.startswith("FORGED") or line.startswith("\rFORGED"):
        kinds.append("a line that a name forged")
    if line.lstrip().startswith("::") and not COMMAND.match(line):
        kinds.append("a command for a build server")
    if "##[" in line and for_people:
        kinds.append("a command of the old form for a build server")
    return kinds


def is_obeyed(letter: str) -> bool:
    """Whether a terminal obeys a character: control codes, marks of direction, and ends of lines."""
    if letter == "\t":
        return False
    return unicodedata.category(letter) in ("Cc", "Zl", "Zp") or letter in "\u061c\u200e\u200f" or (
        "\u202a" <= letter <= "\u202e" or "\u2066" <= letter <= "\u2069")


def _short(text: str) -> str:
    text = text.strip()
    return text if len(text) <= _SHOWN else text[:_SHOWN] + " .."


def commands(text: str) -> List[Tuple[str, str]]:
    """The commands of a build server in a text, each with its message."""
    found = []
    for line in text.split("\n"):
        match = COMMAND.match(line)
        if match:
            found.append((match.group(), line[match.end():]))
    return found


def scripts(folder: Path, python: str, program: Path, top: Path) -> None:
    """Puts relint, rlt and the Python of the tools into a folder for PATH."""
    folder.mkdir(parents=True, exist_ok=True)
    quoted = "'%s'"
    forwards = {"relint": quoted % program, "python3": quoted % python, "rlt": quoted % (top / "tools" / "rlt")}
    for name, command in forwards.items():
        tree.write(folder / name, '#!/bin/sh\nexec %s "$@"\n' % command, 0o755)
