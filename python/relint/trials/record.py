"""Runs a program, and notes each pattern that it gives to `re` or `regex`.

The folder `watch` has a module that Python runs at its start. There, each process of the program writes its patterns to a file
of its own, a line for each. What lies in the folder of notes counts as what a stranger wrote.
"""
from __future__ import annotations

import os
import subprocess
from dataclasses import dataclass, field
from pathlib import Path
from typing import Callable, Dict, List, Optional, Sequence, Tuple

from ..base.model import ELSEWHERE, NEW, OTHER, Entry, Finding, Place, Site, Text
from ..base.safe import OpenError, is_below, read_below
from ..engine.ask import Asker
from ..engine.program import ProgramError

WATCH = Path(__file__).with_name("watch")
LARGEST_NOTES, MOST_FILES, MOST_PATTERNS, LONGEST = 1 << 26, 10_000, 200_000, 100_000
EVERY_FLAG, MOST_LINE, SECONDS = 0x1FF, 10_000_000, 0.5
NOTE = "recorded while the program ran"
OWN_NAMES = ("match", "fullmatch", "search", "findall", "finditer", "split", "sub", "subn")
ENGINES = ("re", "regex")


@dataclass(frozen=True)
class Noted:
    """A pattern that a program made: by the function `name` of `engine`, called from a line of the file `path`."""

    engine: str
    name: str
    pattern: Text
    flags: int
    path: str
    line: int


@dataclass
class Recorded:
    """What was recorded: patterns, processes that made some, patterns above a limit, and what can't be read."""

    found: List[Noted] = field(default_factory=list)
    processes: int = 0
    left_out: int = 0
    wrong: int = 0


def environment(folder: str) -> Dict[str, str]:
    """Returns the environment for a program whose processes are to write their notes to the folder."""
    known = dict(os.environ)
    known["PYTHONPATH"] = os.pathsep.join([str(WATCH), *filter(None, [known.get("PYTHONPATH")])])
    known["RELINT_RECORD"] = folder
    return known


def read_notes(folder: str, below: str = "") -> Recorded:
    """Returns what was noted in a folder; with `below`, only the patterns that files below that folder made."""
    recorded = Recorded()
    distinct: Dict[Noted, None] = {}
    try:
        names = sorted(os.listdir(folder))
    except OSError:
        names, recorded.wrong = [], 1
    recorded.wrong += max(0, len(names) - MOST_FILES)
    for name in names[:MOST_FILES]:
        try:
            lines = read_below(os.path.join(folder, name), [folder], LARGEST_NOTES).split(b"\n")
        except OpenError:
            recorded.wrong += 1
            continue
        recorded.processes += 1
        for note in (_note(it) for it in lines if it):
            if note is None:
                recorded.wrong += 1
            elif not note.path or len(distinct) >= MOST_PATTERNS:
                recorded.left_out += 1
            else:
                distinct[note] = None
    recorded.found = [it for it in distinct if not below or _is_below(it.path, below)]
    return recorded


def _note(line: bytes) -> Optional[Noted]:
    """The pattern of a line of notes, or None if the line is wrong; its path is "" if it was left out."""
    try:
        said, engine, name, flags, number, path, pattern = line.decode("ascii").split("\t")
        if said not in ("made", "left out") or engine not in ENGINES or not flags.isdigit() or not number.isdigit():
            return None
        data = bytes.fromhex(pattern[1:])
        text: Text = data if pattern[0] == "b" else data.decode("utf-8", "surrogatepass")
        where = os.fsdecode(bytes.fromhex(path)) if said == "made" else ""
        is_right = len(text) <= LONGEST and "\0" not in where and (where or said != "made") and name.isidentifier()
        at = int(number[:9])
        return Noted(engine, name, text, int(flags[:9]) & EVERY_FLAG, where, at) if is_right and at <= MOST_LINE else None
    except (ValueError, IndexError):
        return None


def _is_below(path: str, folder: str) -> bool:
    """Whether an absolute path is the folder or lies in it, once links are followed."""
    return os.path.isabs(path) and is_below(os.path.realpath(path), [os.path.realpath(folder)])


def ran(command: Sequence[str], folder: str, meanwhile: Callable[[], object]) -> int:
    """Runs a command whose processes write notes to the folder, and returns its status; -N if signal N ended it.

    `meanwhile` is called now and then. An interrupt from the keyboard doesn't end the wait. Raises ProgramError if the command
    can't be run.
    """
    try:
        process = subprocess.Popen(command, env=environment(folder))
    except (OSError, ValueError) as error:
        raise ProgramError(f"{command[0]} can't be run: {getattr(error, 'strerror', None) or error}") from error
    while True:
        try:
            return process.wait(SECONDS)
        except subprocess.TimeoutExpired:
            meanwhile()
        except KeyboardInterrupt:
            # (the program has got the signal too, and decides itself when to end)
            continue


def findings_of(noted: Sequence[Noted], asker: Asker, mode: str, max_degree: int) -> List[Finding]:
    """Returns a finding for each pattern, with its class; `mode` is that of compile. Raises ProgramError."""
    modes = [it.name if it.name in ("match", "fullmatch") else "search" if it.name in OWN_NAMES else mode for it in noted]
    verdicts = asker.verdicts([(it.pattern, it.flags, mode) for it, mode in zip(noted, modes)])
    found: List[Finding] = []
    for it, its, verdict in zip(noted, modes, verdicts):
        call = it.name if it.name in OWN_NAMES else "compile"
        shown = os.path.relpath(it.path) if _is_below(it.path, os.curdir) else it.path
        entry = Entry(shown, verdict.kind if verdict is not None else "refused", Place(max(it.line, 1), 1), call, verdict)
        state = NEW if verdict is not None and verdict.is_finding(max_degree) else OTHER
        site = Site(it.pattern, it.flags, taker=f"{it.engine}.{it.name}", notes=(NOTE,))
        found.append(Finding(entry, ELSEWHERE, its, state, site=site, by_mode={its: verdict} if verdict is not None else {}))
    return found


def counted_by_engine(noted: Sequence[Noted]) -> List[Tuple[str, int]]:
    """Returns how many patterns each engine made, for those that made some."""
    return [(it, sum(one.engine == it for one in noted)) for it in ENGINES if any(one.engine == it for one in noted)]
