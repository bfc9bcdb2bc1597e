"""Judges the text that an editor or another tool has open, in place of the file at its path.

Configuration, accepted file and uses are those of a file at this path. The program reads the text from a private folder, and
the worker gets it with its work; what the file itself holds is never read. The process of relint-ask stays for the next text.
A worker is forked for each text, so that no tree gets old; so the process that judges must have no threads. What is said of
other files is kept for a while, so that typing doesn't read the whole project again and again.
"""
from __future__ import annotations

import json
import os
import time
from dataclasses import dataclass, replace
from typing import Any, Dict, Iterator, List, Mapping, Optional, Sequence, Tuple

from ..base import rate
from ..base.model import MODES, NEW, WARNED, Finding
from ..base.safe import LARGEST_SOURCE, FolderReader, visible
from ..engine.ask import Asker
from ..engine.run import Run
from ..files import Chosen, Globs, plain, shown_folder
from ..mend import offers
from ..options import Options, read_options
from . import across, growth, pipeline
from .pool import Pool
from .worker import Worker

# How long a text may take, the fixes of one finding, and the search for the files of the project; and how many files of it are
# read for the uses of a pattern.
SECONDS, SECONDS_OF_FIXES, SECONDS_OF_FILES, MOST_FILES = 20.0, 3.0, 1.0, 2_000
# How long what is said of other files counts, at most for how many pieces, and the pieces that are about many files.
SECONDS_KEPT, MOST_KEPT, ABOUT_MANY = 60.0, 10_000, ("mentions", "changes")


class NotJudged(Exception):
    """Raised if a text can't be judged; the message says why, in one line that can be printed."""


@dataclass
class Opened:
    """What is known of a text: its findings, and the run that found them.

    `lost` are clauses that say why not all of the text was judged.
    """

    path: str
    text: str
    findings: List[Finding]
    run: Run
    lost: Tuple[str, ...] = ()


class _Reader(FolderReader):
    """Reads files below some folders, but in place of one of them gives the text that is open."""

    def __init__(self, chosen: Chosen) -> None:
        super().__init__(chosen.folders)
        self._path, self._data = chosen.files[0], chosen.data or b""

    def read(self, path: str, most: int = LARGEST_SOURCE) -> bytes:
        """Returns the bytes of the file at a path, or those of the text; raises OpenError."""
        return self._data if path == self._path else super().read(path, most)


class _Worker(Worker):
    """A worker for which the open text stands in place of its file."""

    def __init__(self, chosen: Chosen) -> None:
        super().__init__(chosen.folders)
        self._reader = _Reader(chosen)


@dataclass
class _Chosen(Chosen):
    """The files of a run over one text, whose project must not be too large, as there is little time."""

    def project(self, endings: Tuple[str, ...]) -> Optional[List[str]]:
        """Returns all files of the project with one of these endings, or None if there are too many."""
        self.deadline = time.monotonic() + SECONDS_OF_FILES
        found = super().project(endings)
        return None if found is None or len(found) > MOST_FILES else found


class _Pool:
    """A pool that asks only what isn't kept. The open file is always the first of those that a piece names."""

    def __init__(self, pool: Pool, chosen: Chosen, kept: Dict[str, Any]) -> None:
        """Takes the pool that does the work, the files of the run, and what is kept."""
        self._pool, self._path, self._kept = pool, chosen.files[0], kept
        self._imports = str([it for it in (chosen.data or b"").splitlines() if b"import" in it])
        self._why: Dict[int, str] = {}

    def why(self, index: int) -> str:
        """Returns a clause why the piece with this number of the last `answers` has no answer; "" if it has one."""
        return self._why.get(index, "")

    def answers(self, pieces: Sequence[Mapping[str, Any]]) -> Iterator[Tuple[int, Any]]:
        """Yields for each piece its number and its answer, None for one that failed."""
        parts = [(at, part, self._key(part)) for at, it in enumerate(pieces) for part in self._parts(it)]
        new = [number for number, (_, _, key) in enumerate(parts) if key not in self._kept]
        said: Dict[int, Any] = {}
        self._why = {}
        for number, answer in self._pool.answers([parts[it][1] for it in new]):
            at, _, key = parts[new[number]]
            said[new[number]] = answer
            self._why[at] = self._pool.why(number) or self._why.get(at, "")
            if answer is not None and key:
                self._kept[key] = answer
        rows: Dict[int, List[Any]] = {}
        for number, (at, _, key) in enumerate(parts):
            rows.setdefault(at, []).append(said[number] if number in said else self._kept[key])
        yield from ((at, _joined(rows[at], piece)) for at, piece in enumerate(pieces))

    def _parts(self, piece: Mapping[str, Any]) -> List[Mapping[str, Any]]:
        """A piece, divided into one about the open file and one about the others."""
        paths = piece["paths"] if piece["do"] in ABOUT_MANY else []
        if paths[:1] != [self._path] or len(paths) == 1:
            return [piece]
        return [{**piece, "paths": paths[:1]}, {**piece, "paths": paths[1:]}]

    def _key(self, piece: Mapping[str, Any]) -> str:
        """What a piece asks, or "" if it is about the open file."""
        is_open = self._path in (piece.get("path"), *piece.get("paths", [])[:1])
        return "" if is_open else json.dumps([piece, self._imports], sort_keys=True)


def _joined(answers: Sequence[Any], piece: Mapping[str, Any]) -> Any:
    """The answer to a piece from those to its parts; None if one of them failed."""
    if len(answers) == 1 or None in answers:
        return answers[0] if len(answers) == 1 else None
    if piece["do"] == "changes":
        return sorted({*answers[0], *answers[1]})
    return [*answers[0], *([number + 1, *rest] for number, *rest in answers[1])]


class Judge:
    """Judges texts, one after the other, and keeps relint-ask open until `close`."""

    def __init__(self, words: Sequence[str] = (), word: str = "check", has_own_comments: bool = False) -> None:
        """Takes options of the command line, and the word of the options for which the text is judged.

        With the word "accept" also what isn't judged has its site. `has_own_comments` says that ignore comments are left to
        the tool that asks.
        """
        self._words, self._word, self._has_own_comments = tuple(words), word, has_own_comments
        self._asker: Optional[Asker] = None
        self._said: Dict[str, Any] = {}
        self._until = 0.0

    def forget(self) -> None:
        """Forgets what is kept of other files, as they may have changed."""
        self._said, self._until = {}, time.monotonic() + SECONDS_KEPT

    def close(self) -> None:
        """Ends the processes that are kept."""
        offers.close()
        if self._asker is not None:
            self._asker.close()

    def judged(self, text: str, path: str) -> Optional[Opened]:
        """Returns what is found in `text` as the content of the file at `path`; None if the configuration leaves it out.

        Raises NotJudged in place of every other Exception.
        """
        try:
            return self._judged(text, plain(path))
        except Exception as error:
            named = "" if type(error).__module__.startswith(__name__.partition(".")[0]) else f"{type(error).__name__}: "
            raise NotJudged(visible(f"{named}{error}")) from error

    def _judged(self, text: str, path: str) -> Optional[Opened]:
        """Returns the same as `judged`, but raises exceptions as they come."""
        options = read_options(["check", *self._words, f"--stdin-filename={path}", "-"])
        options = replace(options, word=self._word, jobs=1)
        root = os.path.realpath(options.folder)
        if Globs(options.exclude, root).matches(path, every_level=True):
            return None
        real = os.path.join(os.path.realpath(os.path.dirname(path)), os.path.basename(path))
        chosen = _Chosen(root, (shown_folder(root),), [path], data=text.encode("utf-8", "surrogatepass"), _real={path: real})
        deadline = time.monotonic() + min(options.seconds, SECONDS)
        asker = self._asker_for(options, deadline)
        with Pool(1, _Worker(chosen).work, deadline) as pool:
            if time.monotonic() > self._until or len(self._said) > MOST_KEPT:
                self.forget()
            told = _Pool(pool, chosen, self._said)
            run = Run(options, chosen, told, asker, deadline, steps_a_second=rate.kept())
            findings = pipeline.judged_as_used(pipeline.found(run), run)
            if self._has_own_comments:
                run.ignores.clear()
            findings = growth.told(pipeline.accepted(findings, run), run)
            late = (pipeline.LATE,) if run.late or asker.late or pool.late else ()
        lost = [it.why for it in run.not_looked if it.fails]
        return Opened(path, text, findings, run, tuple(dict.fromkeys((*lost, *late))))

    def _asker_for(self, options: Options, deadline: float) -> Asker:
        """The asker for a text; it is the same as before unless the options differ, or there was no relint-ask."""
        if self._asker is None or self._asker.missing or self._asker.pairs != options.max_pairs:
            if self._asker is not None:
                self._asker.close()
            self._asker = Asker(options, deadline)
        self._asker.deadline, self._asker.late = deadline, False
        return self._asker


def _more_time(run: Run) -> None:
    """Gives a run the time for one more thing."""
    run.deadline = run.asker.deadline = time.monotonic() + SECONDS_OF_FIXES
    run.late = run.asker.late = False


def look(opened: Opened, at: int) -> Finding:
    """Returns the finding with the number `at`, with its site if it had none; it stays known."""
    it, run = opened.findings[at], opened.run
    if it.site is None and it.entry.call is not None and it.entry.place is not None:
        _more_time(run)
        wanted = {opened.path: [(it.entry.place.line, it.entry.place.column, it.entry.call)]}
        with Pool(1, _Worker(run.chosen).work, run.deadline) as pool:
            found = across.look(wanted, pool, {opened.path: run.data(opened.path)})[opened.path]
        opened.findings[at] = replace(it, site=found.sites[0], lines=tuple(found.lines[0]))
    return opened.findings[at]


def explained(opened: Opened, at: int) -> Finding:
    """Returns the finding with the number `at`, with its class in each mode and the reason for its cost, which stay known.

    Raises ProgramError if relint-ask can't be run.
    """
    it, run = look(opened, at), opened.run
    left, verdict = [mode for mode in MODES if mode not in it.by_mode], it.verdict
    if it.site is not None and it.site.flags is not None and verdict is not None and left:
        _more_time(run)
        answers = run.asker.verdicts([(it.site.pattern, it.site.flags, mode) for mode in left])
        known = {mode: verdict for mode, verdict in zip(left, answers) if verdict is not None}
        whole = replace(it, by_mode={it.mode: verdict, **known, **it.by_mode})
        opened.findings[at] = growth.told([whole], run)[0]
    return opened.findings[at]


def mended(opened: Opened, at: int) -> Finding:
    """Returns the finding with the number `at`, with what may be put in its place, which stays known; raises ProgramError."""
    it, run = opened.findings[at], opened.run
    if it.state in (NEW, WARNED) and not it.offers:
        _more_time(run)
        opened.findings[at] = replace(it, offers=offers.offers(it, run))
    return opened.findings[at]
