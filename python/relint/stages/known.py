"""Tells what a change brings from what stood in an earlier commit already.

A finding is known if its pattern, flags, mode and function stand in the earlier commit too, once for each. So moving one, also
to another file, or editing what is around it doesn't make it new; editing the pattern does. Files of the earlier commit are
written into a private folder, and judged and looked at there as those of the run are.
"""
from __future__ import annotations

import os
import re
from collections import Counter
from dataclasses import replace
from typing import Callable, Dict, Iterable, Iterator, List, Mapping, NamedTuple, Optional, Sequence, Set, Tuple

from ..base.model import KNOWN, MODES, NEW, OTHER, WARNED, Finding, NotLooked
from ..base.safe import is_utf8
from ..base.words import CAUSES
from ..engine.run import Run
from ..files import Chosen
from ..git import MOST_OBJECT, Blob
from .accept import key_of

# A pattern as a literal, the letters of its flags, its function, and its mode, or "compile" if that hangs on its uses.
Key = Tuple[str, str, str, str]
# Judges the files of a run, as far as its findings have sites, uses and states.
Judging = Callable[[Run], List[Finding]]
MOST_BYTES = 1 << 29
BROUGHT = "{}; this change brings it"
# The coding that one of the first two lines of a source names.
CODING = re.compile(rb"(?:[^\n]*\n)?[ \t\f]*#[^\n]*?coding[:=][ \t]*([-\w.]+)")
NOT_READ = "{} couldn't be read in whole, so a finding may count as new though it was there"


def known(findings: Sequence[Finding], run: Run, judging: Judging, endings: Tuple[str, ...]) -> List[Finding]:
    """Returns the findings with the state KNOWN for those that stand in the earlier commit of the run already.

    `judging` judges files, and `endings` are those of the files that may use a pattern. Raises GitError and ProgramError.
    """
    waiting = [at for at, it in enumerate(findings) if _counts(it, run)]
    if not waiting:
        return list(findings)
    return _Earlier(findings, run, judging, endings).told(waiting)


def _counts(finding: Finding, run: Run) -> bool:
    """Whether a finding would make the run fail or be shown."""
    return finding.state in (NEW, WARNED) or run.options.strict and finding.fails_strictly(run.options.max_degree)


def with_brought(every: Sequence[NotLooked], run: Run) -> List[NotLooked]:
    """Returns what isn't looked at; what a change brings of it fails, so that none can blind its own check.

    It brings what is new, and a source that could be read before. Raises GitError.
    """
    brought = [_brings(it, run) for it in every]
    return [replace(it, why=BROUGHT.format(CAUSES.get(it.why, it.why)), fails=True) if is_brought else it
            for it, is_brought in zip(every, brought)]


def _brings(lost: NotLooked, run: Run) -> bool:
    """Whether the change since the earlier commit of the run brings something that isn't looked at."""
    assert run.earlier is not None
    path = lost.path.partition(", cell ")[0]
    inside = run.earlier.inside(path)
    if inside is None or lost.fails:
        return False
    blob = run.earlier.files().get(inside)
    if blob is None:
        return not run.earlier.has(inside)
    if lost.is_part or blob.size > MOST_OBJECT or run.earlier.is_same(blob, run.data(path)):
        return False
    return _is_plain(run.earlier.read(blob))


def _is_plain(data: bytes) -> bool:
    """Whether a source is UTF-8, and names no other coding."""
    named = CODING.match(data[:1000])
    try:
        data.decode("utf-8")
    except UnicodeDecodeError:
        return False
    return named is None or named[1].lower() in (b"utf-8", b"utf8")


def key_without_mode(finding: Finding) -> Optional[Key]:
    """Returns what stays of a finding if it is moved, without the mode of its uses."""
    key = key_of(finding)
    return None if key is None else (key[0], key[1], key[3], "compile" if finding.entry.call == "compile" else key[2])


class _Matched(NamedTuple):
    """A finding, by its number, and the file of the earlier commit in which it stands."""

    at: int
    path: str


class _Earlier:
    """The files of the earlier commit, and the findings in them."""

    def __init__(self, findings: Sequence[Finding], run: Run, judging: Judging, endings: Tuple[str, ...]) -> None:
        assert run.earlier is not None
        self.findings, self.run, self.judging, self.endings = list(findings), run, judging, endings
        self.commit = run.earlier
        self.blobs: Mapping[str, Blob] = {
            path: blob for path, blob in self.commit.files().items() if path.endswith(endings) and is_safe(path)}
        self.same: Dict[str, bool] = {}
        self.written: Set[str] = set()
        self.size = 0

    def told(self, waiting: Sequence[int]) -> List[Finding]:
        """Returns the findings, of which those that are known among the ones with these numbers have that state."""
        matched = [it for it in map(self._unchanged, waiting) if it is not None]
        kept = {it.at for it in matched}
        left = [at for at in waiting if at not in kept and key_of(self.findings[at]) is not None]
        if not all(self.findings[at].is_own for at in left):
            # (what a pattern is made of may be in other files)
            self._write(self.blobs)
        for paths in self._changed(left):
            if not left or self.run.is_late():
                break
            matched += self._moved(left, paths)
            kept = {it.at for it in matched}
            left = [at for at in left if at not in kept]
        doubtful = [it for it in matched if self._hangs_on_uses(it)]
        lost = self._new_by_use(doubtful)
        for at in (it.at for it in matched):
            if at not in lost:
                self.findings[at] = replace(self.findings[at], state=KNOWN, reason="")
        return self.findings

    def is_same(self, path: str) -> bool:
        """Whether a file of the run is the same in the earlier commit."""
        if path not in self.same:
            blob = self.blobs.get(self.commit.inside(path) or "")
            self.same[path] = blob is not None and self.commit.is_same(blob, self.run.data(path))
        return self.same[path]

    def _unchanged(self, at: int) -> Optional[_Matched]:
        """A finding whose file is the same in the earlier commit, and has the pattern itself."""
        path, is_own = self.findings[at].entry.path, self.findings[at].is_own
        return _Matched(at, self.commit.inside(path) or "") if is_own and self.is_same(path) else None

    def _changed(self, left: Sequence[int]) -> Iterator[List[str]]:
        """Yields files of the earlier commit in which findings may have stood: first their own, then others that changed."""
        own = [self.commit.inside(self.findings[at].entry.path) or "" for at in left]
        mine = [it for it in dict.fromkeys(own) if it in self.blobs]
        yield mine
        sized: List[str] = []
        rest: List[str] = []
        for path, blob in self.blobs.items():
            if path not in mine:
                (sized if self._size_here(path) != blob.size else rest).append(path)
        yield sized
        yield [it for it in rest if not self.is_same(os.path.join(self.commit.top, it))]

    def _size_here(self, path: str) -> int:
        """The size that a file of the earlier commit has now, or -1 if it isn't there."""
        try:
            return os.lstat(os.path.join(self.commit.top, path)).st_size
        except OSError:
            return -1

    def _moved(self, left: Sequence[int], paths: Sequence[str]) -> List[_Matched]:
        """The findings among these that stand in these files of the earlier commit, each once."""
        there: Dict[Key, Counter[str]] = {}
        for it in self._findings_in(self._write(paths)):
            key = key_without_mode(it)
            if key is not None:
                there.setdefault(key, Counter())[it.entry.path] += 1
        found: List[_Matched] = []
        for at in left:
            key = key_without_mode(self.findings[at])
            holders = there.get(key) if key is not None else None
            if holders:
                path = next(iter(holders))
                found.append(_Matched(at, os.path.relpath(path, self.run.scratch)))
                holders -= Counter([path])
        return found

    def _write(self, paths: Iterable[str]) -> List[str]:
        """Writes files of the earlier commit into the private folder; returns their paths there, without what is too large."""
        found = []
        for path in paths:
            blob, file = self.blobs[path], os.path.join(self.run.scratch, path)
            if path not in self.written:
                self.size += blob.size
                if blob.size > MOST_OBJECT or self.size > MOST_BYTES or self.run.is_late() or not self._put(file, blob):
                    self.run.notes.append(NOT_READ.format(self.run.options.baseline_commit))
                    continue
                self.written.add(path)
            found.append(file)
        return found

    def _put(self, file: str, blob: Blob) -> bool:
        """Writes a file of the earlier commit to a path in the private folder; returns whether that could be done."""
        data = self.commit.read(blob)
        try:
            os.makedirs(os.path.dirname(file), 0o700, exist_ok=True)
            with open(file, "xb") as out:
                out.write(data)
            return True
        except OSError:
            return False

    def _findings_in(self, files: Sequence[str]) -> List[Finding]:
        """The findings in files of the private folder."""
        if not files:
            return []
        run = self.run
        chosen = Chosen(run.scratch, (run.scratch,), [it for it in files if not it.endswith(".ipynb")],
                        [it for it in files if it.endswith(".ipynb")])
        options = replace(run.options, strict=False, reports=())
        inner = Run(options, chosen, run.pool, run.asker, run.deadline, run.begun)
        try:
            return self.judging(inner)
        finally:
            inner.close()
            run.late = run.late or inner.late

    def _hangs_on_uses(self, it: _Matched) -> bool:
        """Whether a finding may be one only by a use that the change brings."""
        finding = self.findings[it.at]
        if finding.entry.call != "compile" or finding.state == OTHER:
            return False
        degree = self.run.options.max_degree if finding.state == NEW else self.run.options.warn_degree or 0
        classes = [finding.by_mode.get(mode) for mode in MODES]
        if all(verdict is not None and verdict.is_finding(degree) for verdict in classes):
            return False
        uses = finding.uses
        if uses is None or uses.lost:
            return True
        return not any(use.mode == finding.mode and self.is_same(use.path) for use in uses.uses)

    def _new_by_use(self, doubtful: Sequence[_Matched]) -> Set[int]:
        """The numbers of those findings that weren't findings as the earlier commit used them."""
        if not doubtful:
            return set()
        self._write(self.blobs)
        files = self._write(dict.fromkeys(it.path for it in doubtful))
        there = {key_of(it) for it in self._findings_in(files) if it.state in (NEW, WARNED)}
        return {it.at for it in doubtful if key_of(self.findings[it.at]) not in there}


def is_safe(path: str) -> bool:
    """Returns whether a path of a commit may be written below a folder: its names are plain, and it is text."""
    return is_utf8(path) and "\0" not in path and not {"", ".", ".."} & set(path.split("/"))
