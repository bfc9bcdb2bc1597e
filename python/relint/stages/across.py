"""Finds sites and uses by pieces for the pool: in the file of a pattern, and across all files of the project.

For the pipeline:

    pool = Pool(jobs, Worker(folders).work, deadline)          # (deadline: as time.monotonic() counts, or None)
    looked = look({path: [(line, column, call), ..], ..}, pool)   # -> {path: Looked}
    uses = across(files, {index: (path, looked[path].local[row]), ..}, pool)   # -> {index: Uses}

`files` are all files of the project, relative or absolute as the paths of the entries, whose ending is in `PROJECT_ENDINGS`.
For a pattern whose class can't get worse by another use, don't ask `across`: `alone(path, local)` are those in its own file.
A use's mode is `use.mode` ("search" for a match that is tried from place to place, as in a loop over `P.match(text, at)`).
"""
from __future__ import annotations

import os
from dataclasses import dataclass, field
from typing import Any, Dict, Iterator, List, Mapping, Optional, Protocol, Sequence, Set, Tuple

from ..base.model import Literal, Site, Use, Uses
from ..code.elsewhere import PROJECT_ENDINGS, Asked
from ..code.uses import LocalUses, Name

__all__ = ("PROJECT_ENDINGS", "LocalUses", "Looked", "across", "alone", "look")
FILES_A_PIECE, PATHS_AT_FIRST, MOST_ROUNDS = 128, 8, 20
NOT_FOUND = "no use of it was found"


class Workers(Protocol):
    """A pool of workers."""

    def answers(self, pieces: Sequence[Any]) -> Iterator[Tuple[int, Any]]:
        """Yields the number of each piece and its answer, None for one that failed."""

    def why(self, index: int) -> str:
        """Returns a clause why a piece has no answer."""


@dataclass
class Looked:
    """What was found in one file, with a row for each place that was wanted: `sites`, `lines` and `local`.

    `lines` are lines of source to show, each with its number. `ignores` has the lines with a comment that hides findings: the
    codes that it names, or None for all. `why` says in a clause why the file couldn't be read, or is "".
    """

    why: str = ""
    is_parsed: bool = False
    sites: List[Optional[Site]] = field(default_factory=list)
    lines: List[List[Tuple[int, str]]] = field(default_factory=list)
    local: List[LocalUses] = field(default_factory=list)
    ignores: Dict[int, Optional[List[str]]] = field(default_factory=dict)


# ---- in a pattern's own file

def look(
    places: Mapping[str, Sequence[Tuple[int, int, str]]], pool: Workers, data: Optional[Mapping[str, bytes]] = None,
    told: bool = False,
) -> Dict[str, Looked]:
    """Returns for each path what is found at its places, each a line, a column and the function of `re`.

    `data` has the bytes of files that aren't to be read. With `told`, others say the places, so that nothing is shown of one
    without such a call. A file on which a worker fails is looked at once more, unparsed.
    """
    pieces: List[Dict[str, Any]] = [{"do": "look", "path": path, "wanted": rows, "plain": False, "told": told}
                                    for path, rows in places.items()]
    for piece in pieces:
        if data is not None and piece["path"] in data:
            piece["data"] = data[piece["path"]].decode("latin-1")
    found: Dict[str, Looked] = {}
    failed = _look(pieces, pool, found)
    _look([{**it, "plain": True} for it in failed], pool, found)
    return found


def _look(pieces: Sequence[Mapping[str, Any]], pool: Workers, found: Dict[str, Looked]) -> List[Mapping[str, Any]]:
    """Adds what is found in the files of some pieces; returns the pieces on which a worker failed, unless they are plain."""
    failed = []
    for index, answer in pool.answers(pieces):
        path = pieces[index]["path"]
        try:
            found[path] = _looked(path, answer)
        except (TypeError, ValueError, KeyError, AttributeError):
            if not pieces[index]["plain"]:
                failed.append(pieces[index])
                continue
            found[path] = Looked(pool.why(index) or "no answer could be read")
        if found[path].why:
            lost = [LocalUses(lost=found[path].why) for _ in pieces[index]["wanted"]]
            found[path] = Looked(found[path].why, False, [None] * len(lost), [[] for _ in lost], lost)
    return failed


def _looked(path: str, answer: Any) -> Looked:
    """What was found in a file, as a worker says; raises TypeError, ValueError and the like if the answer has another form."""
    rows = answer["rows"]
    return Looked(str(answer["why"]), bool(answer["parsed"]), [_site(it[0]) for it in rows],
                  [[(int(number), str(line)) for number, line in it[1]] for it in rows],
                  [_local(path, it[2]) for it in rows], dict(answer["ignores"]))


def _site(row: Any) -> Optional[Site]:
    """The site of a row, or None."""
    if row is None:
        return None
    (is_bytes, text), flags, literals, offsets, function, in_tests = row
    return Site(text.encode("latin-1") if is_bytes else text, flags, tuple(Literal(*it) for it in literals), tuple(offsets),
                function=function, in_tests=in_tests)


def _local(path: str, row: Any) -> LocalUses:
    """The uses of a row, which are in the file at a path."""
    uses, is_read, names, lost = row
    return LocalUses([Use(method, path, *rest) for method, *rest in uses], is_read, [Name(*it) for it in names], lost)


def _rows(answer: Any, count: Optional[int] = None) -> List[Any]:
    """An answer that is a list, of `count` rows if that is given; raises TypeError for another one."""
    if not isinstance(answer, list) or count not in (None, len(answer)):
        raise TypeError
    return answer


def alone(path: str, local: LocalUses) -> Uses:
    """Returns the uses of a pattern in its own file, as if there were no other."""
    return _whole(path, local)


def _whole(path: str, found: LocalUses) -> Uses:
    """The uses of a pattern that is in the file at `path`."""
    uses = sorted(set(found.uses), key=lambda it: (it.path != path, it.path, it.line, it.method))
    return Uses(tuple(uses), found.is_read, found.lost or ("" if uses else NOT_FOUND))


# ---- in all files

def across(files: Sequence[str], found: Mapping[int, Tuple[str, LocalUses]], pool: Workers) -> Dict[int, Uses]:
    """Returns for each pattern its uses in all files of the project.

    A pattern is given by its number, with the path of its file and what was found of it there. If a file can't be looked at
    that may use it, its uses are lost.
    """
    rounds = _Rounds(files, found, pool)
    left = rounds.first()
    for _ in range(MOST_ROUNDS):
        if not left:
            break
        left = rounds.follow(rounds.mentions(left))
    for it in left.values():
        for index in it:
            rounds.lose(index, "it goes through too many files")
    return {index: _whole(path, rounds.uses[index]) for index, (path, _) in found.items()}


class _Rounds:
    """Looks for names in all files, then for the names under which what was found is handed on, and so on."""

    def __init__(self, files: Sequence[str], found: Mapping[int, Tuple[str, LocalUses]], pool: Workers) -> None:
        """Takes the files, what was found in the files of the patterns, and the pool."""
        self.files, self.found, self.pool = list(files), found, pool
        self.root = os.path.commonpath([os.path.abspath(it) for it in self.files]) if self.files else os.curdir
        self.uses = {index: LocalUses(list(it.uses), it.is_read, [], it.lost) for index, (_, it) in found.items()}
        self.seen: Dict[int, Set[Asked]] = {index: set() for index in found}
        self.hits: Dict[Asked, List[str]] = {}
        self.unclear: Dict[Asked, str] = {}

    def lose(self, index: int, why: str) -> None:
        """Notes why the uses of a pattern aren't known, if that isn't noted."""
        self.uses[index].lost = self.uses[index].lost or why

    def first(self) -> Dict[Asked, List[int]]:
        """Returns what is looked for first, each with the numbers of the patterns that it is about."""
        left: Dict[Asked, List[int]] = {}
        for index, (path, local) in self.found.items():
            if not local.lost:
                self._ask(index, path, local.names, left)
        return left

    def _ask(self, index: int, home: str, names: Sequence[Name], left: Dict[Asked, List[int]]) -> None:
        """Adds names of a file to what is looked for, unless they were looked for before."""
        for name, kind in names:
            asked = Asked("" if kind == "match" else home, name, kind)
            if asked not in self.seen[index]:
                self.seen[index].add(asked)
                left.setdefault(asked, []).append(index)

    def mentions(self, left: Dict[Asked, List[int]]) -> Dict[Asked, List[int]]:
        """Finds the files that may reach what is looked for, in one pass over all of them; returns `left`."""
        fresh = [it for it in left if it not in self.hits]
        parts = [self.files[at:at + FILES_A_PIECE] for at in range(0, len(self.files), FILES_A_PIECE)] if fresh else []
        for it in fresh:
            self.hits[it] = []
        pieces = [{"do": "mentions", "paths": part, "root": self.root, "asked": fresh} for part in parts]
        for number, answer in self.pool.answers(pieces):
            try:
                rows = [(fresh[which], parts[number][at], str(why)) for at, which, why in _rows(answer)]
            except (TypeError, ValueError, IndexError):
                why = f"{parts[number][0]} and others can't be searched: {self.pool.why(number)}"
                rows = [(it, "", why) for it in fresh]
            for asked, path, why in rows:
                if why:
                    self.unclear.setdefault(asked, why)
                else:
                    self.hits[asked].append(path)
        for asked in left.keys() & self.unclear.keys():
            for index in left[asked]:
                self.lose(index, self.unclear[asked])
        return left

    def follow(self, left: Dict[Asked, List[int]]) -> Dict[Asked, List[int]]:
        """Looks at the uses in the files that were found; returns what is to be looked for next.

        Nothing is looked at for a pattern whose uses are lost already.
        """
        more: Dict[Asked, List[int]] = {}
        paths: Dict[str, List[Asked]] = {}
        for asked in left:
            for path in self.hits[asked]:
                paths.setdefault(path, []).append(asked)
        # (a few first, and those that are asked for most: often they show that more needn't be looked at)
        order, done, size = sorted(paths, key=lambda it: -len(paths[it])), 0, PATHS_AT_FIRST
        while done < len(order):
            pieces: List[Dict[str, Any]] = []
            for path in order[done:done + size]:
                asked_here = [it for it in paths[path] if any(not self.uses[index].lost for index in left[it])]
                if asked_here:
                    pieces.append({"do": "uses", "path": path, "asked": asked_here})
            done, size = done + size, size * 2
            for number, answer in self.pool.answers(pieces):
                path, asked_of = pieces[number]["path"], pieces[number]["asked"]
                try:
                    local = [_local(path, it) for it in _rows(answer, len(asked_of))]
                except (TypeError, ValueError):
                    local = [LocalUses(lost=f"it may use it, but {self.pool.why(number)}")] * len(asked_of)
                for asked, one in zip(asked_of, local):
                    for index in left[asked]:
                        self._add(index, path, one, more)
        return more

    def _add(self, index: int, path: str, local: LocalUses, more: Dict[Asked, List[int]]) -> None:
        """Adds what was found in one file for a pattern."""
        found, home = self.uses[index], self.found[index][0]
        found.uses += local.uses
        found.is_read = found.is_read or local.is_read
        if local.lost:
            self.lose(index, local.lost if path == home else f"{path}: {local.lost}")
        self._ask(index, path, local.names, more)
