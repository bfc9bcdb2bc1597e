"""Asks git what it tracks and what an earlier commit holds, without running or using anything else of a repository.

The configuration of a repository can name programs that git runs, and a folder of the work tree can pose as a repository. So
the top of the work tree is found here, by its entry `.git`; git is asked at that top, and has to take it for the top as well.
An earlier commit is read from git's objects alone: nothing is checked out, and no hook, filter or driver runs.
"""
from __future__ import annotations

import importlib
import os
import select
import time
from pathlib import Path
from typing import Dict, List, NamedTuple, Optional, Set

from .base.safe import names_below
from .engine.program import READ_AT_A_TIME, ProgramError, Running, on_path, output_of

SECONDS, SECONDS_OF_A_FIND = 60.0, 10.0
MOST_OUTPUT, MOST_OBJECT = 1 << 28, 4_194_304
# (an empty value turns the monitor off in each version of git; the versions before 2.36 would run a command named `false`)
SETTINGS = (
    "safe.bareRepository=explicit", "core.fsmonitor=", "core.hooksPath=/dev/null", "core.pager=cat", "protocol.allow=never",
    "core.attributesFile=/dev/null", "core.commitGraph=false",
)
VARIABLES = {"GIT_OPTIONAL_LOCKS": "0", "GIT_TERMINAL_PROMPT": "0", "GIT_NO_LAZY_FETCH": "1", "GIT_NO_REPLACE_OBJECTS": "1",
             "GIT_ALLOW_PROTOCOL": "none", "LC_ALL": "C"}
SAFE_DIRECTORY = "git config --global --add safe.directory"
FILE, EXECUTABLE, LINK, SUBMODULE = "100644", "100755", "120000", "160000"


class GitError(Exception):
    """Raised if git can't say what it is asked; the message says why, in one line."""


class Tracked(NamedTuple):
    """A path that git tracks, with its mode: FILE, EXECUTABLE, LINK or SUBMODULE."""

    path: str
    mode: str


class Blob(NamedTuple):
    """A file of a commit: its mode, the name of its object, and its size in bytes."""

    mode: str
    name: str
    size: int


def environment() -> Dict[str, str]:
    """Returns the environment for git: that of this process with VARIABLES in place of all that begins with `GIT_`."""
    kept = {name: value for name, value in os.environ.items() if not name.startswith("GIT_")}
    return {**kept, **VARIABLES}


def tracked(path: str, until: float = float("inf")) -> List[Tracked]:
    """Returns what git tracks at a path or below it, in git's order; git is ended at the time `until` of `time.monotonic`.

    The paths are relative to the current folder if `path` is, otherwise absolute. Those below "." have no "./" in front.
    Raises GitError if git can't list them, for instance because `path` is in no work tree.
    """
    folder, name = (path, "") if os.path.isdir(path) else os.path.split(path)
    here = os.path.realpath(folder or ".")
    top = work_tree(here, until)
    inside = os.path.relpath(here, top)
    listed = _run(top, "ls-files", "-s", "-z", "--", os.path.join(inside, name) if name else inside, until=until)
    front = "" if folder in ("", ".") else os.path.join(folder, "")
    below = 0 if inside == "." else len(inside) + 1
    rows = (it.partition("\t") for it in listed.split("\0") if it)
    # (a path with a conflict is there several times)
    modes = {whole[below:]: about[:6] for about, _, whole in rows}
    return [Tracked(front + it, mode) for it, mode in modes.items()]


def work_tree(folder: str, until: float = float("inf")) -> str:
    """Returns the top of the work tree that a folder is in; both are absolute paths without links.

    Raises GitError if there is no `.git` in the folder or above it, if git can't be run, fails or takes another folder for the
    top, or if `.git` points to a repository among the files of the outermost work tree around the folder.
    """
    tops = [str(it) for it in (Path(folder), *Path(folder).parents) if os.path.lexists(it / ".git")]
    if not tops:
        raise GitError(f"{folder} is in no work tree of git")
    top, own = tops[0], os.path.join(tops[0], ".git")
    until = min(until, time.monotonic() + SECONDS_OF_A_FIND)
    said = _run(top, "rev-parse", "--show-toplevel", "--absolute-git-dir", until=until)
    front = f"{top}\n"
    kept = said[len(front):-1]
    if not said.startswith(front) or (kept != own and not (os.path.islink(own) or os.path.isfile(own))):
        raise GitError(f"git doesn't take {top} for the top of its work tree, though .git is there")
    inside = names_below(kept, tops[-1])
    if kept != own and inside is not None and ".git" not in inside:
        raise GitError(f"{own} points to {kept}, which lies in the work tree")
    return top


def _words(top: str, *words: str) -> List[str]:
    """The words of a command of git in the folder `top`. Raises GitError if git isn't there."""
    git = on_path("git")
    if git is None:
        raise GitError("git isn't on the PATH")
    settings = [it for setting in SETTINGS for it in ("-c", setting)]
    return [git, *settings, "--no-pager", "--literal-pathspecs", "-C", top, *words]


def _run(top: str, *words: str, until: float) -> str:
    """Runs git with these words in the folder `top`, and returns its output. Raises GitError if it fails or takes too long."""
    whole, seconds = _words(top, *words), max(0.1, min(SECONDS, until - time.monotonic()))
    try:
        status, said = output_of(whole, seconds, MOST_OUTPUT, environment())
        if status != 0:
            asked = ["/bin/sh", "-c", 'exec "$@" 2>&1 >/dev/null', "sh", *whole]
            _, errors = output_of(asked, seconds, MOST_OUTPUT, environment())
            raise GitError(_reason(top, errors.decode("utf-8", "replace")))
    except ProgramError as error:
        raise GitError(f"{error} (in {top})") from error
    return os.fsdecode(said)


def _reason(top: str, said: str) -> str:
    """A line that says why git refused in the folder `top`; `said` is what it wrote to standard error."""
    if "dubious ownership" in said or "unsafe repository" in said:
        return f"another user owns {top} (dubious ownership); if you trust that user: {SAFE_DIRECTORY} {top}"
    lines = [it for it in said.splitlines() if it.strip()]
    return lines[0][:500] if lines else f"git gave no reason in {top}"


class Earlier:
    """An earlier commit, read from git's objects: the top of its work tree, and its name. It has to be closed."""

    def __init__(self, ref: str, folder: str = ".", until: float = float("inf")) -> None:
        """Finds the commit that `ref` names in the work tree around a folder. Raises GitError if there is none.

        After the time `until` of `time.monotonic`, nothing more is read.
        """
        self.until = until
        self.top = work_tree(os.path.realpath(folder), until)
        try:
            words = ("rev-parse", "--verify", "--end-of-options", f"{ref}^{{commit}}")
            self.name = _run(self.top, *words, until=until).strip()
        except GitError as error:
            raise GitError(f"{ref} is no commit here: {error} (git fetch brings more of them)") from error
        self._files: Optional[Dict[str, Blob]] = None
        # (the paths of links and submodules, and of all folders)
        self._others: Set[str] = set()
        self._reader: Optional[Running] = None

    def files(self) -> Dict[str, Blob]:
        """Returns the files of the commit, without links and submodules, by their paths below `top`; raises GitError."""
        if self._files is None:
            self._files = {}
            listed = _run(self.top, "ls-tree", "-r", "-z", "-l", "--full-tree", self.name, until=self.until)
            for row in listed.split("\0"):
                about, _, path = row.partition("\t")
                mode, kind, name, size = about.split() if path else ("", "", "", "")
                if kind == "blob" and mode in (FILE, EXECUTABLE) and size.isdigit():
                    self._files[path] = Blob(mode, name, int(size))
                elif path:
                    self._others.add(path)
                above = os.path.dirname(path)
                while above and above not in self._others:
                    self._others.add(above)
                    above = os.path.dirname(above)
        return self._files

    def has(self, inside: str) -> bool:
        """Returns whether there is something at a path below `top`. Raises GitError if git can't list what there is."""
        return inside in self.files() or inside in self._others

    def inside(self, path: str) -> Optional[str]:
        """Returns the path below `top` of a path of the work tree, or None if it lies outside; the last name may be a link."""
        above, name = os.path.split(os.path.abspath(path))
        found = names_below(os.path.join(os.path.realpath(above), name), self.top)
        return None if found is None else os.sep.join(found) or os.curdir

    def data(self, path: str) -> Optional[bytes]:
        """Returns the bytes that a file had in the commit; None if it wasn't there or is too large. Raises GitError."""
        inside = self.inside(path)
        blob = self.files().get(inside) if inside is not None else None
        return self.read(blob) if blob is not None and blob.size <= MOST_OBJECT else None

    def is_same(self, blob: Blob, data: bytes) -> bool:
        """Returns whether a file of the commit has these bytes; its object isn't read for that."""
        hashlib = importlib.import_module("hashlib")
        made = hashlib.sha1 if len(blob.name) == 40 else hashlib.sha256
        return blob.size == len(data) and str(made(b"blob %d\0" % len(data) + data).hexdigest()) == blob.name

    def read(self, blob: Blob) -> bytes:
        """Returns the bytes of a file of the commit, of at most MOST_OBJECT bytes. Raises GitError if git can't give them."""
        if self._reader is None:
            words = _words(self.top, "cat-file", "--batch")
            try:
                self._reader = Running(words, has_input=True, environment=environment())
            except ProgramError as error:
                raise GitError(str(error)) from error
        os.write(self._reader.into, blob.name.encode("ascii") + b"\n")
        data = bytearray()
        while b"\n" not in data:
            data += self._part()
        head, _, data = data.partition(b"\n")
        # (the name of the object, its type and its size)
        found = head.decode("ascii", "replace").split()
        if found[:2] != [blob.name, "blob"] or not found[2].isdigit() or int(found[2]) > MOST_OBJECT:
            self.close()
            raise GitError(f"git can't read the object {blob.name}")
        while len(data) <= int(found[2]):
            data += self._part()
        return bytes(data[:int(found[2])])

    def _part(self) -> bytes:
        """Some bytes that git writes. Raises GitError if none come in time."""
        assert self._reader is not None
        until = min(self.until, time.monotonic() + SECONDS)
        ready = select.select([self._reader.out], [], [], max(0.0, until - time.monotonic()))[0]
        part = os.read(self._reader.out, READ_AT_A_TIME) if ready else b""
        if not part:
            self.close()
            raise GitError("git ended, or took too long, while it read an object")
        return part

    def close(self) -> None:
        """Ends the process that reads objects."""
        if self._reader is not None:
            self._reader.end()
            self._reader = None
