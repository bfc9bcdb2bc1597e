"""Chooses the files of a run: those that are named, and the Python files below the folders that are named.

Folders are opened one by one without links. Everything that isn't looked at is named and counted here, or by the program and
the workers, as a `NotLooked`. The project is the folder of the configuration or of the repository; any Python file of it may
use a pattern.
"""
from __future__ import annotations

import fnmatch
import os
import re
import stat
import sys
import time
from contextlib import ExitStack
from dataclasses import dataclass, field, replace
from functools import lru_cache
from typing import Callable, Dict, Iterator, List, NamedTuple, Optional, Sequence, Set, Tuple

from . import git
from .base.model import Narrowed, NotLooked
from .base.safe import LARGEST_SOURCE, is_utf8, visible
from .git import Earlier, GitError
from .options import CONTROL, TOPS, Options, OptionsError

DEEPEST = 64
SOURCE, NOTEBOOK = ".py", ".ipynb"
__all__ = ("Chosen", "Earlier", "FilesError", "GitError", "choose")

# Folders that a walk leaves out: of version control, of environments, of other tools, and of what is built or installed.
INSTALLED = (".direnv", ".eggs", ".nox", ".pyenv", ".tox", ".venv", "__pypackages__", "node_modules", "site-packages")
LEFT_OUT = frozenset((
    *CONTROL, *INSTALLED, ".ipynb_checkpoints", ".mypy_cache", ".pants.d", ".pytest_cache", ".pytype", ".ruff_cache",
    ".vscode", "_build", "buck-out", "build", "dist",
))
# The file that makes a folder a virtual environment.
ENVIRONMENT_MARK = "pyvenv.cfg"
FOLDER = os.O_RDONLY | os.O_DIRECTORY | os.O_NOFOLLOW | os.O_CLOEXEC
# More files than this aren't read for the uses of a pattern: in a project, and in a folder that is none.
MOST_OF_A_PROJECT, MOST_ELSEWHERE = 300_000, 5_000
FILE, LINK, OTHER, DEEP, CLOSED, ENVIRONMENT = "file", "link", "other", "deep", "closed", "environment"
WHY = {
    LINK: "it is a link",
    OTHER: "it is neither a file nor a folder",
    DEEP: f"the folder lies more than {DEEPEST} levels deep",
    CLOSED: "the folder can't be opened",
}
NOT_TEXT = "its name isn't UTF-8"
SUBMODULE = "it is a submodule"


class FilesError(OptionsError):
    """Raised if nothing can be looked at; the message says why, and `status` is the exit status."""


class Found(NamedTuple):
    """What a walk comes upon: FILE, LINK, OTHER, DEEP, CLOSED or ENVIRONMENT, and its path."""

    kind: str
    path: str


@dataclass
class Chosen:
    """The files of a run, in order, and what isn't looked at.

    `files` are for the program, `notebooks` for the workers. `folders` are those that sources are read below, and `root` is
    the top of the project, absolute. `data` is the source that was read from standard input, whose name is the only one in
    `files`. `narrowed` and `notes` are those of the options, with how much is left out. `is_whole` says that the top of the
    project was named itself, and `late` that the time `deadline` of `time.monotonic` came before all folders were entered.
    """

    root: str
    folders: Tuple[str, ...]
    files: List[str] = field(default_factory=list)
    notebooks: List[str] = field(default_factory=list)
    not_looked: List[NotLooked] = field(default_factory=list)
    narrowed: Tuple[Narrowed, ...] = ()
    notes: Tuple[str, ...] = ()
    data: Optional[bytes] = None
    is_whole: bool = False
    deadline: float = float("inf")
    late: bool = False
    _real: Dict[str, str] = field(default_factory=dict)

    def project(self, endings: Tuple[str, ...]) -> Optional[List[str]]:
        """Returns all files of the project with one of these endings, and those of the run; None if they take too long.

        Exclusions don't count for them, but what is installed is left out. A file of the run has the path that it has there,
        another one a path from the current folder.
        """
        known = {real: path for path, real in self._real.items()}
        found = dict.fromkeys(self.files + self.notebooks)
        is_project = self.is_whole or any(os.path.lexists(os.path.join(self.root, it)) for it in PROJECT_MARKS)
        most = MOST_OF_A_PROJECT if is_project else MOST_ELSEWHERE
        top, here = os.path.join(self.root, ""), os.path.join(os.path.realpath(os.getcwd()), "")
        front = os.path.join(shown_folder(self.root), "")
        left_out = frozenset((*CONTROL, *INSTALLED))
        for it in walk(self.root, lambda _, name: name not in left_out):
            if it.kind == FILE and it.path.endswith(endings) and is_utf8(it.path):
                below = it.path[len(here):] if it.path.startswith(here) else front + it.path[len(top):]
                found[known.get(it.path, below)] = None
            if len(found) > most or time.monotonic() > self.deadline:
                return None
        return list(found)


PROJECT_MARKS = (*TOPS, "pyproject.toml", "relint.toml", "setup.py", "setup.cfg")


def shown_folder(folder: str) -> str:
    """Returns the path by which a folder, absolute and without links, is called: from the current folder."""
    return os.path.relpath(folder, os.path.realpath(os.getcwd()))


def walk(top: str, enters: Callable[[str, str], bool], environments: bool = False) -> Iterator[Found]:
    """Yields what lies below the folder `top` ("" is the current one), sorted by name; each path begins with `top`.

    `enters` is asked with its path and name whether a folder is entered. Links aren't followed below `top`. A virtual
    environment is entered only with `environments`.
    """
    def below(name: str, above: Optional[int], path: str, level: int) -> Iterator[Found]:
        """Yields what lies below a folder, which is opened by its name in the open folder `above`."""
        if level > DEEPEST:
            yield Found(DEEP, path)
            return
        with ExitStack() as stack:
            try:
                opened = os.open(name, FOLDER if level else FOLDER & ~os.O_NOFOLLOW, dir_fd=above)
                stack.callback(os.close, opened)
                with os.scandir(opened) as entries:
                    children = sorted(entries, key=lambda it: it.name)
            except OSError:
                yield Found(CLOSED, path or os.curdir)
                return
            if level and not environments and any(it.name == ENVIRONMENT_MARK for it in children):
                yield Found(ENVIRONMENT, path)
                return
            front = os.path.join(path, "") if path else ""
            for it in children:
                if it.is_symlink():
                    yield Found(LINK, front + it.name)
                elif not it.is_dir(follow_symlinks=False):
                    yield Found(FILE if it.is_file(follow_symlinks=False) else OTHER, front + it.name)
                elif enters(front + it.name, it.name):
                    yield from below(it.name, opened, front + it.name, level + 1)

    return below(top or os.curdir, None, top, 0)


class Globs:
    """The globs of the exclusions, relative to a folder.

    A glob without a `/` before its end is matched against the last name of a path. Another one is matched against the whole
    path from the folder; `*` matches `/` too.
    """

    def __init__(self, globs: Sequence[str], folder: str) -> None:
        """Takes the globs, and the absolute path of the folder without links."""
        self._names: List["re.Pattern[str]"] = []
        self._paths: List["re.Pattern[str]"] = []
        self._inside = lru_cache(maxsize=None)(lambda above: os.path.relpath(os.path.realpath(above or os.curdir), folder))
        for glob in globs:
            text = os.path.normpath(glob)
            text = os.path.relpath(text, folder) if os.path.isabs(text) else text
            (self._paths if "/" in glob.rstrip("/") else self._names).append(re.compile(fnmatch.translate(text)))

    def matches(self, path: str, every_level: bool = False) -> bool:
        """Returns whether a glob matches a path or, with `every_level`, a folder above it below the globs' folder."""
        if not (self._names or self._paths):
            return False
        # (all links but the last name are followed)
        above, name = os.path.split(path.rstrip("/") or path)
        front = self._inside(above)
        names = [*(front.split("/") if front != os.curdir else []), name]
        levels = ["/".join(names[:at]) for at in range(1, len(names) + 1) if names[at - 1] != ".."]
        for level in levels if every_level else levels[-1:]:
            last = level.rpartition("/")[2]
            if any(it.match(last) for it in self._names) or any(it.match(level) for it in self._paths):
                return True
        return False


def plain(path: str) -> str:
    """Returns a path without `./` in front, doubled slashes and single dots; a slash at the end stays."""
    names = [it for at, it in enumerate(path.split("/")) if it not in ("", ".") or at == 0 and it == ""]
    made = "/".join(names) + ("/" if path.endswith("/") and names not in ([], [""]) else "")
    return made or ("/" if path.startswith("/") else ".")


def choose(options: Options, deadline: float = float("inf")) -> Chosen:
    """Returns the files that the options name, or that a configuration names, with what isn't looked at.

    No folder is entered after the time `deadline` of `time.monotonic`. Raises FilesError if there is nothing to look at, and
    GitError if git can't list the files that it tracks.
    """
    root = os.path.realpath(options.folder)
    if options.reads_input():
        return Chosen(root, (shown_folder(root),), [options.stdin_filename], data=_from_input(), narrowed=options.narrowed,
                      notes=options.notes)
    if options.reports:
        return Chosen(root, (".",), narrowed=options.narrowed, notes=options.notes)
    chooser = _Chooser(options, root)
    chooser.found.deadline = deadline
    for path in options.paths:
        chooser.add_named(plain(path))
    return chooser.chosen()


def _from_input() -> bytes:
    """The source on standard input. Raises FilesError if it is too large, closed or a terminal."""
    if sys.stdin is None or sys.stdin.isatty():
        raise FilesError("- reads one source from standard input: rlt check --stdin-filename app.py - < app.py")
    data = sys.stdin.buffer.read(LARGEST_SOURCE + 1)
    if len(data) > LARGEST_SOURCE:
        raise FilesError(f"the source on standard input has more than {LARGEST_SOURCE:,} bytes", 3)
    return data


class _Chooser:
    """Gathers the files of the paths that are named."""

    def __init__(self, options: Options, root: str) -> None:
        """Takes the options, and the top of the project without links."""
        self.options, self.globs = options, Globs(options.exclude, root)
        self.found = Chosen(root, self.folders(root))
        self.met: Set[str] = set()
        self.hidden = self.environments = 0
        self.left_out: Dict[str, int] = {}
        self.real: Callable[[str], str] = lru_cache(maxsize=None)(lambda folder: os.path.realpath(folder or os.curdir))

    def folders(self, root: str) -> Tuple[str, ...]:
        """The folders that sources are read below: named ones that lie behind a link, the project, and others."""
        paths = [plain(it) for it in self.options.paths]
        linked = [it for it in paths if "\0" not in it and os.path.realpath(it) != os.path.abspath(it)]
        return tuple(dict.fromkeys((*linked, shown_folder(root), *paths)))

    def add_named(self, path: str) -> None:
        """Adds a path that is named: a file, or what lies below a folder."""
        if self.options.tracked and os.path.lexists(path):
            self.add_tracked(path)
            return
        try:
            mode = os.lstat(path).st_mode
        except (OSError, ValueError):
            self.miss(path, "it isn't there", fails=True)
            return
        if self.globs.matches(path, every_level=True):
            self.hidden += 1
        elif stat.S_ISDIR(mode):
            self.found.is_whole = self.found.is_whole or os.path.realpath(path) == self.found.root
            self.add_below("" if path == "." else path)
        elif stat.S_ISREG(mode):
            self.add(path)
        else:
            self.miss(path, "it is a link: name what it points to" if stat.S_ISLNK(mode) else WHY[OTHER], fails=True)

    def add(self, path: str) -> None:
        """Adds a file, unless it was added before."""
        real = os.path.join(self.real(os.path.dirname(path)), os.path.basename(path))
        if real in self.met:
            return
        self.met.add(real)
        if not is_utf8(path):
            self.miss(path, NOT_TEXT)
            return
        self.found._real[path] = real
        (self.found.notebooks if path.endswith(NOTEBOOK) else self.found.files).append(path)

    def miss(self, path: str, why: str, fails: bool = False) -> None:
        """Notes something that isn't looked at."""
        self.found.not_looked.append(NotLooked(path, why, fails=fails))

    def enters(self, path: str, name: str) -> bool:
        """Whether a walk enters a folder; it is counted if it doesn't."""
        if name in LEFT_OUT and not self.options.no_default_exclude:
            self.left_out[name] = self.left_out.get(name, 0) + (name not in CONTROL)
            return False
        is_hidden = self.globs.matches(path)
        self.hidden += is_hidden
        return not is_hidden

    def add_below(self, top: str) -> None:
        """Adds the sources below a folder."""
        for it in walk(top, self.enters, self.options.no_default_exclude):
            if time.monotonic() > self.found.deadline:
                self.found.late = True
                self.miss(it.path, "time ran out before it, and all behind it, was come upon", fails=True)
                break
            if it.kind == ENVIRONMENT:
                self.environments += 1
            elif it.kind == DEEP or it.kind == CLOSED:
                self.miss(it.path, WHY[it.kind], fails=it.kind == CLOSED)
            elif it.path.endswith((SOURCE, NOTEBOOK)) or it.kind == LINK and os.path.isdir(it.path):
                if self.globs.matches(it.path):
                    self.hidden += 1
                elif it.kind == FILE:
                    self.add(it.path)
                else:
                    self.miss(it.path, WHY[it.kind])

    def add_tracked(self, path: str) -> None:
        """Adds the Python files that git tracks at a path or below it."""
        top = plain(path if os.path.isdir(path) else os.path.dirname(path) or ".").rstrip("/")
        links = {"" if top == "." else top: False}
        # (what is tracked is the project's own, so no folder that poses as an environment hides any of it)
        for it in git.tracked(path, self.found.deadline):
            is_source = it.path.endswith((SOURCE, NOTEBOOK))
            if it.mode == git.SUBMODULE:
                self.miss(it.path, SUBMODULE)
            elif it.mode == git.LINK or os.path.islink(it.path):
                if (is_source or os.path.isdir(it.path)) and not self.globs.matches(it.path, True):
                    self.miss(it.path, WHY[LINK])
            elif not is_source or not os.path.lexists(it.path):
                continue
            elif _holds(os.path.dirname(it.path), links, os.path.islink):
                self.miss(it.path, "a folder above it is a link")
            elif self.globs.matches(it.path, True):
                self.hidden += 1
            elif os.path.isfile(it.path):
                self.add(it.path)
            else:
                self.miss(it.path, WHY[OTHER])

    def chosen(self) -> Chosen:
        """Returns what was chosen. Raises FilesError if there is nothing."""
        found, options = self.found, self.options
        if not (found.files or found.notebooks or found.not_looked or self.hidden):
            raise FilesError(f"no Python file among {visible(' '.join(options.paths))}{self.said(': ')}")
        found.narrowed = tuple(replace(it, hides=self.hidden) if it.what == "exclude" else it for it in options.narrowed)
        found.notes = (*options.notes, *([self.said("")] if self.said("") else []))
        return found

    def said(self, front: str) -> str:
        """Words for the folders that are left out without a word of the user; "" if there are none."""
        names = sorted(name for name, count in self.left_out.items() if count)
        names += ["virtual environments"] if self.environments else []
        if not names:
            return ""
        return f"{front}left out: {visible(', '.join(names))} (--no-default-exclude looks there too)"


def _holds(folder: str, known: Dict[str, bool], test: Callable[[str], bool]) -> bool:
    """Whether the test is true of a folder or of one above it in its path; `known` keeps the answers."""
    if folder not in known:
        above = os.path.dirname(folder)
        known[folder] = test(folder) or (above != folder and _holds(above, known, test))
    return known[folder]
