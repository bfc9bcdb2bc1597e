"""Finds the two programs of this project, `relint` and `relint-ask`, and starts programs with limits.

A program is the one that the user names in its variable, RELINT or RELINT_ASK; else that of the clone or of the installation
that this package belongs to; else the one on the PATH, of which only absolute entries count. What lies in the current folder
is never run.
"""
from __future__ import annotations

import importlib
import os
import platform
import resource
import select
import subprocess
import time
from contextlib import suppress
from typing import Dict, List, Mapping, Optional, Sequence, Tuple

MACHINES = {"x86_64": "x86_64", "amd64": "x86_64", "aarch64": "aarch64", "arm64": "aarch64"}
# What the keys of release/INFO about a program begin with.
FRONTS = {"relint": "", "relint-ask": "ask-"}
LARGEST_PROGRAM = 1 << 26
MOST_MEMORY = 4 << 30
READ_AT_A_TIME = 1 << 20

_located: Dict[str, str] = {}


class ProgramError(Exception):
    """Raised if a program can't be found or run, or isn't the right one; the message says why."""


class NotFound(ProgramError):
    """Raised if no variable names a program, and it is neither in the clone nor installed nor on the PATH."""


def located(name: str) -> str:
    """Returns the absolute path of the program `name`, relint or relint-ask, without running it; it is looked for once.

    Raises ProgramError if there is none, if its variable names one that can't be run, if the installed one hasn't the size
    that it had, or if that of the clone isn't the file that release/INFO names.
    """
    variable = name.upper().replace("-", "_")
    key = f"{name}={os.environ.get(variable, '')}"
    if key not in _located:
        named = os.environ.get(variable)
        _located[key] = _named(named, variable) if named else _found(name, variable)
    return _located[key]


def _named(named: str, variable: str) -> str:
    """Returns the path of the program that a variable names."""
    found = named if os.path.dirname(named) and _can_run(named) else on_path(named)
    if not found:
        raise ProgramError(f"{variable} names {named}, which can't be run")
    return os.path.abspath(found)


def _found(name: str, variable: str) -> str:
    """Returns the path of the program of the clone, of the installation or of the PATH."""
    top = os.path.dirname(os.path.dirname(_package()))
    is_clone = os.path.isfile(os.path.join(top, "crates.txt"))
    crate = name.replace("-", "_")
    built = os.path.join(top, "crates", crate, "out", crate)
    own = _released(top, name) or (built if _can_run(built) else None) if is_clone else _installed(name)
    found = own or on_path(name)
    if found:
        return found
    if is_clone:
        raise NotFound(f"{name} isn't built in {top}: run ./relint once, or name another program in {variable}")
    raise NotFound(f"the program {name} isn't on the PATH: install it, or name it in the variable {variable}")


def on_path(name: str) -> Optional[str]:
    """Returns the path of the first file `name` in a folder of the PATH that can be run, or None if there is none.

    Entries of the PATH that aren't absolute are skipped. None too if `name` has a slash. If PATH is unset, os.defpath counts.
    """
    for entry in os.environ.get("PATH", os.defpath).split(os.pathsep):
        found = os.path.join(entry, name)
        if os.path.isabs(entry) and not os.path.dirname(name) and _can_run(found):
            return found
    return None


def _can_run(path: str) -> bool:
    """Whether a path is a file that this process may execute."""
    return os.path.isfile(path) and os.access(path, os.X_OK)


def _package() -> str:
    """The folder of the package, without links."""
    return os.path.dirname(os.path.dirname(os.path.realpath(__file__)))


def _released(top: str, name: str) -> Optional[str]:
    """The program of the clone's release for this machine, or None if there is none; it must be the file that INFO names."""
    machine = MACHINES.get(platform.machine().lower(), "none")
    found = os.path.join(top, "release", machine, name)
    if not os.path.isfile(found):
        return None
    try:
        with open(os.path.join(top, "release", "INFO"), encoding="ascii") as file:
            said = dict(it.split(None, 1) for it in file.read().splitlines() if " " in it)
    except (OSError, ValueError) as error:
        raise ProgramError(f"{top}/release/INFO can't be read: {error}") from error
    if said.get(f"{FRONTS[name]}program-{machine}") != _sum(found) or not _can_run(found):
        raise ProgramError(f"{found} isn't the file that release/INFO names, or can't be run: git checkout -- release")
    return found


def _sum(path: str) -> str:
    """The SHA-256 of a program in hexadecimal digits."""
    with open(path, "rb") as file:
        return str(importlib.import_module("hashlib").sha256(file.read(LARGEST_PROGRAM)).hexdigest())


def _installed(name: str) -> Optional[str]:
    """The program that was installed with this package, as the installer noted it, or None if there is none."""
    packages = os.path.dirname(_package())
    for path, size in _recorded(packages):
        found = os.path.normpath(os.path.join(packages, path))
        if os.path.basename(found) == name and _can_run(found):
            if os.path.getsize(found) != size:
                raise ProgramError(f"{found} isn't the program that was installed with this package: install relint again")
            return found
    return None


def _recorded(packages: str) -> List[Tuple[str, int]]:
    """The paths and sizes of the programs that the installer noted in its file RECORD in the folder `packages`."""
    try:
        notes = [it for it in os.listdir(packages) if it.startswith("relint-") and it.endswith(".dist-info")]
        with open(os.path.join(packages, notes[0], "RECORD"), encoding="utf-8") as file:
            rows = [it.rstrip("\n").rsplit(",", 2) for it in file]
    except (OSError, ValueError, IndexError):
        return []
    whole = [it for it in rows if len(it) == 3 and it[2].isdigit()]
    return [(path, int(size)) for path, _, size in whole if "/bin/" in f"/{path}"]


class Running:
    """A program that runs. `out` reads its output; `into` writes its input, and is -1 if that is empty.

    Its errors are dropped. `end` has to be called once; it kills the program unless it has ended.
    """

    def __init__(self, words: Sequence[str], has_input: bool = False, environment: Optional[Mapping[str, str]] = None) -> None:
        """Starts a program: the absolute path of its file, and its arguments. Raises ProgramError if it can't be started."""
        pipe, null = subprocess.PIPE, subprocess.DEVNULL
        try:
            self._process = subprocess.Popen(words, bufsize=0, stdin=pipe if has_input else null, stdout=pipe, stderr=null,
                                             env=environment)
        except (OSError, ValueError) as error:
            why = error.strerror if isinstance(error, OSError) else str(error)
            raise ProgramError(f"{words[0]} can't be run: {why}") from error
        assert self._process.stdout is not None
        self.out = self._process.stdout.fileno()
        self.into = self._process.stdin.fileno() if self._process.stdin is not None else -1
        # (its memory is bounded, if the system lets it)
        with suppress(AttributeError, OSError, ValueError):
            hard = resource.getrlimit(resource.RLIMIT_AS)[1]
            most = MOST_MEMORY if hard == resource.RLIM_INFINITY else min(MOST_MEMORY, hard)
            resource.prlimit(self._process.pid, resource.RLIMIT_AS, (most, hard))

    def end(self, at_once: bool = True) -> int:
        """Waits until the program has ended, after killing it if `at_once`; returns its status, -N if signal N ended it."""
        if at_once:
            self._process.kill()
        for it in (self._process.stdout, self._process.stdin):
            if it is not None:
                it.close()
        return self._process.wait()


def output_of(
    words: Sequence[str], seconds: float, most: int, environment: Optional[Mapping[str, str]] = None,
) -> Tuple[int, bytes]:
    """Runs a program with an empty input; returns its status, as `Running.end` does, and its output.

    Raises ProgramError if it can't be run, takes longer than `seconds`, or writes more than `most` bytes.
    """
    ends, parts, size = time.monotonic() + seconds, [], 0
    running = Running(words, environment=environment)
    is_over = False
    try:
        while not is_over:
            if not select.select([running.out], [], [], max(0.0, ends - time.monotonic()))[0]:
                raise ProgramError(f"{words[0]} took more than {seconds:g} s")
            part = os.read(running.out, READ_AT_A_TIME)
            parts.append(part)
            size += len(part)
            if size > most:
                raise ProgramError(f"{words[0]} wrote more than {most:,} bytes")
            is_over = not part
    finally:
        status = running.end(not is_over)
    return status, b"".join(parts)
