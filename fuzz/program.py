"""Runs of a program with limits, and what came of them."""
from __future__ import annotations

import os
import platform
import resource
import subprocess
import tempfile
from dataclasses import dataclass
from pathlib import Path
from typing import List, Sequence

# What a run may take: seconds of processor time, and megabytes of memory.
SECONDS, MEGABYTES = 20, 700
# The most memory that it can get, in bytes: so it ends with its own word for that, and not the system's.
ROOM = 3_000_000_000
USAGE = "usage: relint check [OPTIONS] PATH.."
OF_MEMORY = 5


class Wrong(Exception):
    """Raised if a program or a reader did something else than it has to; the message says what."""


@dataclass(frozen=True)
class Ran:
    """How a run ended, and what it wrote.

    `words` are the words that it was given. `status` is below 0 if a signal ended it: then it is the number of the signal with
    a minus. `out` and `err` are its standard output and standard error, and `megabytes` the most memory that it held.
    """

    words: Sequence[str]
    status: int
    out: bytes
    err: bytes
    megabytes: float

    def text(self) -> str:
        """Returns standard output as text. Raises Wrong if it isn't UTF-8."""
        try:
            return self.out.decode("utf-8")
        except UnicodeDecodeError as error:
            raise Wrong("standard output isn't UTF-8: %s" % error) from None

    def need(self, holds: bool, what: str) -> None:
        """Raises Wrong, with what the run did, unless it `holds`; `what` says what is wrong."""
        if not holds:
            raise Wrong("%s\n  words %r\n  status %d, standard output %r, standard error %r"
                        % (what, list(self.words)[:12], self.status, self.out[:400], self.err[:400]))


class Runner:
    """Runs relint in a scratch folder."""

    def __init__(self, program: str, folder: Path) -> None:
        """Takes the path of relint, and the folder."""
        self.program = program
        self.folder = folder

    def put(self, name: str, data: bytes) -> str:
        """Writes a file into the folder, in place of any that has this name, and returns its name."""
        (self.folder / name).write_bytes(data)
        return name

    def run(self, words: Sequence[str]) -> Ran:
        """Runs relint with these words in the folder, and returns how it ended and what it wrote.

        Raises Wrong if the run doesn't do what `_check` demands of every run, or if the words have a byte 0.
        """
        with tempfile.TemporaryFile() as out, tempfile.TemporaryFile() as err:
            try:
                begun = subprocess.Popen([self.program, *words], cwd=str(self.folder), stdin=subprocess.DEVNULL, stdout=out,
                                         stderr=err)
            except ValueError as error:  # (a word with a byte 0)
                raise Wrong("the words can't be given: %s" % error) from None
            _limit(begun.pid)
            _, raw, usage = os.wait4(begun.pid, 0)
            begun.returncode = status = -os.WTERMSIG(raw) if os.WIFSIGNALED(raw) else os.WEXITSTATUS(raw)
            out.seek(0)
            err.seek(0)
            ran = Ran(words, status, out.read(), err.read(), usage.ru_maxrss / 1000)
        _check(ran)
        return ran


def _limit(pid: int) -> None:
    """Limits the processor time and the memory of a process, unless it has ended."""
    try:
        resource.prlimit(pid, resource.RLIMIT_CPU, (SECONDS, SECONDS))
        resource.prlimit(pid, resource.RLIMIT_AS, (ROOM, ROOM))
    except ProcessLookupError:
        pass


def _check(ran: Ran) -> None:
    """Raises Wrong unless the status is one from 0 to 6 other than OF_MEMORY, and the memory at most MEGABYTES.

    Raises it too if standard output isn't empty and has no line end at its end. With the status 0 or 1, it mustn't be empty,
    and standard error has to be empty; with 2, it has to be empty, and standard error a message.
    """
    ran.need(0 <= ran.status <= 6, "a status that no page has (-24: over %d s of processor time)" % SECONDS)
    ran.need(ran.status != OF_MEMORY, "out of memory with %d MB" % (ROOM // 1_000_000))
    ran.need(ran.megabytes <= MEGABYTES, "it takes %d MB" % ran.megabytes)
    ran.need(not ran.out or ran.out.endswith(b"\n"), "standard output doesn't end with a line end")
    if ran.status in (0, 1):
        ran.need(bool(ran.out) and not ran.err, "a status of an answer without one, or with a message")
    elif ran.status == 2:
        ran.need(not ran.out, "a refusal that writes to standard output")
        ran.need(_is_message(ran.err), "a refusal without its one line")


def _is_message(err: bytes) -> bool:
    """Returns whether standard error is one line that begins with "relint: ", or begins with USAGE."""
    text = err.decode("utf-8", "replace")
    return text.startswith(USAGE) or (text.startswith("relint: ") and text.count("\n") == 1 and text.endswith("\n"))


def alike(one: Ran, other: Ran, what: str) -> None:
    """Raises Wrong unless two runs gave the same status and wrote the same; `what` says what is wrong then."""
    other.need((one.status, one.out, one.err) == (other.status, other.out, other.err),
               "%s: the first answered status %d, %r, %r" % (what, one.status, one.out[:300], one.err[:300]))


def found_program(named: str, top: Path) -> str:
    """Returns the absolute path of the program to test: `named` or, if that is "", the first that was built or released.

    `top` is the top of the repository. Ends this program with a message if that isn't there or can't be run.
    """
    built = [top / "crates/relint/out/relint", top / "release/relint", top / "release" / platform.machine() / "relint"]
    places: List[Path] = [Path(named)] if named else built
    for place in places:
        if place.is_file() and os.access(str(place), os.X_OK):
            return str(place.resolve())
    raise SystemExit("fuzz/run: there is no program %s" % places[0])
