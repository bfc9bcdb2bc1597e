"""What the commands of `bench/` share: runs of a program with its processor time and memory, and where the program is."""
from __future__ import annotations

import argparse
import ctypes
import os
import signal
import sys
from pathlib import Path
from typing import List, NamedTuple, NoReturn, Optional, Sequence, Tuple

TOP = Path(__file__).resolve().parents[1]
BUILT = TOP / "crates" / "relint" / "out" / "relint"
_BE_SUBREAPER = 36
# The shell splits off the program and ends, and only then does the program begin: so it is ours to wait for, and not the
# shell's. Linux counts to a process the memory of the one that it was split from: 2 MB for a shell, 14 MB for Python.
_START = 'out=$0 err=$1; ulimit -t "$2"; shift 2; { read -r go <&4; exec "$@" >"$out" 2>"$err" 4<&-; } & echo $!'


class Run(NamedTuple):
    """A run of a program: its status, its processor time in seconds, and the most memory that it held, in MB of 1024 kB.

    The status is 128 plus the number of the signal if a signal ended it.
    """

    status: int
    seconds: float
    megabytes: float


def fail(message: str) -> NoReturn:
    """Writes the message to standard error, after the command's name, and ends the command with status 2."""
    sys.stderr.write(f"{Path(sys.argv[0]).name}: {message}\n")
    sys.exit(2)


def program_at(path: Optional[str]) -> str:
    """Returns the absolute path of the program to measure: the one that is named, or else the one that was built here.

    Ends the command with status 2 if it isn't there or can't be run.
    """
    found = Path(path) if path else BUILT
    if not found.is_file() or not os.access(found, os.X_OK):
        hint = "" if path else "; build it, or name another program"
        fail(f"{found} isn't a program{hint}")
    return str(found.resolve())


def run(words: Sequence[str], limit: int = 600, out: str = os.devnull, err: str = os.devnull) -> Run:
    """Runs a program, and returns what it took; `words` are its path and its arguments.

    It is ended after `limit` seconds of processor time. `out` and `err` are the paths of files for what it writes, which are
    replaced. Ends the command with status 2 if the system doesn't let it wait for the program, or if the shell can't start it.
    """
    libc = ctypes.CDLL(None, use_errno=True)
    if libc.prctl(_BE_SUBREAPER, 1, 0, 0, 0) != 0:
        fail("this system doesn't let a program wait for processes that others began (Linux does)")
    program, begin = _split_off(["sh", "-c", _START, out, err, str(limit), *words])
    os.close(begin)
    try:
        _, raw, usage = os.wait4(program, 0)
    except BaseException:
        os.kill(program, signal.SIGKILL)
        raise
    status = 128 + os.WTERMSIG(raw) if os.WIFSIGNALED(raw) else os.WEXITSTATUS(raw)
    return Run(status, usage.ru_utime + usage.ru_stime, usage.ru_maxrss / 1024)


def _split_off(shell: List[str]) -> Tuple[int, int]:
    """Runs the shell with the words `shell`; it starts the program in the background, and ends.

    Returns the number of the program's process, and the end of a pipe: the program begins once that end is closed. Ends the
    command with status 2 if the shell starts no process.
    """
    (told, telling), (waiting, begin) = os.pipe(), os.pipe()
    actions = [(os.POSIX_SPAWN_DUP2, telling, 1), (os.POSIX_SPAWN_DUP2, waiting, 4)]
    pid = os.posix_spawn("/bin/sh", shell, dict(os.environ), file_actions=actions)
    os.close(telling)
    os.close(waiting)
    os.waitpid(pid, 0)
    with os.fdopen(told) as said:
        program = said.readline().strip()
    if not program:
        fail("the shell can't start a process")
    return int(program), begin


def least(runs: Sequence[Run]) -> Run:
    """Returns the first run with the least time, but with the least memory of all runs. There has to be a run."""
    best = min(runs, key=lambda it: it.seconds)
    return best._replace(megabytes=min(it.megabytes for it in runs))


def positive(text: str) -> int:
    """Returns the whole number above 0 that the text means. Raises ArgumentTypeError or ValueError for any other text."""
    if not text.isdigit() or int(text) == 0:
        raise argparse.ArgumentTypeError(f"{text} isn't a number above 0")
    return int(text)


def load() -> str:
    """Returns words for how busy the machine is: its number of processors, and its load in the last minute."""
    return f"{os.cpu_count()} processors, load {os.getloadavg()[0]:.1f}"


def shortened(text: str, most: int) -> str:
    """Returns the text or, if it has more than `most` characters, its beginning and its end with " .. " between them.

    That has at most `most` characters, a number from 6.
    """
    if len(text) <= most:
        return text
    half = (most - 4) // 2
    return f"{text[:half]} .. {text[-half:]}"


def table(head: Sequence[str], rows: Sequence[Sequence[str]]) -> List[str]:
    """Returns the lines of a table in Markdown, its columns padded; all columns except the first are aligned to the right."""
    whole: List[Sequence[str]] = [head, *rows]
    widths = [max(len(it[at]) for it in whole) for at in range(len(head))]
    lines = ["| " + " | ".join(_cell(it[at], widths[at], at) for at in range(len(head))) + " |" for it in whole]
    rule = "|" + "|".join("-" * (width + 2) if at == 0 else "-" * (width + 1) + ":" for at, width in enumerate(widths)) + "|"
    return [lines[0], rule, *lines[1:]]


def _cell(text: str, width: int, at: int) -> str:
    """Returns the text of a cell, padded to `width` characters; `at` is the number of its column, from 0."""
    return text.ljust(width) if at == 0 else text.rjust(width)
