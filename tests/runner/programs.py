"""The program that is tested, and how it is run."""
from __future__ import annotations

import os
import subprocess
from dataclasses import dataclass
from pathlib import Path
from typing import Dict, List, Optional

from runner.results import Failed

TREE = Path(__file__).resolve().parent.parent.parent


@dataclass(frozen=True)
class Answer:
    """What a run wrote and how it ended."""

    stdout: str
    stderr: str
    status: int


def clean_environment(**more: str) -> Dict[str, str]:
    """The environment of a test: UTF-8, no colours, and nothing that changes what Python or git do."""
    kept = {name: value for name, value in os.environ.items()
            if not name.startswith(("PYTHON", "GIT_", "LC_", "LANG", "RELINT", "PIP_", "PRE_COMMIT"))}
    kept.update({"LC_ALL": "C.UTF-8", "TERM": "dumb", "NO_COLOR": "1", "PYTHONDONTWRITEBYTECODE": "1"})
    kept.update(more)
    return kept


def run_command(command: List[str], folder: Path, environment: Optional[Dict[str, str]] = None,
                seconds: float = 600, together: bool = False, given: str = "") -> Answer:
    """Runs a command in a folder with an input; with `together` its standard error goes where its standard output goes.

    Raises `Failed` where there is no answer in time.
    """
    try:
        ended = subprocess.run(
            command, cwd=str(folder), env=environment or clean_environment(), timeout=seconds, input=given.encode(),
            stdout=subprocess.PIPE, stderr=subprocess.STDOUT if together else subprocess.PIPE, check=False)
    except subprocess.TimeoutExpired:
        raise Failed("no answer in %d seconds: %s" % (seconds, " ".join(command)[:200])) from None
    except OSError as error:
        raise Failed("%s: %s" % (command[0], error.strerror)) from None
    stderr = (ended.stderr or b"").decode("utf-8", "backslashreplace")
    return Answer(ended.stdout.decode("utf-8", "backslashreplace"), stderr, ended.returncode)


@dataclass(frozen=True)
class Program:
    """The relint that is tested."""

    path: Path

    def run(self, words: List[str], folder: Path, seconds: float = 600, given: str = "") -> Answer:
        """Runs it with these words and this input in a folder. Raises `Failed`."""
        return run_command([str(self.path)] + words, folder, seconds=seconds, given=given)


def tested_ask() -> Optional[Path]:
    """The file of relint-ask that is tested, or None if there is none.

    It is the program that `RELINT_ASK` names, else the one of release/ for this machine, else the one that was built here.
    """
    named = os.environ.get("RELINT_ASK", "")
    if named:
        return Path(os.path.abspath(named))
    released = TREE / "release" / os.uname().machine / "relint-ask"
    built = TREE / "crates" / "relint_ask" / "out" / "relint_ask"
    return next((it for it in (released, built) if it.is_file()), None)


_LAUNCHER = TREE / "relint"
# the launcher notes here, in the first line, which program it runs as long as the tree stays as it is
_STAMP = TREE / "crates" / "relint" / "out" / "stamp"


def tested_program() -> Program:
    """The program that `RELINT` names, else `./relint` of this tree."""
    named = os.environ.get("RELINT", "")
    return Program(Path(os.path.abspath(named)) if named else _LAUNCHER)


def behind_launcher(tested: Program) -> Program:
    """The program that `./relint` runs, if it has just been called and noted it; then later calls needn't look at the tree."""
    if tested.path != _LAUNCHER or not _STAMP.is_file():
        return tested
    first = _STAMP.read_text(encoding="utf-8").splitlines()[:1]
    path = TREE / first[0] if first and first[0] else _LAUNCHER
    return Program(path) if path.is_file() and os.access(str(path), os.X_OK) else tested
