"""The parts that are programs of their own, such as `launcher`, `packaging` and `crosscheck`."""
from __future__ import annotations

import os
from typing import List

from runner.programs import TREE, Program, run_command
from runner.results import Failed, Result, Skipped

_CANNOT_RUN = 77
# (far more than it takes: on a machine with much other work it takes ten times as long)
_SECONDS = 7200
_LAST_LINES = 40


def _judge(words: List[str], program: Program) -> None:
    """Runs a program of the tree; its status says whether it passes, fails or can't run here."""
    path = TREE / words[0]
    if path.is_dir() or not os.access(str(path), os.X_OK):
        raise Skipped("there is no program " + words[0])
    environment = dict(os.environ, RELINT=str(program.path))
    answer = run_command([str(path)] + words[1:], TREE, environment, _SECONDS, together=True)
    lines = answer.stdout.strip().splitlines()
    if answer.status == _CANNOT_RUN:
        raise Skipped(lines[-1] if lines else "it can't run here")
    if answer.status != 0:
        shown = "\n".join("      " + line for line in lines[-_LAST_LINES:])
        raise Failed("%s ended with status %d:\n%s" % (words[0], answer.status, shown))


def _result(words: List[str], program: Program) -> Result:
    result = Result()
    result.take(words[0], lambda: _judge(words, program))
    return result


def launcher(program: Program) -> Result:
    """What `./relint` does."""
    return _result(["tests/launcher"], program)


def packaging(program: Program) -> Result:
    """What `pip install .` does."""
    return _result(["tests/packaging"], program)


def fuzz(program: Program) -> Result:
    """A thousand random and changed inputs, for the program and for the readers of the tools."""
    return _result(["fuzz/run", "--count", "1000"], program)


def faults(program: Program) -> Result:
    """Calls to the system that fail or come short, some of those that `tests/faults` tries."""
    return _result(["tests/faults", "--every", "200"], program)


def valgrind(program: Program) -> Result:
    """Some worked rows under valgrind."""
    return _result(["tests/valgrind", "--every", "40"], program)


def crosscheck(program: Program, count: int = 1000) -> Result:
    """Random patterns and texts against the `re` of the Python that runs this; `count` is the number of pairs."""
    return _result(["tools/crosscheck", "1", str(count)], program)
