"""Runs rlt in many processes that begin at once, as each is split off from one that has the command loaded.

    PYTHON -I -B forks.py FOLDER AT_ONCE <jobs

FOLDER holds the package `relint`. Each line of the input is a job in JSON: `tool` is a module of the package, or "" for a
program whose path is the first of the `words`; `cwd` is its folder; `given`, `out` and `err` are the files of its input and
its outputs; `seconds` and `megabytes` are what it may take. For each job a line comes, in order: the status (below 0 for a
signal, null if its seconds were over), the seconds by the clock, and the most memory in megabytes.
"""
from __future__ import annotations

import importlib
import io
import json
import os
import resource
import signal
import sys
import time
import traceback
from typing import Any, Dict, List, NoReturn, Optional, Tuple

TOOLS = {"rlt": "relint.cli"}
PAUSE = 0.002


def load(folder: str) -> Dict[str, Any]:
    """The tools' modules by their names."""
    sys.path.insert(0, folder)
    return {name: importlib.import_module(module) for name, module in TOOLS.items()}


def _open(job: Dict[str, Any]) -> None:
    """Makes the job's files the inputs and outputs of this process."""
    made = os.O_WRONLY | os.O_CREAT | os.O_TRUNC
    for number, (name, how) in enumerate([("given", os.O_RDONLY), ("out", made), ("err", made)]):
        opened = os.open(job[name], how, 0o600)
        os.dup2(opened, number)
        os.close(opened)
    sys.stdin = io.TextIOWrapper(io.BufferedReader(io.FileIO(0, closefd=False)), encoding="utf-8")
    for name, number in (("stdout", 1), ("stderr", 2)):
        raw = io.BufferedWriter(io.FileIO(number, "w", closefd=False))
        errors = "strict" if name == "stdout" else "backslashreplace"
        setattr(sys, name, io.TextIOWrapper(raw, encoding="utf-8", errors=errors, write_through=True))


def _limit(job: Dict[str, Any]) -> None:
    most = int(job["megabytes"]) * 1_000_000
    resource.setrlimit(resource.RLIMIT_AS, (most, most))
    resource.setrlimit(resource.RLIMIT_CORE, (0, 0))


def _status_of(tool: Any, words: List[str]) -> int:
    """Runs a tool's main, and answers what the process would end with."""
    sys.argv = ["rlt", *words]
    try:
        found = tool.main()
    except SystemExit as end:
        found = end.code
    except BaseException:  # (as the interpreter would say it)
        traceback.print_exc()
        found = 1
    return found if isinstance(found, int) else 0 if found is None else 1


def _be(job: Dict[str, Any], tools: Dict[str, Any]) -> NoReturn:
    """Becomes the job."""
    status = 125
    try:
        os.setsid()
        os.chdir(job["cwd"])
        _open(job)
        _limit(job)
        if job["tool"]:
            status = _status_of(tools[job["tool"]], job["words"])
            sys.stdout.flush()
            sys.stderr.flush()
        else:
            os.execv(job["words"][0], job["words"])
    except BaseException:  # (nothing of this process may go on in the child)
        traceback.print_exc()
        sys.stderr.flush()
    finally:
        os._exit(status & 255)


def _begin(job: Dict[str, Any], tools: Dict[str, Any]) -> int:
    sys.stdout.flush()
    pid = os.fork()
    if pid == 0:
        _be(job, tools)
    return pid


def run(jobs: List[Dict[str, Any]], tools: Dict[str, Any], at_once: int) -> List[Tuple[Optional[int], float, float]]:
    """Runs all jobs, `at_once` at a time."""
    answers: Dict[int, Tuple[Optional[int], float, float]] = {}
    running: Dict[int, Tuple[int, float]] = {}
    left = list(enumerate(jobs))[::-1]
    while left or running:
        while left and len(running) < at_once:
            number, job = left.pop()
            running[_begin(job, tools)] = (number, time.monotonic())
        _take_ended(jobs, running, answers)
        time.sleep(PAUSE)
    return [answers[it] for it in range(len(jobs))]


def _take_ended(jobs: List[Dict[str, Any]], running: Dict[int, Tuple[int, float]],
                answers: Dict[int, Tuple[Optional[int], float, float]]) -> None:
    for pid, (number, began) in list(running.items()):
        took = time.monotonic() - began
        is_late = took > jobs[number]["seconds"]
        if is_late:
            _kill(pid)
        ended, raw, usage = os.wait4(pid, 0 if is_late else os.WNOHANG)
        if ended:
            _kill(pid)
            status = -os.WTERMSIG(raw) if os.WIFSIGNALED(raw) else os.WEXITSTATUS(raw)
            answers[number] = (None if is_late else status, took, usage.ru_maxrss / 1000)
            del running[pid]


def _kill(group: int) -> None:
    """Ends what is left of a job's processes."""
    try:
        os.killpg(group, signal.SIGKILL)
    except (ProcessLookupError, PermissionError):
        pass


def main() -> None:
    """Reads the jobs, runs them, and writes what came."""
    tools = load(sys.argv[1])
    jobs = [json.loads(line) for line in sys.stdin]
    for answer in run(jobs, tools, int(sys.argv[2])):
        print(json.dumps(answer))


if __name__ == "__main__":
    main()
