"""The part `hostile`: every tool, script, hook and action over a repository that an attacker wrote.

`TOOLS_PYTHON` names the Python that runs the tools, by default the one that runs the tests.
"""
from __future__ import annotations

import concurrent.futures
import os
import shutil
import sys
import tempfile
from pathlib import Path
from typing import Callable, List, Tuple

from hostile import files, patches, runs, tree, watch
from hostile.watch import Run, Watch
from runner import scratch
from runner.programs import TREE, Program, run_command, tested_ask
from runner.results import Failed, Result

# The runs are shared out to this many copies of the repository, since each run's changes have to be seen.
_COPIES = 3
Judged = List[Tuple[str, List[str]]]


def tools_python() -> str:
    """The Python that runs the tools, as a path."""
    named = os.environ.get("TOOLS_PYTHON", "")
    return os.path.abspath(shutil.which(named) or named) if named else sys.executable


def _place(folder: Path, program: Program) -> runs.Place:
    """Where the tools are, and a folder with the package as an installation has it: no clone is round it."""
    shutil.copytree(str(TREE / "python" / "relint"), str(folder / "site" / "relint"),
                    ignore=shutil.ignore_patterns("__pycache__"))
    python = tools_python()
    watch.scripts(folder / "bin", python, program.path, TREE)
    return runs.Place(TREE, python, program.path, folder / "site")


def _watch_in(folder: Path, program: Program, bin_folder: Path) -> Watch:
    folder.mkdir()
    environment = scratch.environment_of(folder)
    environment["PATH"] = str(bin_folder) + os.pathsep + os.environ.get("PATH", os.defpath)
    environment["RELINT"] = str(program.path)
    environment["RLT_PYTHON"] = tools_python()
    ask = tested_ask()
    if ask is not None:
        environment["RELINT_ASK"] = str(ask)
    return Watch(tree.make(folder / "made", environment), environment)


def _in_repository(folder: Path, program: Program, place: runs.Place, judge: Callable[[Watch], Judged]) -> Judged:
    """Judges in a repository of its own."""
    watched = _watch_in(folder, program, place.site.parent / "bin")
    try:
        return judge(watched)
    finally:
        tree.unlock(watched.made)


def _runs(share: List[Run]) -> Callable[[Watch], Judged]:
    return lambda watched: [(run.name, watched.complaints(run)) for run in share]


def _files(place: runs.Place, folder: Path) -> Callable[[Watch], Judged]:
    def judge(watched: Watch) -> Judged:
        folder.mkdir()
        cases, came = files.every(watched, place, folder)
        return [(case.name, files.complaints(case, it)) for case, it in zip(cases, came)]
    return judge


def _patches(place: runs.Place) -> Callable[[Watch], Judged]:
    def judge(watched: Watch) -> Judged:
        return patches.judged(watched, place, [name for name in patches.APPLIERS if shutil.which(name)])
    return judge


def _over_repository(folder: Path, program: Program, result: Result) -> None:
    place = _place(folder, program)
    every = runs.every(place)
    judges = [_runs(every[at::_COPIES]) for at in range(_COPIES)] + [_files(place, folder / "files"), _patches(place)]
    with concurrent.futures.ThreadPoolExecutor(len(judges)) as pool:
        jobs = [pool.submit(_in_repository, folder / str(at), program, place, it) for at, it in enumerate(judges)]
        for job in jobs:
            for name, complaints in job.result():
                _take(result, name, complaints)


def _take(result: Result, name: str, complaints: List[str]) -> None:
    if complaints:
        result.fail(name, complaints[0] if len(complaints) == 1 else "\n".join(["", *("      " + it for it in complaints)]))
    else:
        result.passed += 1


def _check_python() -> None:
    answer = run_command([tools_python(), "-c", "import sys; print(sys.version_info >= (3, 9))"], TREE)
    if answer.stdout != "True\n":
        raise Failed("TOOLS_PYTHON names no Python 3.9 or later")


def run(program: Program) -> Result:
    """Runs all tools over the hostile repository."""
    result = Result()
    if not shutil.which("git"):
        result.skip("hostile", "git isn't installed")
        return result
    if not watch.may_lock():
        result.skip("what can't be read", "root reads everything here, and setpriv can't take that right")
    if not shutil.which("patch"):
        result.skip("rlt fix --diff, given to patch", "patch isn't installed")
    try:
        _check_python()
        with tempfile.TemporaryDirectory() as folder:
            _over_repository(Path(folder), program, result)
    except (Failed, OSError) as failure:
        result.fail("hostile", str(failure))
    return result
