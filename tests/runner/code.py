"""The part `python`: the unit tests of `tests/python`, and what flake8 and mypy say of the Python code."""
from __future__ import annotations

import concurrent.futures
import os
import re
import shutil
import sys
from pathlib import Path
from typing import List

from runner import scratch
from runner.programs import Program, TREE, clean_environment, run_command, tested_ask
from runner.results import Failed, Result

_TESTS = Path("tests") / "python"
_LONGEST_LINE = 127
_LAST_LINES = 60
# (far more than it takes, as for a machine with much other work)
_SECONDS = 7200
_SUMMARY = re.compile(r"^Ran ([0-9]+) tests? in", re.MULTILINE)
_SKIPPED = re.compile(r"^(?:OK|FAILED) \(.*skipped=([0-9]+)", re.MULTILINE)
# where the Python code is that is checked
_FOLDERS = ("bench", "examples", "fuzz", "packaging", "python", "tests", "tools")


def python_files(folder: str) -> List[Path]:
    """The Python code of a folder of the project: files `.py`, and programs that name Python first; none of the data."""
    return [path for path in scratch.files_of_tree()
            if path.parts[0] == folder and path.parts[:2] != ("tests", "data") and not (TREE / path).is_symlink()
            and (path.suffix == ".py" or _is_script(TREE / path))]


def _is_script(path: Path) -> bool:
    if path.suffix or not os.access(str(path), os.X_OK) or path.is_dir():
        return False
    with path.open("rb") as opened:
        first = opened.readline(200)
    return first.startswith(b"#!") and b"python" in first


def _unit_tests_of(path: Path, program: Program, wanted: str = "") -> Result:
    """Runs the unit tests of one file, or those that have `wanted` in their names, if there are any."""
    result = Result()
    paths = [str(TREE / "python"), str(TREE / "tests")]
    environment = clean_environment(PYTHONPATH=os.pathsep.join(paths), RELINT=str(program.path))
    ask = tested_ask()
    if ask is not None:
        environment["RELINT_ASK"] = str(ask)
    command = [sys.executable, "-B", "-m", "unittest", "discover", "-s", str(_TESTS), "-p", path.name]
    if wanted:
        command += ["-k", wanted]
    try:
        answer = run_command(command, TREE, environment, _SECONDS, together=True)
    except Failed as failure:
        result.fail(str(path), str(failure))
        return result
    found = _SUMMARY.search(answer.stdout)
    skipped = _SKIPPED.search(answer.stdout)
    count = int(found.group(1)) if found else 0
    left_out = int(skipped.group(1)) if skipped else 0
    if wanted and found and not count:
        return result
    if answer.status == 0 and count:
        result.passed += count - left_out
        if left_out:
            result.skip(str(path), "%d of its tests skip themselves" % left_out)
    else:
        result.fail(str(path), "\n" + "\n".join("      " + line for line in answer.stdout.strip().splitlines()[-_LAST_LINES:]))
    return result


def _unit_tests(program: Program) -> Result:
    """Runs the unit tests, some files at a time."""
    paths = _test_files()
    result = _unit_tests_of_some(paths, program, "")
    if not paths:
        result.skip(str(_TESTS), "there are no unit tests")
    return result


def _test_files() -> List[Path]:
    return sorted(path.relative_to(TREE) for path in (TREE / _TESTS).glob("test_*.py"))


def _unit_tests_of_some(paths: List[Path], program: Program, wanted: str) -> Result:
    result = Result()
    with concurrent.futures.ThreadPoolExecutor(os.cpu_count() or 1) as pool:
        for answer in pool.map(lambda path: _unit_tests_of(path, program, wanted), paths):
            result.add(answer)
    return result


def run_some(program: Program, wanted: str) -> Result:
    """Runs the unit tests of the files with `wanted` in their names, or if there are none, those with it in their own."""
    files = [path for path in _test_files() if wanted in path.name]
    result = _unit_tests_of_some(files or _test_files(), program, "" if files else wanted)
    if not (result.passed or result.failures or result.skips):
        result.fail(wanted, "no unit test has this in its name")
    return result


def _check(name: str, words: List[str], folders: List[str], result: Result) -> None:
    """Runs a checker over the code of each folder. Status 0 passes."""
    if not shutil.which(name):
        result.skip(name, "%s isn't installed" % name)
        return
    for folder in folders:
        files = [str(path) for path in python_files(folder)]
        paths = os.pathsep.join(str(TREE / place) for place in sorted({folder, "python", "tests"}) if (TREE / place).is_dir())
        answer = run_command([name] + words + files, TREE, clean_environment(MYPYPATH=paths), _SECONDS, together=True)
        if answer.status == 0:
            result.passed += 1
        else:
            lines = answer.stdout.strip().splitlines()[-_LAST_LINES:]
            result.fail("%s of %s/" % (name, folder), "\n" + "\n".join("      " + line for line in lines))


def run(program: Program) -> Result:
    """Runs the unit tests and both checkers."""
    result = Result()
    folders = [folder for folder in _FOLDERS if python_files(folder)]
    try:
        result.add(_unit_tests(program))
        _check("flake8", ["--max-line-length=%d" % _LONGEST_LINE], folders, result)
        _check("mypy", ["--strict", "--scripts-are-modules"], folders, result)
    except Failed as failure:
        result.fail("python", str(failure))
    return result
