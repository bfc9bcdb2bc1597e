"""The part `arm64`: the program for ARM64, under an emulator: rows, examples, the cross-check, and a real library."""
from __future__ import annotations

import os
import platform
import shlex
import shutil
import sysconfig
import tempfile
from functools import partial
from pathlib import Path
from typing import List, Tuple

from runner import examples, outside, rows, scratch
from runner.programs import TREE, Answer, Program
from runner.results import Failed, Result

EMULATOR = "qemu-aarch64-static"
RELEASED = TREE / "release" / "aarch64" / "relint"
_TIMES = 20
# a start takes the emulator some 50 ms, and each pair has several
_PAIRS = 100
# what of Python's library isn't checked: what is installed beside it, and its tests, which take longer than all the rest
_LEFT_OUT = {"site-packages", "dist-packages", "test", "lib-dynload", "__pycache__"}


class Emulated(Program):
    """A program under an emulator, which takes some twenty times as long."""

    def run(self, words: List[str], folder: Path, seconds: float = 60, given: str = "") -> Answer:
        """Runs it, with twenty times as long to answer."""
        return super().run(words, folder, seconds * _TIMES, given)


def other_program() -> Path:
    """The program to test: the one that RELINT_OTHER names, else that of release/."""
    named = os.environ.get("RELINT_OTHER", "")
    return Path(os.path.abspath(named)) if named else RELEASED


def what_is_missing() -> str:
    """Why the program can't be tested here, "" if it can."""
    if platform.machine() in ("aarch64", "arm64"):
        return "this machine is of ARM64, so the other parts try the program"
    if not shutil.which(EMULATOR):
        return "the emulator %s isn't installed: tools/release-packages" % EMULATOR
    if not other_program().is_file():
        return "there is no %s: tools/release makes it" % os.path.relpath(str(other_program()), str(TREE))
    return ""


def emulated(folder: Path) -> Program:
    """The program, as a script that runs it under the emulator."""
    path = folder / "relint-arm64"
    scratch.write_script(path, "#!/bin/sh\nexec %s %s \"$@\"\n" % (EMULATOR, shlex.quote(str(other_program()))))
    return Emulated(path)


def library() -> List[str]:
    """The files and folders of Python's library that both programs check."""
    folder = Path(sysconfig.get_paths()["stdlib"])
    names = sorted(it.name for it in folder.iterdir() if it.is_dir() or it.suffix == ".py")
    return [str(folder / name) for name in names if name not in _LEFT_OUT]


def _same(words: List[str], one: Program, other: Program) -> None:
    """Raises `Failed` if the two programs don't answer the same bytes."""
    answers: Tuple[Answer, Answer] = (one.run(words, TREE), other.run(words, TREE))
    if answers[0] != answers[1]:
        shown = ["status %d and %d bytes" % (it.status, len(it.stdout)) for it in answers]
        raise Failed("the program for ARM64 answers otherwise: %s, and %s" % (shown[1], shown[0]))
    if answers[0].status not in (0, 1) or not answers[0].stdout:
        raise Failed("both programs end with status %d: %s" % (answers[0].status, answers[0].stderr))


def compared(program: Program, other: Program) -> Result:
    """The same calls of both programs, over the library and over what `sample` makes."""
    result = Result()
    paths = library()
    calls: List[Tuple[str, List[str]]] = [
        ("the library as JSON", ["check", "--format", "json", *paths]),
        ("the library in brief, degrees above 1", ["check", "--format", "brief", "--max-degree", "1", *paths]),
        ("the library as SARIF", ["check", "--format", "sarif", *paths]),
        ("a sample", ["sample", "7", "300"]),
        ("a certificate", ["prove", r"(\w+,?)*x"]),
    ]
    for name, words in calls:
        result.take(name, partial(_same, words, program, other))
    return result


def run(program: Program) -> Result:
    """Tries all that an executable can be tried on."""
    result = Result()
    missing = what_is_missing()
    if missing:
        result.skip("arm64", missing)
        return result
    with tempfile.TemporaryDirectory() as folder:
        other = emulated(Path(folder))
        result.add(compared(program, other))
        result.add(rows.run(other))
        result.add(examples.run(other))
        result.add(outside.crosscheck(other, _PAIRS))
    return result
