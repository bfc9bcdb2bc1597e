"""What tests of the tools share: whether there is a program to run, folders with sources, and runs of a tool."""
from __future__ import annotations

import contextlib
import os
import subprocess
import sys
import tempfile
from pathlib import Path
from typing import Dict, Iterator, Mapping, NamedTuple, Optional

from relint.engine import program

TOP = Path(__file__).resolve().parents[2]
# (what a developer's own cache holds changes no test)
os.environ["XDG_CACHE_HOME"] = os.path.join(tempfile.gettempdir(), "relint-tests-have-no-cache")


class Ran(NamedTuple):
    """What a run of a tool gave."""

    status: int
    out: str
    err: str


def no_program() -> str:
    """Returns why there is no program to run, or nothing where there is one."""
    try:
        program.located("relint")
    except program.ProgramError as error:
        return str(error)
    return ""


@contextlib.contextmanager
def folder(files: Mapping[str, object]) -> Iterator[Path]:
    """Makes a folder with these files (text or bytes), steps into it, and takes it away afterwards."""
    before = os.getcwd()
    with tempfile.TemporaryDirectory(prefix="relint tools ") as name:
        for path, data in files.items():
            file = Path(name, path)
            file.parent.mkdir(parents=True, exist_ok=True)
            file.write_bytes(data if isinstance(data, bytes) else str(data).encode("utf-8"))
        os.chdir(name)
        try:
            yield Path(name)
        finally:
            os.chdir(before)


def tool(name: str, *words: str, given: Optional[bytes] = None, environment: Optional[Dict[str, str]] = None) -> Ran:
    """Runs a script of tools/, or of the folder that the name begins with, in a process of its own."""
    ran = subprocess.run(
        [sys.executable, str(TOP / (name if "/" in name else f"tools/{name}")), *words],
        input=given if given is not None else b"",
        stdout=subprocess.PIPE,
        stderr=subprocess.PIPE,
        env={**os.environ, "PYTHONIOENCODING": "utf-8", **(environment or {})},
        timeout=1200,
    )
    return Ran(ran.returncode, ran.stdout.decode("utf-8"), ran.stderr.decode("utf-8"))
