"""What tests of files, engine and pipeline share: folders with sources, and whether there are programs to run."""
from __future__ import annotations

import contextlib
import os
import tempfile
from pathlib import Path
from typing import Iterator, Mapping

from relint.engine.program import ProgramError, located

TOP = Path(__file__).resolve().parents[2]
# (what a developer's own cache holds changes no test)
os.environ["XDG_CACHE_HOME"] = os.path.join(tempfile.gettempdir(), "relint-tests-have-no-cache")


def missing(*names: str) -> str:
    """Returns why one of the programs isn't there, or "" if all are."""
    try:
        for it in names or ("relint",):
            located(it)
    except ProgramError as error:
        return str(error)
    return ""


@contextlib.contextmanager
def folder(files: Mapping[str, object]) -> Iterator[Path]:
    """Makes a folder with these files (text or bytes), steps into it, and takes it away afterwards."""
    before = os.getcwd()
    with tempfile.TemporaryDirectory() as made:
        here = Path(made).resolve()
        for name, content in files.items():
            path = here / name
            path.parent.mkdir(parents=True, exist_ok=True)
            path.write_bytes(content if isinstance(content, bytes) else str(content).encode("utf-8"))
        os.chdir(here)
        try:
            yield here
        finally:
            os.chdir(before)
