"""The part `hardening`: how the programs of release/ are linked, as `readelf` shows it."""
from __future__ import annotations

import re
import shutil
from functools import partial
from pathlib import Path
from typing import List

from runner.programs import TREE, Program, run_command
from runner.results import Failed, Result

_SEGMENT = re.compile(r"^  (LOAD|GNU_STACK|GNU_RELRO) .* ([R ][W ][E ]) (?:0x)?[0-9a-f]+$", re.MULTILINE)


def programs() -> List[Path]:
    """The programs of release/."""
    found = []
    for path in sorted((TREE / "release").rglob("*")):
        if path.is_file() and not path.is_symlink():
            with path.open("rb") as opened:
                found += [path] if opened.read(4) == b"\x7fELF" else []
    return found


def _shown(path: Path, option: str) -> str:
    answer = run_command(["readelf", "-W", option, str(path)], TREE)
    if answer.status != 0:
        raise Failed("readelf doesn't read it: " + answer.stderr)
    return answer.stdout


def _is_placed_anywhere(path: Path) -> None:
    """The system can put it at any address (PIE)."""
    if not re.search(r"^ *Type: +DYN ", _shown(path, "-h"), re.MULTILINE):
        raise Failed("it has a fixed address: it isn't position independent")
    if not re.search(r"\(FLAGS_1\) .*\bPIE\b", _shown(path, "-d")):
        raise Failed("it is a library, and no program: the flag PIE isn't there")


def _is_bound_at_once(path: Path) -> None:
    """What the loader fills in can't be written later (full RELRO)."""
    if "GNU_RELRO" not in [kind for kind, _ in _segments(path)]:
        raise Failed("there is no segment that can't be written after the start (RELRO)")
    shown = _shown(path, "-d")
    # (a static program has no names to bind: then there is nothing that a flag could say)
    if "(NEEDED)" in shown and not re.search(r"\(FLAGS\) .*BIND_NOW|\(FLAGS_1\) .*\bNOW\b|\(BIND_NOW\)", shown):
        raise Failed("names are bound at their first use, so their table can be written (BIND_NOW is missing)")


def _segments(path: Path) -> List[List[str]]:
    return [list(it) for it in _SEGMENT.findall(_shown(path, "-l"))]


def _has_a_plain_stack(path: Path) -> None:
    """The stack can't be executed (NX)."""
    flags = [flags for kind, flags in _segments(path) if kind == "GNU_STACK"]
    if not flags:
        raise Failed("no segment says that the stack can't be executed")
    if "E" in flags[0]:
        raise Failed("the stack can be executed")


def _is_never_both(path: Path) -> None:
    """No part of the memory can be written and executed."""
    loaded = [flags for kind, flags in _segments(path) if kind == "LOAD"]
    if not loaded:
        raise Failed("no segment is loaded")
    if any("W" in flags and "E" in flags for flags in loaded):
        raise Failed("a segment can be written and executed")


def _keeps_its_code(path: Path) -> None:
    """The loader doesn't change the code (no text relocations)."""
    if re.search(r"\(TEXTREL\)|\(FLAGS\) .*\bTEXTREL\b", _shown(path, "-d")):
        raise Failed("the loader has to change the code (TEXTREL)")


_TESTS = {
    "position independent": _is_placed_anywhere, "full RELRO": _is_bound_at_once, "no stack to execute": _has_a_plain_stack,
    "no segment to write and execute": _is_never_both, "no text relocations": _keeps_its_code}


def run(program: Program) -> Result:
    """Looks at each program of release/."""
    result = Result()
    if not shutil.which("readelf"):
        result.skip("hardening", "readelf isn't installed")
        return result
    if not programs():
        result.skip("hardening", "there is no program in release/")
    for path in programs():
        for name, test in _TESTS.items():
            result.take("%s: %s" % (path.relative_to(TREE), name), partial(test, path))
    return result
