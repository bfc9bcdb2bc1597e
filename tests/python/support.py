"""What tests share that run the program: where it is."""
from __future__ import annotations

from pathlib import Path
from typing import Optional

from relint.engine.program import ProgramError, located

ROOT = Path(__file__).resolve().parents[2]


def built() -> Optional[str]:
    """The program, or None where it isn't built: no test begins a build."""
    try:
        found = located("relint")
    except ProgramError:
        return None
    if found == str(ROOT / "relint") and not (ROOT / "crates/relint/out/relint").is_file():
        return None
    return found
