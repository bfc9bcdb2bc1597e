"""The runner of `./test`: one module for each part, and what they share."""
from __future__ import annotations

import sys
from pathlib import Path

_TREE = Path(__file__).resolve().parents[2]
# The tests use the package and the build backend of this tree, whatever is installed.
sys.path[:0] = [it for it in (str(_TREE / "python"), str(_TREE / "packaging")) if it not in sys.path]
