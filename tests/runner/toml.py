"""TOML, read by the standard library (Python 3.11 and later) or by its twin, the package tomli."""
from __future__ import annotations

import sys
from typing import Any, Dict

if sys.version_info >= (3, 11):
    import tomllib
else:
    import tomli as tomllib


def parse_toml(text: str) -> Dict[str, Any]:
    """The table that a document spells. Raises `ValueError`."""
    table: Dict[str, Any] = tomllib.loads(text)
    return table
