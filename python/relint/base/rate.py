"""The steps that Python's `re` does in a second on this machine: `rlt confirm` measures and keeps them.

They are kept in a small file in the user's cache folder. What lies there is read as what a stranger wrote: anything but the
exact form counts as if nothing were there.
"""
from __future__ import annotations

import json
import os
import platform
from typing import Optional

from .safe import OpenError, WriteError, read_below, replace_file

VERSION = 1
MOST_BYTES = 1000
# No Python does fewer than LEAST or more than MOST steps per second.
LEAST, MOST = 1000, 10**12


def python_name() -> str:
    """Returns the name and the version of the Python that runs this."""
    return f"{platform.python_implementation()} {platform.python_version()}"


def file_name() -> Optional[str]:
    """Returns the path of the file in $XDG_CACHE_HOME or ~/.cache, or None if neither is an absolute path."""
    cache = os.environ.get("XDG_CACHE_HOME", "")
    if not os.path.isabs(cache):
        cache = os.path.join(os.path.expanduser("~"), ".cache")
    return os.path.join(cache, "relint", "rate.json") if os.path.isabs(cache) else None


def _content(rate: int) -> bytes:
    """The content of the file for a rate."""
    machine = f"{platform.node()} {platform.machine()}"
    whole = {"version": VERSION, "python": python_name(), "machine": machine, "steps-a-second": rate}
    return json.dumps(whole, sort_keys=True).encode("ascii") + b"\n"


def kept() -> Optional[int]:
    """Returns the steps per second that were kept for this Python on this machine, or None if none were or can be read."""
    path = file_name()
    if path is None or not os.path.lexists(path):
        return None
    try:
        data = read_below(path, [os.path.dirname(path)], MOST_BYTES)
        rate = json.loads(data)["steps-a-second"]
        return rate if type(rate) is int and LEAST <= rate <= MOST and data == _content(rate) else None
    except (OpenError, ValueError, RecursionError, LookupError, TypeError):
        return None


def keep(rate: int) -> str:
    """Writes the steps per second to the file, and returns its path. Raises WriteError if the file can't be written."""
    path = file_name()
    if path is None:
        raise WriteError("the user has no home folder")
    try:
        os.makedirs(os.path.dirname(path), 0o700, exist_ok=True)
    except OSError as error:
        raise WriteError(error.strerror or str(error)) from error
    replace_file(path, _content(rate), os.path.dirname(path))
    return path
