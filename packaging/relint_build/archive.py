"""Finds the files that may be packed, and writes wheels and sdists.

The bytes of an archive depend only on its entries and on SOURCE_DATE_EPOCH, as long as the versions of Python and zlib are the
same: the time and the owners of the files don't count. Each function raises OSError if a file can't be read or written.
"""
from __future__ import annotations

import base64
import gzip
import hashlib
import io
import os
import subprocess
import tarfile
import time
import zipfile
from dataclasses import dataclass
from pathlib import Path
from typing import List, Optional

# The first second that a zip archive can name: 1980-01-01.
FIRST_TIME = 315532800
# What keeps git from running a program that the repository names; python/relint/git.py has the same.
SETTINGS = ("safe.bareRepository=explicit", "core.fsmonitor=", "core.hooksPath=/dev/null", "protocol.allow=never")
# What may be packed if git can't say, and the folder that Python makes, which may not.
LIST, MADE = "packaging/FILES", "__pycache__"


@dataclass(frozen=True)
class Entry:
    """A file of an archive: its path there, with `/` between the parts, its content, and whether it may be executed."""

    path: str
    content: bytes
    is_program: bool = False

    @property
    def mode(self) -> int:
        """The permission bits of the file: 0o755 if it may be executed, otherwise 0o644."""
        return 0o755 if self.is_program else 0o644


def time_of_files() -> int:
    """Returns the time that each file of an archive has, in seconds since 1970.

    That is the environment's SOURCE_DATE_EPOCH, or FIRST_TIME if this isn't there, isn't made of digits, or is earlier.
    """
    given = os.environ.get("SOURCE_DATE_EPOCH", "")
    return max(int(given), FIRST_TIME) if given.isdigit() else FIRST_TIME


def record_line(entry: Entry) -> str:
    """Returns the line of RECORD for a file, with its line end: the path, the SHA-256 in base64, and the size in bytes.

    A path with a comma is put between double quotes.
    """
    digest = base64.urlsafe_b64encode(hashlib.sha256(entry.content).digest()).rstrip(b"=").decode()
    path = f'"{entry.path}"' if "," in entry.path else entry.path
    return f"{path},sha256={digest},{len(entry.content)}\n"


def write_wheel(file: Path, entries: List[Entry], record: str) -> None:
    """Writes a wheel to `file`, with the entries in order and then their RECORD; `record` is its path in the wheel.

    A file that is there is replaced.
    """
    lines = [*map(record_line, entries), f"{record},,\n"]
    at = time.gmtime(time_of_files())[:6]
    with zipfile.ZipFile(file, "w", zipfile.ZIP_DEFLATED) as archive:
        for entry in [*entries, Entry(record, "".join(lines).encode())]:
            about = zipfile.ZipInfo(entry.path, at)
            about.external_attr = (0o100000 | entry.mode) << 16
            about.compress_type = zipfile.ZIP_DEFLATED
            archive.writestr(about, entry.content)


def tracked_files(top: Path) -> Optional[List[str]]:
    """Returns the paths of the files that git tracks below `top`, relative to it, without links and submodules.

    Returns None if `top` has no `.git`, or if git can't be run or fails. Git is run with SETTINGS, and without the variables
    of the environment whose names begin with `GIT_`.
    """
    if not (top / ".git").exists():
        return None
    settings = [it for name in SETTINGS for it in ("-c", name)]
    words = ["git", *settings, "-C", str(top), "ls-files", "-z", "--cached", "--stage"]
    # (a hook of git's sets variables that name another repository)
    env = {name: value for name, value in os.environ.items() if not name.startswith("GIT_")}
    try:
        ran = subprocess.run(words, env=env, stdin=subprocess.DEVNULL, stdout=subprocess.PIPE, stderr=subprocess.DEVNULL)
    except OSError:
        return None
    if ran.returncode:
        return None
    lines = [it.partition("\t") for it in os.fsdecode(ran.stdout).split("\0") if it]
    return [name for about, _, name in lines if about.startswith("100")]


def listed_files(top: Path) -> List[str]:
    """Returns the paths below `top`, relative to it and in no order, that a pattern in the file LIST matches.

    Each line is a pattern of `Path.glob`; empty lines and lines that begin with `#` are skipped. Paths through a folder MADE
    are left out.
    """
    lines = (top / LIST).read_text(encoding="utf-8").splitlines()
    patterns = [line.strip() for line in lines if line.strip() and not line.startswith("#")]
    found = {it.relative_to(top).as_posix() for pattern in patterns for it in top.glob(pattern)}
    return [name for name in found if MADE not in name.split("/")]


def files_of(top: Path) -> List[str]:
    """Returns the paths of the files that may be packed, relative to `top` and sorted.

    They are the regular files that git tracks or, if `tracked_files` gives None, those that the file LIST names.
    """
    tracked = tracked_files(top)
    names = {*(listed_files(top) if tracked is None else tracked)}
    return sorted(name for name in names if is_plain(top, name))


def is_plain(top: Path, name: str) -> bool:
    """Returns whether a path, relative to `top` and not empty, is that of a regular file, with no link and no `..` in it."""
    steps = [top.joinpath(*Path(name).parts[:count + 1]) for count in range(len(Path(name).parts))]
    return ".." not in Path(name).parts and not any(it.is_symlink() for it in steps) and steps[-1].is_file()


def entries_of(top: Path, names: List[str]) -> List[Entry]:
    """Returns an entry for each of these paths, in order, which are relative to `top` and are its paths in the archive too.

    A file that this process may execute is a program.
    """
    return [Entry(name, (top / name).read_bytes(), os.access(str(top / name), os.X_OK)) for name in names]


def write_sdist(file: Path, entries: List[Entry], folder: str) -> None:
    """Writes a tar archive, compressed with gzip, to `file`, with the entries in order below the folder `folder`.

    A file that is there is replaced.
    """
    at, packed = time_of_files(), io.BytesIO()
    with tarfile.open(fileobj=packed, mode="w", format=tarfile.PAX_FORMAT) as archive:
        for entry in entries:
            about = tarfile.TarInfo(f"{folder}/{entry.path}")
            about.size, about.mode, about.mtime = len(entry.content), entry.mode, at
            archive.addfile(about, io.BytesIO(entry.content))
    with open(file, "wb") as raw, gzip.GzipFile("", "wb", fileobj=raw, mtime=at) as written:
        written.write(packed.getvalue())
