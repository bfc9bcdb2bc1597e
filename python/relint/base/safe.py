"""Opens, writes and shows what others made: no links, no pipes, whole files or none, nothing that controls a terminal.

A name in a report, or in a folder that others wrote, may be that of a link to a secret, of a device, or of a pipe to which
nobody writes. A file is checked after it was opened, so exchanging it between the check and the read changes nothing.
"""
from __future__ import annotations

import errno
import importlib
import os
import re
import stat
import sys
from contextlib import closing, contextmanager, suppress
from typing import Dict, Iterator, List, Optional, Sequence, Tuple, Union

# The largest source in bytes, which is the program's limit too.
LARGEST_SOURCE = 4_194_304
READ_AT_A_TIME = 1 << 20
HERE = (".",)
MOST_FOLDERS = 64
FOLDER = os.O_DIRECTORY | getattr(os, "O_PATH", os.O_RDONLY) | os.O_CLOEXEC
FILE = os.O_RDONLY | os.O_NOFOLLOW | os.O_NONBLOCK | os.O_NOCTTY | os.O_CLOEXEC
OWN_FILE = os.O_WRONLY | os.O_CREAT | os.O_EXCL | os.O_NOFOLLOW | os.O_CLOEXEC
REASONS = {
    errno.ENOENT: "it isn't there",
    errno.ENOTDIR: "a part of its path is a link or no folder",
    errno.ELOOP: "it is a link",
    errno.ENXIO: "it is no regular file",
}
# Characters that Python counts as printable though they can't be seen: fillers, joiners, and selectors of a letter's form.
UNSEEN = frozenset(map(chr, (
    0x034F, 0x115F, 0x1160, 0x17B4, 0x17B5, *range(0x180B, 0x1810), 0x2800, 0x3164, *range(0xFE00, 0xFE10), 0xFFA0,
    *range(0xE0100, 0xE01F0),
)))
# The start of a text that a build server takes for a command anywhere in a line, such as ##[error] and ##vso[..].
SERVER_COMMAND = re.compile(r"##(?=[A-Za-z]*\[)")


class OpenError(Exception):
    """Raised if a file can't or mustn't be opened; the message says why in a clause, without the file's name."""


class WriteError(Exception):
    """Raised if a file can't or mustn't be written; the message says why in a clause, without the file's name."""


class Unwritten(Exception):
    """Raised if standard output can't be written; the message says why, and is empty for a pipe that nobody reads."""


def reason(error: Exception) -> str:
    """Returns words for an error: those of REASONS or of the system for an OSError, otherwise the error's message."""
    if isinstance(error, OSError):
        return REASONS.get(error.errno or 0, error.strerror or str(error))
    return str(error)


# Paths.

def names_below(path: str, folder: str) -> Optional[List[str]]:
    """Returns the names that lead from a folder to a path, an empty list for the folder itself; None if the path lies outside.

    Returns None too if the path is empty or has a null character. Only the texts of both are compared; no file is looked up.
    """
    if not path or "\0" in path:
        return None
    if folder == os.curdir and ".." not in path and not os.path.isabs(path):
        return [it for it in path.split(os.sep) if it not in ("", os.curdir)]
    found = os.path.relpath(os.path.abspath(path), os.path.abspath(folder))
    names = [] if found == os.curdir else found.split(os.sep)
    return None if names[:1] == [os.pardir] else names


def is_below(path: str, folders: Sequence[str]) -> bool:
    """Returns whether a path is one of the folders or lies in one; only the texts of the paths are compared."""
    return any(names_below(path, it) is not None for it in folders)


def is_utf8(text: str) -> bool:
    """Returns whether a text can be encoded as UTF-8; only such a path can be given to the program."""
    try:
        text.encode("utf-8")
        return True
    except UnicodeEncodeError:
        return False


# Reading.

def open_folder(folder: str, names: Sequence[str]) -> int:
    """Opens the folder to which the names lead from `folder`, and returns its descriptor, which the caller closes.

    "" is the current folder; `folder` itself may be a link. Raises OSError if a folder can't be opened, or a name is a link.
    """
    found = os.open(folder or os.curdir, FOLDER)
    for name in names:
        above = found
        try:
            found = os.open(name, FOLDER | os.O_NOFOLLOW, dir_fd=above)
        finally:
            os.close(above)
    return found


def place_of(path: str, folders: Sequence[str]) -> Tuple[str, List[str]]:
    """Returns a folder to open, and the names from there to the path, at least one.

    The folder is the first of `folders` in which the path lies or, for a path that is one of `folders`, the folder around it.
    Raises OpenError if the path lies in none of them.
    """
    for folder in folders:
        names = names_below(path, folder)
        if names:
            return folder, names
        if names is not None and os.path.basename(folder):
            return os.path.dirname(folder), [os.path.basename(folder)]
    raise OpenError("it lies outside of " + " and ".join("the current folder" if it == "." else it for it in folders))


class FolderReader:
    """Reads files that lie in given folders or are one of them, through no link; it keeps the folders that it opened open."""

    def __init__(self, folders: Sequence[str] = HERE) -> None:
        """Takes the folders, of which each may be a link itself, or the path of a file."""
        self.folders = tuple(folders)
        self._named = frozenset(folders)
        self._open: Dict[str, int] = {}

    def read(self, path: str, most: int = LARGEST_SOURCE) -> bytes:
        """Returns the bytes of the file at a path.

        Raises OpenError if it lies in none of the folders, can't be read, isn't a regular file, has more than `most` bytes, or
        is reached by a link below the folder.
        """
        above, name = os.path.split(path)
        try:
            if above in self._open and path not in self._named and name not in ("", os.curdir, os.pardir):
                return read_in(self._open[above], name, most)
            folder, names = (above, [name]) if path in self._named and name else place_of(path, self.folders)
            holder = open_folder(folder, names[:-1])
            if path in self._named or names[-1] != name or not is_below(above or os.curdir, self.folders):
                try:
                    return read_in(holder, names[-1], most)
                finally:
                    os.close(holder)
            # (the folder lies in one of the folders itself, so all of it may be read)
            if len(self._open) >= MOST_FOLDERS:
                os.close(self._open.pop(next(iter(self._open))))
            self._open[above] = holder
            return read_in(holder, name, most)
        except (OSError, ValueError) as error:
            raise OpenError(reason(error)) from error

    def close(self) -> None:
        """Closes the folders; a later read opens them again."""
        while self._open:
            os.close(self._open.popitem()[1])


def read_below(path: str, folders: Sequence[str] = HERE, most: int = LARGEST_SOURCE) -> bytes:
    """Returns the bytes of the file at a path that lies in one of the folders or is one of `folders`; raises OpenError."""
    with closing(FolderReader(folders)) as reader:
        return reader.read(path, most)


def read_named(path: str, most: int) -> bytes:
    """Returns the bytes of a file that the user names, which may be a link and lie anywhere; raises OpenError."""
    return b"".join(parts_named(path, most))


def parts_named(path: str, most: int) -> Iterator[bytes]:
    """Yields what `read_named` returns, in parts."""
    try:
        yield from _parts(os.open(path, FILE & ~os.O_NOFOLLOW), most)
    except (OSError, ValueError) as error:
        raise OpenError(reason(error)) from error


def read_in(holder: int, name: str, most: int) -> bytes:
    """Returns the bytes of the file `name` in the folder with the descriptor `holder`; raises OSError or OpenError."""
    # (a device isn't even opened, since opening alone can have an effect)
    _check(os.stat(name, dir_fd=holder, follow_symlinks=False), most)
    return b"".join(_parts(os.open(name, FILE, dir_fd=holder), most))


def _check(found: os.stat_result, most: int) -> None:
    """Raises OpenError if a file with this status is a link, isn't a regular file, or has more than `most` bytes."""
    if not stat.S_ISREG(found.st_mode):
        raise OpenError("it is a link" if stat.S_ISLNK(found.st_mode) else "it is no regular file")
    if found.st_size > most:
        raise OpenError(f"it has more than {most:,} bytes")


def _parts(file: int, most: int) -> Iterator[bytes]:
    """Yields the bytes of an open file in parts, and closes it; raises OpenError as `_check` does, also if it grows."""
    try:
        _check(os.fstat(file), most)
        left = most + 1
        while left > 0:
            part = os.read(file, min(READ_AT_A_TIME, left))
            if not part:
                return
            yield part
            left -= len(part)
    finally:
        os.close(file)
    raise OpenError(f"it has more than {most:,} bytes")


# Writing.

def replace_file(path: str, data: bytes, below: str = os.curdir, was: Optional[bytes] = None) -> List[str]:
    """Replaces the content of a file below a folder, or creates the file.

    The bytes are written to a file beside it, flushed, and renamed, so the file is always the old or the new one. Its mode and
    owner are kept; returns words for each thing that couldn't be kept. Raises WriteError, and leaves the old file as it was,
    if it can't be written, lies outside of `below`, is a link or is reached by one, or isn't a regular file; and if `was` is
    given and isn't its content.
    """
    names = names_below(path, below)
    if not names:
        raise WriteError("it lies outside of " + ("the current folder" if below == os.curdir else below))
    try:
        folder = open_folder(below, names[:-1])
        try:
            return _replace(folder, names[-1], data, was)
        finally:
            os.close(folder)
    except (OSError, ValueError) as error:
        raise WriteError(reason(error)) from error


def replace_named(path: str, data: bytes) -> List[str]:
    """Does what `replace_file` does for a file that the user names, which may lie anywhere but is no link."""
    return replace_file(path, data, os.path.dirname(path) or os.curdir)


def _replace(folder: int, name: str, data: bytes, was: Optional[bytes]) -> List[str]:
    """Replaces the file `name` in the folder with this descriptor; if it can't, it leaves no file beside it."""
    old = _status(folder, name)
    beside = f".relint-{os.getpid()}-{os.urandom(6).hex()}"
    file = os.open(beside, OWN_FILE, 0o666 if old is None else 0o600, dir_fd=folder)
    try:
        with open(file, "wb") as opened:
            lost = [] if old is None else _keep(file, old)
            opened.write(data)
            opened.flush()
            os.fsync(file)
        if was is not None:
            _compare(folder, name, was)
        os.rename(beside, name, src_dir_fd=folder, dst_dir_fd=folder)
    except BaseException:
        os.unlink(beside, dir_fd=folder)
        raise
    return lost


def _status(folder: int, name: str) -> Optional[os.stat_result]:
    """The status of a file, or None if it isn't there; raises WriteError if it is a link or not a regular file."""
    try:
        found = os.stat(name, dir_fd=folder, follow_symlinks=False)
    except FileNotFoundError:
        return None
    if not stat.S_ISREG(found.st_mode):
        raise WriteError("it is a link" if stat.S_ISLNK(found.st_mode) else "it is no regular file")
    return found


def _keep(file: int, old: os.stat_result) -> List[str]:
    """Gives the new file the owner and the mode of the old one; returns words for what can't be kept."""
    lost = []
    new = os.fstat(file)
    if (new.st_uid, new.st_gid) != (old.st_uid, old.st_gid):
        try:
            os.fchown(file, old.st_uid, old.st_gid)
        except OSError:
            lost.append("it has another owner or group now")
    # (a file that got another owner mustn't run with the rights of that owner)
    os.fchmod(file, stat.S_IMODE(old.st_mode) & (0o777 if lost else 0o7777))
    if old.st_nlink > 1:
        others = old.st_nlink - 1
        lost.append(f"{others} other name{'' if others == 1 else 's'} of the file (hard links) keep the old text")
    return lost


def _compare(folder: int, name: str, was: bytes) -> None:
    """Raises WriteError unless the file `name` in the folder can be read and has the content `was`."""
    try:
        same = read_in(folder, name, len(was)) == was
    except (OSError, OpenError):
        same = False
    if not same:
        raise WriteError("it changed meanwhile")


@contextmanager
def Scratch() -> Iterator[str]:
    """Gives the path of a private folder for files, and takes it away at the end. Raises OSError if it can't be made."""
    # (most runs need none, and do without the time that tempfile takes to import)
    with importlib.import_module("tempfile").TemporaryDirectory(prefix="relint-") as made:
        yield os.path.realpath(made)


# Showing.

def is_seen(letter: str) -> bool:
    """Returns whether Python counts the character as printable and it isn't in UNSEEN. Of white space, only " " is seen."""
    return letter.isprintable() and letter not in UNSEEN


def _escape(letter: str) -> str:
    """A character that can't be seen as an escape of Python: \\t, \\n, \\r, \\xNN, \\uNNNN or \\UNNNNNNNN."""
    code = ord(letter)
    if code < 0x100:
        return letter.encode("unicode_escape").decode("ascii")
    return f"\\u{code:04x}" if code < 0x10000 else f"\\U{code:08x}"


def escaped(text: str, but: str = "") -> str:
    """Returns a text with escapes of Python for what `is_seen` denies, except characters in `but`; a backslash stays."""
    if text.isascii() and text.isprintable():
        return text
    return "".join(it if is_seen(it) or it in but else _escape(it) for it in text)


def visible(text: str) -> str:
    """Returns a text in which what a terminal or a build server could take for a command anywhere in a line is an escape.

    These are the characters that `is_seen` denies, and the second `#` of commands such as `##[error]`.
    """
    shown = escaped(text)
    return SERVER_COMMAND.sub(r"#\\x23", shown) if "##" in shown else shown


def line(text: str) -> str:
    """Returns a text to be written as a line of its own: as in `visible`, and with `\\x3a:` for `::` at its start.

    Blanks before the `::` don't matter. A line that begins with `::` is a command of a build server too.
    """
    shown = visible(text)
    start = len(shown) - len(shown.lstrip())
    return shown[:start] + "\\x3a" + shown[start + 1:] if shown.startswith("::", start) else shown


def write(text: Union[str, bytes]) -> None:
    """Writes to standard output, and flushes it: bytes as they are, or text, with escapes for what can't be encoded.

    Raises Unwritten if standard output is closed or can't be written.
    """
    out = sys.stdout
    if out is None:
        raise Unwritten("it is closed")
    try:
        if isinstance(text, bytes):
            out.flush()
            out.buffer.write(text)
        else:
            coding = out.encoding or "utf-8"
            out.write(text.encode(coding, "backslashreplace").decode(coding))
        out.flush()
    except (OSError, ValueError) as error:
        raise _unwritten(error) from error


def _unwritten(error: Exception) -> Unwritten:
    """Returns the Unwritten for an error of writing, and leads standard output to the null device from now on."""
    with suppress(OSError, ValueError, AttributeError):
        # (so that Python's own flush at the end says nothing)
        os.dup2(os.open(os.devnull, os.O_WRONLY), sys.stdout.fileno())
    return Unwritten("" if isinstance(error, BrokenPipeError) else reason(error))
