"""packaging/glue.c, which the program for ARM64 is linked with: each function does what the kit says of it.

It is compiled for this machine and loaded into a Python whose arguments are known.
"""
from __future__ import annotations

import json
import shutil
import subprocess
import sys
import tempfile
import unittest
from pathlib import Path
from typing import Any, List

TOP = Path(__file__).resolve().parents[2]
WARNINGS = "-Wall -Wextra -Wpedantic -Wshadow -Wconversion -Wsign-conversion -Wmissing-prototypes -Wstrict-prototypes -Werror"
TRIED = """
import ctypes, json, os, sys
class Tried(ctypes.Structure):
    _fields_ = [("ok", ctypes.c_bool), ("p", ctypes.c_void_p)]
glue = ctypes.CDLL(sys.argv[1], use_errno=True)
SIZE = ctypes.c_size_t
glue.rattle_alloc.restype = glue.rattle_realloc.restype = Tried
glue.rattle_alloc.argtypes = [SIZE, SIZE]
glue.rattle_realloc.argtypes = [ctypes.c_void_p, SIZE, SIZE, SIZE]
glue.rattle_dealloc.argtypes, glue.rattle_dealloc.restype = [ctypes.c_void_p], None
glue.rattle_arg.argtypes, glue.rattle_arg.restype = [SIZE, ctypes.c_char_p, SIZE], ctypes.c_ssize_t
glue.rattle_open_dir_at.argtypes = [ctypes.c_int, ctypes.c_char_p]
"""


@unittest.skipUnless(shutil.which("gcc") and sys.platform == "linux", "it needs gcc and Linux")
class Glue(unittest.TestCase):
    """Each test runs a few lines in a Python that has loaded the functions as `glue`."""

    room: Path

    @classmethod
    def setUpClass(cls) -> None:
        cls.room = Path(tempfile.mkdtemp())
        words = ["gcc", "-std=c11", "-O2", "-shared", "-fPIC", *WARNINGS.split(), "-o", str(cls.room / "glue.so")]
        subprocess.run([*words, str(TOP / "packaging/glue.c")], check=True)

    @classmethod
    def tearDownClass(cls) -> None:
        shutil.rmtree(cls.room)

    def answers(self, lines: str, *more: str) -> List[Any]:
        """What the lines put into the list `said`; the arguments after them are those of that Python."""
        code = f"{TRIED}\nsaid = []\n{lines}\nprint(json.dumps(said))"
        command = [sys.executable, "-I", "-c", code, str(self.room / "glue.so"), *more]
        ran = subprocess.run(command, stdout=subprocess.PIPE, cwd=self.room, check=True)
        answers: List[Any] = json.loads(ran.stdout)
        return answers

    def argument(self, number: int, room: int, *words: str) -> List[Any]:
        """What `rattle_arg` answers for the number-th of these words, and the bytes of the place that it writes to."""
        lines = f"""
place = ctypes.create_string_buffer(b"#" * 8, 8)
first = sys.orig_argv.index(sys.argv[1]) if hasattr(sys, "orig_argv") else 4
said += [glue.rattle_arg(first + {number}, place, {room}), place.raw.decode()]"""
        return self.answers(lines, *words)

    def test_an_argument_that_fits(self) -> None:
        self.assertEqual(self.argument(1, 8, "abc"), [3, "abc#####"])
        self.assertEqual(self.argument(2, 8, "abc", ""), [0, "########"])
        self.assertEqual(self.argument(1, 3, "abc"), [3, "abc#####"])
        self.assertEqual(self.argument(1, 0, ""), [0, "########"])

    def test_an_argument_that_is_cut(self) -> None:
        self.assertEqual(self.argument(1, 2, "abc"), [-2, "ab######"])
        self.assertEqual(self.argument(1, 0, "abc"), [-2, "########"])

    def test_an_argument_that_is_not_there(self) -> None:
        self.assertEqual(self.argument(2, 8, "abc"), [-1, "########"])
        self.assertEqual(self.argument(2 ** 63, 8, "abc"), [-1, "########"])

    def test_memory(self) -> None:
        lines = """
one = glue.rattle_alloc(24, 8)
ctypes.memmove(one.p, b"x" * 24, 24)
two = glue.rattle_realloc(one.p, 24, 100000, 8)
said += [one.ok, one.p % 16, two.ok, ctypes.string_at(two.p, 24).decode()]
three = glue.rattle_realloc(two.p, 24, 0, 8)
said += [three.ok, bool(three.p)]
glue.rattle_dealloc(three.p)
none = glue.rattle_alloc(0, 16)
said += [none.ok, bool(none.p)]
glue.rattle_dealloc(none.p)"""
        self.assertEqual(self.answers(lines), [True, 0, True, "x" * 24, True, True, True, True])

    def test_memory_that_is_refused(self) -> None:
        lines = """
one = glue.rattle_alloc(2 ** 62, 8)
two = glue.rattle_alloc(24, 8)
ctypes.memmove(two.p, b"y" * 24, 24)
three = glue.rattle_realloc(two.p, 24, 2 ** 62, 8)
said += [one.ok, bool(one.p), three.ok, bool(three.p), ctypes.string_at(two.p, 24).decode()]"""
        self.assertEqual(self.answers(lines), [False, True, False, True, "y" * 24])

    def test_folders(self) -> None:
        (self.room / "folder").mkdir()
        (self.room / "link").symlink_to("folder")
        (self.room / "file").write_text("", encoding="utf-8")
        lines = """
import fcntl
top = os.open(".", os.O_RDONLY)
got = [glue.rattle_open_dir_at(top, name) for name in (b"folder", b"link", b"file", b"none")]
said += [got[0] >= 0, got[1:], bool(fcntl.fcntl(got[0], fcntl.F_GETFD) & fcntl.FD_CLOEXEC), os.listdir(got[0])]"""
        self.assertEqual(self.answers(lines), [True, [-1, -1, -1], True, []])

    def test_the_number_of_an_error(self) -> None:
        # (ctypes keeps the number from one call to the next)
        lines = """
glue.rattle_set_errno(7)
said += [glue.rattle_errno()]
glue.rattle_open_dir_at(-1, b"none")
said += [glue.rattle_errno() == ctypes.get_errno() != 7]"""
        self.assertEqual(self.answers(lines), [7, True])


if __name__ == "__main__":
    unittest.main()
