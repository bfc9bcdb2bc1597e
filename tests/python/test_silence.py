"""What isn't looked at is said by every word of rlt, and fails where it was named, and with --strict."""
from __future__ import annotations

import os
import shutil
import subprocess
import unittest
from pathlib import Path
from typing import Callable, Dict, List, Tuple

from engine_support import folder, missing
from screens_support import rlt

WHY = missing("relint", "relint-ask")
GOOD = 'import re\nre.search(r"a+b", "")\n'
BAD = 'import re\nre.search(r"(a|a)*b", "")\n'
WORDS: List[List[str]] = [
    ["check"], ["check", "-q"],
    *(["check", f"--format={it}"] for it in ("concise", "github", "gitlab", "sarif", "json", "html")),
    ["fix"], ["fix", "--diff"], ["accept", "--all", "--reason=x"], ["accept", "--prune"], ["confirm"], ["confirm", "-q"],
]


def put(name: str, data: bytes) -> None:
    """Writes a file; the folders above it are made."""
    Path(name).parent.mkdir(parents=True, exist_ok=True)
    Path(os.fsdecode(name.encode("latin-1")) if name.startswith("\xff") else name).write_bytes(data)


def submodule() -> None:
    """Makes a submodule in a repository."""
    named = ["git", "-c", "user.name=a", "-c", "user.email=a@b", "-c", "protocol.file.allow=always"]
    put("../other/b.py", BAD.encode())
    other = ["-C", "../other"]
    for words in ([*other, "init", "-q"], [*other, "add", "."], [*other, "commit", "-q", "-m", "x"], ["init", "-q"],
                  ["submodule", "add", "-q", os.path.abspath("../other"), "odd"], ["add", "."]):
        subprocess.run([*named, *words], check=True, stdout=subprocess.DEVNULL, stderr=subprocess.DEVNULL)


# Each is called `odd`, and made by a function.
THINGS: Dict[str, Tuple[str, Callable[[], object]]] = {
    "Latin-1": ("odd.py", lambda: put("odd.py", b"# coding: latin-1\n# \xe9\n" + BAD.encode())),
    "Latin-1 with letters of ASCII": ("odd.py", lambda: put("odd.py", b"# coding: latin-1\n" + BAD.encode())),
    "UTF-16": ("odd.py", lambda: put("odd.py", BAD.encode("utf-16"))),
    "cut": ("odd.py", lambda: put("odd.py", BAD.encode() + b"# \xc3")),
    "null": ("odd.py", lambda: put("odd.py", BAD.encode() + b"\0")),
    "large": ("odd.py", lambda: put("odd.py", BAD.encode() + b"#" * 4_194_304)),
    "link": ("odd.py", lambda: os.symlink("good.py", "odd.py")),
    "link to a folder": ("odd", lambda: os.symlink(".", "odd")),
    "pipe": ("odd.py", lambda: os.mkfifo("odd.py")),
    "deep": ("odd", lambda: put("odd/" + "d/" * 66 + "x.py", BAD.encode())),
    "name": ("odd.py", lambda: put("\xffodd.py", BAD.encode())),
    "notebook": ("odd.ipynb", lambda: put("odd.ipynb", b'{"cells": [')),
    "cell": ("odd.ipynb", lambda: put("odd.ipynb", b'{"cells": [{"cell_type": "code", "source": "if"}]}')),
    "another Python": ("odd.py", lambda: put("odd.py", b'import re\nP = "(a|a)*"\nre.search(P + "b", s)\nprint 1\n')),
}


@unittest.skipIf(WHY, WHY)
class Silence(unittest.TestCase):
    """A good source and one thing that isn't looked at."""

    def said(self, thing: str, name: str, *more: str) -> None:
        """Looks whether each word says the name."""
        for words in WORDS:
            ran = rlt(*words, *more)
            self.assertIn(name, ran.out + ran.err, (thing, words))
            self.assertIn(ran.status, (0, 3), (thing, words))
        self.assertIn(rlt("check", "--strict", *more).status, (1, 3), thing)

    def test_below_a_folder(self) -> None:
        for thing, (name, make) in THINGS.items():
            with self.subTest(thing), folder({"good.py": GOOD, ".git/HEAD": ""}):
                make()
                self.said(thing, name)

    def test_named(self) -> None:
        for thing in ("link", "link to a folder", "pipe"):
            name, make = THINGS[thing]
            with self.subTest(thing), folder({"good.py": GOOD, ".git/HEAD": ""}):
                make()
                for words in WORDS:
                    ran = rlt(*words, "good.py", name)
                    self.assertIn(name, ran.out + ran.err, (thing, words))
                    self.assertEqual(ran.status, 3, (thing, words))

    @unittest.skipUnless(shutil.which("git"), "it needs git")
    def test_submodules(self) -> None:
        with folder({"top/good.py": GOOD}):
            os.chdir("top")
            submodule()
            self.said("submodule", "odd", "--tracked")


if __name__ == "__main__":
    unittest.main()
