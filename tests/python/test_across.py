"""Sites and uses by real workers: files on which a worker dies, files that can't be read, answers that have another form."""
from __future__ import annotations

import ast
import os
import tempfile
import time
import unittest
from contextlib import contextmanager
from pathlib import Path
from typing import Any, Dict, Iterator, List, Sequence, Tuple
from unittest import mock

from relint.code.uses import LocalUses, Name
from relint.stages.across import NOT_FOUND, across, alone, look
from relint.stages.pool import Pool
from relint.stages.worker import Worker

X = "import re\nX = re.compile('a*a*b', re.I)\nX.match(s)\n"
PARSE = ast.parse


@contextmanager
def files(texts: Dict[str, str]) -> Iterator[Dict[str, str]]:
    """Makes files in a folder of their own, and yields their paths by their names."""
    with tempfile.TemporaryDirectory() as folder:
        for name, text in texts.items():
            path = Path(folder, name)
            path.parent.mkdir(exist_ok=True)
            path.write_text(text, encoding="utf-8")
        yield {it: os.path.join(folder, it) for it in [*texts, ""]}


def dies(text: str, *rest: Any, **more: Any) -> Any:
    """Parses a source, unless the parser is to die."""
    if "parser dies" in text:
        os.abort()
    return PARSE(text, *rest, **more)


class Given:
    """Workers that give the same answer to each piece."""

    def __init__(self, answer: Any) -> None:
        """Takes the answer."""
        self.answer = answer

    def answers(self, pieces: Sequence[Any]) -> Iterator[Tuple[int, Any]]:
        """The answer to each piece."""
        return ((number, self.answer) for number in range(len(pieces)))

    def why(self, index: int) -> str:
        """Why there is no answer."""
        return "it failed"


class Across(unittest.TestCase):
    def test_sites_and_uses(self) -> None:
        with files({"a.py": X + "# noqa\n", "b.py": "import a\na.X.search(s)\n"}) as at, Pool(2, Worker([at[""]]).work) as pool:
            found = look({at["a.py"]: [(2, 16, "compile"), (1, 1, "compile")]}, pool)[at["a.py"]]
            self.assertEqual((found.why, found.is_parsed, found.ignores, found.sites[1]), ("", True, {4: None}, None))
            site = found.sites[0]
            assert site is not None
            self.assertEqual((site.pattern, site.flags, found.lines[0]), ("a*a*b", 2, [(2, "X = re.compile('a*a*b', re.I)")]))
            uses = across([at["a.py"], at["b.py"]], {3: (at["a.py"], found.local[0])}, pool)[3]
            self.assertEqual([(it.method, it.path, it.line) for it in uses.uses],
                             [("match", at["a.py"], 3), ("search", at["b.py"], 2)])
            self.assertEqual(uses.lost, "")
            self.assertEqual([it.method for it in alone(at["a.py"], found.local[0]).uses], ["match"])

    def test_a_file_on_which_the_parser_dies(self) -> None:
        texts = {"a.py": X + "# parser dies\n", "b.py": X, "c.py": "# parser dies\nb.X.search(s)\n"}
        with files(texts) as at, mock.patch.object(ast, "parse", dies), Pool(2, Worker([at[""]]).work) as pool:
            found = look({at[it]: [(2, 16, "compile")] for it in ("a.py", "b.py")}, pool)
            first, second = found[at["a.py"]], found[at["b.py"]]
            assert first.sites[0] is not None and second.sites[0] is not None
            self.assertEqual((first.is_parsed, first.sites[0].flags), (False, 2))
            self.assertEqual(first.local[0].lost, "the file can't be parsed")
            self.assertEqual((second.is_parsed, second.local[0].lost), (True, ""))
            uses = across([at["b.py"], at["c.py"]], {0: (at["b.py"], second.local[0])}, pool)[0]
            self.assertIn("it may use it, but the process that read it was ended by signal 6", uses.lost)

    def test_files_that_cannot_be_read(self) -> None:
        with files({"a.py": X, "b.py": ""}) as at, Pool(1, Worker([at[""]]).work) as pool:
            os.remove(at["b.py"])
            os.mkfifo(at["b.py"])
            wanted = {at["a.py"]: [(2, 16, "compile")], at["b.py"]: [(1, 1, "match")], "/etc/passwd": [(1, 1, "match")]}
            found = look(wanted, pool)
            self.assertEqual([bool(found[it].why) for it in (at["a.py"], at["b.py"], "/etc/passwd")], [False, True, True])
            self.assertEqual((found[at["b.py"]].sites, found[at["b.py"]].local[0].lost), ([None], found[at["b.py"]].why))
            uses = across([at["a.py"], at["b.py"]], {0: (at["a.py"], found[at["a.py"]].local[0])}, pool)[0]
            self.assertIn("can't be read", uses.lost)

    def test_bytes_that_are_given(self) -> None:
        with Pool(1, Worker([]).work) as pool:
            found = look({"-": [(2, 16, "compile")]}, pool, {"-": ("\ufeff" + X).encode()})["-"]
            self.assertEqual((found.why, len(found.local[0].uses)), ("", 1))
            self.assertEqual(look({"-": []}, pool, {"-": b"\xff"})["-"].why, "it isn't UTF-8")

    def test_the_deadline(self) -> None:
        with files({"a.py": X}) as at, Pool(1, Worker([at[""]]).work, time.monotonic()) as pool:
            self.assertEqual(look({at["a.py"]: [(2, 16, "compile")]}, pool)[at["a.py"]].why, "the time was over")

    def test_answers_of_another_form(self) -> None:
        local = LocalUses(names=[Name("X", "module")])
        rows: List[Any] = [None, 1, [1], "a", {}, {"rows": [[1]]}, [["a", "b", "c"]], {"why": "", "rows": 1}, [[9, 9, ""]]]
        for answer in rows:
            with self.subTest(answer=answer):
                found = look({"a.py": [(1, 1, "match")]}, Given(answer))["a.py"]
                self.assertTrue(found.why)
                self.assertEqual((found.sites, len(found.local)), ([None], 1))
                self.assertIn("it failed", across(["a.py"], {0: ("a.py", local)}, Given(answer))[0].lost)

    def test_no_use(self) -> None:
        self.assertEqual(across([], {0: ("a.py", LocalUses())}, Given([]))[0].lost, NOT_FOUND)


if __name__ == "__main__":
    unittest.main()
