"""Wrong bodies, those of the gate and those of tools/wrong-bodies: each can be applied, and the tool knows its crates."""
from __future__ import annotations

import unittest
from pathlib import Path
from typing import Dict, List, Set

from show_support import TOP, tool

CRATES = TOP / "crates"
BODIES = TOP / "tests" / "wrong_bodies"


def of_the_gate() -> List[Path]:
    """The wrong bodies that the gate tries."""
    return sorted(CRATES.glob("*/must-fail/*.edit"))


def beside_the_gate() -> List[Path]:
    """The wrong bodies that the tool tries."""
    return sorted(BODIES.glob("*/*.edit"))


def crate_of(edit: Path) -> str:
    """The crate of a wrong body, by its folder."""
    return edit.parent.parent.name if edit.parent.name == "must-fail" else edit.parent.name


def edited(edit: Path) -> Dict[str, str]:
    """The texts of the files that a wrong body changes, once it is applied. Each old text stands once in its file."""
    texts: Dict[str, str] = {}
    path, old = "", ""
    for line in edit.read_text(encoding="utf-8").splitlines():
        word, _, rest = line.partition(":")
        rest = rest[1:]
        if word == "file":
            path = rest
            texts.setdefault(path, (CRATES / crate_of(edit) / path).read_text(encoding="utf-8"))
        elif word == "old":
            old = rest
            if texts[path].count(old) != 1:
                raise ValueError("%s stands %d times in %s" % (old, texts[path].count(old), path))
        elif word == "new":
            texts[path] = texts[path].replace(old, rest)
    return texts


class WrongBodies(unittest.TestCase):
    """The edits as they stand."""

    def test_each_can_be_applied(self) -> None:
        for edit in of_the_gate() + beside_the_gate():
            with self.subTest(edit=edit.name):
                texts = edited(edit)
                self.assertTrue(texts)
                for path, text in texts.items():
                    before = (CRATES / crate_of(edit) / path).read_text(encoding="utf-8")
                    self.assertFalse(text == before, "%s stays as it is" % path)

    def test_names_are_given_once(self) -> None:
        seen: Set[str] = set()
        for edit in of_the_gate() + beside_the_gate():
            name = "%s/%s" % (crate_of(edit), edit.stem)
            self.assertNotIn(name, seen)
            seen.add(name)

    def test_each_crate_has_one_in_the_gate(self) -> None:
        """But for those that have no contracts of their own: the programs, and what judges worked rows and units."""
        crates = {path.name for path in CRATES.iterdir() if (path / "src").is_dir()}
        without = crates - set(map(crate_of, of_the_gate()))
        self.assertEqual(without, {"relint", "relint_ask", "rows", "unit_tests", "worked_rows"})

    def test_named_ones_are_in_the_gate(self) -> None:
        """Those of docs/data/wrong_bodies.tsv, each in the crate that the table gives."""
        lines = (TOP / "docs" / "data" / "wrong_bodies.tsv").read_text(encoding="utf-8").splitlines()[1:]
        told = {(line.split("\t")[1], line.split("\t")[2]) for line in lines}
        self.assertGreaterEqual(len(told), 36)
        self.assertEqual(told - {(crate_of(edit), edit.stem) for edit in of_the_gate()}, set())


class Tool(unittest.TestCase):
    """The tool, without the kit."""

    def test_list(self) -> None:
        ran = tool("wrong-bodies", "--list")
        self.assertEqual((ran.status, ran.err), (0, ""))
        self.assertEqual(len(ran.out.splitlines()), len(beside_the_gate()))
        one = tool("wrong-bodies", "--list", "rl_expo")
        self.assertEqual(one.out, "rl_expo: a_move_meets_itself (src/dense.rt)\n")

    def test_crate_without(self) -> None:
        ran = tool("wrong-bodies", "rows")
        self.assertEqual((ran.status, ran.out), (2, ""))
        self.assertEqual(ran.err, "wrong-bodies: rows has no wrong bodies in tests/wrong_bodies\n")

    def test_no_kit(self) -> None:
        ran = tool("wrong-bodies", "rl_expo", environment={"PATH": ""})
        self.assertEqual((ran.status, ran.out), (2, ""))
        self.assertEqual(ran.err, "wrong-bodies: rt, the command of the Rattle kit, isn't on the PATH\n")


if __name__ == "__main__":
    unittest.main()
