"""The limits in docs/RELINT.md: each number in it is that of the constant which decides."""
from __future__ import annotations

import re
import unittest
from pathlib import Path
from typing import Dict

TOP = Path(__file__).resolve().parents[2]
PAGE = TOP / "docs" / "RELINT.md"
CONSTANT = re.compile(r"^ *(?:pub(?:\(crate\))? )?const ([A-Z_]+): [a-z0-9]+ = ([0-9_]+);$", re.MULTILINE)
NUMBER = re.compile(r"[0-9][0-9,]*")
# the constant that decides, for what a line names first
DECIDES = {
    "characters of a pattern": "rl_pattern/src/limits.rt MOST_CODES",
    "open groups": "rl_pattern/src/limits.rt MOST_OPEN_GROUPS",
    "`size`": "rl_syntax/src/limits.rt MOST_NODES",
    "`letters`": "rl_ranges/src/letters.rt MOST_LETTERS",
    "`moves`": "rl_syntax/src/limits.rt MOST_MOVES",
    "`pairs`": "rl_syntax/src/limits.rt MOST_PAIRS",
    "`sets`": "rl_syntax/src/limits.rt MOST_COUNTED_SETS",
    "pairs of sets of a comparison": "rl_syntax/src/limits.rt MOST_SET_PAIRS",
    "triples of a certificate": "rl_numbers/src/numbering.rt MOST_TRIPLES",
    "characters of the text of `cost`": "rl_lint/src/limits.rt MOST_TEXT_CODES",
    "bytes of a source": "rl_lists/src/limits.rt MOST_BYTES",
    "bytes of a baseline or a certificate": "rl_sarif/src/limits.rt MOST_BASELINE_BYTES",
    "levels of folders": "rl_walk/src/walking.rt MOST_LEVELS",
}
# the line whose number is in the code without a name
UNNAMED = ("the number in `{m,n}`",)


def rows() -> Dict[str, str]:
    """What is said of each limit, by what its line names first."""
    text = PAGE.read_text(encoding="utf-8")
    section = text.split("\n## Limits\n", 1)[1].split("\n## ", 1)[0]
    lines = [line[2:].split(": ", 1) for line in section.splitlines() if line.startswith("- ")]
    return {name: said for name, said in lines}


def value_of(constant: str) -> int:
    """What the file gives the constant."""
    file, name = constant.split()
    found = dict(CONSTANT.findall((TOP / "crates" / file).read_text(encoding="utf-8")))
    return int(found[name].replace("_", ""))


@unittest.skipUnless((TOP / "crates").is_dir(), "the sources of the program aren't here")
class Limits(unittest.TestCase):
    """The lines of the section."""

    def test_each_row_is_known(self) -> None:
        self.assertEqual(sorted(rows()), sorted([*DECIDES, *UNNAMED]))

    def test_each_number_is_that_of_its_constant(self) -> None:
        said = rows()
        for first, constant in DECIDES.items():
            with self.subTest(row=first):
                most = NUMBER.findall(said[first])[0]
                self.assertEqual(int(most.replace(",", "")), value_of(constant))


if __name__ == "__main__":
    unittest.main()
