"""The uses that frameworks document, one a file of tests/data/idioms: which of their patterns a check sees."""
from __future__ import annotations

import ast
import fnmatch
import os
import re
import unittest
from typing import Dict, Set

from engine_support import TOP, folder, missing
from relint.base.model import Text
from relint.code.source import Unit
from relint.options import read_options
from relint.stages.pipeline import run
from relint.stages.reach import NOT_KNOWN

FOLDER = TOP / "tests" / "data" / "idioms"
# In a comment of the file: a pattern that has to be seen there, or what `fnmatch.translate` makes of a text.
PATTERN = re.compile(r"^# (pattern|translate): (.*)$", re.M)
# The idioms that aren't seen, and why.
NOT_SEEN: Dict[str, str] = {
    "bottle_filter": "the pattern is what a function returns, beside two others",
    "cerberus_regex": "what a schema of Cerberus means depends on its rules",
    "flask_cors": "only an origin with special characters is a pattern",
    "pandas_replace_columns": "the dictionary's keys are columns here, and patterns elsewhere",
    "pandas_replace_dict": "the dictionary's keys are patterns here, and columns elsewhere",
    "pandas_wide_to_long": "the pattern is made of the columns' names too",
    "plain_append": "the list is changed before the loop",
    "plain_namedtuple": "attributes of objects aren't followed",
}


def idioms() -> Dict[str, str]:
    """The source of each file."""
    return {it.name: it.read_text(encoding="utf-8") for it in sorted(FOLDER.glob("*.py"))}


def wanted(source: str) -> Set[Text]:
    """The patterns that a file says have to be seen."""
    found = [(kind, ast.literal_eval(text)) for kind, text in PATTERN.findall(source)]
    return {fnmatch.translate(text).replace("\\z", "\\Z") if kind == "translate" else text for kind, text in found}


def seen(sources: Dict[str, str]) -> Dict[str, Set[Text]]:
    """The patterns that a check of these files sees in each."""
    found: Dict[str, Set[Text]] = {it: set() for it in sources}
    with folder({".git/HEAD": "", **sources}):
        for it in run(read_options(["check", "--wide"], os.getcwd()))[0]:
            entry = it.entry
            if entry.place is not None and (entry.verdict is not None or entry.cause not in NOT_KNOWN):
                site = it.site or Unit(entry.path, sources[entry.path].encode()).site(entry.place, entry.call)
                found[entry.path] |= {site.pattern} if site else set()
    return found


@unittest.skipIf(missing("relint"), missing("relint"))
class Idioms(unittest.TestCase):
    """All of them in one run."""

    def test_idioms(self) -> None:
        sources = idioms()
        of_file = {it: wanted(source) for it, source in sources.items()}
        idiom = [it for it in sources if of_file[it]]
        found = seen(sources)
        unseen = {it[:-3] for it in idiom if not of_file[it] <= found[it]}
        self.assertEqual(unseen, set(NOT_SEEN))
        self.assertGreaterEqual(len(idiom), 163)
        self.assertGreaterEqual((len(idiom) - len(unseen)) * 163, len(idiom) * 140)

    def test_each_says_what_it_is(self) -> None:
        for name, source in idioms().items():
            with self.subTest(name=name):
                self.assertTrue(ast.get_docstring(ast.parse(source)))


if __name__ == "__main__":
    unittest.main()
