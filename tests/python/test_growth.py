"""The text that is shown for a finding: the shortest that does, and one whose steps were counted."""
from __future__ import annotations

import time
import unittest
from contextlib import closing
from typing import Any, Dict, List, Mapping, Sequence

from relint.base.model import NEW, MODES, Entry, Family, Finding, Reading, Site, Why
from relint.base.words import try_code
from relint.engine.ask import Asker, question
from relint.engine.program import NotFound, located
from relint.engine.run import Run
from relint.files import Chosen
from relint.options import Options
from relint.stages import growth
from screens_support import cubic, exponential, step

PATTERNS = (r"(?:[a-z]+\.?)+@", r"^(\w+,?)*$", "(a|a)*b", "(?:a+b?c?)+@", r"x*\s+\s*(.+), subnet", "(?:(?:aa)+)+b",
            "^(?:(?:aa)+)+$", r"\s+$", r"(x+x+)+y", r"(?:[ab]|a|bb)*c")


class Noting(Asker):
    """An asker that notes the questions."""

    def __init__(self, options: Options, deadline: float) -> None:
        super().__init__(options, deadline)
        self.noted: List[Mapping[str, Any]] = []

    def ask_all(self, questions: Sequence[Mapping[str, Any]]) -> List[Mapping[str, Any]]:
        self.noted += questions
        return super().ask_all(questions)


class Shown(unittest.TestCase):
    """Texts that the program judges."""

    def setUp(self) -> None:
        try:
            located("relint-ask")
        except NotFound as error:
            self.skipTest(str(error))

    def told(self, pattern: str) -> Dict[str, Any]:
        """The finding of a pattern in a search, and the questions that were asked."""
        options, deadline = Options(), time.monotonic() + 60
        with closing(Noting(options, deadline)) as asker:
            verdicts = dict(zip(MODES, asker.verdicts([(pattern, 0, it) for it in MODES])))
            verdict = verdicts["search"]
            assert verdict is not None
            entry = Entry("a.py", verdict.kind, call="search", verdict=verdict)
            finding = Finding(entry, state=NEW, site=Site(pattern, 0))
            found = growth.told([finding], Run(options, Chosen(".", (".",)), None, asker, deadline))[0]
            return {"finding": found, "costs": [it for it in asker.noted if it["ask"] == "cost"]}

    def test_the_text_of_an_address_is_short(self) -> None:
        finding = self.told(PATTERNS[0])["finding"]
        self.assertLess(finding.growth.length, 35)
        self.assertEqual(finding.why.readings[0].text, "a")
        self.assertIn('"a" * ', try_code(finding))
        self.assertAlmostEqual(finding.growth.factor, 2.0, 1)

    def test_the_steps_of_each_text_were_counted(self) -> None:
        for pattern in PATTERNS:
            with self.subTest(pattern):
                told = self.told(pattern)
                finding = told["finding"]
                text = finding.growth.family.text(finding.growth.k)
                self.assertEqual(len(text), finding.growth.length)
                self.assertIn(text, [it["text"] for it in told["costs"]])
                self.assertLess(len(told["costs"]), 12)
                with closing(Asker(Options())) as asker:
                    answer = asker.ask(question("cost", pattern, 0, mode="search", text=text))
                self.assertEqual(answer["steps"], str(finding.growth.steps))
                self.assertTrue(5e8 < finding.growth.steps < 2e10, finding.growth.steps)
                self.assertEqual(finding.why.drawn.text in text, True)

    def test_a_text_is_no_longer_than_what_is_counted(self) -> None:
        finding = self.told(r"(?:abcdefgh)+x")["finding"]
        self.assertTrue(64_000 < finding.growth.length <= 65_536, finding.growth)
        self.assertGreater(finding.growth.steps, 1e8)

    def test_one_run_is_written_as_one(self) -> None:
        finding = self.told(r"\s+(.+), subnet")["finding"]
        self.assertRegex(try_code(finding), r'subnet", "\\t" \* 1[3-6]00\)$')


class Shortened(unittest.TestCase):
    """Which shorter texts the ways show; nothing is asked."""

    def test_copies_of_a_word(self) -> None:
        found = growth.shortened(Family(("000", " "), ("00",)), exponential().why, True)
        assert found is not None and found.why is not None
        self.assertEqual((found.family, found.why.readings[0].text), (Family(("0", " "), ("0",)), "0"))
        self.assertEqual({len(it) for it in found.why.readings[0].ways}, {1})

    def test_a_way_that_leads_elsewhere_is_whole(self) -> None:
        one, two, back = step((0, 1)), step((2, 3)), step((4, 5))
        why = Why((Reading("abc", ((one, one, back), (one, two, back)), 1),))
        self.assertIsNone(growth.shortened(Family(("", ""), ("abc",)), why, True))
        self.assertIsNone(growth.shortened(Family(("", ""), ("abc",)), None, True))
        # (both letters of the second lead from one place to another one, so half of it isn't a round)
        why = Why((Reading("aa", ((one, back), (two, back)), 0),))
        self.assertIsNone(growth.shortened(Family(("", ""), ("aa",)), why, True))

    def test_another_text_than_that_of_the_ways(self) -> None:
        self.assertIsNone(growth.shortened(Family(("", ""), ("xy",)), exponential().why, True))

    def test_runs_of_one_character(self) -> None:
        found = growth.shortened(Family(("\t\t", "\t", "", "!"), ("\n\t", "\t\t", "\t\t")), cubic().why, False)
        assert found is not None
        self.assertEqual(found.family, Family(("", "!"), ("\t",)))
        kept = growth.shortened(Family(("", "x", "", "!"), ("\n\t", "\t\t", "ab")), cubic().why, False)
        assert kept is not None
        self.assertEqual(kept.family, Family(("", "x", "", "!"), ("\t", "\t", "ab")))


if __name__ == "__main__":
    unittest.main()
