"""Trials of findings on this Python, forms of patterns that relint can't judge, and the rate."""
from __future__ import annotations

import json
import os
import re
import sys
import time
import unittest
from typing import Any, Dict, List, Optional, Tuple
from unittest import mock

from engine_support import folder, missing
from screens_support import rlt
from relint.base.model import NEW, OTHER, SEEN, Entry, Family, Finding, Place, Site, Text, Verdict
from relint.engine.ask import Asker
from relint.options import Options
from relint.trials import confirm, loosen
from relint.trials.confirm import CONFIRMED, NOT_SEEN, NOT_TRIED, Limits, Outcome
from relint.trials.trial import next_k
from relint.trials.tries import Trials

NO_ASK = missing("relint", "relint-ask")
BAD = Verdict("exponential", family=Family(("", "b"), ("a",)))
CUBIC = Verdict("degree", 3, family=Family(("", "", ""), ("a", "a")))


def finding(pattern: Text, verdict: Optional[Verdict] = BAD, mode: str = "search", cause: Optional[str] = None) -> Finding:
    kind = "refused" if verdict is None else verdict.kind
    return Finding(Entry("a.py", kind, Place(1, 1), "search", verdict, cause), mode=mode, state=NEW, site=Site(pattern, 0))


def outcomes(*findings: Finding, **limits: Any) -> List[Outcome]:
    given: Dict[str, Any] = {"over": 0.2, "jobs": 2, **limits}
    return confirm.confirmed(findings, Limits(**given))


class Tried(unittest.TestCase):
    """What trials show, and that none does harm."""

    def test_results(self) -> None:
        found = outcomes(finding("(a|aa)*$"), finding("a+"), finding("(", BAD), finding(b"(a)+"), finding("a", None),
                         finding("(a+)+$", mode="match"))
        self.assertEqual([it.result for it in found], [CONFIRMED, NOT_SEEN, NOT_TRIED, NOT_TRIED, NOT_TRIED, CONFIRMED])
        self.assertGreater(found[0].length, 15)
        self.assertIn("doesn't take the pattern: missing )", found[2].why)
        self.assertEqual(outcomes(finding("a"), longest=0)[0].why, "its first text is longer than 0 characters")

    def test_many_at_a_time_keep_their_order(self) -> None:
        found = outcomes(*[finding("(a|aa)*$" if at % 3 == 0 else "a+") for at in range(9)], over=0.05)
        self.assertEqual([it.result == CONFIRMED for it in found], [at % 3 == 0 for at in range(9)])

    def test_the_end_of_the_time(self) -> None:
        self.assertEqual([it.result for it in outcomes(finding("a+"), until=time.monotonic())], [NOT_TRIED])

    def test_a_process_that_is_late_or_dies(self) -> None:
        question = {"pattern": "(a|aa)*$", "flags": 0, "bytes": False, "mode": "search", "heads": ["", "b"], "pumps": ["a"],
                    "seconds": 30.0, "longest": 100, "exponential": True}
        trials = Trials(seconds=1.0)
        begun = time.monotonic()
        self.assertEqual(trials.ask_all([question, {"pattern": 5}]), [None, None])
        self.assertLess(time.monotonic() - begun, 15)
        trials.close()

    def test_the_next_text(self) -> None:
        self.assertEqual(next_k([(1, 1, 0.0)], 1.0, True), 2)
        self.assertEqual(next_k([(8, 8, 0.1), (10, 10, 0.4)], 1.0, True), 12)
        self.assertEqual(next_k([(100, 1, 0.1), (200, 1, 0.8)], 1.0, False), 218)

    def test_powers_and_classes_that_were_seen(self) -> None:
        times = tuple((it, it, 1e-6 * it ** 2) for it in (100, 200, 400, 800))
        power = confirm.power_of(Outcome(CONFIRMED, 1000, 1000, 1.0, times=times), 1.0)
        self.assertAlmostEqual(power, 2.0, 1)
        self.assertEqual(confirm.seen_class(CUBIC, power, 1), Verdict("degree", 2, family=CUBIC.family))
        self.assertEqual((confirm.seen_class(CUBIC, power, 2), confirm.seen_class(CUBIC, 2.5, 2)), (None, CUBIC))
        self.assertEqual(confirm.seen_class(BAD, 6.1, 2), BAD)
        self.assertEqual(confirm.power_of(Outcome(CONFIRMED, 5, 5, 1.0), 1.0), 0.0)


class Forms(unittest.TestCase):
    """Forms of patterns that relint refuses."""

    def made(self, pattern: Text, undecided: bool = False) -> List[Text]:
        return loosen.forms(pattern, 0, undecided)

    def test_forms(self) -> None:
        cases: List[Tuple[Text, Text]] = [
            (r"(?=a)(a+)+$", r"(?:(?:(?:a){1,})){1,}\Z"), (r"(['\"])x*\1", "(?:['\"])(?:x){0,}(?:['\"])"),
            (r"(?<!x)(a)(?(1)c|d)\b", r"(?:a)(?:c|d)\b"), (r"(?i:a(?!b))[^\W\d_-]é", r"(?i:a)[^\W\d_\-]\xe9"),
            (b"(?=a)\xff+?", b"(?:\\xff){1,}?"), (r"(?m)^(?=a)b$", r"(?m)^b$"), (r"(?x) a (?=b) \ [ ]", r"(?:\ )"[3:5]),
        ]
        for pattern, wanted in cases[:-1]:
            with self.subTest(pattern=pattern):
                self.assertIn(wanted, self.made(pattern))
        if sys.version_info >= (3, 11):
            self.assertEqual(self.made(r"(?>a+)b*+"), ["(?:(?:a){1,})(?:b){0,}"])

    def test_parts_of_what_is_undecided(self) -> None:
        made = self.made(r"(?:ab){50}c+d{2,9}", True)
        self.assertIn("(?:ab){3}(?:c){1,}(?:d){2,9}", made)
        self.assertIn("(?:c){1,}", made)

    def test_no_forms(self) -> None:
        for pattern in ("(", "a", "(" * 500 + ")" * 500, r"(?P<a>(?P=a)b)"):
            self.assertEqual(self.made(pattern)[:1] if pattern == "a" else self.made(pattern)[1:], [])

    def test_all_forms_are_patterns(self) -> None:
        for pattern in (r"(?=.*\d)(?!.*[ ])[\]\-^a-]{3,}\Z", r"((?<=a)b|c)*(?:\1|\n)", r"(?s:.)(?-i:x)\x00\u1234#"):
            for it in self.made(pattern, True):
                re.compile(it)


@unittest.skipIf(NO_ASK, NO_ASK)
class Asked(unittest.TestCase):
    """What needs the service."""

    def test_patterns_that_were_seen_to_hang(self) -> None:
        asker = Asker(Options())
        findings = [finding(r"(?=aa)(a+)+$", None, cause="lookaround"), finding(r"(?=ab)b", None, cause="lookaround"),
                    finding("a", None, cause="no-such")]
        found = confirm.hangs([Finding(it.entry, state=OTHER, site=it.site) for it in findings], asker, Limits(0.2), 2)
        asker.close()
        self.assertEqual([(it.known == SEEN, it.state) for it in found], [(True, NEW), (False, OTHER), (False, OTHER)])
        assert found[0].seen is not None and found[0].verdict is not None
        self.assertEqual((found[0].verdict.kind, found[0].seen.seconds), ("exponential", 0.2))

    def test_the_command(self) -> None:
        with folder({"a.py": "import re\nre.search('^(a|aa)*$', s)\n"}) as here, \
                mock.patch.dict(os.environ, {"XDG_CACHE_HOME": str(here / "cache")}):
            ran = rlt("confirm", "--no-config", "a.py")
            self.assertEqual(ran.status, 0, ran.err)
            self.assertRegex(ran.out, r"\Aa.py:2:11: search: exponential: confirmed: .* takes over 1 s on a text of \d+ "
                                      r"characters\n1 finding: 1 confirmed, 0 not seen\n\Z")
            self.assertRegex(ran.err, r"rate.json: about [\d,]+ steps a second|no rate is kept")
            rows = json.loads(rlt("confirm", "--no-config", "--format", "json", "a.py").out)["findings"]
            self.assertEqual([it["result"] for it in rows], ["confirmed"])


if __name__ == "__main__":
    unittest.main()
