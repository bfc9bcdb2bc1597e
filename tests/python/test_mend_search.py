"""The search for cures: what it finds, what it must never find, and what is offered."""
from __future__ import annotations

import os
import random
import re
import sys
import time
import unittest
from dataclasses import replace
from types import SimpleNamespace
from typing import Iterator, List, Tuple
from unittest import mock

from engine_support import missing
from relint.base.model import Bound, Entry, Finding, Literal, Offer, Place, Site, Text, Use, Uses, Verdict
from relint.base.words import offer_words
from relint.engine.ask import Asker
from relint.mend import offers, search
from relint.mend.nodes import CHOICE, ROW, Alphabet, Node, choice, row
from relint.mend.rules import Rule
from relint.mend.search import EVERY_METHOD, How
from relint.options import Options
from relint.trials.tries import Trials

NO_ASK = missing("relint-ask")
ASKER = Asker(Options())
ONE = {it: How(frozenset([it]), 0, False, worst=it if it in ("match", "fullmatch") else "search") for it in EVERY_METHOD}
TRUTH = How(frozenset(["search"]), 0, False, "truth")
# A pattern, its uses, and what it becomes.
FIXED: List[Tuple[Text, How, Text]] = [
    (r"^(?P<suffix>[A-Z]+)*$", How(), r"^(?P<suffix>[A-Z]+)?$"),
    (r"^(\w+,?)*$", ONE["search"], r"^(?:(?:\w+,)*(\w+,?))?$"),
    (r"\s+(.+), subnet", ONE["search"], r"\s+(\S.*|[^\S\n]), subnet"),
    (rb"^(\w+)*$", ONE["match"], rb"^(\w+)?$"),
    (r".*warn.*disk", TRUTH, r"warn.*disk"),
    (r"%(\w+).*;?\t(.*)!", ONE["search"], r"%(\w+).*;?\t([^\t\n]*)!"),
    (r"([\(,])\s*(\d.*?)\s*([,\)])", How(), r"([\(,])\s*(\d(?:.*?\S)??)\s*([,\)])"),
    ("(?x)^ ( [A-Z]+ )* # letters\n $", ONE["match"], "(?x)^ ( [A-Z]+ )? # letters\n $"),
    (r"\S+\s\((\S+\s?\S+)\)", ONE["search"], r"\S+\s\(((?:\S+\s|\S)\S+)\)"),
    (r"\s?(\d+)\s(\d+.\d+)%", ONE["search"], r"\s?((?<!\d)\d+)\s(\d+.\d+)%"),
    (r"open (.*?)shut(.*?)lock", ONE["search"], r"open ((?:[^s\n]|s(?!h)|sh(?!u)|shu(?!t))*?)shut(.*?)lock"),
    (r"open (.*)shut(.*)lock", ONE["search"], r"open (.*)shut((?:[^s\n]|s(?!h)|sh(?!u)|shu(?!t))*)lock"),
]


# Without the last resort: runs that a look ends, which are fixes of their own.
WITHOUT_LOOKS = mock.patch.object(search.Search, "stop_runs", lambda self: None)


def found(pattern: Text, how: How, seconds: float = 30.0) -> List[search.Cure]:
    return offers.cures_of(pattern, how, ASKER, time.monotonic() + seconds)


@unittest.skipIf(NO_ASK, NO_ASK)
class Found(unittest.TestCase):
    def test_fixes(self) -> None:
        for pattern, how, wanted in FIXED:
            with self.subTest(pattern=pattern):
                cures = found(pattern, how)
                self.assertEqual([(it.pattern, it.differs, it.hard_to_read) for it in cures], [(wanted, "", False)])
                self.assertLessEqual(cures[0].top, 2)

    def test_what_differs_is_said_in_a_clause(self) -> None:
        with WITHOUT_LOOKS:
            said = {it.differs for pattern, how in (
                (r'"(\\.|[^"\\]+)*"', ONE["search"]), (r".*<b>(.*)</b>.*", How(frozenset(["search"]), 0, True)),
                (r"https?://(.+)\.ddb\.(.+)\.com", ONE["search"])) for it in found(pattern, how)}
        self.assertTrue(any(it.startswith("same texts, but group 1 holds ") for it in said), said)
        self.assertTrue(any(it == "the same, unless the call is given a position" for it in said), said)
        self.assertTrue(any(it.startswith("it no longer matches ") for it in said), said)

    def test_a_position_decides_between_fix_and_advice(self) -> None:
        pattern = r".*<b>(.*)</b>.*"
        self.assertEqual(found(pattern, ONE["search"])[0].pattern, r"(?m:^).*<b>(.*)</b>.*")
        with WITHOUT_LOOKS:
            self.assertNotEqual(found(pattern, How(frozenset(["search"]), 0, True))[0].differs, "")
        wanted = r".*<b>((?:[^<\n]|<(?!b)|<b(?!>))*)</b>.*"
        self.assertEqual(found(pattern, How(frozenset(["search"]), 0, True))[0].pattern, wanted)

    def test_a_run_before_a_word_stops_there(self) -> None:
        pattern = r"^a/(.+?)/locations/(.+?)/builds/(.+?)$"
        for how, wanted, needs in (
                (ONE["match"], r"^a/(.(?:(?!/locations/).)*?)/locations/(.+?)/builds/(.+?)$", ""),
                (replace(ONE["match"], has_atomic=True), r"^a/(?>(.+?)/locations/)(.+?)/builds/(.+?)$", "3.11")):
            if needs and sys.version_info < (3, 11):
                continue
            cure = found(pattern, how)[0]
            self.assertEqual((cure.pattern, cure.is_proved, bool(cure.differs)), (wanted, False, not needs))

    def test_a_pattern_that_loses_little_is_advice(self) -> None:
        for pattern, wanted in ((r"^(([a-z])+.)+[A-Z]([a-z])+$", r"^(([a-z])+\.)+[A-Z]([a-z])+$"),
                                (r"^(.*?,){11}P", r"^([^,\n]*?,){11}P")):
            cure = found(pattern, ONE["match"])[0]
            self.assertEqual((cure.pattern, cure.rank), (wanted, search.MISSED))
            lost = re.fullmatch(r'it no longer matches "(.*)"', cure.differs)
            assert lost is not None
            self.assertTrue(re.match(pattern, lost[1]) and not re.match(str(cure.pattern), lost[1]))

    def test_a_blank_behind_flags_is_a_part(self) -> None:
        self.assertEqual(search._between("(?i) a", "\\A", "", False), "(?i)\\A(?: a)")
        self.assertEqual(search._between("(?x) (?i) a # b", "\\A", "\\Z", True), "(?x) (?i)\\A(?: a # b\n)\\Z")
        self.assertEqual(search._between(rb"a|b", "\\A", "", False), rb"\A(?:a|b)")

    def test_a_suggestion_with_other_groups_is_none(self) -> None:
        for pattern, suggestion, wanted in ((r"^((a+)|b)+$", r"^(a+|b)+$", False), (r"^(?:a|a)*b$", r"^a*b$", True)):
            with mock.patch.object(search, "RULES", ()), mock.patch.object(search, "WHOLE", ()):
                cures = offers.cures_of(pattern, TRUTH, ASKER, time.monotonic() + 9, suggestion)
            self.assertEqual([it.pattern for it in cures if it.steps == ("suggestion",)], [suggestion] * wanted)

    def test_nothing_to_mend(self) -> None:
        for pattern in ("a+", "(a|b)*c", "(?=aa)(a+)+$", "(", "(?i)[^]"):
            self.assertEqual(found(pattern, How()), [])

    def test_hostile_patterns_take_no_longer(self) -> None:
        nested = "(?:" * 12 + r"\b" + "){40}" * 12 + "(a+)+$"
        letters = "".join(map(chr, range(256, 3000)))
        for pattern in (nested, "(?:a|b)*" * 300 + "$", "(" * 90 + "a*" + ")*" * 90, f"[{letters}]+a+a+$",
                        "(?x)" + "a+ #\n" * 600 + "$"):
            begun = time.monotonic()
            found(pattern, How(), 2.0)
            self.assertLess(time.monotonic() - begun, 12, pattern[:30])

    def test_a_run_that_a_look_ends(self) -> None:
        cures = found(r'"(\\.|[^"\\]+)*"', ONE["search"])
        self.assertEqual([(it.pattern, it.differs, it.is_proved) for it in cures], [(r'"(\\.|[^"\\]+(?![^"\\]))*"', "", True)])

    def test_a_look_in_front_counts_behind_a_match_too(self) -> None:
        # (a match of the second pattern ends with a blank, and the next one may begin with the next blank)
        for pattern, is_fix in ((r"\s+(\d+)\s+(\d+)\s*x", True), (r"\s+(\d+)\s+(\d+)\s*x\s", False)):
            for method, sees in (("findall", "groups"), ("sub", "spans")):
                cures = found(pattern, replace(ONE[method], sees=sees))
                fixes = [it.pattern for it in cures if not it.differs and not it.hard_to_read]
                self.assertEqual(r"(?<!\s)" + pattern in fixes, is_fix, cures)
            self.assertIn(r"(?<!\s)" + pattern, [it.pattern for it in found(pattern, ONE["search"])])

    def test_no_time_is_no_cure(self) -> None:
        self.assertEqual(found(r"^(\w+,?)*$", ONE["search"], -1.0), [])


def ruined(node: Node, alphabet: Alphabet) -> Iterator[Node]:
    """A false rule: the last branch of a choice goes, and so does the last part of a row."""
    if node.kind == CHOICE:
        yield choice(node.items[:-1])
    if node.kind == ROW and len(node.items) > 1:
        yield row(node.items[:-1])


FALSE = (Rule("ruined", 0, ruined, ("a|b", "a")),)


@unittest.skipIf(NO_ASK, NO_ASK)
class Refused(unittest.TestCase):
    def test_a_false_rule_gives_no_fix(self) -> None:
        with WITHOUT_LOOKS, mock.patch.object(search, "RULES", FALSE), mock.patch.object(search, "WHOLE", ()):
            for pattern in (r"(?:a+|b+)*c", r"x(?:\w+\s?)*y", r"(?:ab|ba|b)*d", r"(a*)*b"):
                for cure in found(pattern, ONE["search"]):
                    self.assertNotEqual(cure.differs, "", (pattern, cure))

    def test_without_trials_too(self) -> None:
        blind = mock.patch.object(Trials, "kinds", lambda self, patterns, seconds: (["a"] * len(patterns), 0))
        with blind, WITHOUT_LOOKS, mock.patch.object(search, "RULES", FALSE), mock.patch.object(search, "WHOLE", ()):
            for cure in found(r"(?:a+|b+)*c", ONE["search"]):
                self.assertNotEqual(cure.differs, "")

    def test_a_class_that_is_only_bounded_counts_as_its_worst(self) -> None:
        low = Bound("degree", 1, "search-costs-its-match")
        self.assertEqual(search._rank(Verdict("undecided", limit="pairs", at_least=low)), search.EXPONENTIAL)
        self.assertEqual(search._rank(Verdict("undecided", at_least=low, at_most=Bound("degree", 2, "one-degree-more"))), 2)
        self.assertEqual((search._rank(None), search._rank(Verdict("degree", 0))), (search.EXPONENTIAL, 0))

    def test_an_answer_other_than_same_proves_nothing(self) -> None:
        ask = ASKER.ask_all

        def lying(questions: "List[dict[str, object]]") -> "List[object]":
            answers = ask(questions)
            return [{"answer": "exceeded"} if it["ask"] == "spans" else one for it, one in zip(questions, answers)]
        with mock.patch.object(ASKER, "ask_all", lying):
            self.assertNotEqual([it.differs for it in found(r"^(\w+,?)*$", ONE["search"])][:1], [""])

    def test_random_patterns_agree_with_re(self) -> None:
        shuffled = random.Random(int(os.environ.get("RELINT_MEND_SEED", "20")))
        for _ in range(int(os.environ.get("RELINT_MEND_PATTERNS", "6"))):
            pattern = random_pattern(shuffled, 3)
            try:
                first: "re.Pattern[str]" = re.compile(pattern)
                cures = found(pattern, ONE["search"], 3.0)
            except re.error:
                continue
            for cure in cures:
                assert isinstance(cure.pattern, str)
                second = re.compile(cure.pattern)
                for _ in range(200 if not cure.differs else 0):
                    text = "".join(shuffled.choice('ab1 ,"\n-') for _ in range(shuffled.randrange(9)))
                    one, other = first.search(text), second.search(text)
                    self.assertEqual(one and [one.regs, one.lastindex], other and [other.regs, other.lastindex], pattern)


def random_pattern(shuffled: random.Random, depth: int) -> str:
    pick = shuffled.random()
    if depth == 0 or pick < 0.25:
        return shuffled.choice((r"\w", r"\s", ".", "a", "b", "[^,]", r"\d", "[ab]", ",", r"\b", "(?m:^)", '"', r"\\"))
    if pick < 0.5:
        return "".join(random_pattern(shuffled, depth - 1) for _ in range(3))
    if pick < 0.65:
        return f"(?:{random_pattern(shuffled, depth - 1)}|{random_pattern(shuffled, depth - 1)})"
    if pick < 0.75:
        return f"({random_pattern(shuffled, depth - 1)})"
    return f"(?:{random_pattern(shuffled, depth - 1)}){shuffled.choice(('*', '+', '*', '?', '{2,}', '*?', '{1,3}'))}"


def finding(pattern: str, uses: "Uses | None" = None, call: str = "compile", mode: str = "search") -> Finding:
    literal = f'r"{pattern}"'
    entry = Entry("a.py", "exponential", Place(2, 3), call, Verdict("exponential"))
    return Finding(entry, mode=mode, site=Site(pattern, 0, (Literal(literal, 0, len(literal)),)), uses=uses)


class Uses_(unittest.TestCase):
    def test_what_the_uses_ask_for(self) -> None:
        self.assertEqual(offers.how_of(finding("a"), 2), How())
        self.assertEqual(offers.how_of(finding("a", Uses(lost="it is passed on")), 2), How())
        wanted = How(frozenset(["match"]), 0, False, "groups", worst="match", max_degree=3)
        self.assertEqual(offers.how_of(finding("a", call="match", mode="match"), 3), wanted)
        uses = Uses((Use("match", "a.py", 1, sees="truth"), Use("sub", "a.py", 2, sees="spans")))
        self.assertEqual(offers.how_of(finding("a", uses), 2), How(frozenset(["match", "sub"]), 0, False, "spans"))
        self.assertTrue(offers.how_of(finding("a", Uses((Use("match", "a.py", 1, repeated=True),))), 2).position)

    def offered(self, found: Finding) -> Tuple[Offer, ...]:
        run = SimpleNamespace(asker=ASKER, options=Options(), deadline=time.monotonic() + 30, chosen=SimpleNamespace(root="/"))
        return offers.offers(found, run)

    @unittest.skipIf(NO_ASK, NO_ASK)
    def test_offers(self) -> None:
        made = self.offered(finding(r"^(\w+,?)*$", Uses((Use("search", "a.py", 1),))))
        self.assertEqual([(it.kind, it.literal, it.proof, it.differs) for it in made],
                         [("fix", r'r"^(?:(?:\w+,)*(\w+,?))?$"', "proved", "")])
        read = self.offered(finding(r"^(\w+,?)*$", Uses((Use("search", "a.py", 1),), is_read=True)))
        self.assertEqual([(it.kind, it.differs) for it in read], [("advice", offers.READ)])
        self.assertEqual(self.offered(Finding(finding("(a+)+b").entry)), ())

    @unittest.skipIf(NO_ASK, NO_ASK)
    def test_what_no_use_reads_is_said(self) -> None:
        def said(pattern: str, method: str, sees: str, position: bool = False) -> str:
            """What is said of the first offer for a pattern with one use."""
            return offer_words(self.offered(finding(pattern, Uses((Use(method, "a.py", 1, position, sees),))))[0])

        loop, tags = r"(\w+\s?)*z", r".*<b>(.*)</b>.*"
        self.assertEqual(said(loop, "search", "spans"), "quadratic, and finds the same (proved); nothing here reads the group")
        self.assertEqual(said(loop, "search", "truth"), "linear, and matches the same texts (proved); nothing here reads more")
        self.assertEqual(said(r"(\w+,?)*" + loop, "sub", "spans"),
                         "quadratic, and finds the same (proved); nothing here reads the groups")
        self.assertEqual(said(tags, "search", "groups"),
                         "quadratic, and finds the same (proved); no call here gives a position")
        self.assertEqual(said(r"(?:\w+\s?)*z", "fullmatch", "groups"), "quadratic, and finds the same (proved)")
        self.assertEqual(said(r"^(\w+,?)*$", "search", "groups"), "linear, and finds the same (proved)")

    @unittest.skipIf(NO_ASK, NO_ASK)
    def test_what_is_still_a_finding_is_no_fix(self) -> None:
        made = self.offered(finding(r"<([^>]*\srel\s*=\s*['\"]?([^'\">]+)[^>]*)>", Uses((Use("search", "a.py", 1),))))
        self.assertEqual([it.kind for it in made][:1], ["better"])


class Compared(unittest.TestCase):
    def setUp(self) -> None:
        self.trial = Trials()
        self.addCleanup(self.trial.close)

    def test_kinds(self) -> None:
        self.trial.begin("(a)|(ab)", False, 0, ["search", "finditer"], ["", "a", "ab", "xab"])
        self.assertEqual(self.trial.kinds(["(a)|(ab)", "(a)()", "ab|a", "b", "(", "a|ab"])[0], ["a", "b", "c", "-", "-", "b"])

    def test_bytes_and_hostile_patterns(self) -> None:
        self.trial.begin("\xff+", True, 0, ["match"], ["\xff\xff", "\u0100", "a"])
        self.assertEqual(self.trial.kinds(["\xff", "[\xfe-\xff]+"])[0], ["c", "a"])
        begun = time.monotonic()
        self.trial.begin("(a*)*b", False, 0, ["search"], ["a" * 60] * 20 + ["b"])
        self.assertEqual(self.trial.kinds(["(?:a*)*c", "a*b"])[0], ["-", "b"])
        self.assertLess(time.monotonic() - begun, 10)

    def test_a_process_that_dies_says_nothing(self) -> None:
        self.trial.begin("a", False, 0, ["search"], ["a"])
        self.trial.kinds(["a"])
        process = self.trial._services[0].running._process
        process.kill()
        process.wait()
        self.assertEqual(self.trial.kinds(["b"]), (["a"], 0))
        self.assertEqual(self.trial.kinds(["b"]), (["-"], 1))


if __name__ == "__main__":
    unittest.main()
