"""Trees of patterns, how they are written, and each rule on its example."""
from __future__ import annotations

import re
import unittest
from typing import Any, Dict, Iterator, List, Tuple, Union

from engine_support import missing
from relint.engine.ask import Asker
from relint.mend import nodes
from relint.mend.rules import LOOKS, RULES, WHOLE, Rule
from relint.mend.search import Sampler, distance, is_hard, read_pattern
from relint.options import Options

NO_ASK = missing("relint-ask")
ASKER = Asker(Options())
# The examples that match other texts than their patterns: these rules lean on what stands around.
LEANING = {"close", "cede", "disjoint", "exclude", "exclude-far", "fallback", "fill", "hoist", "with-blanks", "trim",
           "stop-all", "after-last", "line-anchor", "end-own-far", "temper", "stop-run", "stop-before"}


def read(pattern: "str | bytes", flags: int = 0) -> nodes.Pattern:
    return read_pattern(pattern, flags, ASKER)


def proposed(rule: Rule, found: nodes.Pattern) -> Iterator[nodes.Node]:
    places = [((), found.tree)] if rule in (*WHOLE, *LOOKS) else nodes.positions(found.tree)
    for path, node in places:
        for new in rule.rewrite(node, found.alphabet):
            yield nodes.put(found.tree, path, new)


def part(kind: str, start: int, end: int, **more: Any) -> Dict[str, Any]:
    return {"kind": kind, "start": start, "end": end, **more}


def one(at: int) -> Dict[str, Any]:
    return part("set", at, at + 1, letters=[0])


def row(start: int, end: int, *items: Any) -> Dict[str, Any]:
    return part("sequence", start, end, items=list(items))


def either(start: int, end: int, *branches: Any) -> Dict[str, Any]:
    return part("choice", start, end, branches=list(branches))


def group(start: int, end: int, body: Any) -> Dict[str, Any]:
    return part("group", start, end, captures=False, number=None, body=body)


def mark(start: int, end: int) -> Dict[str, Any]:
    return part("boundary", start, end, negated=False, ascii=False)


def look(start: int, end: int, behind: bool, negated: bool) -> Dict[str, Any]:
    return part("look", start, end, behind=behind, negated=negated, letters=[0])


def moved(it: Any, by: int) -> Any:
    """A part of an answer with other places."""
    if isinstance(it, list):
        return [moved(one, by) for one in it]
    if not isinstance(it, dict):
        return it
    return {key: value + by if key in ("start", "end") else moved(value, by) for key, value in it.items()}


def reply(probe: nodes.Probe, items: List[Any]) -> Dict[str, Any]:
    """The answer to the question of a probe, as relint-ask gives it: without the anchors at the end of the pattern."""
    shift, front = len(probe.inserted), len(probe.front)
    sets = either(front + 3, front + shift - 4, *[one(front + 3) for _ in range(len(probe.pieces) + 4)])
    body = group(front, front + shift - 3, sets)
    first = part("repeat", front, front + shift, min=0, max=0, greedy=True, mark=[0, 0], body=body)
    own = moved(items, shift)
    tree = row(front, own[-1]["end"], first, *own) if own else first
    return {"answer": "tree", "leading": False, "trailing": "none", "letters": [{"sample": "a"}], "tree": tree}


@unittest.skipIf(NO_ASK, NO_ASK)
class Trees(unittest.TestCase):
    def test_a_tree_is_written_as_it_stands_in_the_pattern(self) -> None:
        patterns: List[Union[str, bytes]] = [
            r"a|b+?(?P<x>c{2,3})|", r"^(\w+,?)*$", r"(?i)[a-f]\d(?:x|y){2,}", r"(?s).\x41[\]\-a]", "",
            r"(?:ab|c)*d\Z", r"a\b[^\n]", rb"\xff+[\x80-\xff]"]
        for pattern in patterns:
            with self.subTest(pattern=pattern):
                found = read(pattern)
                self.assertEqual(found.encoded(nodes.written(found.tree, found)), pattern)

    def test_what_is_new_is_written_like_what_is_there(self) -> None:
        for pattern, wanted in ((r"[a-z0-9-./]/", "[a-z0-9-.]"), (".<", r"[^<\n]"), (r"[^>]<", "[^><]"), (r"[\w-]-", r"\w"),
                                (r"[ab]b", "a"), (r"(?s).\n", r"[^\n]"), (".-", r"[^\n-]"), (r"\S#", r"[^\s#]"),
                                (r"[a-z]m", "[a-ln-z]")):
            with self.subTest(pattern=pattern):
                found = read(pattern)
                one, other = (it.mask for it in found.tree.items)
                shown = found.alphabet.show(one & ~other)
                self.assertEqual(shown, wanted)
                for at, letter in enumerate(found.alphabet.samples):
                    matched = re.fullmatch(found.front + str(shown), letter) is not None
                    self.assertEqual(matched, bool((one & ~other) >> at & 1), letter)

    def test_flags_of_a_part_stay_there(self) -> None:
        found = read(r"(?i:a+)(a|b)")
        self.assertEqual(nodes.written(found.tree, found)[-5:], "(a|b)")
        self.assertIn(found.tree.items[0].facts.first, [read("[Aa](a|b)").tree.items[0].mask, found.tree.items[0].facts.first])
        self.assertNotEqual(found.tree.items[0].facts.first, found.tree.items[-1].facts.first)

    def test_layout_comes_over(self) -> None:
        old, new = "a+ # first\n  (b|c)* # more\n", "a+(?:[bc]*([bc]))?"
        laid = nodes.with_layout(old, new, True)
        self.assertIn("# first\n", laid)
        self.assertIn("# more\n", laid)
        self.assertEqual("".join(nodes.tokens_of(laid, True)[0]), new)
        self.assertEqual(nodes.with_layout("a(?#x)b+", "ab", False), "a(?#x)b")
        self.assertEqual(nodes.with_layout("(?x:a b)", "ab", False), "ab")

    def test_anchors_that_are_not_in_the_answer_come_back(self) -> None:
        cases: Tuple[Tuple[str, List[Any], str], ...] = (
            (r"(?:ab)c\b$", [group(0, 6, row(3, 5, one(3), one(4))), one(6), mark(7, 9)], r"abc\b$"),
            (r"(?:ab)c", [group(0, 6, row(3, 5, one(3), one(4))), one(6)], r"(?:ab)c"), (r"(?i)a\Z", [one(4)], r"(?i)a\Z"),
            ("$", [], "$"), ("(?:a|b)", [group(0, 7, either(3, 6, one(3), one(5)))], "a|b"),
            ("(?i:ab)c", [group(0, 7, row(4, 6, one(4), one(5))), one(7)], "(?i:ab)c"))
        for text, body, wanted in cases:
            with self.subTest(text=text):
                probe = nodes.Probe(text, 0, False)
                found = probe.read(reply(probe, body))
                self.assertEqual(nodes.written(found.tree, found), wanted)
                new = nodes.row([*found.tree.items, nodes.guard("#")]) if found.tree.kind == nodes.ROW else found.tree
                self.assertEqual(nodes.written(new, found).replace("#", ""), wanted.replace("(?:ab)", "ab"))

    def test_a_look_is_a_guard_that_is_written_as_it_stands(self) -> None:
        line_end = row(1, 2, part("repeat", 1, 2, min=0, max=1, greedy=False, mark=[1, 2], body=one(1)),
                       part("anchor", 1, 2, what="text-end", multiline=False))
        cases: Tuple[Tuple[str, List[Any]], ...] = (
            ("(?=a)b(?<!a|a)", [look(0, 5, False, False), one(5), look(6, 14, True, True)]),
            ("b(?: (?! a ) a)", [one(0), group(1, 15, row(5, 14, look(5, 12, False, True), one(13)))]),
            ("(?i:(?<=a)b)", [group(0, 12, row(4, 11, look(4, 10, True, False), one(10)))]),
            ("a$|b", [either(0, 4, row(0, 2, one(0), part("nothing", 1, 2)), one(3))]),
            ("a$|b", [either(0, 4, row(0, 2, one(0), line_end), one(3))]))
        for text, body in cases:
            with self.subTest(text=text):
                probe = nodes.Probe(text, int(re.X) if " " in text else 0, False)
                answer = reply(probe, body)
                if body[0]["kind"] == "choice":
                    # (then the set of the probe stands in the first branch)
                    first, whole = answer["tree"]["items"]
                    whole["branches"][0]["items"].insert(0, first)
                    answer["tree"] = whole
                found = probe.read(answer)
                self.assertEqual(nodes.written(found.tree, found), text)
                guards = [it for _, it in nodes.positions(found.tree) if it.kind == nodes.GUARD]
                self.assertTrue(guards and found.tree.facts.guarded)
                self.assertTrue(all(it.facts.nullable and not it.facts.mask | it.facts.first for it in guards))

    def test_a_new_look_is_written_like_what_is_there(self) -> None:
        found = read(r"[ab](\d|a)")
        one = found.tree.items[0].mask
        for behind, negated, wanted in ((False, False, "(?=[ab])"), (False, True, "(?![ab])"), (True, False, "(?<=[ab])"),
                                        (True, True, "(?<![ab])")):
            new = nodes.row([nodes.look(behind, negated, one), *found.tree.items])
            self.assertEqual(nodes.written(new, found), wanted + r"[ab](\d|a)")

    def test_an_answer_that_is_no_tree_is_refused(self) -> None:
        probe = nodes.Probe("a", 0, False)
        node = {"kind": "set", "start": 0, "end": 1, "letters": [0]}
        for tree in ({}, node, {"kind": "sequence", "start": 0, "end": 1, "items": [node, node]}):
            with self.assertRaises(nodes.Unreadable):
                probe.read({"letters": [{"sample": "a"}], "tree": tree, "trailing": "none"})


@unittest.skipIf(NO_ASK, NO_ASK)
class Rules(unittest.TestCase):
    def test_each_rule_gives_its_example(self) -> None:
        for rule in (*RULES, *WHOLE, *LOOKS):
            with self.subTest(rule=rule.name):
                pattern, wanted = rule.example
                found = read(pattern)
                texts = [nodes.written(it, found) for it in proposed(rule, found)]
                self.assertIn(wanted, texts)

    def test_names_are_their_own_and_groups_stay(self) -> None:
        names = [it.name for it in (*RULES, *WHOLE, *LOOKS)]
        self.assertEqual(len(names), len(set(names)))
        for rule in (*RULES, *WHOLE, *LOOKS):
            for pattern in (rule.example[0], "(?P<n>" + rule.example[0].replace("$", "") + ")x", r"(?:(\w+)(-)?)*(b+)?c"):
                found = read(pattern)
                for it in proposed(rule, found):
                    self.assertLessEqual(set(it.facts.groups), set(found.tree.facts.groups), (rule.name, pattern))

    def test_examples_match_the_same_texts(self) -> None:
        for rule in (*RULES, *WHOLE, *LOOKS):
            if rule.name in LEANING:
                continue
            with self.subTest(rule=rule.name):
                asked = {"ask": "compare", "first": rule.example[0], "second": rule.example[1], "mode": "fullmatch"}
                self.assertEqual(ASKER.ask(asked).get("relation"), "equal")
                for text in Sampler(read(rule.example[0]), 5).texts(200):
                    both = [re.fullmatch(it, text) is None for it in rule.example]
                    self.assertEqual(both[0], both[1], text)


class Reading(unittest.TestCase):
    def test_what_is_nearer_reads_better(self) -> None:
        def order(old: str, every: List[str]) -> List[str]:
            return sorted(every, key=lambda it: distance(old, it))
        self.assertEqual(order(r"(.*)\s+x", [r"((?:.*?\S)??)\s+x", r"((?:.*\S)?)\s+x", r"(\S*)\s+x"])[0], r"(\S*)\s+x")
        self.assertEqual(order("a+b", ["(?:a)+b", "ab"])[0], "ab")
        self.assertTrue(is_hard("a+", "(?:(?:(?:a)))"))
        self.assertFalse(is_hard(r"^(\w+,?)*$", r"^(?:(?:\w+,)*(\w+,?))?$"))


if __name__ == "__main__":
    unittest.main()
