"""Searches for cures of a pattern: rules propose patterns, and relint-ask judges them.

A *cure* matches the same texts and has a lower class. What else has to be the same is what the code sees: only whether there
is a match, spans, or groups too. Proposals first run beside the pattern on a few texts, so that relint-ask is asked only about
those that may be right.
"""
from __future__ import annotations

import heapq
import itertools
import os
import random
import re
import time
from dataclasses import dataclass, replace
from difflib import SequenceMatcher
from functools import lru_cache
from typing import Any, Dict, FrozenSet, Iterator, List, Mapping, NamedTuple, Optional, Sequence, Set, Tuple

from ..base.model import MODES, Text, Verdict
from ..base.words import UNREAD, quoted
from ..engine.ask import Asker, as_text, letters, pair
from ..engine.engine import ReportError, read_text
from ..trials.trial import GROUPS_TOO, OTHER, SPANS_TOO, TEXTS_ALONE
from ..trials.tries import Trials
from . import nodes
from .nodes import (
    CHARS, CHOICE, EMPTY, GUARD, REPEAT, ROW, Alphabet, Node, Pattern, Unreadable, again, chars, ends, guard, made, positions,
    put, row,
)
from .rules import LOOKS, RULES, WHOLE, Path, Rule, edge, endless_runs, signs, stripped, with_edge, word_free

REPEATED = frozenset(("findall", "finditer", "split", "sub", "subn"))
EVERY_METHOD = frozenset(("match", "search", "fullmatch")) | REPEATED
# How many proposals are made for a tree and asked at once, how many comparisons, trees and texts a search takes.
BATCH, MOST_PROPOSALS, MOST_MADE, LONGEST = 60, 240, 2000, 4000
MOST_TRIES, MOST_STEPS, MOST_TREES, MOST_ASKED = 50, 5, 24, 3000
SIEVED, TRIED, LONGEST_TEXT, MOST_PARTS, MOST_MATCHED = 150, 1000, 80, 2000, 250_000
MORE_TRIES, MOST_EVEN, MOST_ADVICE = 10, 8, 4
# A degree less is worth so many characters more, a new group as hard to read as so many, a new escape, brackets in brackets.
DEGREE_WEIGHT, GROUP_WEIGHT, ESCAPE_WEIGHT, NESTED_WEIGHT = 8, 3, 2, 4
OPENED, ESCAPED, NESTED = re.compile(r"\((?!\?<?[=!])"), re.compile(r"\\[A-Za-z]"), re.compile(r"\)[*+?}]+\)[*+?{]")
GUARDS = re.compile(r"\(\?<!|\(\?m:\^\)|\\b")
EXPONENTIAL, MISSED = 1_000_000, 9
LONG_LOOK = "it finds the same, but relint can't judge a look-ahead of more than one character"


@dataclass(frozen=True)
class How:
    """How code uses a pattern: by which methods, whether with a position, and what it sees ("truth", "spans" or "groups").

    `worst` is the mode in which its class is to get lower, and `max_degree` the highest degree that is no finding.
    `has_atomic` says that it needs a Python that knows atomic groups.
    """

    methods: FrozenSet[str] = EVERY_METHOD
    flags: int = 0
    position: bool = True
    sees: str = "groups"
    worst: str = "search"
    max_degree: int = 2
    has_atomic: bool = False

    def modes(self) -> Tuple[str, ...]:
        """Returns the modes of the methods and the worst one, which comes first."""
        found = {it if it in MODES else "search" for it in self.methods}
        return (self.worst, *(it for it in MODES if it in found and it != self.worst))

    def only_truth(self) -> bool:
        """Returns whether the code sees only whether there is a match, gives no position, and asks for one match only."""
        return self.sees == "truth" and not self.position and not self.methods & REPEATED

    def goal(self) -> str:
        """Returns what a fix has to be in trials, as one of the words of `trial`."""
        return TEXTS_ALONE if self.only_truth() else GROUPS_TOO if self.sees == "groups" else SPANS_TOO

    def calls(self) -> List[str]:
        """Returns the calls to try."""
        found = [it for it in MODES if it in self.modes()]
        return found + (["finditer"] if self.methods & REPEATED else []) + (["position"] if self.position else [])


@dataclass(frozen=True)
class Cure:
    """A pattern of a lower class, and what is proved of it.

    If `differs` is "", the code can't notice it; otherwise it says in a clause what the code may see. `rank` orders these:
    groups before positions, spans, and texts. `verdict` is its class in the worst mode, and `top` the rank of its worst class.
    `unread` is what may differ without that the code notices it, as a clause says.
    """

    pattern: Text
    verdict: Verdict
    differs: str = ""
    rank: int = 0
    steps: Tuple[str, ...] = ()
    hard_to_read: bool = False
    top: int = 0
    is_proved: bool = True
    unread: str = ""


class Proposal(NamedTuple):
    """A tree that a use of the rule named `rule` gives, with its text and the cost of that use."""

    cost: float
    rule: str
    tree: Node
    text: str


# What a tree is worth: its rank in the worst mode, its exponential loops, its ranks in the other modes.
Worth = Tuple[int, int, Tuple[int, ...]]


def distance(old: str, new: str) -> int:
    """Returns how different two patterns look to a reader: the characters edited and added, and what is hard to read."""
    start = len(os.path.commonprefix([old, new]))
    tail = len(os.path.commonprefix([old[start:][::-1], new[start:][::-1]]))
    was, now = old[start:len(old) - tail], new[start:len(new) - tail]
    edited = max(len(was), len(now))
    if len(was) * len(now) <= MOST_MATCHED:
        codes = SequenceMatcher(None, was, now, autojunk=False).get_opcodes()
        edited = sum(max(end - at, high - low) for tag, at, end, low, high in codes if tag != "equal")
    escapes = len(set(ESCAPED.findall(new)) - set(ESCAPED.findall(old)))
    nested = len(NESTED.findall(new)) - len(NESTED.findall(old))
    return (edited + max(0, len(new) - len(old)) + GROUP_WEIGHT * new_groups(old, new) + ESCAPE_WEIGHT * escapes
            + NESTED_WEIGHT * nested)


def new_groups(old: str, new: str) -> int:
    """Returns how many parentheses a pattern has more; those of looks don't count."""
    return max(0, len(OPENED.findall(new)) - len(OPENED.findall(old)))


def is_hard(old: str, new: str) -> bool:
    """Returns whether a pattern is much harder to read than the old one: twice as long, or with more than two new groups."""
    return len(new) > 2 * len(old) + 12 or new_groups(old, new) > 2


class Search:
    """One search for cures of a pattern, as the code uses it.

    `best` has the best cures so far, with what they are worth: "same" and "hard" are those that the code can't notice, and the
    second is hard to read; "advice" is one that it may notice.
    """

    def __init__(self, pattern: Text, how: How, asker: Asker, trial: Trials, deadline: float = float("inf")) -> None:
        """Takes the pattern, its uses, who is asked, and the time of `time.monotonic` at which to end."""
        self.original, self.how, self.asker, self.trial, self.deadline = pattern, how, asker, trial, deadline
        self.tries = self.trees = self.advised = self.kept_at = 0
        self.asked: Set[Tuple[Text, str]] = set()
        self.seen: Set[str] = set()
        self.best: Dict[str, Tuple[Tuple[int, ...], Cure]] = {}
        self.before: Worth = (0, 0, ())
        self.whole = WHOLE
        self.pattern: Pattern

    def run(self, suggestion: Optional[Text] = None) -> List[Cure]:
        """Searches, and returns the cures found, the best first; `suggestion` is tried first. Raises ProgramError."""
        verdicts = self.asker.verdicts([(self.original, self.how.flags, it) for it in self.how.modes()])
        if verdicts[0] is None or verdicts[0].rank() < 2 or len(self.original) > LONGEST:
            return []
        try:
            self.pattern = read_pattern(self.original, self.how.flags, self.asker)
            text = nodes.written(self.pattern.tree, self.pattern)
        except Unreadable:
            return []
        self.before = verdicts[0].rank(), 0, tuple(_rank(it) for it in verdicts[1:])
        guilty = self.guilty([self.pattern.tree])[0]
        self.before = self.before[0], len(guilty), self.before[2]
        self.seen.update((text, self.pattern.text))
        self.begin(7, SIEVED)
        if suggestion is not None and isinstance(suggestion, type(self.original)):
            self.try_suggestion(as_text(suggestion))
        self.walk(text, MOST_STEPS + max(0, len(guilty) - 1))
        for last in (self.stop_runs, self.stop_at_words):
            if "same" not in self.best or self.best["same"][1].top > self.how.max_degree:
                last()
        self.miss()
        return self.checked()

    def goes_on(self) -> bool:
        """Returns whether the search is to go on."""
        is_in_time = time.monotonic() < self.deadline
        return is_in_time and self.tries < MOST_TRIES and len(self.asked) < MOST_ASKED and not self.is_enough()

    def is_enough(self) -> bool:
        """Returns whether a cure is good: linear, or no finding while nothing better was found for long."""
        if "same" not in self.best:
            return False
        rank = self.best["same"][1].top
        return rank <= 1 or rank <= self.how.max_degree and self.tries >= self.kept_at + MORE_TRIES

    def walk(self, text: str, most_steps: int) -> None:
        """Goes from the pattern to better ones, step by step, the best ones first."""
        numbers = itertools.count()
        queue: List[Tuple[Worth, str, int, int, Node, Tuple[str, ...]]] = []
        heapq.heappush(queue, (self.before, "", len(text), next(numbers), self.pattern.tree, ()))
        while queue and self.goes_on() and self.trees < MOST_TREES:
            worth, _, _, _, tree, steps = heapq.heappop(queue)
            self.trees += 1
            for found, its, kind in self.followers(tree, worth, steps):
                if len(steps) + 1 < most_steps:
                    heapq.heappush(queue, (its, kind, len(found.text), next(numbers), found.tree, (*steps, found.rule)))

    # What is proposed

    def guilty(self, trees: Sequence[Node]) -> List[List[Path]]:
        """Returns for each tree the paths to the loops that are exponential by themselves, without those around others."""
        if self.before[0] < EXPONENTIAL:
            return [[] for _ in trees]
        loops: List[Tuple[int, Path, Text]] = []
        marks = letters(self.pattern.flags & (2 | 8 | 16 | 256))
        front = f"(?{marks})" if marks else ""
        for number, tree in enumerate(trees):
            for path, it in positions(tree):
                if it.kind == REPEAT and not it.is_run and not it.facts.guarded:
                    try:
                        text = nodes.body_text(it, self.pattern)
                    except Unreadable:
                        continue
                    if self.pattern.verbose:
                        text = f"(?x:{text}\n)"
                    loops.append((number, path, self.pattern.encoded(front + text)))
        verdicts = self.classes([it[2] for it in loops], "fullmatch", 0)
        found: List[List[Path]] = [[] for _ in trees]
        for (number, path, _), verdict in zip(loops, verdicts):
            if verdict is not None and verdict.kind == "exponential":
                found[number].append(path)
        return [[it for it in every if not any(other != it and other[:len(it)] == it for other in every)] for every in found]

    def classes(self, patterns: Sequence[Text], mode: str, flags: Optional[int] = None) -> List[Optional[Verdict]]:
        """Returns the classes of patterns in a mode; `flags` are those of the call unless they are given."""
        self.asked.update((it, mode) for it in patterns)
        return self.asker.verdicts([(it, self.how.flags if flags is None else flags, mode) for it in patterns])

    def proposals(self, tree: Node) -> List[Proposal]:
        """Returns what the rules propose for a tree, the cheapest first; a change in a loop at fault costs 1 less."""
        guilty, alphabet = self.guilty([tree])[0], self.pattern.alphabet
        found: List[Proposal] = []
        for rule in self.whole:
            for new in rule.rewrite(tree, alphabet):
                found += self.proposal(rule, rule.cost, new)
        for rule in RULES:
            new, count = everywhere(tree, rule, alphabet)
            if count > 1:
                found += self.proposal(rule, rule.cost + 0.1, new)
        for rule in RULES:
            for path, node in positions(tree):
                if len(found) >= MOST_MADE:
                    break
                is_near = any(path[:len(it)] == it for it in guilty)
                for new in rule.rewrite(node, alphabet):
                    found += self.proposal(rule, rule.cost - is_near, put(tree, path, new))
        return sorted(found, key=lambda it: it.cost)[:MOST_PROPOSALS]

    def proposal(self, rule: Rule, cost: float, tree: Node) -> List[Proposal]:
        """Returns the proposal for a tree; none if it has other groups, can't be written, is too long, or was proposed."""
        if tree.facts.groups != self.pattern.tree.facts.groups:
            return []
        try:
            text = nodes.written(tree, self.pattern)
        except Unreadable:
            return []
        old = self.pattern.text
        if text in self.seen or len(text) > min(LONGEST, 2 * len(old) + 40) or new_groups(old, text) > 6:
            return []
        self.seen.add(text)
        return [Proposal(cost, rule.name, tree, text)]

    # What is judged

    def followers(self, tree: Node, worth: Worth, steps: Tuple[str, ...]) -> List[Tuple[Proposal, Worth, str]]:
        """Returns the better proposals for a tree, with worth and kind; if none can be a fix, some that are as good too."""
        every = self.proposals(tree)
        kinds = dict(zip((it.text for it in every), self.kinds([it.text for it in every])[0]))
        every = [it for it in every if kinds[it.text] != OTHER]
        goal = self.how.goal()
        found: List[Tuple[Proposal, Worth, str]] = []
        even: List[Tuple[Proposal, Worth]] = []
        for start in range(0, len(every), BATCH):
            if not self.goes_on():
                return found
            judged = self.worths(every[start:start + BATCH], worth)
            judged.sort(key=lambda one: (max(goal, kinds[one[0].text]), one[1][:2], self.far(one[0].text), one[0].cost))
            for it, its, verdict in judged:
                if its[:2] >= worth[:2]:
                    even += [(it, its)] if kinds[it.text] <= goal else []
                    continue
                self.advised += kinds[it.text] > goal
                if kinds[it.text] <= goal or self.advised <= MOST_ADVICE:
                    kind = self.judged(it, its, verdict, steps)
                    found += [(it, its, kind)] if kind else []
        if self.is_enough() or any(kind <= goal and it.rule != "line-anchor" for it, _, kind in found):
            return found
        for it, its in sorted(even, key=lambda one: (one[1], one[0].cost, self.far(one[0].text)))[:MOST_EVEN]:
            kind = self.judged(it, its, None, steps)
            found += [(it, its, kind)] if kind else []
        return found

    def worths(self, every: Sequence[Proposal], worth: Worth) -> List[Tuple[Proposal, Worth, Verdict]]:
        """Returns the proposals that aren't worse than the tree that they are made from, with their worth and class."""
        texts = [self.pattern.encoded(it.text) for it in every]
        first = [(it, text, verdict) for it, text, verdict in zip(every, texts, self.classes(texts, self.how.worst))
                 if verdict is not None and _rank(verdict) <= worth[0]]
        kept = [text for _, text, _ in first]
        others = list(zip(*(map(_rank, self.classes(kept, mode)) for mode in self.how.modes()[1:]))) or [()] * len(kept)
        guilty = self.guilty([it.tree for it, _, _ in first])
        return [(it, (_rank(verdict), len(paths), tuple(ranks)), verdict)
                for (it, _, verdict), ranks, paths in zip(first, others, guilty)
                if all(rank <= was for rank, was in zip(ranks, self.before[2]))]

    def begin(self, seed: int, count: int) -> None:
        """Has so many texts for trials made from the pattern."""
        fitting = Sampler(self.pattern, seed).texts(count)
        self.trial.begin(self.pattern.text, self.pattern.is_bytes, self.how.flags, self.how.calls(), fitting)

    def kinds(self, patterns: Sequence[str]) -> Tuple[List[str], int]:
        """Returns what trials say of patterns, as `Trials` does, within the time that is left."""
        return self.trial.kinds(patterns, max(0.2, self.deadline - time.monotonic()))

    def far(self, text: str) -> int:
        """Returns how different a pattern looks from the original."""
        return distance(self.pattern.text, text)

    def judged(self, it: Proposal, worth: Worth, verdict: Optional[Verdict], steps: Tuple[str, ...]) -> str:
        """Compares a proposal with the pattern; returns what it is, as a word of `trial`, or "" if it matches other texts.

        Its cure is kept if its class is lower; `verdict` is None if it is only a step.
        """
        if not self.goes_on():
            return ""
        self.tries += 1
        found = self.compared(it.text)
        if found is None:
            return ""
        differs, rank = found
        if verdict is not None and worth[0] < self.before[0]:
            is_hard_now = is_hard(self.pattern.text, it.text)
            top = max(worth[0], *worth[2], 0)
            self.keep(Cure(self.pattern.encoded(it.text), verdict, differs, rank, (*steps, it.rule), is_hard_now, top))
        return self.how.goal() if not differs else (SPANS_TOO if rank < 2 else TEXTS_ALONE)

    def keep(self, cure: Cure) -> None:
        """Keeps a cure if it is the best of its sort: no finding first, then the easiest to read."""
        rank = cure.top
        is_fine = rank <= self.how.max_degree
        sort = "advice" if cure.differs else "hard" if cure.hard_to_read else "same"
        if sort != "same" and not is_fine:
            return
        far = self.far(as_text(cure.pattern)) + DEGREE_WEIGHT * (rank if is_fine else 0)
        worth = cure.rank, max(rank, self.how.max_degree), far
        if sort not in self.best or worth < self.best[sort][0]:
            self.best[sort] = worth, cure
            self.kept_at = self.tries

    def compared(self, text: str) -> Optional[Tuple[str, int]]:
        """Returns what differs and its rank, ("", 0) if the code can't notice it; None unless the same texts are proved."""
        new = self.pattern.encoded(text)
        same = [pair("compare", self.original, new, self.how.flags, mode=mode) for mode in self.how.modes()]
        needs = [] if self.how.only_truth() else self.needs(new, self.how.position, self.how.sees == "groups")
        answers = self.asker.ask_all([*same, *(it for need in needs for it in need)])
        if not all(it.get("relation") == "equal" for it in answers[:len(same)]):
            return None
        rest = iter(answers[len(same):])
        if all([any([next(rest).get("answer") == "same" for _ in need]) for need in needs]):
            return "", 0
        return self.difference(new, answers[len(same):])

    def difference(self, new: Text, answers: Sequence[Mapping[str, Any]]) -> Tuple[str, int]:
        """Returns what differs, in a clause, of a pattern that matches the same texts, and its rank."""
        has_groups = bool(self.pattern.tree.facts.groups)
        sees_groups = self.how.sees == "groups" and has_groups
        if sees_groups and self.holds(self.needs(new, self.how.position, False)):
            return "same texts, but " + (_differs(answers, range(1, 101)) or "the groups aren't proved the same"), 1
        if self.how.position and self.holds(self.needs(new, False, self.how.sees == "groups")):
            return "the same, unless the call is given a position", 2
        return "same texts, but " + (_differs(answers, range(101)) or "the spans aren't proved the same"), 3

    def holds(self, needs: Sequence[Sequence[Mapping[str, Any]]]) -> bool:
        """Returns whether for each need one of its questions is answered by "same"."""
        return all(any(it.get("answer") == "same" for it in self.asker.ask_all(need)) for need in needs)

    def needs(self, new: Text, position: bool, groups: bool) -> List[List[Dict[str, Any]]]:
        """Returns what has to be the same for the code: for each need questions of which one "same" is enough."""
        methods = self.how.methods
        needs: List[List[Dict[str, Any]]] = []

        def asked(mode: str, front: str = "", end: str = "") -> Dict[str, Any]:
            """A question about both patterns, each between an anchor and another one."""
            one, other = (_between(it, front, end, self.pattern.verbose) if front else it for it in (self.original, new))
            return pair("spans", one, other, self.how.flags, mode=mode, groups=groups)

        for method, other in (("fullmatch", "fullmatch"), ("match", "search")):
            if method in methods:
                ends = [] if position else [asked("one-search", "\\A", "\\Z" if method == "fullmatch" else "")]
                needs.append([asked(other), *ends])
        if "search" in methods:
            needs.append([asked("search"), *([] if position else [asked("one-search")])])
        if methods & REPEATED:
            # (or else what is found first, and what is found behind a match, which only a guard tells apart)
            has_new = len(GUARDS.findall(as_text(new))) > len(GUARDS.findall(self.pattern.text))
            later = self.behind_a_match(new, groups) if has_new and not position else []
            needs += [[asked("search"), *it] for it in ([[asked("one-search")], later] if later else [[]])]
        return needs

    def behind_a_match(self, new: Text, groups: bool) -> List[Dict[str, Any]]:
        """Returns a question whether a search from behind a match on finds the same; none if a match may be empty.

        Nothing sees more of what stands before the place where a search begins than whether there is a character, and which
        one: and that is the last one of a match. So both are looked for behind one such character.
        """
        tree, both = self.pattern.tree, [self.original, new]
        last = self.pattern.alphabet.show(ends(tree))
        if tree.facts.nullable or last is None:
            return []
        if not groups and tree.facts.groups:
            # (the group around it tells where a match begins)
            try:
                read = [read_pattern(it, self.how.flags, self.asker) for it in both]
                both = [it.encoded(nodes.written(stripped(it.tree), it)) for it in read]
            except Unreadable:
                return []
        one, other = (_between(it, f"\\A{last}[\\s\\S]*?(", ")", self.pattern.verbose) for it in both)
        return [pair("spans", one, other, self.how.flags, mode="one-search")]

    # At the end

    def try_suggestion(self, text: str) -> None:
        """Tries the simpler pattern that the program suggests, with the layout of the original, if its groups are the same."""
        text = nodes.with_layout(self.pattern.text, text, self.pattern.verbose)
        new, was = self.pattern.encoded(text), (self.before[0], *self.before[2])
        try:
            tree = read_pattern(new, self.how.flags, self.asker).tree
        except Unreadable:
            return
        verdicts = [self.classes([new], it)[0] for it in self.how.modes()]
        ranks = [_rank(it) for it in verdicts]
        if tree.facts.groups == self.pattern.tree.facts.groups and all(one <= other for one, other in zip(ranks, was)):
            self.seen.add(text)
            self.judged(Proposal(0, "suggestion", tree, text), (ranks[0], 0, tuple(ranks[1:])), verdicts[0], ())

    def stop_runs(self) -> None:
        """Searches once more from the pattern on, with rules that write looks of one character."""
        self.tries = self.trees = self.kept_at = 0
        self.whole = *WHOLE, *LOOKS
        self.walk(nodes.written(self.pattern.tree, self.pattern), MOST_STEPS)

    def stop_at_words(self) -> None:
        """Tries runs that stop at the first word behind them, by an atomic group or a look-ahead.

        relint-ask doesn't judge these: it judges the same pattern written out, and trials compare the short form.
        """
        items = self.pattern.tree.items if self.pattern.tree.kind == ROW else ()
        places = [(at, word) for at in range(len(items)) for word in [word_behind(items, at)] if len(word) > 1]
        if places:
            self.begin(3, TRIED)
        for some in [[it] for it in places] + [places] * (len(places) > 1):
            if time.monotonic() > self.deadline:
                return
            try:
                long, short = (self.stopped(items, some, is_short) for is_short in (False, True))
            except Unreadable:
                continue
            verdicts = [it for mode in self.how.modes() for it in self.classes([self.pattern.encoded(long)], mode)]
            top = max(map(_rank, verdicts))
            if top <= self.how.max_degree and verdicts[0] and self.compared(long) == ("", 0):
                kinds, count = self.kinds([short])
                if kinds[0] <= self.how.goal() and count > TRIED // 2:
                    differs = "" if self.how.has_atomic else LONG_LOOK
                    unread = self.unread(self.pattern.encoded(long))
                    self.best["checked"] = (0,), Cure(self.pattern.encoded(short), verdicts[0], differs, 0, ("stop-at-word",),
                                                      top=top, is_proved=False, unread=unread)
                    return

    def stopped(self, items: Sequence[Node], places: Sequence[Tuple[int, List[int]]], is_short: bool) -> str:
        """Returns the pattern with runs that stop at the words behind them: written out, or in the short form."""
        new = list(items)
        for at, word in places:
            run = edge(new[at], -1)
            free = word_free(run.body.mask, word) if run is not None else None
            if run is None or free is None:
                raise Unreadable("its word can't be left out")
            if is_short:
                text = "".join(nodes.body_text(it, self.pattern) for it in items[at + 1:at + 1 + len(word)])
                body = nodes.body_text(run.body, self.pattern)
                free = guard(f"(?:(?!{text}){body})" + ("*" if run.greedy else "*?"))
                if self.how.has_atomic:
                    new[at] = guard("(?>" + nodes.body_text(new[at], self.pattern) + text + ")")
                    new[at + 1:at + 1 + len(word)] = [EMPTY] * len(word)
                    continue
            new[at] = with_edge(new[at], -1, row([*[run.body] * run.least, free]))
        return nodes.written(row(new), self.pattern)

    def miss(self) -> None:
        """If there is no cure, takes a pattern whose runs leave out a character as advice, with a text that it loses."""
        texts = [] if self.best else [self.pattern.encoded(it) for it in dict.fromkeys(self.narrower())][:BATCH]
        verdicts = self.classes(texts, self.how.worst)
        fine = [(it, its) for it, its in zip(texts, verdicts) if its and _rank(its) <= self.how.max_degree]
        asked = [pair("compare", self.original, it, self.how.flags, mode=self.how.worst) for it, _ in fine]
        for (new, verdict), answer in zip(fine, self.asker.ask_all(asked)):
            lost = _read(answer.get("first"))
            if lost is None or answer.get("second") is not None:
                continue
            # (of two, the one whose first text is longer loses less)
            worth = -len(lost), self.far(as_text(new)), 0
            if "advice" not in self.best or worth < self.best["advice"][0]:
                differs = "it no longer matches " + _short(lost)
                self.best["advice"] = worth, Cure(new, verdict, differs, MISSED, ("narrower",), False, _rank(verdict))

    def narrower(self) -> Iterator[str]:
        r"""Yields the pattern with `\.` for each dot alone, or with a mark that stands in it taken out of all runs or one."""
        tree, alphabet = self.pattern.tree, self.pattern.alphabet
        dotted = tree
        for path, node in positions(tree):
            if node.text == "." and path and nodes.at(tree, path[:-1]).kind == ROW:
                dotted = put(dotted, path, guard("\\."))
        if dotted is not tree:
            yield nodes.written(dotted, self.pattern)
        marks = [it for it in dict.fromkeys(mask for _, mask in signs(tree)) if alphabet.is_one(it)]
        for mark in marks:
            for path, node in ((), tree), *endless_runs(tree):
                new = put(tree, path, _without(node, mark)) if not alphabet.of(mark).isalnum() else tree
                try:
                    if new != tree:
                        yield nodes.written(new, self.pattern)
                except Unreadable:
                    continue

    def checked(self) -> List[Cure]:
        """Returns the cures, with the layout of the pattern, that a trial on more texts doesn't refute."""
        cures = [self.laid_out(self.best[it][1]) for it in ("same", "hard", "checked", "advice") if it in self.best]
        self.begin(1, TRIED)
        kinds = self.kinds([as_text(it.pattern) for it in cures])[0]
        wanted = {0: self.how.goal(), 1: SPANS_TOO, 2: TEXTS_ALONE, 3: TEXTS_ALONE, MISSED: OTHER}
        kept = [it for it, kind in zip(cures, kinds) if kind <= wanted[it.rank] or it.rank == MISSED]
        return [it if it.differs or not it.is_proved else replace(it, unread=self.unread(it.pattern)) for it in kept]

    def unread(self, new: Text) -> str:
        """Returns in a clause which part of a match may be another one, as the code doesn't read it; "" if none may be.

        The code can't notice the pattern `new`.
        """
        modes = {"fullmatch" if it == "fullmatch" else "search" for it in self.how.methods}

        def is_same(groups: bool) -> bool:
            """Whether both patterns find the same in every way of calling them, with or without groups."""
            asked = [pair("spans", self.original, new, self.how.flags, mode=it, groups=groups) for it in sorted(modes)]
            return all(it.get("answer") == "same" for it in self.asker.ask_all(asked))

        if is_same(True):
            return ""
        if self.how.only_truth():
            return UNREAD
        groups = "the group" if len(self.pattern.tree.facts.groups) == 1 else "the groups"
        if self.how.sees != "groups" and self.pattern.tree.facts.groups:
            return f"nothing here reads {groups}" + ("" if self.how.position or is_same(False) else " or gives a position")
        return "" if self.how.position else "no call here gives a position"

    def laid_out(self, cure: Cure) -> Cure:
        """Returns the cure with the blanks and comments of the pattern, if it is proved to be the same cure."""
        text = nodes.with_layout(self.pattern.text, as_text(cure.pattern), self.pattern.verbose)
        if text == as_text(cure.pattern) or cure.rank == MISSED:
            return cure
        found, verdict = self.compared(text), self.classes([self.pattern.encoded(text)], self.how.worst)[0]
        fits = found is not None and found[1] == cure.rank and _rank(verdict) == _rank(cure.verdict)
        return replace(cure, pattern=self.pattern.encoded(text)) if fits else cure


def read_pattern(pattern: Text, flags: int, asker: Asker) -> Pattern:
    """Returns a pattern as a tree, by relint-ask; raises Unreadable if it isn't taken, and ProgramError."""
    answer: Mapping[str, Any] = {}
    for is_short in (False, True):
        probe = nodes.Probe(as_text(pattern), flags, isinstance(pattern, bytes), is_short)
        answer = asker.ask(probe.question())
        if answer.get("answer") == "tree":
            return probe.read(answer)
    raise Unreadable(str(answer.get("cause") or answer.get("message") or answer.get("answer")))


def everywhere(node: Node, rule: Rule, alphabet: Alphabet) -> Tuple[Node, int]:
    """Returns the tree with the first proposal of a rule at each place, inner places first, and how many there are."""
    parts = [everywhere(it, rule, alphabet) for it in node.items]
    count = sum(it[1] for it in parts)
    node = made(node, [it[0] for it in parts]) if count else node
    for _ in range(4):
        new = next(rule.rewrite(node, alphabet), None)
        if new is None or new == node or new.facts.size > 3 * node.facts.size:
            break
        node, count = new, count + 1
    return node, count


def word_behind(items: Sequence[Node], at: int) -> List[int]:
    """Returns the masks of the characters right behind the endless run with which a part of a row ends."""
    run, word = edge(items[at], -1), []
    for it in items[at + 1:] if run is not None and run.endless and run.least < 2 and items[at].span else ():
        if it.kind != CHARS:
            break
        word.append(it.mask)
    return word


def _rank(verdict: Optional[Verdict]) -> int:
    """The rank of the worst class that a pattern may have; what isn't known is exponential."""
    if verdict is None or verdict.kind == "undecided":
        bound = verdict.at_most if verdict is not None else None
        return bound.degree if bound is not None and bound.degree is not None else EXPONENTIAL
    return verdict.rank()


def _between(pattern: Text, front: str, end: str, verbose: bool) -> Text:
    """A pattern between two anchors, with the flags at its front still there."""
    text = as_text(pattern)
    at = len(nodes.front_of(text))
    whole = f"{text[:at]}{front}(?:{text[at:]}" + ("\n" if verbose else "") + f"){end}"
    return whole if isinstance(pattern, str) else whole.encode("latin-1")


def _read(found: Any) -> Optional[Text]:
    """A quoted text of an answer, or None."""
    try:
        return read_text(found)
    except ReportError:
        return None


def _short(text: Text) -> str:
    """A text as a literal, cut if it is long."""
    return quoted(text if len(text) <= 40 else text[:38]) + ("..." if len(text) > 40 else "")


FOUND = re.compile(r"(?:(\d+)=)?(?:\((\d+), (\d+)\)|none)")


def _spans(found: Any) -> Dict[int, Optional[Tuple[int, int]]]:
    """What a matcher finds, as an answer says it: the span of the whole (0) and of each group."""
    return {int(number or 0): (int(low), int(high)) if low else None for number, low, high in FOUND.findall(str(found))}


def _differs(answers: Sequence[Mapping[str, Any]], numbers: Sequence[int]) -> str:
    """A clause that says which of these groups (0 is the whole match) is another one; "" if that isn't known."""
    for answer in answers:
        text = _read(answer.get("text")) if answer.get("answer") == "differ" and answer.get("empty") is not False else None
        if text is None:
            continue
        first, second = (_spans(answer.get(it)) for it in ("first", "second"))
        for number in numbers:
            one, other = first.get(number), second.get(number)
            if one == other:
                continue
            if number == 0 and (one is None or other is None):
                return f"a match in {_short(text)} begins or ends elsewhere"
            was, now = (_short(text[it[0]:it[1]]) if it else "nothing" for it in (one, other))
            if was == now:
                return f"{f'group {number}' if number else 'the match'} is another {now} of {_short(text)}"
            return f"group {number} holds {now} instead of {was}" if number else f"it finds {now} instead of {was}"
    return ""


def _without(node: Node, mark: int) -> Node:
    """The tree with a mark taken out of each endless run that has it and more."""
    if node.is_run:
        less = node.body.mask & ~mark
        return again(node, chars(less)) if node.endless and less and less != node.body.mask else node
    parts = [_without(it, mark) for it in node.items]
    return made(node, parts) if tuple(parts) != node.items else node


class Sampler:
    """Makes texts on which patterns are compared: many match, and many nearly do. The same seed gives the same ones."""

    def __init__(self, pattern: Pattern, seed: int) -> None:
        """Takes the pattern whose texts are wanted."""
        self.pattern, self.random = pattern, random.Random(seed)
        self.left = MOST_PARTS
        self.words: List[str] = [""]
        self.samples = lru_cache(maxsize=None)(pattern.alphabet.of)
        for _, it in positions(pattern.tree):
            for one in it.items if it.kind == ROW else ():
                if one.kind == CHARS and pattern.alphabet.is_one(one.mask):
                    self.words[-1] += pattern.alphabet.of(one.mask)[:1]
                else:
                    self.words.append("")
        self.words = sorted({it for it in self.words if len(it) > 1}) or [""]
        every = {self.letter(it.mask) for _, it in positions(pattern.tree) if it.kind == CHARS}
        self.marks = sorted(every | {" ", "\n", "\t"} | set(pattern.alphabet.samples[:12]))

    def letter(self, mask: int) -> str:
        """Returns a character of a mask, or "" for the empty one."""
        samples = self.samples(mask)
        return samples[int(self.random.random() * len(samples))] if samples else ""

    def text(self, node: Node) -> str:
        """Returns a text that the node matches, mostly; "" once it is made of too many parts."""
        self.left -= 1
        if self.left < 0:
            return ""
        if node.kind == CHARS:
            return self.letter(node.mask)
        if node.kind == GUARD:
            return self.random.choice(("", "", "", "\n"))
        if node.kind == CHOICE:
            return self.text(self.random.choice(node.items))
        if node.kind != REPEAT:
            return "".join(map(self.text, node.items))[:4 * LONGEST_TEXT]
        count = min(node.least, 40) + min(self.random.choice((0, 0, 1, 1, 2, 3)), node.most - node.least)
        found = ""
        while count > 0 and len(found) <= LONGEST_TEXT and self.left > 0:
            found += self.text(node.body)
            count -= 1
        return found

    def spoiled(self, text: str) -> str:
        """Returns a text with up to three changes: a part of a word put in, a character out, some doubled, parts swapped."""
        for _ in range(self.random.choice((0, 0, 1, 1, 2, 3))):
            at, kind = self.random.randrange(len(text) + 1), self.random.random()
            word = self.random.choice(self.words)
            if kind < 0.3:
                text = text[:at] + self.random.choice(self.marks) + text[at:]
            elif kind < 0.45:
                text = text[:at] + word[:self.random.randrange(len(word) + 1)] + text[at:]
            elif kind < 0.6:
                text = text[:at] + text[at + 1:]
            elif kind < 0.8:
                text = text[:at] + text[max(0, at - 3):at] + text[at:]
            else:
                text = text[at:] + self.random.choice((" ", "\n", "\t")) + text[:at]
        return text

    def texts(self, count: int) -> List[str]:
        """Returns that many texts of at most LONGEST_TEXT characters."""
        found = ["", " ", "\n"]
        while len(found) < count:
            self.left = MOST_PARTS
            text = self.text(self.pattern.tree)
            if self.random.random() < 0.3:
                text += self.random.choice(("", " ", "\n", "\t")) + self.text(self.pattern.tree)
            found.append(self.spoiled(text)[:LONGEST_TEXT])
        return found[:count]
