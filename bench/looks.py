"""Compares relint-ask with Python's own `re` on random patterns with looks and a `$` inside, for `ask`.

A look is of one character, or of a choice of characters and anchors. Each pattern has flags and is tried on a few texts. Of
each pair of a pattern and a text, relint-ask is asked what `match`, `fullmatch` and `search` find from two places, with the
groups, what each step of `finditer` finds, and by `cost` in each mode whether there is a match. All of that has to be what
`re` says. A reply names `lookaround` under `beyond` exactly if the pattern has a look. relint-ask has to refuse each pattern
with a look that `is_read` says isn't read, and no other for a look.
"""
from __future__ import annotations

import json
import random
import re
import warnings
from collections import Counter
from contextlib import closing
from functools import partial
from typing import Any, Dict, List, Mapping, NamedTuple, Optional, Sequence, Tuple

from limited import GivenUp, limited
from relint.engine.ask import Asker
from relint.options import Options

TEXTS_A_PATTERN, PATTERNS_A_BATCH, LONGEST, LONGEST_PATTERN, SECONDS = 8, 25, 8, 40, 10.0
LETTERS, RARE = "aab bc\nA_1,", "\u00e9\u00dfK\t-"
ATOMS = ["a", "b", "a", "b", "c", ".", "[ab]", "[^a]", r"\s", r"\w", r"\W", "(?:)", "()", r"\n", "A", "[^\\W_]", "\u00e9"]
# What a look can look for: a character, a class, a choice of these, in a group or not.
LOOKED = ["a", "b", ".", "[ab]", "[^a]", r"\w", r"\s", r"\W", r"\n", "c|a", r"[bc]|\s", "(?:a)", "(?:b|c)", r"(?:a|\n)|_",
          "\u00e9", "(?s:.)", "(?i:a)", "[^\\n]"]
LOOKS = ["(?=", "(?!", "(?<=", "(?<!"]
# What a look with anchors is a choice of: characters, with whether a line feed is among them, and anchors, with the side of a
# place to which they look.
CHARACTERS = {"a": False, ",": False, r"\s": True, r"\n": True, "[^a]": True, r"\w": False, r"\W": True, "(?s:.)": True,
              "(?-s:.)": False, r"(?:b|\n)": True, r"(?i:[a-c])": False}
EDGES = {"^": "behind", r"\A": "behind", "(?m:^)": "behind", "(?-m:^)": "behind", "$": "ahead", r"\Z": "ahead",
         "(?m:$)": "ahead", "(?-m:$)": "ahead", "(?:$)": "ahead", r"\b": "both"}
ANCHORS = ["^", r"\A", r"\Z", r"\b", r"\B", "(?m:^)", "(?m:$)"]
# What stands at the end of a branch now and then: there relint-ask reads a `$`, unless something follows the branch.
ENDS = ["", "", "", "", "", "", "", "$", "$", "(?-m:$)"]
COUNTS = ["*", "+", "?", "*?", "+?", "??", "{2}", "{0,2}", "{1,2}?", "{2,}"]
GROUPS = ["(", "(", "(?:", "(?:", "(?i:", "(?s:", "(?P<n>"]
FLAGS = {"a": re.A, "i": re.I, "m": re.M, "s": re.S, "x": re.X}
MODES = ("match", "fullmatch", "search")


class Pair(NamedTuple):
    """A pattern with its flags, and a text. Both are of bytes, a byte for each character, if `is_bytes`."""

    pattern: str
    flags: str
    is_bytes: bool
    text: str
    is_read: bool = True

    @property
    def has_look(self) -> bool:
        """Whether there is a look in the pattern."""
        return any(it in self.pattern for it in LOOKS)

    def question(self, ask: str, mode: str, **more: Any) -> Dict[str, Any]:
        """Returns a question about the pair."""
        said = {"ask": ask, "pattern": self.pattern, "flags": self.flags, "mode": mode, "text": self.text, **more}
        return {**said, "bytes": True} if self.is_bytes else said


class Asked(NamedTuple):
    """A question with what `re` says: for `found` a match as replies have it, for `cost` whether there is one."""

    question: Dict[str, Any]
    wanted: object


def is_read(opening: str, parts: Sequence[str], multiline: bool) -> bool:
    """Returns whether relint-ask reads a look that is a choice of these parts, in a pattern with or without MULTILINE.

    All parts must look to one side, a character to that of the look. One side doesn't tell whether a line feed is the last
    character. So if a `$` without MULTILINE is among the parts, another one must hold at each line feed.
    """
    own = "behind" if "<" in opening else "ahead"
    lines = ["(?m:^)", "(?m:$)", *(["^", "$", "(?:$)"] if multiline else [])]
    is_last = any("$" in it and it not in lines for it in parts)
    return {EDGES.get(it, own) for it in parts} in ({"behind"}, {"ahead"}) and (
        not is_last or any(CHARACTERS.get(it, it in lines) for it in parts))


class Maker:
    """Makes random patterns and texts. The same seed and depth give the same ones."""

    def __init__(self, seed: int, depth: int) -> None:
        """Takes the seed, and how deep groups may be in each other."""
        self.random, self.depth = random.Random(seed), depth
        self.names = 0
        self.sided: List[Tuple[str, List[str]]] = []

    def look(self) -> str:
        """Returns a random look, or an anchor; keeps what a look with anchors consists of in `sided`."""
        kind = self.random.random()
        if kind < 0.3:
            return self.random.choice(ANCHORS)
        opening = self.random.choice(LOOKS)
        if kind < 0.6:
            return opening + self.random.choice(LOOKED) + ")"
        side = self.random.choice(["ahead", "behind"])
        known = [it for it in EDGES if EDGES[it] == side or self.random.random() < 0.1]
        parts = self.random.sample([*known, *self.random.sample(list(CHARACTERS), 3)], self.random.choice([1, 1, 2, 2, 2, 3]))
        self.sided.append((opening, parts))
        return opening + "|".join(parts) + ")"

    def piece(self, depth: int) -> str:
        """Returns a random look or anchor, or an atom or group; most of these have no quantifier."""
        kind = self.random.random()
        if kind < 0.3:
            look = self.look()
            return f"(?:{look}){self.random.choice(COUNTS)}" if self.random.random() < 0.05 else look
        opening = self.random.choice(GROUPS)
        if opening == "(?P<n>":
            self.names += 1
            opening = f"(?P<n{self.names}>"
        whole = self.random.choice(ATOMS) if depth == 0 or kind < 0.75 else opening + self.choice(depth - 1) + ")"
        return whole if self.random.random() < 0.55 else whole + self.random.choice(COUNTS)

    def choice(self, depth: int) -> str:
        """Returns one to three random branches, with groups at most `depth` deep."""
        branches = self.random.choice([1, 1, 1, 2, 2, 3])
        ends = ENDS if depth == self.depth or self.random.random() < 0.1 else [""]
        return "|".join("".join(self.piece(depth) for _ in range(self.random.randint(1, 3))) + self.random.choice(ends)
                        for _ in range(branches))

    def pairs(self) -> List[Pair]:
        """Returns pairs of a random pattern, which `re` may refuse, with random texts."""
        pattern = ""
        while not 0 < len(pattern) <= LONGEST_PATTERN:
            self.names, self.sided = 0, []
            pattern = self.choice(self.depth)
        flags = "".join(it for it in "aimsx" if self.random.random() < 0.15)
        is_bytes = self.random.random() < 0.1
        read = all(is_read(opening, parts, "m" in flags) for opening, parts in self.sided)
        return [Pair(pattern, flags, is_bytes, self.text(), read) for _ in range(TEXTS_A_PATTERN)]

    def text(self) -> str:
        """Returns a random text; the empty one is rare."""
        letters = LETTERS if self.random.random() < 0.8 else LETTERS + RARE
        return "".join(self.random.choice(letters) for _ in range(self.random.randint(self.random.random() > 0.02, LONGEST)))


def compiled(pair: Pair) -> "Optional[re.Pattern[Any]]":
    """Returns the pattern of a pair, or None if `re` refuses it or warns."""
    flags = sum(int(FLAGS[it]) for it in pair.flags)
    with warnings.catch_warnings():
        warnings.simplefilter("error")
        try:
            made: "re.Pattern[Any]" = re.compile(pair.pattern.encode("latin-1") if pair.is_bytes else pair.pattern, flags)
            return made
        except (re.error, Warning, OverflowError, UnicodeEncodeError):
            return None


def spans_of(match: "Optional[re.Match[Any]]") -> object:
    """Returns what a match found, as relint-ask says it."""
    if match is None:
        return None
    groups = [None if start < 0 else [start, end] for start, end in match.regs[1:]]
    return {"start": match.start(), "end": match.end(), "groups": groups, "last": match.lastindex}


def questions(pair: Pair, pattern: "re.Pattern[Any]", start: int) -> List[Asked]:
    """Returns what is asked of a pair, with what `re` says; `start` is the second place from which it is matched."""
    text: Any = pair.text.encode("latin-1") if pair.is_bytes else pair.text
    asked: List[Asked] = []
    for mode in MODES:
        call = getattr(pattern, mode)
        asked.append(Asked(pair.question("cost", mode), call(text) is not None))
        for at in dict.fromkeys((0, start)):
            asked.append(Asked(pair.question("found", mode, **{"from": at, "advance": False}), spans_of(call(text, at))))
    # (what stands behind an empty match must not be empty there)
    at, advance = 0, False
    for match in [*pattern.finditer(text), None]:
        asked.append(Asked(pair.question("found", "search", **{"from": at, "advance": advance}), spans_of(match)))
        at, advance = (match.end(), match.end() == match.start()) if match is not None else (0, False)
    return asked


def said(question: Dict[str, Any]) -> str:
    """Returns a question as a line of JSON."""
    return json.dumps(question, sort_keys=True)


def wrong(asked: Asked, reply: Mapping[str, Any], pair: Pair) -> str:
    """Returns what is wrong with a reply, or ""."""
    kind = asked.question["ask"]
    if reply["answer"] == "error":
        return f"{said(asked.question)}: {reply.get('message')}"
    if reply["answer"] != kind:
        return f"{said(asked.question)}: a look is refused" if pair.is_read and reply.get("cause") == "lookaround" else ""
    if not pair.is_read:
        return f"{said(asked.question)}: a look is read"
    if ("lookaround" in reply.get("beyond", ())) != pair.has_look:
        return f"{said(asked.question)}: beyond is {reply.get('beyond')}"
    given = reply["found"] if kind == "found" else reply["matched"]
    return "" if given == asked.wanted else f"{said(asked.question)}: re says {asked.wanted}, and relint-ask {given}"


class Tried(NamedTuple):
    """A pair with its questions."""

    pair: Pair
    asked: List[Asked]


def prepared(maker: Maker, left: int, seconds: float, counts: "Counter[str]") -> List[Tried]:
    """Returns pairs of a batch, at most `left`, with their questions; counts those that `re` refuses or gives up."""
    made: List[Tried] = []
    for _ in range(PATTERNS_A_BATCH):
        pairs = maker.pairs()[:max(0, left - len(made))]
        starts = [maker.random.randint(0, len(it.text)) for it in pairs]
        pattern = compiled(pairs[0]) if pairs else None
        if pattern is None:
            counts["patterns refused by re"] += bool(pairs)
            continue
        for pair, start in zip(pairs, starts):
            # (whether `\\B` holds in the empty text depends on the version of Python, and bytes have no code above 255)
            if not pair.text and r"\B" in pair.pattern or pair.is_bytes and max(pair.text, default="") > "\xff":
                continue
            try:
                made.append(Tried(pair, limited(seconds, partial(questions, pair, pattern, start))))
            except GivenUp:
                counts["pairs given up by re"] += 1
    return made


def compare(seed: int, pairs: int, depth: int, seconds: float) -> int:
    """Compares so many pairs, prints what comes of it, and returns the exit status: 1 if something disagrees."""
    maker, counts, failed, tried = Maker(seed, depth), Counter[str](), 0, 0
    with closing(Asker(Options(jobs=1), seconds=SECONDS)) as asker:
        while tried < pairs:
            batch = prepared(maker, pairs - tried, seconds, counts)
            tried += len(batch)
            answers = iter(asker.ask_all([it.question for one in batch for it in one.asked]))
            for one in batch:
                lines = judged(one, [(it, next(answers)) for it in one.asked], counts)
                failed += bool(lines)
                for line in lines:
                    print(line)
    passed = counts.pop("passed", 0)
    for name, count in counts.most_common():
        print(f"{count:9,}  {name}")
    print(f"{passed:,} passed, {failed:,} failed")
    return 1 if failed else 0


def judged(one: Tried, both: List[Tuple[Asked, Mapping[str, Any]]], counts: "Counter[str]") -> List[str]:
    """Returns a line for each reply about a pair that is wrong, and counts the replies that say nothing, and the pair."""
    lines = [line for it, reply in both for line in [wrong(it, reply, one.pair)] if line]
    silent = [reply for it, reply in both if reply["answer"] != it.question["ask"]]
    for reply in silent:
        counts[f"replies {reply['answer']} {reply.get('cause', reply.get('limit', ''))}"] += 1
    is_compared = len(silent) < len(both)
    counts["pairs with a look"] += is_compared and one.pair.has_look
    counts["pairs that aren't judged"] += not is_compared and not lines
    counts["passed"] += is_compared and not lines
    return lines
