"""Runs the ways of a `ways` reply of relint-ask again, for `ask`, in a reading of the pattern of its own.

A pattern is read as a tree of parts, each with its span. A repeat has copies of its body, which share spans: required ones,
and behind them a loop or optional ones. A search has a loop in front that skips characters. A place is a part that takes a
character. From a place, the decisions of a step lead to one place at most; `re` says whether it takes the character, and
whether a guard holds between two characters. A round in which nothing was taken isn't followed by another.

Nothing is read after a `$` that ends the pattern, so no pump is read there: it is a guard that holds before no character.
"""
from __future__ import annotations

import ast
import re
import warnings
from functools import lru_cache
from typing import Any, FrozenSet, Iterable, Iterator, List, Mapping, NamedTuple, Optional, Sequence, Set, Tuple

MOST_PARTS = 20_000
FLAGS = {"a": re.A, "i": re.I, "m": re.M, "s": re.S, "u": re.U, "x": re.X}
# What `re` skips in a verbose pattern, and comments, which it skips in any.
BLANKS, COMMENT = re.compile(r"(?:[ \t\n\r\v\f]|#[^\n]*)+"), re.compile(r"\(\?#(?:[^)\\]|\\.)*\)", re.S)
CLASS = re.compile(r"\[\^?\]?(?:[^\]\\]|\\.)*\]", re.S)
ESCAPE = re.compile(r"\\(?:x[0-9a-fA-F]{2}|u[0-9a-fA-F]{4}|U[0-9a-fA-F]{8}|0[0-7]{0,2}|[1-3][0-7]{2}|[dDsSwWabfnrtvABZ]"
                    r"|[^a-zA-Z0-9])")
COUNT = re.compile(r"[*+?]|\{(?:(\d*),(\d*)|(\d+))\}")
OPENING = re.compile(r"\((?:\?(?:P<\w+>|:|(?P<look><?[=!])|(?P<on>[aiLmsux]*)(?:-(?P<off>[imsx]+))?(?P<kind>[:)])))?")


class Unread(Exception):
    """Raised for a pattern that isn't read here; the message says what it has."""


class Written(NamedTuple):
    """A part as it is written: a `set`, a `guard`, a `row` of parts, a `choice` of parts, or a `repeat` of a part.

    The flags are those in force at a set or a guard. The place is its span, which is empty for what isn't in the pattern.
    """

    kind: str
    place: List[int]
    parts: Tuple["Written", ...] = ()
    flags: FrozenSet[str] = frozenset()
    least: int = 0
    most: Optional[int] = None
    is_greedy: bool = True


class Parser:
    """Reads a pattern that `re` compiles, from left to right, under flags."""

    def __init__(self, pattern: str, flags: FrozenSet[str]) -> None:
        self.pattern, self.at, self.flags, self.given, self.whole = pattern, 0, flags, flags, flags

    def read(self) -> Written:
        """Returns the whole pattern. Begins again if it sets more flags for itself."""
        found = self.choice()
        if self.at < len(self.pattern):
            raise Unread("syntax")
        return found if self.whole == self.given else Parser(self.pattern, self.whole).read()

    def next_is(self, letter: str) -> bool:
        """Returns whether this is the next character."""
        return self.pattern.startswith(letter, self.at)

    def matched(self, what: "re.Pattern[str]") -> "Optional[re.Match[str]]":
        """Returns what is matched at the place where it reads, and goes on behind it."""
        found = what.match(self.pattern, self.at)
        self.at = found.end() if found else self.at
        return found

    def choice(self) -> Written:
        """Returns the branches up to the end of the group or the pattern, or the branch if there is one."""
        branches = [self.branch()]
        while self.next_is("|"):
            self.at += 1
            branches.append(self.branch())
        return branches[0] if len(branches) == 1 else Written("choice", [branches[0].place[0], self.at], tuple(branches))

    def branch(self) -> Written:
        """Returns the items up to the end of the branch. It begins behind the flags of the whole pattern."""
        start, items = self.at, list[Written]()
        while self.at < len(self.pattern) and self.pattern[self.at] not in "|)":
            setting = OPENING.match(self.pattern, self.at)
            if setting and setting["kind"] == ")":
                on = frozenset(setting["on"])
                self.at, self.flags, self.whole = setting.end(), self.flags | on, self.whole | on
                start = start if items else self.at
            elif not self.matched(COMMENT) and not ("x" in self.flags and self.matched(BLANKS)):
                self.item(items)
        return Written("row", [start, self.at], tuple(items))

    def item(self, items: List[Written]) -> None:
        """Adds the next item, or repeats the last one if a quantifier comes."""
        word, count = self.pattern[self.at], self.matched(COUNT)
        if count is None:
            return items.append(self.group() if word == "(" else self.atom(word))
        is_greedy = not self.next_is("?")
        self.at += not is_greedy
        if not items or is_greedy and self.next_is("+"):
            raise Unread("possessive" if items else "syntax")
        body = items.pop()
        least, most = {"*": (0, None), "+": (1, None), "?": (0, 1)}.get(word) or (
            (int(count[3]), int(count[3])) if count[3] else (int(count[1] or 0), int(count[2]) if count[2] else None))
        items.append(Written("repeat", [body.place[0], self.at], (body,), frozenset(), least, most, is_greedy))

    def atom(self, letter: str) -> Written:
        """Returns the next character, class or guard."""
        start = self.at
        if letter not in "[\\":
            self.at += 1
        elif self.matched(CLASS if letter == "[" else ESCAPE) is None:
            raise Unread("escape")
        kind = "guard" if self.pattern[start:self.at] in ("^", "$", r"\A", r"\Z", r"\b", r"\B") else "set"
        return Written(kind, [start, self.at], (), self.flags)

    def group(self) -> Written:
        """Returns the group that begins here, or a look as a guard."""
        start, flags, opening = self.at, self.flags, self.matched(OPENING)
        if opening is None or opening[0] == "(" and self.next_is("?"):
            raise Unread("group")
        on, off = opening["on"] or "", opening["off"] or ""
        # (ASCII and Unicode exclude each other)
        self.flags = (flags - frozenset(off + "au" * ("a" in on or "u" in on))) | frozenset(on)
        body = self.choice()
        if not self.next_is(")"):
            raise Unread("syntax")
        self.at, self.flags = self.at + 1, flags
        return Written("guard", [start, self.at], (), flags) if opening["look"] else Written("row", [start, self.at], (body,))


class Part:
    """A part of the tree: `loop` is what goes round, `copies` are optional copies one in another. The others are as written.

    `above` is the part around it, in which it has the number `index`, and `loops` are those around it, from the innermost one
    on. `told` is what decisions here name: kind and span.
    """

    def __init__(self, kind: str, written: Written, above: "Optional[Part]") -> None:
        self.kind, self.written, self.above, self.place = kind, written, above, written.place or None
        self.told = ("choice" if kind == "choice" else "repeat" if self.place else "search", self.place)
        self.parts: List[Part] = []
        self.index = len(above.parts) if above else 0
        self.loops: Tuple[Part, ...] = ()
        if above:
            self.loops = (above, *above.loops) if above.kind == "loop" else above.loops
            above.parts.append(self)


# What comes next: the part, the number of the part in it, and the loops in whose round nothing was taken so far.
Point = Tuple[Part, int, FrozenSet[Part]]


def behind(part: Part, rounds: FrozenSet[Part]) -> List[Point]:
    """Returns what comes behind a part, or nothing if that is the end."""
    while part.above is not None:
        part, index, rounds = part.above, part.index + 1, rounds - {part}
        if part.kind in ("row", "copies"):
            return [(part, index, rounds)]
        if part.kind == "loop" and part not in rounds:
            return [(part, 0, rounds)]
    return []


@lru_cache(maxsize=100_000)
def compiled(text: str, flags: FrozenSet[str], is_bytes: bool) -> "re.Pattern[Any]":
    """Returns the pattern of a set or a guard."""
    with warnings.catch_warnings():
        warnings.simplefilter("ignore")
        return re.compile(text.encode("latin-1") if is_bytes else text, sum(FLAGS[it] for it in flags))


class Tree:
    """The tree of a pattern in a mode, and its places."""

    def __init__(self, question: Mapping[str, Any]) -> None:
        """Reads the pattern of a question. Raises Unread."""
        self.pattern, self.is_bytes = question["pattern"], question.get("bytes", False)
        self.places, self.count = list[Part](), 0
        skip = Written("repeat", [], (Written("set", []),), is_greedy=False)
        written = Parser(self.pattern, frozenset(question.get("flags", ""))).read()
        self.top = self.add(Written("row", [], (skip, written) if question["mode"] == "search" else (written,)), None)

    def add(self, written: Written, above: Optional[Part]) -> Part:
        """Adds what is written to a part, and returns it as a part."""
        self.count += 1
        if self.count > MOST_PARTS:
            raise Unread("size")
        part = Part("row" if written.kind == "repeat" else written.kind, written, above)
        self.places += [part] if part.kind == "set" else []
        for it in written.parts * (written.least if written.kind == "repeat" else 1):
            self.add(it, part)
        if written.kind == "repeat" and (written.most is None or written.most > written.least):
            last = Part("loop" if written.most is None else "copies", written, part)
            for it in written.parts * (1 if written.most is None else written.most - written.least):
                self.add(it, last)
        return part

    def test(self, part: Part, text: str, at: int) -> bool:
        """Returns whether the set takes the character there, or the guard holds in front of it."""
        if part.place is None:
            return True
        what = compiled(self.pattern[slice(*part.place)], part.written.flags, self.is_bytes)
        given: Any = text.encode("latin-1") if self.is_bytes else text
        found = what.match(given, at)
        return found is not None and found.end() == at + (part.kind == "set")

    def begin(self, place: Optional[Part]) -> List[Point]:
        """Returns what comes after a place, or at the start if there is none."""
        return behind(place, frozenset()) if place else [(self.top, 0, frozenset())]

    def onward(self, point: Point, before: str, letter: str) -> Iterator[Tuple[str, Point]]:
        """Yields what can come next between two characters, each with the side of the decision, if one is made."""
        part, index, rounds = point
        inside, sides, others = part.parts[index:index + 1], ("", ""), behind(part, rounds)
        if part.kind == "guard":
            # (a look that relint-ask reads sees one character, and an anchor whether the text goes on)
            others = others if self.test(part, before + letter + "aa", len(before)) else []
        elif part.kind == "loop":
            sides, rounds = ("round", "stop"), rounds | {part}
        elif part.kind == "choice" and index + 1 < len(part.parts):
            sides, others = ("left", "right"), [(part, index + 1, rounds)]
        elif part.kind == "copies" and inside:
            sides = ("left", "right") if part.written.is_greedy else ("right", "left")
        elif inside:
            others = []
        yield from ((sides[0], (it, 0, rounds)) for it in inside)
        yield from ((sides[1], it) for it in others)

    def followed(self, place: Optional[Part], took: Sequence[Mapping[str, Any]], before: str, letter: str) -> Optional[Part]:
        """Returns the place to which just these decisions lead and which takes the character, or None."""
        points, left = self.begin(place), list(took)
        while points:
            part = points[0][0]
            if part.kind == "set":
                return part if not left and self.test(part, letter, 0) else None
            found, side = list(self.onward(points[0], before, letter)), ""
            if found and found[0][0]:
                if not left or (left[0]["kind"], left[0]["at"]) != part.told:
                    return None
                side = left.pop(0)["side"]
            points = [it for name, it in found if name == side]
        return None

    def way(self, place: Part, steps: Sequence[Mapping[str, Any]], text: str, before: str) -> Optional[List[Part]]:
        """Returns the places of a told way of a text, or None if it isn't one. `before` is the character in front, if any."""
        found = [place]
        for letter, step in zip(text, steps):
            to = self.followed(found[-1], step["took"], before, letter)
            if to is None or to.place != step["place"]:
                return None
            found.append(to)
            before = letter
        return found[1:] if len(steps) == len(text) else None

    def reached(self, places: Iterable[Optional[Part]], text: str, before: str, loop: Optional[Part] = None) -> Set[Part]:
        """Returns the places to which any ways of the text lead from one of the places; inside the loop, if there is one."""
        found = {it for it in places if it}
        waiting = [it for place in places for it in self.begin(place)]
        for letter in text:
            found, seen = set(), set(waiting)
            while waiting:
                point = waiting.pop()
                if point[0].kind != "set":
                    new = {it for _, it in self.onward(point, before, letter)} - seen
                    seen |= new
                    waiting += new
                elif self.test(point[0], letter, 0) and (loop is None or loop in point[0].loops):
                    found.add(point[0])
            waiting, before = [it for place in found for it in self.begin(place)], letter
        return found


def text_of(literal: str) -> str:
    """Returns the text of a literal; for bytes, a character for each byte."""
    found = ast.literal_eval(literal)
    return found.decode("latin-1") if isinstance(found, bytes) else str(found)


def parting(one: Sequence[Mapping[str, Any]], other: Sequence[Mapping[str, Any]]) -> Optional[int]:
    """Returns the index of the first step at which two ways take other sides, or None."""
    sides = [[[it["side"] for it in step["took"]] for step in way] for way in (one, other)]
    return next((index for index, (first, second) in enumerate(zip(*sides)) if first != second), None)


def is_innermost(place: Optional[List[int]], way: Sequence[Part]) -> bool:
    """Returns whether the innermost loop that has all places of a way has this span."""
    return [it.place for it in way[0].loops if all(it in part.loops for part in way)][:1] == [place]


class Checker:
    """Runs the ways of a reply again. The text up to the next pump ends with `last`, and leads to the places `entered`."""

    def __init__(self, question: Mapping[str, Any], reply: Mapping[str, Any]) -> None:
        """Takes a question `ways` and its reply. Raises Unread if the pattern isn't read here."""
        self.tree, self.reply = Tree(question), reply
        self.heads, self.pumps = ([text_of(it) for it in reply["family"][key]] for key in ("heads", "pumps"))
        self.entered, self.last = self.tree.reached([None], self.heads[0], ""), self.heads[0][-1:]

    def ways(self, reading: Mapping[str, Any], pump: int) -> List[List[List[Part]]]:
        """Returns the places of the ways from each place from which they are read: in the repeated text, and behind the head.

        The first way leads back to this place. The third one, of a split, begins where the second one ends.
        """
        text, told, found = self.pumps[pump], reading["ways"], []
        for place in self.tree.places:
            ways: List[List[Part]] = []
            for way in told if reading["pump"] == pump and text_of(reading["text"]) == text else []:
                run = self.tree.way(ways[1][-1] if len(ways) == 2 else place, way, text, text[-1])
                if run is None or len(ways) < 2 and self.tree.way(place, way, text, self.last) != run or (
                        not ways and run[-1] is not place):
                    break
                ways.append(run)
            found += [ways] if len(ways) == len(told) else []
        return found

    def twin(self, reading: Mapping[str, Any]) -> str:
        """Returns what is wrong with a twin, or nothing."""
        found = {one[-1] for one, other in self.ways(reading, 0) if one[-1] is other[-1]}
        if not found or reading["parts"] != parting(*reading["ways"]) or reading["parts"] is None:
            return "no place has both ways, or they don't part there"
        return "" if self.entered & found else "the head leads elsewhere than to a twin"

    def split(self, reading: Mapping[str, Any], pump: int) -> str:
        """Returns what is wrong with a split, or nothing. Goes over to the next pump."""
        found = [(stays, after) for stays, over, after in self.ways(reading, pump)
                 if over[-1] is after[-1] is not stays[-1] and all(map(is_innermost, reading["loops"], (stays, after)))]
        entered = {after[-1] for stays, after in found if stays[-1] in self.entered}
        before, head = self.pumps[pump][-1], self.heads[pump + 1]
        self.entered, self.last = self.tree.reached(entered, head, before), (before + head)[-1]
        if not found or parting(*reading["ways"][:2]) is None:
            return "no places have the three ways, or they don't part"
        return "" if entered else "the head leads elsewhere than to a split"

    def cycle(self, reading: Mapping[str, Any], pump: int) -> str:
        """Returns what is wrong with the loop of the last pump, or nothing."""
        text = self.pumps[pump]
        rounds = (all(place in self.tree.reached([place], text, before, loop) for before in (text[-1], self.last))
                  for place in self.entered for loop in place.loops if loop.place == reading["loop"])
        return "" if any(rounds) and reading["pump"] == pump else "the loop doesn't read the last pump behind the head"

    def wrong(self) -> List[str]:
        """Returns what is wrong with the readings, a line for each that can't be run again."""
        splits = self.reply.get("splits", [])
        if self.reply["kind"] == "exponential":
            lines = [self.twin(self.reply["twin"])]
        elif not self.reply["degree"] == len(self.pumps) == len(splits) + 1:
            lines = ["the family hasn't a pump for each degree"]
        else:
            lines = [*(self.split(it, pump) for pump, it in enumerate(splits)), self.cycle(self.reply["cycle"], len(splits))]
        return [it for it in lines if it]
