"""Makes shapes, which are patterns that may be slow to judge, and searches random ones for the slowest.

A code is a character of a pattern. A sign is one of SIGNS, 250 characters from U+4E00 on. `measure.Run` is a run of a program
with its time and memory.
"""
from __future__ import annotations

import contextlib
import random
import time
from typing import Callable, List, NamedTuple, Sequence, Tuple

from measure import Run, shortened

MOST_CODES = 10_000
MOST_SECONDS = 10
MODES = ("fullmatch", "match", "search")
SIGNS = tuple(chr(0x4E00 + it) for it in range(250))
CONSONANTS, VOWELS = "bcdfghjklmnpqrstvwxz", "aeiou"
ADDRESS = r"\d{1,3}\.\d{1,3}\.\d{1,3}\.\d{1,3}"
COLONS = r"([a-f0-9:]+:+)+[a-f0-9]+"


class Shape(NamedTuple):
    """A pattern to judge.

    `name` says what it is, or is "" if it is random. `mode` is one of MODES, in which it is judged. `is_verbose` says that it
    is judged under the flag VERBOSE.
    """

    name: str
    pattern: str
    mode: str = "fullmatch"
    is_verbose: bool = False


class Found(NamedTuple):
    """A shape and its run.

    `origin` is a number, from 0, that a random shape has in common with the shapes that were made from it by changes. The
    shapes of a list have their index in it.
    """

    run: Run
    shape: Shape
    origin: int


def word(number: int) -> str:
    """Returns a word of four letters for a number from 0; the words of 0 to 9,999 are all different, then they come again."""
    mixed = number * 7919 % 10_000
    first, second = divmod(mixed, 100)
    return CONSONANTS[first // 5] + VOWELS[first % 5] + CONSONANTS[second // 5] + VOWELS[second % 5]


def words(count: int, start: int = 0) -> str:
    """Returns the words of the `count` numbers from `start` on, with bars between them; "" if `count` is 0."""
    return "|".join(word(it) for it in range(start, start + count))


def long_words(count: int, start: int = 0) -> str:
    """Returns `count` long words with bars between them; each is four words with hyphens between them.

    `start` is the number of the first word of the first; "" is returned if `count` is 0.
    """
    return "|".join("-".join(word(it + part) for part in range(0, 4000, 1000)) for it in range(start, start + count))


def optional_groups(parts: int, count: int, start: int = 0) -> str:
    """Returns a pattern of `parts` named groups, each with `count` words of its own from the number `start` on, and a star."""
    return "".join(rf"\s*(?P<g{at}>(?:{words(count, count * at + start)})\s\S+)*" for at in range(parts))


def long_lines() -> str:
    """Returns a long pattern for VERBOSE: a first line, and twenty lines that each have a named group with a star."""
    host = rf"{COLONS}\S+|host\s(({ADDRESS})|({COLONS})\S+)|port\s\S+|group\s\S+"
    place = rf"any4|any6|any|({ADDRESS})\s({ADDRESS})|({host})"
    service = r"(eq|gts|lt|neq)\s(\S+|\d+)|range\s\S+\s\S+"
    parts = [r"\S+", r"line\s\d+", r"remark\s\S.*", "golf", "hotel", "extended|standard", "deny|permit",
             r"(dsap\s\S+)|bpdu|ipx|isis|multicast|any\s", rf"(host\s\S+)|any4|{ADDRESS}\s{ADDRESS}", words(18), r"\d+\s",
             place, service, place, r"group\s\S+", service, long_words(24, 30), r"log\s\S+", r"range\s\S+", "inactive"]
    return "^list*\n" + "".join(" " * 20 + rf"\s*(?P<part{at}>{it})*" + "\n" for at, it in enumerate(parts))


class Maker:
    """Makes random shapes, and changes them. The same seed and the same calls give the same ones."""

    def __init__(self, seed: int) -> None:
        self.random = random.Random(seed)

    def size(self, most: int) -> int:
        """Returns a random whole number from 1 to `most` - 1, or 1 if `most` is 1.

        Its logarithm is about evenly distributed, so small numbers come more often.
        """
        return int(most ** self.random.random())

    def fresh(self) -> Shape:
        """Returns a random shape of one to four parts, in a random mode; one in five is under VERBOSE."""
        parts = [self.part(2) for _ in range(self.random.randint(1, 4))]
        is_verbose = self.random.random() < 0.2
        mode = self.random.choice(MODES)
        return Shape("", ("\n    " if is_verbose else "").join(parts), mode, is_verbose)

    def changed(self, shape: Shape) -> Shape:
        """Returns the shape in a random mode, with one random change of its pattern or none.

        The pattern is doubled, put in a group, with or without a quantifier, or gets a part more: before it, after it, or as
        another branch.
        """
        pattern = shape.pattern
        ways = [pattern + pattern, f"(?:{pattern}){self.quantifier()}", pattern + self.part(1), self.part(1) + pattern,
                f"(?:{pattern}|{self.part(1)})", f"({pattern})", pattern]
        return shape._replace(pattern=self.random.choice(ways), mode=self.random.choice(MODES))

    def part(self, depth: int) -> str:
        """Returns a random part of a pattern, in which parts are nested at most `depth` deep; 0 is a part without others."""
        kinds: List[Callable[[], str]] = [self.row, self.choice, self.repeated]
        if depth:
            kinds += [lambda: f"(?:{self.part(depth - 1)}){self.quantifier()}", lambda: self.starred_groups(depth - 1)]
        return self.random.choice(kinds)()

    def quantifier(self) -> str:
        """Returns a random quantifier, most often a star, or "" for none."""
        return self.random.choice(["*", "*", "+", "?", "", "{%d}" % self.size(30), "{0,%d}" % self.size(30)])

    def one(self, at: int) -> str:
        """Returns a random pattern for one code: a sign, a letter or a class, perhaps with the sign of the number `at`.

        `at` counts from 0, and begins again after the last sign.
        """
        sign = SIGNS[at % len(SIGNS)]
        other = SIGNS[self.random.randrange(len(SIGNS))]
        return self.random.choice([sign, sign, f"[^{sign}]", f"[{sign}{other}]", "a", ".", r"\w", r"\s", r"\S", r"\d"])

    def row(self) -> str:
        """Returns a row of 1 to 249 pieces of one random kind, each with its own sign; all have one quantifier, or none."""
        kind = self.random.choice(["%s", "[^%s]", "a%s", "(?:%s|a)", r"\s*%s", r"[%s\w]"])
        quantifier = self.random.choice(["", "*", "?", "+"])
        return "".join(kind % SIGNS[it] + quantifier for it in range(self.size(len(SIGNS))))

    def choice(self) -> str:
        """Returns a group of 1 to 249 branches, with or without a quantifier; the branches are all of one random kind."""
        start = self.random.randrange(1000)
        count = self.size(250)
        branches = self.random.choice([
            words(count, start), "|".join("a" + it for it in SIGNS[:count]), "|".join(self.one(it) for it in range(count)),
            "|".join(f"{word(start + it)}{self.one(it)}*" for it in range(count)), "|".join(["a"] * count),
            "|".join("a" * self.size(40) for _ in range(count)),
        ])
        return f"{self.random.choice(['(?:', '('])}{branches}){self.quantifier()}"

    def repeated(self) -> str:
        """Returns a pattern for one code, with or without a quantifier, 1 to 59 times in a row."""
        return (self.one(0) + self.quantifier()) * self.size(60)

    def starred_groups(self, depth: int) -> str:
        r"""Returns 1 to 19 groups, one after the other, each with a star, and with `\s*` in front.

        Each has a random part in it, in which parts are nested at most `depth` deep.
        """
        return "".join(rf"\s*({self.part(depth)})*" for _ in range(self.size(20)))


def slowest(found: Sequence[Found], most: int) -> List[Found]:
    """Returns the `most` slowest of `found`, or all if there are fewer, the slowest first.

    Of those with the same `origin`, only the slowest counts.
    """
    kept: List[Found] = []
    for it in sorted(found, key=lambda it: -it.run.seconds):
        if all(it.origin != other.origin for other in kept):
            kept.append(it)
    return kept[:most]


def search(judge: Callable[[Shape], Run], seconds: float, seed: int, most: int) -> Tuple[List[Found], int]:
    """Judges random shapes, and begins no new one after `seconds` by the clock. An interrupt from the keyboard ends it.

    Returns the `most` slowest, as `slowest` does, and how many shapes were made; those with more than MOST_CODES codes aren't
    judged, but count too. `judge` runs the program on a shape. `seed` says which random shapes are made.
    """
    found: List[Found] = []
    maker, tried = Maker(seed), 0
    end = time.monotonic() + seconds
    with contextlib.suppress(KeyboardInterrupt):
        while time.monotonic() < end:
            old = maker.random.choice(found) if found and maker.random.random() < 0.5 else None
            shape, origin = (maker.changed(old.shape), old.origin) if old else (maker.fresh(), tried)
            if len(shape.pattern) <= MOST_CODES:
                found = slowest([*found, Found(judge(shape), shape, origin)], most)
            tried += 1
    return found, tried


def line(run: Run, shape: Shape, is_whole: bool) -> str:
    """Returns a line, without a line end, with the time and memory of a shape's run, the length of its pattern, and its mode.

    At its end comes the shape's name, or the pattern if the name is ""; it is shortened to 90 characters unless `is_whole`. If
    a signal ended the run, the line begins with "ended at".
    """
    name = shape.name or shape.pattern.replace("\n", "\\n")
    how = shape.mode + (", VERBOSE" if shape.is_verbose else "")
    shown = name if is_whole else shortened(name, 90)
    took = "ended at " if run.status > 128 else " " * 9
    return f"{took}{run.seconds * 1000:8.1f} ms  {run.megabytes:6.1f} MB  {len(shape.pattern):5} codes, {how}: {shown}"
