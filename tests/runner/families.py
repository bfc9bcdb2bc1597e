"""Families: the recipe for texts that the program prints, read back, and the steps that its texts have to cost."""
from __future__ import annotations

import re
from dataclasses import dataclass
from typing import List

from runner.results import Failed

_QUOTED = re.compile(r'r"[^"]*"|"(?:[^"\\]|\\.)*"')
_ESCAPE = re.compile(r"\\(?:x([0-9a-f]{2})|u([0-9a-f]{4})|U([0-9a-f]{8})|(.))")
_NAMED = {"n": "\n", "r": "\r", "t": "\t", "\\": "\\", '"': '"'}
_STEPS = re.compile(r"steps (?:over )?([0-9]+) (?:matched|refused)\n")


@dataclass(frozen=True)
class Family:
    """The heads x0, x1 .. and the pumps y1, y2 .."""

    heads: List[str]
    pumps: List[str]

    def text(self, k: int) -> str:
        """The family's text for the number k."""
        return self.heads[0] + "".join(pump * k + head for pump, head in zip(self.pumps, self.heads[1:]))

    def fits(self, verdict: str) -> bool:
        """Whether it has as many pumps as the verdict says, none of them empty."""
        count = len(self.pumps)
        return all(self.pumps) and ((verdict == "exponential" and count == 1) or verdict == "degree %d" % count)


def least_steps(verdict: str, k: int) -> int:
    """How many steps the text for k takes at least, in a family of the verdict."""
    if verdict == "exponential":
        return int(2 ** k)
    return int(k ** int(verdict.split(" ")[1]))


def _replacement(found: "re.Match[str]") -> str:
    digits = found.group(1) or found.group(2) or found.group(3)
    if digits:
        return chr(int(digits, 16))
    if found.group(4) not in _NAMED:
        raise Failed("an escape that isn't known: %r" % found.group())
    return _NAMED[found.group(4)]


def unquoted(literal: str) -> str:
    """The text that a quoted text is."""
    return literal[2:-1] if literal.startswith("r") else _ESCAPE.sub(_replacement, literal[1:-1])


def read_family(line: str) -> Family:
    """The family of a line `  family x0 .. y1 .. x1 ..`. Raises `Failed`."""
    if not line.startswith("  family x0 "):
        raise Failed("this is no line of a family: %r" % line)
    names: List[str] = []
    texts: List[str] = []
    place = len("  family")
    while place < len(line):
        found = re.compile(r" ([xy][0-9]+) ").match(line, place)
        literal = _QUOTED.match(line, found.end()) if found else None
        if found is None or literal is None:
            raise Failed("no text at column %d of %r" % (place + 1, line))
        names.append(found.group(1))
        texts.append(unquoted(literal.group()))
        place = literal.end()
    expected = ["x0"] + [letter + str(number) for number in range(1, len(names) // 2 + 1) for letter in "yx"]
    if names != expected:
        raise Failed("the names in %r aren't %s" % (line, " ".join(expected)))
    return Family(texts[0::2], texts[1::2])


def steps_of(output: str) -> int:
    """The number in the answer of `relint cost`. Raises `Failed`."""
    found = _STEPS.fullmatch(output)
    if found is None:
        raise Failed("no number of steps: %r" % output)
    return int(found.group(1))
