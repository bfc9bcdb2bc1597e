"""Makes forms of a pattern that relint can read, by leaving out or replacing what relint refuses.

A form needn't match the same texts as the pattern: it serves only to make texts, which are then tried on the pattern itself.
The forms come from the tree that the running Python's own parser makes. That parser is private: only the choice of texts rests
on it.
"""
from __future__ import annotations

import importlib
import re
import sys
import warnings
from contextlib import suppress
from dataclasses import dataclass
from typing import Any, Dict, Iterator, List, Tuple

from ..base.model import Text
from ..engine.ask import letters

PARSER = "re._parser" if sys.version_info >= (3, 11) else "sre_parse"
LONGEST, MOST_FORMS, MOST_LOOPS, FEW, MOST_ITEMS, MOST_COPIES = 10_000, 12, 8, 3, 10_000, 3
GUARDS = {"AT_BEGINNING": "^", "AT_BEGINNING_STRING": "\\A", "AT_END": "$", "AT_END_STRING": "\\Z", "AT_BOUNDARY": "\\b",
          "AT_NON_BOUNDARY": "\\B"}
REPEATS = ("MAX_REPEAT", "MIN_REPEAT", "POSSESSIVE_REPEAT")
LOOKS = ("ASSERT", "ASSERT_NOT")
# What a flag of a group means in a tree.
MEANING = int(re.ASCII | re.IGNORECASE | re.MULTILINE | re.DOTALL)


class NotMade(Exception):
    """Raised if a form can't be made."""


def children(code: str, value: Any) -> List[Any]:
    """Returns the trees directly in an item."""
    if code == "BRANCH":
        return list(value[1])
    if code == "GROUPREF_EXISTS":
        return [it for it in value[1:] if it is not None]
    if code == "ATOMIC_GROUP":
        return [value]
    return [value[-1]] if code in (*REPEATS, *LOOKS, "SUBPATTERN") else []


def walk(tree: Any) -> Iterator[Tuple[str, Any, Any]]:
    """Yields the name of each item of a tree, its value, and the item, an outer one before its inner ones."""
    for item in tree:
        code, value = str(item[0]), item[1]
        yield code, value, item
        for it in children(code, value):
            yield from walk(it)


@dataclass
class _Writer:
    """Writes trees as patterns that relint reads. `groups` are the bodies of the pattern's groups by their numbers.

    `look` says what becomes of lookaround: "drop" leaves it out, "place" puts its body in its place, "mixed" leaves out the
    negative one alone. With `few`, counts above FEW become FEW.
    """

    groups: Dict[int, Any]
    multiline: bool
    look: str
    few: bool = False
    left: int = MOST_ITEMS

    def text(self, tree: Any, copied: int = 0) -> str:
        """Returns a tree as a pattern; `copied` counts the references that it is a copy for. Raises NotMade."""
        return "".join(self.item(str(it[0]), it[1], copied) for it in tree)

    def item(self, code: str, value: Any, copied: int) -> str:
        self.left -= 1
        if self.left < 0 or copied > MOST_COPIES:
            raise NotMade
        if code in ("LITERAL", "NOT_LITERAL", "ANY", "IN"):
            return _set(code, value)
        if code == "AT":
            guard = GUARDS[str(value)]
            return "\\Z" if guard == "$" and not self.multiline else guard
        if code in REPEATS:
            return self.repeated(code, value, copied)
        is_dropped = self.look == "drop" or self.look == "mixed" and code == "ASSERT_NOT"
        return "" if code in LOOKS and is_dropped else self.grouped(code, value, copied)

    def grouped(self, code: str, value: Any, copied: int) -> str:
        """Returns a group, or what becomes one, as a pattern."""
        if code == "GROUPREF":
            if value not in self.groups:
                raise NotMade
            return f"(?:{self.text(self.groups[value], copied + 1)})"
        marks = ""
        if code == "SUBPATTERN" and (value[1] or value[2]):
            on, off = letters(value[1] & MEANING), letters(value[2] & MEANING & ~re.ASCII)
            marks = f"{on}-{off}" if off else f"{on}"
        parts = [self.text(it, copied) for it in children(code, value)]
        if code == "GROUPREF_EXISTS":
            parts += [""] * (2 - len(parts))
        return f"(?{marks}:{'|'.join(parts)})"

    def repeated(self, code: str, value: Any, copied: int) -> str:
        least, most, body = int(value[0]), int(value[1]), value[2]
        endless = most >= int(importlib.import_module(PARSER).MAXREPEAT)
        if self.few and least > FEW:
            least, endless, most = FEW, endless or most > least, FEW
        count = f"{least}" if least == most else f"{least},{'' if endless else most}"
        return f"(?:{self.text(body, copied)}){{{count}}}" + ("?" if code == "MIN_REPEAT" else "")


def _escaped(code: int, special: str) -> str:
    """A character of a pattern."""
    letter = chr(code)
    if code < 0x20 or 0x7E < code < 0x100:
        return f"\\x{code:02x}"
    if code > 0x7E:
        return f"\\U{code:08x}"
    return "\\" + letter if letter in special else letter


def _set(code: str, value: Any) -> str:
    """A set of characters as a pattern."""
    if code == "ANY":
        return "."
    if code == "LITERAL":
        return _escaped(value, ".^$*+?{}[]|()\\ #")
    if code == "NOT_LITERAL":
        return "[^" + _escaped(value, "\\]^-[") + "]"
    found = []
    for kind, its in value:
        name = str(kind)
        if name == "CATEGORY":
            word = str(its).replace("CATEGORY_", "")
            sign = word.replace("NOT_", "")[0].lower()
            found.append("\\" + (sign.upper() if "NOT" in word else sign))
        elif name == "RANGE":
            found.append("-".join(_escaped(it, "\\]^-[") for it in its))
        else:
            found.append("^" if name == "NEGATE" else _escaped(its, "\\]^-["))
    return "[" + "".join(found) + "]"


def forms(pattern: Text, flags: int, is_undecided: bool = False) -> List[Text]:
    """Returns a few forms of a pattern that its call takes with these flags, each once, without the pattern itself.

    If relint can't decide the pattern (`is_undecided`), smaller parts of it are forms too. Returns none if the running Python
    doesn't take the pattern.
    """
    found: Dict[Text, None] = {}
    with suppress(re.error, NotMade, RecursionError, OverflowError, ValueError, KeyError), warnings.catch_warnings():
        warnings.simplefilter("ignore")
        tree = importlib.import_module(PARSER).parse(pattern, flags)
        for text in _forms(tree, int(tree.state.flags), is_undecided):
            made: Text = text.encode("ascii") if isinstance(pattern, bytes) else text
            if made != pattern and len(text) <= LONGEST and len(found) < MOST_FORMS:
                found[made] = None
    return list(found)


def _forms(tree: Any, flags: int, is_undecided: bool) -> Iterator[str]:
    """Yields the texts of forms: whole ones, then the body of each lookaround, then parts."""
    groups = {value[0]: value[-1] for code, value, _ in walk(tree) if code == "SUBPATTERN" and value[0] is not None}
    marks = letters(flags & MEANING)
    front = f"(?{marks})" if marks else ""

    def made(part: Any, look: str, few: bool = False) -> str:
        """The form of a part of the pattern."""
        return front + _Writer(groups, bool(flags & re.MULTILINE), look, few).text(part)

    yield from (made(tree, look) for look in ("mixed", "drop", "place"))
    yield from (made(value[-1], "drop") for code, value, _ in walk(tree) if code in LOOKS)
    if is_undecided:
        items = list(tree)
        if len(items) == 1 and str(items[0][0]) == "SUBPATTERN":
            items = list(items[0][1][-1])
        middle = (len(items) + 1) // 2
        yield from (made(part, "mixed", True) for part in (items, items[:middle], items[middle:]))
        yield from (made([it], "mixed") for it in [it for code, _, it in walk(tree) if code in REPEATS][-MOST_LOOPS:])
