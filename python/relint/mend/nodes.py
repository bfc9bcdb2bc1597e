"""Trees of patterns: read from an answer of relint-ask, changed by rules, and written as patterns again.

relint-ask says what each set of a pattern holds as numbers of *letters*: characters that no set tells apart are one letter,
of which it gives one character. A *mask* is a set of letters as bits. A node that stands in the pattern has a *span*, its
start and end there, and is written as it stands there; a new node has none. Spans and texts don't count in comparisons.
"""
from __future__ import annotations

import re
from dataclasses import dataclass, field, replace
from difflib import SequenceMatcher
from functools import reduce
from itertools import combinations
from operator import or_
from typing import Any, Dict, Iterable, Iterator, List, Mapping, NamedTuple, Optional, Sequence, Tuple

from ..base.model import Span, Text
from ..engine.ask import LETTERS, letters

NO_BOUND = 1 << 40
CHARS, GUARD, ROW, CHOICE, REPEAT, GROUP = "chars", "guard", "row", "choice", "repeat", "group"
# How looks begin, by whether they look behind and whether they are negated.
LOOKS = {(False, False): "(?=", (False, True): "(?!", (True, False): "(?<=", (True, True): "(?<!"}
MOST_DEPTH, MOST_PROBES, MOST_MATCHED = 100, 150, 1_000_000


class Unreadable(Exception):
    """Raised if a pattern can't be read or written; the message says why in a clause."""


class Facts(NamedTuple):
    """What is known of a node: `nullable` (it can match the empty text if its guards hold), the number and name of each
    capturing group in it, whether a guard is in it, all its letters, the letters with which a match can begin, its size.
    """

    nullable: bool
    groups: Tuple[Tuple[int, str], ...]
    guarded: bool
    mask: int
    first: int
    size: int


@dataclass(frozen=True)
class Node:
    """A node: a set of characters (CHARS), a condition on a place (GUARD), a ROW, a CHOICE, a REPEAT or a capturing GROUP.

    `most` is NO_BOUND for a repeat without a bound. `name` is that of a group, or the text of a guard; for a look it is how it
    begins, and `mask` is the set that it looks for. `text` is how a set was written, and "" for a new one. A row isn't
    directly in a row, nor a choice in a choice.
    """

    kind: str
    items: Tuple["Node", ...] = ()
    mask: int = 0
    least: int = 1
    most: int = 1
    greedy: bool = True
    number: int = 0
    name: str = ""
    text: str = field(default="", compare=False)
    span: Optional[Span] = field(default=None, compare=False)
    facts: Facts = field(init=False, compare=False, repr=False)

    def __post_init__(self) -> None:
        """Works out the facts from those of the parts."""
        every = [it.facts for it in self.items]
        # (a guard reads no letter)
        mask = first = 0 if self.kind == GUARD else self.mask
        nullable, size = self.kind in (GUARD, ROW), 1
        groups: List[Tuple[int, str]] = [(self.number, self.name)] if self.kind == GROUP else []
        for it in every:
            if self.kind != ROW or nullable:
                first |= it.first
            nullable = nullable and it.nullable if self.kind == ROW else nullable or it.nullable
            mask |= it.mask
            size += it.size
            groups += it.groups
        nullable = nullable or self.kind == REPEAT and self.least == 0
        guarded = self.kind == GUARD or any(it.guarded for it in every)
        object.__setattr__(self, "facts", Facts(nullable, tuple(groups), guarded, mask, first, size))

    @property
    def body(self) -> "Node":
        """The one part of a repeat or a group."""
        return self.items[0]

    @property
    def endless(self) -> bool:
        """Whether it is a repeat without a bound."""
        return self.kind == REPEAT and self.most == NO_BOUND

    @property
    def is_run(self) -> bool:
        """Whether it is a repeated set."""
        return self.kind == REPEAT and self.items[0].kind == CHARS


EMPTY = Node(ROW)


def union(masks: Iterable[int]) -> int:
    """Returns the mask of all letters of the masks."""
    return reduce(or_, masks, 0)


def chars(mask: int) -> Node:
    """Returns a new set."""
    return Node(CHARS, mask=mask)


def guard(text: str) -> Node:
    """Returns a new condition on a place, which is written as `text`."""
    return Node(GUARD, name=text)


def look(behind: bool, negated: bool, mask: int) -> Node:
    """Returns a new look at the character before a place (`behind`) or after it: one of the set or, if `negated`, none."""
    return Node(GUARD, name=LOOKS[behind, negated], mask=mask)


def row(items: Iterable[Node]) -> Node:
    """Returns the items one after another; one item alone is returned itself."""
    flat = [part for it in items for part in (it.items if it.kind == ROW else (it,))]
    return flat[0] if len(flat) == 1 else Node(ROW, tuple(flat))


def choice(branches: Iterable[Node]) -> Node:
    """Returns a choice of the branches, each once; sets alone become one set. There has to be a branch."""
    flat: List[Node] = []
    for it in branches:
        flat += [part for part in (it.items if it.kind == CHOICE else (it,)) if part not in flat]
    if len(flat) > 1 and all(it.kind == CHARS for it in flat):
        return chars(union(it.mask for it in flat))
    return flat[0] if len(flat) == 1 else Node(CHOICE, tuple(flat))


def repeat(least: int, most: int, greedy: bool, body: Node) -> Node:
    """Returns the body repeated; what can only be empty is EMPTY, and what comes exactly once is the body itself."""
    if body == EMPTY or most == 0 and not body.facts.groups:
        return EMPTY
    return body if least == most == 1 else Node(REPEAT, (body,), least=least, most=most, greedy=greedy)


def again(node: Node, body: Node, **bounds: Any) -> Node:
    """Returns the repeat `node` with another body; `bounds` are other values of least, most and greedy."""
    bounds = {"least": node.least, "most": node.most, "greedy": node.greedy, **bounds}
    return repeat(bounds["least"], bounds["most"], bounds["greedy"], body)


def optional(body: Node, greedy: bool = True) -> Node:
    """Returns the body once or not at all."""
    return repeat(0, 1, greedy, body)


def star(body: Node, greedy: bool = True) -> Node:
    """Returns the body any number of times."""
    return repeat(0, NO_BOUND, greedy, body)


def plus(body: Node, greedy: bool = True) -> Node:
    """Returns the body at least once."""
    return repeat(1, NO_BOUND, greedy, body)


def group(like: Node, body: Node) -> Node:
    """Returns a capturing group with the number and name of the group `like`."""
    return Node(GROUP, (body,), number=like.number, name=like.name)


def made(node: Node, items: Sequence[Node]) -> Node:
    """Returns a new node of the same kind with other parts, made simpler where that is possible."""
    if node.kind == ROW:
        return row(items)
    if node.kind == CHOICE:
        return choice(items)
    return again(node, items[0]) if node.kind == REPEAT else group(node, items[0])


def with_child(node: Node, at: int, new: Node) -> Node:
    """Returns the node with its part number `at` replaced."""
    return made(node, [*node.items[:at], new, *node.items[at + 1:]])


def put(tree: Node, path: Tuple[int, ...], new: Node) -> Node:
    """Returns the tree with the node at the end of the path (numbers of parts, from the root) replaced."""
    return with_child(tree, path[0], put(tree.items[path[0]], path[1:], new)) if path else new


def at(tree: Node, path: Tuple[int, ...]) -> Node:
    """Returns the node at the end of a path."""
    return at(tree.items[path[0]], path[1:]) if path else tree


def positions(node: Node, path: Tuple[int, ...] = ()) -> Iterator[Tuple[Tuple[int, ...], Node]]:
    """Yields each node after the path to it, an outer node before its inner ones."""
    yield path, node
    for at, it in enumerate(node.items):
        yield from positions(it, (*path, at))


def ends(node: Node) -> int:
    """Returns the mask of the letters with which a match of the node can end."""
    found = node.mask if node.kind == CHARS else 0
    for it in reversed(node.items):
        found |= ends(it)
        if node.kind == ROW and not it.facts.nullable:
            break
    return found


# Letters

MEMBER = re.compile(r"\\(?:x[0-9a-fA-F]{2}|u[0-9a-fA-F]{4}|U[0-9a-fA-F]{8}|[0-7]{1,3}|[\s\S])|[\s\S]")
CLASS = re.compile(r"\[\^?\]?(?:\\[\s\S]|[^\]\\])*\]")
ESCAPE = re.compile(r"\\(?:x[0-9a-fA-F]{2}|u[0-9a-fA-F]{4}|U[0-9a-fA-F]{8}|0[0-7]{0,2}|[1-7][0-7]{2}|[\s\S])")
OPENING = re.compile(r"\((?:\?(?:P<[^>]*>|<?[=!]|[aiLmsux]*(?:-[imsx]+)?:|[aiLmsux]+\)|#[^)]*\)))?")
QUANTIFIER = re.compile(r"(?:[*+?]|\{\d+\}|\{\d*,\d*\})\??")
TOKEN = "|".join((ESCAPE.pattern, CLASS.pattern, OPENING.pattern, QUANTIFIER.pattern, r"[\s\S]"))
LAYOUT, BLANKS = r"\(\?#[^)]*\)", r"(?:[ \t\n\r\v\f]|#[^\n]*)+"
FRONT = re.compile(r"(?:\(\?[aiLmsux]+\)(?:\s*(?=\(\?[aiLmsux]+\)))?)*")
SCOPED = re.compile(r"\(\?(?=[a-zL-]*[a-zL])[aiLmsux]*(?:-[imsx]+)?:")
ONE = re.compile(rf"(?:{ESCAPE.pattern}|{CLASS.pattern}|[^\\\[()|*+?])\Z")
IN_CLASS, OUTSIDE = "\\]^-[&~|", ".^$*+?{}[]|()\\"
PLAIN = {"t": 9, "n": 10, "v": 11, "f": 12, "r": 13, "a": 7, "b": 8}
NAMED = {code: "\\" + letter for letter, code in PLAIN.items() if code > 8}
CATEGORIES = "wdsWDS"
HINTED = 4


def members(inside: str) -> List[Tuple[str, Optional[Tuple[int, int]]]]:
    r"""Returns the members of a class, as written, each with its first and last code; a category such as `\d` has none."""
    parts, found = MEMBER.findall(inside), []
    while parts:
        size = 3 if len(parts) > 2 and parts[1] == "-" else 1
        found.append(("".join(parts[:size]), _range_of(parts[0], parts[size - 1])))
        del parts[:size]
    return found


def _range_of(first: str, last: str) -> Optional[Tuple[int, int]]:
    """The codes of the two ends of a range."""
    low, high = code_of(first), code_of(last)
    return None if low is None or high is None or high < low else (low, high)


def code_of(part: str) -> Optional[int]:
    """Returns the code of a character or an escape of a class, or None for a category."""
    if part[0] != "\\":
        return ord(part)
    if part[1] in PLAIN:
        return PLAIN[part[1]]
    if part[1] in "01234567":
        return int(part[1:], 8)
    if len(part) > 2:
        return int(part[2:], 16)
    return None if part[1] in CATEGORIES else ord(part[1])


def escape(code: int, special: str, is_bytes: bool) -> str:
    """Returns how a pattern writes a character; those of `special` come after a backslash."""
    letter = chr(code)
    if code in NAMED:
        return NAMED[code]
    if code < 32 or 127 <= code <= 160 or is_bytes and code > 126:
        return f"\\x{code:02x}"
    if not letter.isprintable():
        return f"\\u{code:04x}" if code <= 0xFFFF else f"\\U{code:08x}"
    return "\\" + letter if letter in special else letter


def _range(low: int, high: int, is_bytes: bool) -> str:
    """How a class writes the codes from `low` to `high`."""
    sign = "-" if high - low > 1 else ""
    return sign.join(escape(it, IN_CLASS, is_bytes) for it in ((low, high) if low < high else (low,)))


def _hyphen_last(inside: str) -> str:
    """The inside of a class with a hyphen that is escaped at its end, where it needs no escape."""
    at = inside.find("\\-")
    alone = at >= 0 and inside.count("\\-") == 1 and inside[at - 1:at] != "-" and inside[at + 2:at + 3] != "-"
    return inside[:at] + inside[at + 2:] + "-" if alone and not inside[:at].endswith("\\") else inside


@dataclass
class Alphabet:
    r"""The letters of a pattern, among them those of `\w`, `\d`, `\s` and of its ranges, and how sets are written.

    `samples` has a character of each letter, and `flags` are those of the whole pattern. `pieces` are ranges of codes, each
    with its mask, that classes are written with; `known` has the classes of the pattern as they are written there.
    """

    samples: str
    flags: int
    is_bytes: bool
    full: int
    newline: int
    pieces: Sequence[Tuple[int, int, int]]
    categories: Mapping[str, int]
    known: Mapping[int, str]
    _shown: Dict[int, Optional[str]] = field(default_factory=dict)

    def of(self, mask: int) -> str:
        """Returns the samples of the letters of a mask."""
        return "".join(it for at, it in enumerate(self.samples) if mask >> at & 1)

    def is_one(self, mask: int) -> bool:
        """Returns whether a mask is that of one character that stands in the pattern."""
        return any(mask == it and low == high for low, high, it in self.pieces)

    def show(self, mask: int) -> Optional[str]:
        """Returns a short text for the mask, like those in the pattern if there are some; None if none is found."""
        if mask not in self._shown:
            dot = self.full if self.flags & re.DOTALL else self.full & ~self.newline
            special = OUTSIDE + (" #" if self.flags & re.VERBOSE else "")
            fixed = [r"[^\s\S]"] if not mask else ["."] if mask == dot else [r"[\s\S]"] if mask == self.full else []
            fixed += [self.known[mask]] if mask in self.known else []
            fixed += ["\\" + it for it, its in self.categories.items() if its == mask]
            fixed += [escape(low, special, self.is_bytes) for low, high, it in self.pieces if it == mask and low == high]
            alike = list(self._alike(mask))
            signs = (("", mask), ("^", self.full & ~mask))
            every = fixed or [*alike, *(f"[{it}{_hyphen_last(its)}]" for it, part in signs for its in self._insides(part))]
            self._shown[mask] = min(every, key=lambda it: len(it) - HINTED * (it in alike)) if every else None
        return self._shown[mask]

    def _alike(self, mask: int) -> Iterator[str]:
        """Yields classes of the pattern changed by a few characters so that they have this mask."""
        for other, text in self.known.items():
            less = min(self._insides(other & ~mask), key=len, default="")
            if mask & ~other or not 0 < len(less) < 7:
                continue
            if text == "." and not self.flags & re.DOTALL:
                yield "[^" + _hyphen_last(f"{less}\\n") + "]"
            elif text.startswith("[^"):
                yield "[^" + (_hyphen_last(text[2:-1] + less) if text[-2:-1] != "-" else less + text[2:-1]) + "]"
            elif text.startswith("["):
                kept = [it for it in members(text[1:-1]) if self.mask_of(*it) & ~mask == 0]
                if kept and union(self.mask_of(*it) for it in kept) == mask and kept[0][0] != "^":
                    yield "[" + "".join(it for it, _ in kept) + "]"

    def mask_of(self, text: str, codes: Optional[Tuple[int, int]]) -> int:
        """Returns the mask of a member of a class; all letters if that isn't known."""
        if codes is None:
            return self.categories.get(text[1:], self.full)
        inside = [it for it in self.pieces if codes[0] <= it[0] and it[1] <= codes[1]]
        is_whole = sum(high - low + 1 for low, high, _ in inside) == codes[1] - codes[0] + 1
        return union(mask for _, _, mask in inside) if is_whole else self.full

    def _cover(self, mask: int) -> Optional[str]:
        """The inside of a class with just this mask, made of ranges alone; None if there is none."""
        found: List[Tuple[int, int]] = []
        rest = mask
        for low, high, its in self.pieces:
            if its & ~mask == 0 and its & rest:
                rest &= ~its
                if found and found[-1][1] + 1 == low:
                    found[-1] = found[-1][0], high
                else:
                    found.append((low, high))
        return None if rest else "".join(_range(low, high, self.is_bytes) for low, high in found)

    def _insides(self, mask: int) -> Iterator[str]:
        """Yields insides of a class with this mask, made of at most two categories and of ranges; none for the mask 0."""
        inner = [it for it, its in self.categories.items() if its and its & ~mask == 0]
        for taken in (it for count in range(3) for it in combinations(inner, count)):
            ranges = self._cover(mask & ~union(self.categories[it] for it in taken))
            if ranges or ranges is not None and taken:
                yield "".join("\\" + it for it in taken) + ranges


# Reading

@dataclass(frozen=True)
class Pattern:
    """A pattern that was read; `text` is decoded as Latin-1 if it is bytes. `front` sets flags for all of it, as `(?i)`."""

    text: str
    is_bytes: bool
    flags: int
    front: str
    tree: Node
    alphabet: Alphabet

    @property
    def verbose(self) -> bool:
        """Whether blanks and comments don't count in it."""
        return bool(self.flags & re.VERBOSE)

    def encoded(self, text: str) -> Text:
        """Returns a pattern in the type of this one."""
        return text.encode("latin-1") if self.is_bytes else text


def _pieces(text: str, verbose: bool) -> List[Tuple[int, int]]:
    """The ranges of codes that the classes and characters of a pattern are made of, cut so that none overlap; few or none."""
    found = {(10, 10)}
    for token in tokens_of(text, verbose)[0]:
        if CLASS.fullmatch(token):
            found.update(codes for _, codes in members(token[2 if token[1] == "^" else 1:-1]) if codes)
        elif not OPENING.fullmatch(token) and not QUANTIFIER.fullmatch(token) and token not in ("|", ")", ".", "^", "$"):
            codes = _range_of(token, token) if MEMBER.fullmatch(token) else None
            found.update([codes] if codes and token not in ("\\b",) else [])
    found = found if len(found) <= 2 * MOST_PROBES else {(10, 10)}
    cuts = sorted({it for low, high in found for it in (low, high + 1)})
    pieces = [(low, after - 1) for low, after in zip(cuts, cuts[1:]) if any(a <= low and after - 1 <= b for a, b in found)]
    return pieces if len(pieces) <= MOST_PROBES else [(10, 10)]


def front_of(text: str) -> str:
    """Returns the flags for all of a pattern at its front, as `(?i)`."""
    found = FRONT.match(text)
    return found[0] if found else ""


class Probe:
    """A question for the tree of a pattern; `text` is the pattern, decoded as Latin-1 if it is bytes.

    A part that matches nothing stands in front of the pattern there, with the categories and the ranges of the classes: so the
    answer tells their letters too.
    """

    def __init__(self, text: str, flags: int, is_bytes: bool, is_short: bool = False) -> None:
        """Takes the pattern and the flags of its call; a short question has no ranges, for a pattern with many letters."""
        self.text, self.is_bytes, self.front = text, is_bytes, front_of(text)
        own = "".join(re.findall(r"\(\?([aiLmsux]+)\)", self.front))
        self.call, self.flags = flags, flags | (256 if is_bytes else 0) | sum(it for it in LETTERS if LETTERS[it] in own)
        self.verbose = bool(self.flags & re.VERBOSE)
        self.pieces = [(10, 10)] if is_short else _pieces(text, self.verbose)
        sets = [r"[\s\S]", r"\w", r"\d", r"\s", *(f"[{_range(*it, is_bytes)}]" for it in self.pieces)]
        self.inserted = "(?:" + "|".join(sets) + "){0}"

    def question(self) -> Dict[str, Any]:
        """Returns the question."""
        pattern = self.front + self.inserted + self.text[len(self.front):]
        return {"ask": "tree", "pattern": pattern, "flags": letters(self.call) or "", "bytes": self.is_bytes}

    def read(self, answer: Mapping[str, Any]) -> Pattern:
        """Returns the pattern from the answer; raises Unreadable if it isn't one."""
        try:
            samples = "".join("\ud800" if it["sample"] is None else it["sample"] for it in answer["letters"])
            top, reader = answer["tree"], _Reader(self.text, len(self.inserted))
            branches = top["branches"] if top["kind"] == "choice" else [top]
            first = branches[0]["items"] if branches[0]["kind"] == "sequence" else [branches[0]]
            probes = [it.mask for it in reader.node(first[0]).body.items]
            if len(samples) != len(answer["letters"]) or len(probes) != len(self.pieces) + 4 or answer["leading"]:
                raise Unreadable("its letters can't be read")
            tree = self.tree([first[1:], *branches[1:]], reader)
        except (KeyError, TypeError, IndexError, ValueError, AttributeError) as error:
            raise Unreadable("its tree can't be read") from error
        return Pattern(self.text, self.is_bytes, self.flags, self.front, tree, self.alphabet(tree, samples, probes))

    def tree(self, branches: Sequence[Any], reader: "_Reader") -> Node:
        """Returns the tree of the branches, the first given by its items, with the anchors that aren't in the answer."""
        items = branches[0]
        nodes = [reader.node(items[0]) if len(items) == 1 else EMPTY, *map(reader.node, branches[1:])]
        if len(items) > 1:
            nodes[0] = reader.node({"kind": "sequence", "start": items[0]["start"], "end": items[-1]["end"], "items": items})
        last = branches[-1] if len(branches) > 1 else items[-1] if items else None
        start = items[0]["start"] - reader.shift if items else len(self.front)
        end = last["end"] - reader.shift if last else start
        tail = tokens_of(self.text[end:], self.verbose)[0]
        if tail and set(tail) - {"$", "\\Z"} or start != len(self.front) and not (self.verbose or "(?#" in self.text):
            # (parentheses around the first or last part aren't in its span)
            nodes, tail = [replace(it, span=None) for it in nodes], []
        whole = nodes[0] if len(nodes) == 1 else Node(CHOICE, tuple(nodes), span=(start, end) if items else None)
        return row([whole, *map(guard, tail)]) if tail else whole

    def alphabet(self, tree: Node, samples: str, probes: Sequence[int]) -> Alphabet:
        """Returns the alphabet, from a character of each letter and the masks of the sets of the probe."""
        full, categories = probes[0], {}
        for letter, mask in zip("wds", probes[1:4]):
            categories.update({letter: mask, letter.upper(): full & ~mask})
        pieces = [(low, high, mask) for (low, high), mask in zip(self.pieces, probes[4:])]
        newline = next(mask for low, high, mask in pieces if low <= 10 <= high)
        known: Dict[int, str] = {}
        for _, it in positions(tree):
            if it.kind == CHARS and it.text:
                known.setdefault(it.mask, it.text)
        return Alphabet(samples, self.flags, self.is_bytes, full, newline, pieces, categories, known)


class _Reader(NamedTuple):
    """Makes nodes from those of an answer about the pattern `text`, in whose front `shift` characters were put."""

    text: str
    shift: int

    def node(self, it: Mapping[str, Any], scoped: bool = False, depth: int = 0) -> Node:
        """Returns the node for one of the answer; in a group with flags of its own (`scoped`) it gets no text and no span."""
        if depth > 4 * MOST_DEPTH:
            raise Unreadable("it is too deep")
        kind, start, end = it["kind"], it["start"] - self.shift, it["end"] - self.shift
        text = self.text[start:end]
        span = None if scoped else (start, end)
        if kind == "set":
            alone = ONE.match(text) is not None and not scoped
            mask = union(1 << letter for letter in it["letters"])
            return Node(CHARS, mask=mask, text=text if alone else "", span=span if alone else None)
        if kind == "look":
            new = look(it["behind"], it["negated"], union(1 << letter for letter in it["letters"]))
            return replace(new, span=span if text.startswith(new.name) and text.endswith(")") else None)
        if text == "$" and kind in ("nothing", "sequence"):
            # (at the end of a branch, the answer has what it stands for)
            return Node(GUARD, name="(?-m:$)" if scoped else text, span=span)
        if kind == "nothing":
            return EMPTY
        if kind in ("anchor", "boundary"):
            return Node(GUARD, name=self.guard(it, text, scoped), span=span)
        if kind in ("sequence", "choice"):
            items = [self.node(one, scoped, depth + 1) for one in it["items" if kind == "sequence" else "branches"]]
            if kind == "sequence":
                return replace(whole, span=span) if (whole := row(items)).kind == ROW and items else whole
            parts = [part for one in items for part in (one.items if one.kind == CHOICE else [one])]
            return Node(CHOICE, tuple(parts), span=span)
        if kind == "repeat":
            most = NO_BOUND if it["max"] is None else it["max"]
            body = self.node(it["body"], scoped, depth + 1)
            return Node(REPEAT, (body,), least=it["min"], most=most, greedy=it["greedy"], span=span)
        if it["captures"]:
            name = re.match(r"\(\?P<([^>]*)>", text)
            body = self.node(it["body"], scoped, depth + 1)
            return Node(GROUP, (body,), number=it["number"], name=name[1] if name else "", span=span)
        inner = scoped or SCOPED.match(text) is not None
        body = self.node(it["body"], inner, depth + 1)
        if not inner or scoped or body == EMPTY:
            return body
        # (a row with flags of its own isn't to become a part of the row around it)
        return Node(CHOICE, (body,), span=span) if body.kind == ROW else replace(body, span=span, text="")

    def guard(self, it: Mapping[str, Any], text: str, scoped: bool) -> str:
        """Returns how a guard is written; in a group with flags of its own, so that it means the same anywhere."""
        if not scoped:
            return text
        if it["kind"] == "boundary":
            return f"(?{'a' if it['ascii'] else 'u'}:\\{'B' if it['negated'] else 'b'})"
        fixed = {"text-start": "\\A", "text-end": "\\Z"}
        sign = {"caret": "^", "dollar": "$"}.get(it["what"], "")
        return fixed.get(it["what"]) or f"(?{'m' if it['multiline'] else '-m'}:{sign})"


# Writing

def quantifier(node: Node) -> str:
    """Returns the text of a repeat's quantifier."""
    known = {(0, 1): "?", (0, NO_BOUND): "*", (1, NO_BOUND): "+"}
    most = "" if node.endless else str(node.most)
    text = f"{{{node.least}}}" if node.least == node.most else f"{{{node.least},{most}}}"
    return known.get((node.least, node.most), text) + ("" if node.greedy else "?")


def written(tree: Node, pattern: Pattern) -> str:
    """Returns a tree as a pattern, with the front of `pattern`, and its parts that stand in it as they stand there.

    Layout between parts isn't kept: see `with_layout`. Raises Unreadable if no text is found for a set.
    """
    return pattern.front + body_text(tree, pattern)


def body_text(node: Node, pattern: Pattern) -> str:
    """Returns a node as a pattern without a front; raises Unreadable."""
    if node.kind == CHARS:
        text: Optional[str] = node.text
        if not text or text == "{" or text[0] == "\\" and text[1:2].isdigit():
            text = pattern.alphabet.show(node.mask)
        if text is None:
            raise Unreadable("a class has no short text")
        return text
    if node.span is not None:
        return pattern.text[node.span[0]:node.span[1]]
    if node.kind == GUARD:
        return node.name if node.name not in LOOKS.values() else node.name + body_text(chars(node.mask), pattern) + ")"
    if node.kind == ROW:
        return "".join(_in_parentheses(it, pattern, it.kind == CHOICE) for it in node.items)
    if node.kind == CHOICE:
        return "|".join(body_text(it, pattern) for it in node.items)
    if node.kind == GROUP:
        return (f"(?P<{node.name}>" if node.name else "(") + body_text(node.body, pattern) + ")"
    return _in_parentheses(node.body, pattern, node.body.kind not in (CHARS, GROUP)) + quantifier(node)


def _in_parentheses(node: Node, pattern: Pattern, are_needed: bool) -> str:
    """A node as a pattern, in parentheses if they are needed and it hasn't got some."""
    text = body_text(node, pattern)
    if are_needed and node.span is not None and SCOPED.match(text):
        return text
    return f"(?:{text})" if are_needed else text


# Layout

def tokens_of(pattern: str, verbose: bool) -> Tuple[List[str], List[str]]:
    """Returns the tokens of a pattern, and the layout (comments, blanks under VERBOSE) before each and after the last."""
    tokens: List[str] = []
    gaps = [""]
    layout = f"{LAYOUT}|{BLANKS}" if verbose else LAYOUT
    for it in re.finditer(f"(?P<layout>{layout})|{TOKEN}", pattern):
        if it["layout"]:
            gaps[-1] += it[0]
        else:
            tokens.append(it[0])
            gaps.append("")
    return tokens, gaps


def with_layout(old: str, new: str, verbose: bool) -> str:
    """Returns the new pattern with all layout of the old one at its place; the new pattern if a part of one sets VERBOSE."""
    if any(re.search(r"\(\?[a-zL]*-?[a-wL]*x[a-zL-]*:", it) for it in (old, new)):
        return new
    (before, gaps), (after, _) = tokens_of(old, verbose), tokens_of(new, verbose)
    if not any(gaps) or len(before) * len(after) > MOST_MATCHED:
        return new
    # (what stood behind the last token stays there: only there can a comment lack its line end)
    places = [len(after)] * (len(before) + 1)
    for _, start, end, low, high in SequenceMatcher(None, before, after, autojunk=False).get_opcodes():
        for at in range(start, end):
            places[at] = min(low + at - start, high)
    texts = [""] * (len(after) + 1)
    for at, to in enumerate(places):
        was = at < len(before) and QUANTIFIER.fullmatch(before[at])
        now = to < len(after) and QUANTIFIER.fullmatch(after[to])
        # (layout that stood before no quantifier mustn't come between one and what it repeats)
        texts[to + 1 if now and not was else to] += gaps[at]
    return "".join(gap + token for gap, token in zip(texts, [*after, ""]))
