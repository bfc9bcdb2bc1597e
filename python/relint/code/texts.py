"""Values that expressions are known to have, and the results of operations on them.

A result is known if it is the same on each version of Python and not too large; otherwise the functions raise NotKnown. A
text is a `str` or bytes. Where a part of a text isn't known but was escaped by `re.escape`, a word stands between two MARKS in
its place.
"""
from __future__ import annotations

import fnmatch
import re
import textwrap
from dataclasses import dataclass, field, replace
from typing import Any, Callable, Dict, FrozenSet, Iterable, Iterator, List, Mapping, NamedTuple, Sequence, Tuple, Union

from ..base.model import Holder, Text

LONGEST_TEXT, LONGEST_LIST, LARGEST_NUMBER = 100_000, 10_000, 1 << 64
MARKS = "\ue000", "\ue001"
STAND_INS = ("word", "text")
PERCENT = re.compile(r"%(?:\(([^()]*)\))?(.)", re.S)
FIELD = re.compile(r"\{\{|\}\}|\{([^{}!:]*)(![rs])?(:)?\}|[{}]")
# A glob with at most one star, and sets of letters and digits.
GLOB = re.compile(r"(?:[^*\[]|\[!?[A-Za-z0-9_]+\])*(?:\*+(?:[^*\[]|\[!?[A-Za-z0-9_]+\])*)?")
# An escape, a character class, what a word must not stand in (the count of a repeat, the head of a group), or any character.
PIECE = re.compile(r"\\.|\[\^?\]?(?:\\.|[^\]\\])*(?:\]|\Z)|\{[\d,]*\ue000|\(\?[\w<>#-]*\ue000|\(\?#[^)]*|.", re.S)


class NotKnown(Exception):
    """Raised if the value of an expression isn't known from the sources; `why` gives the kind of reason in a few words."""

    def __init__(self, why: str) -> None:
        """Takes the reason, such as "bound more than once"."""
        super().__init__(why)
        self.why = why


class Need(NamedTuple):
    """A name on which a value depends: the value is right only if no other file binds the name or changes what it holds.

    `kind` is "name" for one of a module and "attribute" for one of a class, `path` is the file of the module or class. `owner`
    is the name of the class if it has no bases. `is_list` says that the value is one that code may change in place.
    """

    kind: str
    path: str
    name: str
    owner: str = ""
    is_list: bool = False


@dataclass(frozen=True)
class Items:
    """A list, if `is_list` is set, or a tuple of known values."""

    items: Tuple["Known", ...]
    is_list: bool = False


@dataclass(frozen=True)
class Table:
    """A dictionary: the known value of each key, in the order in which the source first names the keys."""

    items: Mapping[Union[str, bytes, int], "Known"] = field(hash=False)


@dataclass(frozen=True)
class Known:
    """A value, with the names that hold parts of it, notes for people, and the names on which it depends."""

    value: Any
    holders: Tuple[Holder, ...] = ()
    notes: Tuple[str, ...] = ()
    needs: FrozenSet[Need] = frozenset()

    def with_name(self, holder: Holder, *needs: Need) -> "Known":
        """Returns the value with a name first among its holders, and with more needs."""
        return replace(self, holders=_distinct((holder, *self.holders)), needs=self.needs.union(needs))

    def with_note(self, note: str) -> "Known":
        """Returns the value with one more note."""
        return replace(self, notes=_distinct((*self.notes, note)))

    def text(self) -> Text:
        """Returns the value if it is a text. Raises NotKnown if it isn't."""
        if isinstance(self.value, (str, bytes)):
            return self.value
        raise NotKnown("not a text")

    def whole(self) -> Text:
        """Returns the value if it is a text in which no word stands for a part that isn't known. Raises NotKnown if not."""
        found = self.text()
        if isinstance(found, str) and MARKS[0] in found:
            raise NotKnown("part that isn't known")
        return found

    def can_change(self) -> bool:
        """Returns whether code can change the value in place."""
        return isinstance(self.value, Table) or isinstance(self.value, Items) and self.value.is_list

    def is_nested(self) -> bool:
        """Returns whether the value holds others that code can change in place."""
        return isinstance(self.value, (Items, Table)) and any(it.can_change() or it.is_nested() for it in parts_of(self))


def parts_of(found: Known) -> Iterable[Known]:
    """Returns the items of a list, a tuple or a dictionary; none for other values."""
    if isinstance(found.value, Table):
        return found.value.items.values()
    return found.value.items if isinstance(found.value, Items) else ()


def made(value: Any, parts: Iterable[Known] = ()) -> Known:
    """Returns a value made from parts, with all that they have. Raises NotKnown if it is too large."""
    is_long = isinstance(value, (str, bytes)) and len(value) > LONGEST_TEXT
    is_many = isinstance(value, Items) and len(value.items) > LONGEST_LIST
    if is_long or is_many or isinstance(value, int) and abs(value) > LARGEST_NUMBER:
        raise NotKnown("too large")
    holders: List[Holder] = []
    notes: List[str] = []
    needs: FrozenSet[Need] = frozenset()
    for part in parts:
        holders += part.holders
        notes += part.notes
        needs |= part.needs
    return Known(value, _distinct(holders), _distinct(notes), needs)


def _distinct(found: Iterable[Any]) -> Tuple[Any, ...]:
    """The items in the order of their first occurrence, each once."""
    return tuple(dict.fromkeys(found))


# Words that stand for parts.

def stand_in(words: str, count: int = 1) -> Tuple[Known, ...]:
    """Returns at most two words to stand for escaped texts that aren't known; `words` names these texts in a note."""
    note = f"with {' and '.join(repr(it) for it in STAND_INS[:count])} for {words}"
    return tuple(Known(it.join(MARKS), notes=(note,)) for it in STAND_INS[:count])


def without_marks(pattern: Text) -> Tuple[Text, bool]:
    """Returns a pattern without the marks of words, and whether it had some.

    Raises NotKnown if a word stands where another text would mean something else: in a class, an escape, the head of a group.
    """
    if isinstance(pattern, bytes) or MARKS[0] not in pattern:
        return pattern, False
    for piece in PIECE.findall(pattern):
        if MARKS[0] in piece and piece != MARKS[0]:
            raise NotKnown("part that isn't known")
    return pattern.replace(MARKS[0], "").replace(MARKS[1], ""), True


# Operations.

def plus(left: Known, right: Known) -> Known:
    """Returns the sum of two texts, two lists, two tuples or two numbers."""
    one, other = left.value, right.value
    if isinstance(one, Items) and isinstance(other, Items) and one.is_list == other.is_list:
        return made(Items((*one.items, *other.items), one.is_list), (left, right))
    if type(one) is not type(other) or not isinstance(one, (str, bytes, int)):
        raise NotKnown("sum of other kinds")
    found: Any = one
    return made(found + other, (left, right))


def times(left: Known, right: Known) -> Known:
    """Returns the product of a whole number and a text, a sequence or a number, in either order."""
    one, other = (right.value, left.value) if type(left.value) is int else (left.value, right.value)
    if type(other) is not int:
        raise NotKnown("product of other kinds")
    if isinstance(one, (Items, str, bytes)):
        items: Any = one.items if isinstance(one, Items) else one
        if len(items) * max(other, 0) > LONGEST_TEXT:
            raise NotKnown("too large")
        return made(Items(items * other, one.is_list) if isinstance(one, Items) else items * other, (left, right))
    if type(one) is int:
        return made(one * other, (left, right))
    raise NotKnown("product of other kinds")


def either(left: Known, right: Known) -> Known:
    """Returns `left | right` for two whole numbers, such as flags."""
    if isinstance(left.value, int) and isinstance(right.value, int):
        return made(left.value | right.value, (left, right))
    raise NotKnown("| of other kinds")


def shown(part: Known, represented: bool = False) -> str:
    """Returns `str` of a text, a whole number, a truth value or None, or `repr` of it if that is the same everywhere."""
    value = part.value
    if isinstance(value, str):
        if represented and (not value.isascii() or part.whole() is not value):
            raise NotKnown("formatting of other kinds")
        return repr(value) if represented else value
    if value is None or isinstance(value, int):
        return str(value)
    raise NotKnown("formatting of other kinds")


def percent(left: Known, right: Known) -> Known:
    """Returns `left % right` for a text whose conversions have no flags or width."""
    form, value = left.whole(), right.value
    is_bytes = isinstance(form, bytes)
    if is_bytes and isinstance(value, Table):
        raise NotKnown("% of other kinds")
    text = form.decode("latin-1") if isinstance(form, bytes) else form
    parts = list(value.items) if isinstance(value, Items) and not value.is_list else [right]
    pieces = list(_percents(text, parts, value if isinstance(value, Table) else None, is_bytes))
    whole = _sum_of([it if isinstance(it, str) else it[0] for it in pieces])
    return made(whole.encode("latin-1") if is_bytes else whole,
                (left, right, *(it[1] for it in pieces if not isinstance(it, str))))


def _percents(form: str, parts: List[Known], table: Any, is_bytes: bool) -> Iterator[Union[str, Tuple[str, Known]]]:
    """Yields the pieces of a formatted text: plain ones, and formatted ones with their value. Bytes are read as Latin-1."""
    at = taken = 0
    for found in PERCENT.finditer(form):
        yield form[at:found.start()]
        at = found.end()
        name, kind = found.groups()
        if kind == "%":
            yield "%"
            continue
        if kind not in ("sdib" if is_bytes else "sdir") or form[found.start():].startswith("% "):
            raise NotKnown("formatting with a width")
        part = _of_table(table, name) if name is not None else _numbered(parts, taken)
        taken += name is None
        if kind in "di" and type(part.value) is not int:
            raise NotKnown("formatting of other kinds")
        if is_bytes and kind in "sb":
            if not isinstance(part.value, bytes):
                raise NotKnown("formatting of other kinds")
            yield part.value.decode("latin-1"), part
        else:
            yield shown(part, kind == "r"), part
    if "%" in form[at:] or table is None and taken != len(parts):
        raise NotKnown("formatting that fails")
    yield form[at:]


def _of_table(table: Any, name: str) -> Known:
    """The value of a name in a dictionary."""
    if not isinstance(table, Table) or name not in table.items:
        raise NotKnown("formatting that fails")
    return table.items[name]


def _numbered(parts: Sequence[Known], number: int) -> Known:
    """The part with a number, from 0."""
    if not 0 <= number < len(parts):
        raise NotKnown("formatting that fails")
    return parts[number]


def formatted(form: Known, parts: Sequence[Known], named: Dict[str, Known]) -> Known:
    """Returns `form.format(*parts, **named)` for a text whose fields are names, numbers or empty, at most with !r or !s."""
    text = form.whole()
    if not isinstance(text, str):
        raise NotKnown("format of other kinds")
    fields = list(FIELD.finditer(text))
    names = {it.group(1) for it in fields}
    if "" in names and any(it and it.isdigit() for it in names):
        raise NotKnown("formatting that fails")
    pieces: List[str] = []
    used: List[Known] = [form]
    at = taken = 0
    for found in fields:
        pieces.append(text[at:found.start()])
        at = found.end()
        if found.group() in ("{{", "}}"):
            pieces.append(found.group()[0])
            continue
        name, conversion, rest = found.groups()
        if name is None or rest:
            raise NotKnown("formatting with a width")
        name = name or str(taken)
        taken += not found.group(1)
        if not (name.isdigit() and len(name) < 6) and name not in named:
            raise NotKnown("formatting of a field")
        used.append(_numbered(parts, int(name)) if name.isdigit() and len(name) < 6 else named[name])
        pieces.append(shown(used[-1], conversion == "!r"))
    return made(_sum_of([*pieces, text[at:]]), used)


def _sum_of(pieces: Sequence[str]) -> str:
    """The pieces joined."""
    if sum(map(len, pieces)) > LONGEST_TEXT:
        raise NotKnown("too large")
    return "".join(pieces)


def joined(separator: Known, parts: Sequence[Known]) -> Known:
    """Returns `separator.join(parts)`."""
    between: Any = separator.text()
    texts = [it.text() for it in parts]
    if any(type(it) is not type(between) for it in texts):
        raise NotKnown("join of other kinds")
    if sum(map(len, texts)) + len(between) * len(texts) > LONGEST_TEXT:
        raise NotKnown("too large")
    return made(between.join(texts), (separator, *parts))


def escaped(part: Known) -> Known:
    """Returns `re.escape` of a text."""
    text: Any = part.whole()
    return made(re.escape(text), (part,))


def translated(part: Known) -> Known:
    """Returns `fnmatch.translate` of a text for which all versions of Python give the same, but for what the end is called."""
    text = part.whole()
    if not isinstance(text, str) or GLOB.fullmatch(text) is None:
        raise NotKnown("glob that versions of Python translate in different ways")
    return made(fnmatch.translate(text).replace("\\z", "\\Z"), (part,))


def dedented(part: Known) -> Known:
    """Returns `textwrap.dedent` of a text; bytes aren't known."""
    text = part.whole()
    if not isinstance(text, str):
        raise NotKnown("dedent of other kinds")
    return made(textwrap.dedent(text), (part,))


def _replaced(text: Any, parts: Sequence[Any]) -> Any:
    """The result of `text.replace` with two texts."""
    if len(parts) != 2 or type(parts[0]) is not type(text) or type(parts[1]) is not type(text):
        raise NotKnown("method that isn't followed")
    if len(text) + (text.count(parts[0]) + 1) * len(parts[1]) > LONGEST_TEXT:
        raise NotKnown("too large")
    return text.replace(parts[0], parts[1])


def _coded(text: Any, parts: Sequence[Any]) -> Any:
    """A str as bytes or the other way round, in UTF-8, ASCII or Latin-1."""
    coding = (parts[0] if parts else "utf-8").lower() if not parts or isinstance(parts[0], str) else ""
    if len(parts) > 1 or coding not in ("utf-8", "utf8", "ascii", "latin-1", "latin1", "iso-8859-1"):
        raise NotKnown("method that isn't followed")
    try:
        return text.encode(coding) if isinstance(text, str) else text.decode(coding)
    except UnicodeError as error:
        raise NotKnown("coding that fails") from error


def _plain(name: str) -> Callable[[Any, Sequence[Any]], Any]:
    """A function that calls the method `name`, which takes no argument or, if it strips, a text."""
    def call(text: Any, parts: Sequence[Any]) -> Any:
        """Returns the result of the method."""
        if len(parts) > 1 or any(type(it) is not type(text) for it in parts) or parts and "strip" not in name:
            raise NotKnown("method that isn't followed")
        return getattr(text, name)(*parts)
    return call


# `lower` and `upper` are only for ASCII, since versions of Python differ in others.
METHODS: Dict[str, Callable[[Any, Sequence[Any]], Any]] = {
    "replace": _replaced, "encode": _coded, "decode": _coded,
    **{name: _plain(name) for name in ("strip", "lstrip", "rstrip", "lower", "upper")},
}


def method(name: str, subject: Known, parts: Sequence[Known]) -> Known:
    """Returns the result of a method in METHODS, or of `split` without a count, of a text."""
    call, text = METHODS.get(name), subject.whole()
    if name == "split" and len(parts) < 2 and isinstance(text, str):
        given = [it.whole() for it in parts]
        if any(not isinstance(it, str) or not it for it in given):
            raise NotKnown("method that isn't followed")
        found: Any = text
        return made(Items(tuple(made(it) for it in found.split(*given)), True), (subject, *parts))
    if call is None or name in ("lower", "upper") and not text.isascii():
        raise NotKnown("method that isn't followed")
    if name == "encode" and not isinstance(text, str) or name == "decode" and not isinstance(text, bytes):
        raise NotKnown("method that isn't followed")
    if any(isinstance(it.value, (str, bytes)) and it.whole() is None for it in parts):
        raise NotKnown("part that isn't known")
    return made(call(text, [it.value for it in parts]), (subject, *parts))
