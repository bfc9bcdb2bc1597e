"""The texts of a row: a string, or a table that spells a longer one."""
from __future__ import annotations

from typing import Any, Dict


class BadText(ValueError):
    """A value isn't one of the forms of a text."""


def _string(table: Dict[str, Any]) -> bytes:
    if not isinstance(table["text"], str):
        raise TypeError("text is no string")
    return table["text"].encode("utf-8")


def _times(table: Dict[str, Any]) -> bytes:
    return _string(table) * int(table["times"])


def _parts(table: Dict[str, Any]) -> bytes:
    if any(isinstance(part, dict) and "parts" in part for part in table["parts"]):
        raise TypeError("a part has parts")
    return b"".join(text_bytes(part) for part in table["parts"])


def _hex(table: Dict[str, Any]) -> bytes:
    return bytes.fromhex(table["hex"])


def _range(table: Dict[str, Any]) -> bytes:
    return "".join(map(chr, range(table["from"], table["upto"] + 1))).encode("utf-8")


def _first(table: Dict[str, Any]) -> bytes:
    return _string(table)[:table["first"]]


_FORMS = {
    frozenset(["text", "times"]): _times,
    frozenset(["parts"]): _parts,
    frozenset(["hex"]): _hex,
    frozenset(["from", "upto"]): _range,
    frozenset(["first", "text"]): _first,
}


def text_bytes(value: Any) -> bytes:
    """The bytes that a text of a row stands for, in UTF-8. Raises `BadText`."""
    if isinstance(value, str):
        return value.encode("utf-8")
    form = _FORMS.get(frozenset(value)) if isinstance(value, dict) else None
    if form is None:
        raise BadText("%r is no text" % (value,))
    try:
        return form(value)
    except (TypeError, ValueError) as error:
        raise BadText("%r is no text: %s" % (value, error)) from None


def link_target(value: Any) -> str:
    """Where a link of a row's files leads, "" where the value is no link."""
    if isinstance(value, dict) and set(value) == {"link"}:
        return str(value["link"])
    return ""
