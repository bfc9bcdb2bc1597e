"""Random bytes, words and patterns. The same seed gives the same ones in every version of Python."""
from __future__ import annotations

import json
import random
from pathlib import Path
from typing import Any, List, Sequence, TypeVar

Item = TypeVar("Item")
CORPUS = Path(__file__).with_name("corpus")
NUMBERS = ["0", "1", "-1", "2", "7", "100", "128", "600", "1000", "1001", "4000", "65536", "999999", "1000000", "2147483647",
           "4294967294", "4294967295", "9223372036854775808", "18446744073709551616", "1" * 400, "1.5", "1e9", "0x10", "007",
           "١"]
BYTES = [
    b"\0", b"\xff", b"\xed\xa0\x80", b"\xf4\x90\x80\x80", b"\xc0\xaf", b"\xef\xbb\xbf", b"\r", b"\n", b"\r\n", b"\f", b"\t",
    b"\x1a", b"\x1b", b"\x85", "\u2028".encode(), "\u202e".encode(), "\U0010ffff".encode(), "é".encode(), b"\\", b"'",
    b'"', b"'''", b"#"]
# Values that a reader of JSON may not expect in a place.
VALUES: List[Any] = [
    None, True, False, 0, -1, 1, 1.5, 10**30, "", "\ud800", "\0", "a\nb", "\x1b[2J", "degree", "r'a'", "1", "(" * 300, [],
    [[]], {}, {"": 1}, ["r'a'"], "../../etc/passwd", "/dev/zero", 1e308 * 10]
ATOMS = ["a", "b", "ab", ".", r"\d", r"\w", r"\s", r"\W", "[a-c]", "[^a]", "[ab]", "x", " ", "é", r"\x41", r"\n", "0"]
GUARDS = ["^", "$", r"\b", r"\B", r"\A", r"\Z"]
COUNTS = ["", "", "", "*", "+", "?", "*?", "+?", "??", "{2}", "{0,3}", "{1,}", "{,2}", "{34}"]
OPENINGS = ["(", "(", "(?:", "(?:", "(?:", "(?i:", "(?s:", "(?-i:"]
STRANGE = [
    "(?=", "(?!", "(?<=", "(?P=n)", r"\1", "(?(1)", "(?>", "++", "a{2}+", r"\N{DIGIT ONE}", "(?L)", "[z-a]", "{3,2}", "(", ")",
    "[", "\\", "(?", "(?#", r"\x", r"\u12", "*", "|", "(?x) # ", "[[:alpha:]]", "(?P<n>a)", "(?P<n>", "{4294967295}", "(?i)",
    "(?u)(?a)"]


class Chance:
    """A source of chance for one case. The same target, seed and number give the same case."""

    def __init__(self, target: str, seed: int, number: int) -> None:
        """Takes the name of the target, the seed, and the number of the case."""
        self.random = random.Random("%s %d %d" % (target, seed, number))

    def one(self, of: int) -> bool:
        """Returns True with a chance of one in `of`, a number from 1, otherwise False."""
        return self.random.randrange(of) == 0

    def below(self, most: int) -> int:
        """Returns a random whole number from 0 to `most` - 1, or 0 if `most` is below 1."""
        return self.random.randrange(max(most, 1))

    def pick(self, items: Sequence[Item]) -> Item:
        """Returns a random one of the items, of which there has to be one."""
        return items[self.random.randrange(len(items))]

    def some(self, items: Sequence[Item], most: int) -> List[Item]:
        """Returns a list of up to `most` random items, which may repeat."""
        return [self.pick(items) for _ in range(self.below(most + 1))]

    def pattern(self, depth: int = 3) -> str:
        """Returns a random pattern, mostly one that relint judges, with groups at most `depth` deep.

        If `depth` is 3, one in eight has a strange piece put in, such as a lone bracket.
        """
        branches = []
        for _ in range(self.pick([1, 1, 1, 2, 3])):
            branches.append("".join(self._piece(depth) for _ in range(self.below(4))))
        whole = "|".join(branches)
        if depth == 3 and self.one(8):
            at = self.below(len(whole) + 1)
            whole = whole[:at] + self.pick(STRANGE) + whole[at:]
        return whole

    def _piece(self, depth: int) -> str:
        """Returns a random guard, or a random atom with or without a quantifier, with groups at most `depth` deep."""
        if self.one(15):
            return self.pick(GUARDS)
        atom = self.pick(ATOMS) if depth == 0 or self.one(2) else self.pick(OPENINGS) + self.pattern(depth - 1) + ")"
        return atom + self.pick(COUNTS)

    def changed(self, data: bytes, tokens: Sequence[bytes]) -> bytes:
        """Returns the bytes with one to four random changes, each of which may put in one of the tokens or change nothing."""
        for _ in range(1 + self.below(4)):
            data = self._changed_once(data, tokens)
        return data

    def _changed_once(self, data: bytes, tokens: Sequence[bytes]) -> bytes:
        """Returns the bytes with a random piece of them, perhaps an empty one, replaced or left out.

        It is replaced by what `_token` gives, by two or more copies of itself, or by another piece.
        """
        start = self.below(len(data) + 1)
        end = min(len(data), start + self.pick([0, 1, 1, 2, 5, 20, 200]))
        new = self.pick([self._token(tokens), data[start:end] * self.pick([0, 2, 3, 50]), self._piece_of(data), b""])
        return data[:start] + new + data[end:]

    def parts(self, data: bytes) -> List[bytes]:
        """Returns the bytes in parts of a random size, or in one."""
        size = self.pick([1, 2, 7, 100, len(data)]) or 1
        return [data[at:at + size] for at in range(0, len(data), size)]

    def changed_json(self, data: bytes) -> bytes:
        """Returns the JSON, an object or a list, as one line with its line end, mostly with one value changed.

        The value is replaced, left out of an object, or doubled in a list; in an empty object or list nothing is changed.
        Raises ValueError if the bytes aren't JSON.
        """
        whole = json.loads(data)
        place = whole
        for _ in range(1 + self.below(5)):
            inner = list(place.items()) if isinstance(place, dict) else list(enumerate(place))
            if not inner:
                break
            key, value = self.pick(inner)
            if not isinstance(value, (dict, list)) or self.one(4):
                self._change_value(place, key, value)
                break
            place = value
        return json.dumps(whole, sort_keys=True, separators=(",", ":")).encode("ascii") + b"\n"

    def _change_value(self, place: Any, key: Any, value: Any) -> None:
        """Changes the item `key` of `place`, a dict or a list; its value is `value`.

        Leaves it out of a dict, doubles it in a list, or replaces its value by one of VALUES.
        """
        kind = self.below(4)
        if kind == 0 and isinstance(place, dict):
            del place[key]
        elif kind == 1 and isinstance(place, list):
            place.insert(key, value)
        else:
            place[key] = self.pick(VALUES)

    def _token(self, tokens: Sequence[bytes]) -> bytes:
        """Returns one of BYTES, one of NUMBERS, any one byte, or one of the tokens, of which there has to be one."""
        kind = self.below(4)
        if kind == 0:
            return self.pick(BYTES)
        if kind == 1:
            return self.pick(NUMBERS).encode("utf-8")
        if kind == 2:
            return bytes([self.below(256)])
        return self.pick(tokens)

    def _piece_of(self, data: bytes) -> bytes:
        """Returns a random piece of the bytes, of at most 39 bytes; it may be empty."""
        start = self.below(len(data) + 1)
        return data[start:start + self.below(40)]


def corpus(target: str) -> List[bytes]:
    """Returns the contents of the files that are kept for a target, in the order of their names; [] if there are none."""
    return [it.read_bytes() for it in sorted((CORPUS / target).glob("*")) if it.is_file()]
