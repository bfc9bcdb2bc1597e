"""One source: its text, its tree, and the pattern at a place with its literals, flags and offsets.

A `Unit` decodes a source once, and parses it once, when the tree is first needed. An offset counts code points from 0, in the
text without a byte order mark. A place has a line and a column, which count from 1; columns count code points. Lines end as
Python ends them: at `\\n`, `\\r\\n` and `\\r`, not at form feeds.
"""
from __future__ import annotations

import ast
import itertools
import os
import re
import tokenize
import warnings
from typing import Any, Dict, Iterator, List, Optional, Sequence, Tuple

from ..base.model import Literal, Place, Site, Text
from .names import Names, Scope

LINE_END = re.compile(r"\r\n|\r|\n")
ESCAPE = re.compile(r"\\(?:\r\n|[0-7]{1,3}|x[0-9a-fA-F]{2}|u[0-9a-fA-F]{4}|U[0-9a-fA-F]{8}|N\{[^}]*\}|.)|\r\n|.", re.S)
BYTES_ESCAPE = re.compile(r"\\(?:\r\n|[0-7]{1,3}|x[0-9a-fA-F]{2}|.)|\r\n|.", re.S)
RAW_CODE = re.compile(r"\r\n|.", re.S)
# A literal with any prefix; what may stand between two literals; and any token.
STRING = re.compile(r"[A-Za-z]{0,2}(?:" + "|".join(
    form.format(quote) for quote in "'\"" for form in (
        r"{0}{0}{0}[^{0}\\]*(?:(?:\\.|{0}(?!{0}{0}))[^{0}\\]*)*{0}{0}{0}",
        r"{0}[^{0}\\\r\n]*(?:\\(?:\r\n|.)[^{0}\\\r\n]*)*{0}")) + ")", re.S)
GAP = re.compile(r"(?:\s|\\\r?\n|#[^\r\n]*(?:[\r\n]|\Z))*")
TOKEN = re.compile(rf"{STRING.pattern}|\w+|\s+|\\\r?\n|#[^\r\n]*|.", re.S)
# The prefixes of literals that are read here. An f-string isn't, since it holds code.
PREFIX = re.compile(r"[rRbBuU]*[\"']")
LITERAL = re.compile(r"([A-Za-z]*)(\"\"\"|'''|\"|')")
# A comment that hides findings, as flake8 reads it: with codes, only those.
NOQA = re.compile(r"# noqa(?::\s?([A-Z]+[0-9]+(?:[,\s]*[A-Z]+[0-9]+)*))?", re.I)
# The largest number of tokens in the flags of a call and in the rest of a call, and of literals of a pattern.
MOST_TOKENS_OF_FLAGS, MOST_TOKENS, MOST_LITERALS = 100, 100_000, 10_000
MOST_DEPTH, MOST_LINES, LONGEST_LINE = 100, 40, 10_000
# What stands before the first argument of a call: its name, in so many characters.
BEFORE = re.compile(r"([^\W\d]\w*)\s*\((?:\s|#[^\n]*\n)*(?:pattern\s*=\s*)?\Z")
LONGEST_BEFORE = 300
# In a source with a longer line no comment counts, as the tokenizer of some Pythons takes too long for it.
LONGEST_SPLIT = 100_000
# The position of the argument `flags` in each call, if it is given without its name.
FLAGS_AT = {
    "compile": 1, "match": 2, "search": 2, "fullmatch": 2, "findall": 2, "finditer": 2, "split": 3, "sub": 4, "subn": 4,
}
# All names of flags, without those of LOCALE, under which a pattern has no fixed meaning; and the bits of the flags.
FLAGS = {
    "A": 256, "ASCII": 256, "I": 2, "IGNORECASE": 2, "M": 8, "MULTILINE": 8, "S": 16, "DOTALL": 16, "U": 32, "UNICODE": 32,
    "X": 64, "VERBOSE": 64, "DEBUG": 128, "NOFLAG": 0,
}
EVERY_FLAG = 0x1FF & ~4


class SourceError(Exception):
    """Raised if a source can't be read; the message says why in a clause."""


class Unparsed(SourceError):
    """Raised if the running Python can't parse a source."""


class Unit:
    """A source, which answers questions about its places. `path` is its path and `text` its text."""

    def __init__(self, path: str, data: bytes) -> None:
        """Takes the path and the bytes. Raises SourceError if they aren't UTF-8; the program reads no other coding either."""
        try:
            text = data.decode("utf-8")
        except UnicodeDecodeError as error:
            raise SourceError("it isn't UTF-8") from error
        self.path = path
        self.text = text[1:] if text.startswith("\ufeff") else text
        self._starts: List[int] = []
        self._scopes: Optional[Names] = None
        self._why = ""

    @property
    def starts(self) -> List[int]:
        """The offsets at which the lines begin."""
        if not self._starts and "\r" in self.text:
            self._starts = [0] + [it.end() for it in LINE_END.finditer(self.text)]
        elif not self._starts:
            lengths = (len(it) + 1 for it in self.text.split("\n")[:-1])
            self._starts = [0, *itertools.accumulate(lengths)]
        return self._starts

    @property
    def scopes(self) -> Names:
        """The names and scopes of the source. Raises Unparsed if the running Python can't parse it."""
        if self._scopes is None and not self._why:
            try:
                with warnings.catch_warnings():
                    warnings.simplefilter("ignore")
                    self._scopes = Names(ast.parse(self.text))
            except (SyntaxError, ValueError, RecursionError, MemoryError, OverflowError) as error:
                self._why = f"the running Python can't parse it ({type(error).__name__})"
        if self._scopes is None:
            raise Unparsed(self._why)
        return self._scopes

    @property
    def tree(self) -> ast.Module:
        """The tree of the source. Raises Unparsed if the running Python can't parse it."""
        return self.scopes.tree

    @property
    def is_parsed(self) -> bool:
        """Whether the running Python can parse the source."""
        try:
            return self.scopes is not None
        except Unparsed:
            return False

    def leave_unparsed(self) -> None:
        """Lets the source count as one that can't be parsed, for a source that may end the parser's process."""
        self._scopes, self._why = None, "the parser of this Python fails on it"

    # Places.

    def offset(self, place: Place) -> int:
        """Returns the offset of a place; a line after the last one counts as the last."""
        return self.starts[min(place.line, len(self.starts)) - 1] + place.column - 1

    def place(self, offset: int) -> Place:
        """Returns the place of an offset."""
        low, high = 0, len(self.starts)
        while high - low > 1:
            middle = (low + high) // 2
            low, high = (middle, high) if self.starts[middle] <= offset else (low, middle)
        return Place(low + 1, offset - self.starts[low] + 1)

    def line(self, number: int) -> str:
        """Returns a line without its end, or "" if there is no such line."""
        if not 1 <= number <= len(self.starts):
            return ""
        end = self.starts[number] if number < len(self.starts) else len(self.text)
        return self.text[self.starts[number - 1]:end].rstrip("\r\n")

    def call_at(self, place: Place) -> Optional[ast.Call]:
        """Returns the call whose pattern begins at a place; None if there is none. Raises Unparsed."""
        column = len(self.line(place.line)[:place.column - 1].encode("utf-8", "surrogatepass"))
        return self.scopes.patterns.get((place.line, column))

    def lines_to_show(self, place: Place, site: Optional[Site]) -> Tuple[Tuple[int, str], ...]:
        """Returns the lines of a pattern with their numbers: at most MOST_LINES, and none longer than LONGEST_LINE."""
        last = self.place(site.literals[-1].end).line if site and site.literals else place.line
        rows = ((it, self.line(it)) for it in range(place.line, min(last, place.line + MOST_LINES - 1) + 1))
        return tuple((number, text) for number, text in rows if len(text) <= LONGEST_LINE)

    def function_at(self, place: Place) -> str:
        """Returns the names of the classes and functions around a place, as "Reader.rows"; "" at the top or if unparsed."""
        if not self.is_parsed:
            return ""
        node: Optional[ast.AST] = self.call_at(place)
        if node is None:
            at = place.line, len(self.line(place.line)[:place.column - 1].encode("utf-8", "surrogatepass"))
            node = max((it for it in self.scopes.scopes if _is_around(it, at)), default=None, key=lambda it: (
                getattr(it, "lineno", 0), getattr(it, "col_offset", 0)))
        around: List[str] = []
        while node is not None:
            if isinstance(node, (ast.FunctionDef, ast.AsyncFunctionDef, ast.ClassDef)):
                around.append(node.name)
            node = self.scopes.parents.get(node)
        return ".".join(reversed(around))

    # The pattern at a place.

    def site(self, place: Place, call: Optional[str]) -> Optional[Site]:
        """Returns the pattern whose first literal is at a place, or None if there is none.

        `call` is the function of `re` that takes it; without one, the flags aren't known.
        """
        literals = self.literals(place)
        if not literals:
            return None
        try:
            with warnings.catch_warnings():
                warnings.simplefilter("ignore")
                value = ast.literal_eval("(" + "\n".join(it.text for it in literals) + ")")
        except (ValueError, SyntaxError, MemoryError):
            return None
        if not isinstance(value, (str, bytes)):
            return None
        return Site(value, self._flags(place, call, literals[-1].end), literals, offsets_of(literals, value),
                    function=self.function_at(place), in_tests=is_test(self.path))

    def takes(self, call: str, site: Site) -> bool:
        """Returns whether a pattern is the first argument of a function of this name, perhaps imported under another one."""
        start = site.literals[0].start
        found = BEFORE.search(self.text[max(0, start - LONGEST_BEFORE):start])
        if found is None or found[1] == call:
            return found is not None
        return re.search(rf"\b{call}\s+as\s+{re.escape(found[1])}\b", self.text) is not None

    def literals(self, place: Place) -> Tuple[Literal, ...]:
        """Returns the adjacent string literals that begin at a place, as Python reads them.

        Comments and line ends between them don't matter. They end before an f-string. Returns none if no literal begins there,
        or if there are more than MOST_LITERALS.
        """
        found: List[Literal] = []
        at = self.offset(place)
        while len(found) <= MOST_LITERALS:
            token = STRING.match(self.text, at)
            if token is None or not PREFIX.match(token.group()):
                return tuple(found)
            found.append(Literal(token.group(), token.start(), token.end()))
            gap = GAP.match(self.text, token.end())
            at = gap.end() if gap else token.end()
        return ()

    def _flags(self, place: Place, call: Optional[str], end: int) -> Optional[int]:
        """The flags of the call whose pattern is at a place and ends at `end`; None if they aren't known."""
        at = FLAGS_AT.get(call or "")
        if at is None:
            return None
        if not self.is_parsed:
            return self._flags_behind(end, at)
        node = self.call_at(place)
        return None if node is None else flags_of_call(node, at, self.scopes)

    def _flags_behind(self, end: int, at: int) -> Optional[int]:
        """The flags of a call whose pattern ends at `end`, found only by its tokens, for sources that can't be parsed."""
        arguments: List[List[str]] = [[]]
        depth = 1
        for token in itertools.islice(TOKEN.finditer(self.text, end), MOST_TOKENS):
            text = token.group()
            depth += (text in ("(", "[", "{")) - (text in (")", "]", "}"))
            if depth == 0:
                break
            if text == "," and depth == 1:
                arguments.append([])
            elif not text.isspace() and text[0] not in "#\\":
                arguments[-1].append(text)
        return None if depth or arguments[0] else _flags_in(arguments, at)

    # Comments that hide findings.

    def ignores(self) -> Dict[int, Optional[Tuple[str, ...]]]:
        """Returns for each line with a comment `# noqa` the codes that it names, in capitals; None if it names none.

        As for flake8, the lines of a string over several lines, and lines that end in a backslash, share their comments. What
        stands in a string is no comment.
        """
        found: Dict[int, Optional[Tuple[str, ...]]] = {}
        if not re.search("# noqa", self.text, re.I) or max(map(len, self.text.split("\n"))) > LONGEST_SPLIT:
            return found
        rows = (self.line(it) + "\n" for it in range(1, len(self.starts) + 1))
        first, comment = 0, None
        try:
            for token in tokenize.generate_tokens(lambda: next(rows, "")):
                if token.type in (tokenize.INDENT, tokenize.DEDENT, tokenize.ENDMARKER):
                    continue
                first = first or token.start[0]
                if token.type == tokenize.COMMENT:
                    comment = NOQA.search(token.string)
                if token.type in (tokenize.NL, tokenize.NEWLINE):
                    if comment:
                        codes = re.split(r"[,\s]+", comment.group(1).upper()) if comment.group(1) else None
                        found.update(dict.fromkeys(range(first, token.end[0] + 1), tuple(codes) if codes else None))
                    first, comment = 0, None
        except (tokenize.TokenError, SyntaxError):
            pass
        return found


def _is_around(node: ast.AST, at: Tuple[int, int]) -> bool:
    """Whether a place, as `ast` counts it, is in a class or function."""
    if not isinstance(node, (ast.FunctionDef, ast.AsyncFunctionDef, ast.ClassDef)):
        return False
    return (node.lineno, node.col_offset) <= at < (node.end_lineno or node.lineno, node.end_col_offset or 0)


def hides(codes: Optional[Sequence[str]], rule: str) -> bool:
    """Returns whether a comment with these codes hides a finding of a rule; one without codes hides all."""
    return codes is None or any(rule.startswith(it) for it in codes)


def is_test(path: str) -> bool:
    """Returns whether a path is that of a test: below a folder `tests` or `test`, or named test_*.py or conftest.py."""
    *folders, name = path.split(os.sep)
    return bool({"tests", "test"} & set(folders)) or name == "conftest.py" or name.startswith("test_") and name.endswith(".py")


# Offsets.

def offsets_of(literals: Sequence[Literal], value: Text) -> Tuple[int, ...]:
    """Returns the offset in the source of each character of a pattern, and of the last literal's closing quote.

    Returns () if the characters can't be assigned to parts of the literals one by one.
    """
    offsets: List[int] = []
    closing = 0
    for literal in literals:
        found = LITERAL.match(literal.text)
        if found is None:
            return ()
        closing = literal.end - len(found.group(2))
        offsets += _offsets_in(literal, (found.end(), closing - literal.start), "r" in found.group(1).lower(), value)
    return (*offsets, closing) if len(offsets) == len(value) else ()


def _offsets_in(literal: Literal, inner: Tuple[int, int], raw: bool, value: Text) -> Iterator[int]:
    """Yields the offset of each character of a literal's value; `inner` is the part between its quotes."""
    form = RAW_CODE if raw else ESCAPE if isinstance(value, str) else BYTES_ESCAPE
    for piece in form.finditer(literal.text, *inner):
        at = literal.start + piece.start()
        text = piece.group()
        if raw or text[0] != "\\" or text[1] in "\\'\"abfnrtvxuUN01234567" and _is_known(text, value):
            yield at
        elif text[1] not in "\r\n":
            yield at
            yield at + 1


def _is_known(escape: str, value: Text) -> bool:
    """Whether an escape means one character: those with u, U or N only do in a text, and if they are complete."""
    return escape[1] not in "uUN" or (isinstance(value, str) and len(escape) > 2)


# Flags.

def flags_of_call(node: ast.Call, at: int, names: Names) -> Optional[int]:
    """Returns the flags of a call that takes them as the argument `flags` or at the position `at`; None if they aren't known.

    They are 0 if the call has none.
    """
    named = [it.value for it in node.keywords if it.arg == "flags"]
    if any(isinstance(it, ast.Starred) for it in node.args[:at + 1]) or any(it.arg is None for it in node.keywords):
        return None
    given = named or node.args[at:at + 1]
    return flags_of(given[0], names) if given else 0


def flags_of(node: ast.AST, names: Optional[Names] = None) -> Optional[int]:
    """Returns the flags that an expression such as `re.I | re.M` gives; None if they aren't known or have LOCALE.

    It may have `|` and `+`, names of flags, also imported ones, numbers, and names that the source binds once to such an
    expression.
    """
    value = _flag_value(node, names, 0)
    return value if value is not None and not value & ~EVERY_FLAG else None


def _flag_value(node: ast.AST, names: Optional[Names], depth: int) -> Optional[int]:
    """The number that an expression gives; None if it isn't known, or if the expression is too deep."""
    if depth > MOST_DEPTH:
        return None
    if isinstance(node, ast.BinOp) and isinstance(node.op, (ast.BitOr, ast.Add)):
        left, right = _flag_value(node.left, names, depth + 1), _flag_value(node.right, names, depth + 1)
        if left is None or right is None:
            return None
        return left | right if isinstance(node.op, ast.BitOr) else left + right
    if isinstance(node, ast.Constant):
        return node.value if type(node.value) is int and 0 <= node.value < 1 << 20 else None
    if isinstance(node, ast.Attribute):
        return FLAGS.get(node.attr) if _is_module(node.value, names) else None
    if isinstance(node, ast.Name):
        return FLAGS.get(node.id) if names is None else _named_flag(node, names, depth)
    return None


def _is_module(node: ast.AST, names: Optional[Names]) -> bool:
    """Whether an expression may be the module `re`, or its class of flags: an imported name, or one that isn't bound."""
    if isinstance(node, ast.Attribute):
        return node.attr in ("re", "RegexFlag", "regex")
    return isinstance(node, ast.Name) and (names is None or all(isinstance(it, ast.alias) for it in names.meant(node)))


def _named_flag(node: ast.Name, names: Names, depth: int) -> Optional[int]:
    """The number that a name stands for: a flag that is imported, or what the source binds the name to, once."""
    home, bound = names.inside[node].lookup(node.id)
    if not bound:
        return FLAGS.get(node.id)
    one: Any = bound[0]
    above: Any = names.parents.get(one)
    if len(bound) > 1:
        return None
    if isinstance(one, ast.alias) and isinstance(above, ast.ImportFrom):
        return FLAGS.get(one.name) if above.module in ("re", "regex") or len(one.name) > 1 else None
    is_value = isinstance(above, ast.AnnAssign) or isinstance(above, ast.Assign) and len(above.targets) == 1
    if not is_value or above.value is None or _is_open(names, home):
        return None
    return _flag_value(above.value, names, depth + 1)


def _is_open(names: Names, home: Optional[Scope]) -> bool:
    """Whether names of a scope may be bound by their text, as by `globals()["FLAGS"] = ..`."""
    return home is names.module and any(names.loads(names.module, it) for it in ("globals", "vars", "exec"))


def _flags_in(arguments: List[List[str]], at: int) -> Optional[int]:
    """The flags that the tokens of a call's arguments give; the first of these is the pattern, without tokens."""
    if any(it[:1] in (["*"], ["**"]) or "lambda" in it for it in arguments):
        return None
    named = [it[2:] for it in arguments if it[:2] == ["flags", "="]]
    placed = [it for it in arguments[at:at + 1] if it and it[1:2] != ["="]]
    given = (named or placed or [["0"]])[0]
    if len(given) > MOST_TOKENS_OF_FLAGS:
        return None
    try:
        return flags_of(ast.parse("".join(given), mode="eval").body)
    except (SyntaxError, ValueError):
        return None
