"""Finds the expressions of a source that are given as patterns: to `re`, or to a function or class in the table of takers.

A taker is a row of that table, which takers.toml explains: a function, a method or an attribute that takes a pattern.
"""
from __future__ import annotations

import ast
import fnmatch
import json
import re
import warnings
from dataclasses import dataclass, replace
from pathlib import Path
from typing import Any, Callable, Dict, Iterator, List, Mapping, NamedTuple, Optional, Sequence, Tuple

from ..base.model import CALLS, MODES, Holder, Place, Site, Text
from ..options import OptionsError, read_toml
from . import routes, texts
from .elsewhere import LETTERS, WORDS, import_statements, places
from .fold import COMPILED, Bound, Class, Folder, Varies, bound
from .names import Scope
from .source import EVERY_FLAG, FLAGS, FLAGS_AT, LINE_END, Unit, is_test
from .texts import Known, Need, NotKnown
from .writes import can_set_names, is_alone, is_set, last_name, self_class

TABLE = Path(__file__).with_name("takers.toml")
SHAPES = ("text", "list", "pairs", "keys", "tokens", "rules", "schema", *routes.FORMS)
# The type of each key's value. The items of a list are texts.
KEYS: Mapping[str, Any] = {
    "call": list, "method": (str, list), "class": list, "attribute": str, "shape": str, "pattern": int, "keyword": list,
    "flags": int, "flags-keyword": str, "always": list, "mode": str, "needs": str, "when": dict, "unless": dict, "note": str,
    "engine": str, "is-list": bool, "least": int, "beside": list, "around": str,
}
WORDS_OF_KINDS: Mapping[Any, str] = {
    (str, list): "a text or a list of texts", list: "a list of texts", str: "a text", int: "a number", dict: "a table",
    bool: "true or false",
}
# A call of `re` whose first argument isn't a literal, a function of `re` that isn't called at once, and imports of these.
# (without a test of what stands before, the search is quick)
OF_RE = re.compile(rb"re\s*\.\s*(?:" + "|".join(CALLS).encode() + rb")\b(?!\s*\(\s*(?:#[^\n]*\s*)*[rRbBuU]{0,2}[\"'])")
IMPORTS_RE = re.compile(rb"\bfrom\s+(?:re|regex)\s+import\b|\bimport\b[^\n]*\b(?:re\s+as|regex)\b")
# Parts that many names of takers have.
COMMON = (b"egex", b"REGEX")
# Names with the prefix of a rule that PLY doesn't read as rules.
NO_RULES = ("t_ignore", "t_error", "t_eof", "t_literals")
# Keys of a JSON schema whose value has schemas by names, and those whose value is no schema.
SCHEMAS = ("properties", "patternProperties", "definitions", "$defs", "dependentSchemas", "dependencies")
NO_SCHEMAS = ("default", "enum", "const", "examples")
# Decorators that return a function with the same results.
SAME_RESULT = ("functools.lru_cache", "functools.cache")
DISPLAYS = (ast.List, ast.Tuple, ast.Dict)
# The shapes that hold patterns; "schemas" is that of names with schemas. So much of them is looked at in a file, over so many
# names.
HOLDING = ("list", "pairs", "keys", "tokens", "schema", "schemas")
MOST_VISITS, DEEPEST = 100_000, 8

# A pattern, its flags, and what both were made from.
Values = Tuple[Known, int, List[Known]]
# The expression of a pattern, and the names that lead to it.
Held = Tuple[ast.expr, Tuple[Known, ...]]


class TakersError(Exception):
    """Raised if a row of the table is wrong; the message says which and why."""


# A command for a whole cell of a notebook, and those whose cells hold another language. A line that times a statement, and one
# that asks for help on a name.
CELL_MAGIC, TIMED = re.compile(r"\s*%%(\w*)"), re.compile(r"%%?(?:time|timeit|prun|memit)[ \t]+(?=[^\s-])")
HELP = re.compile(r"%{0,2}[\w.*]+\?{1,2}\s*\Z")
OTHER_LANGUAGES = frozenset((
    "bash", "bigquery", "cmd", "html", "javascript", "js", "latex", "markdown", "perl", "r", "ruby", "sh", "sql", "svg",
))


class NotebookError(Exception):
    """Raised if a file isn't a notebook; the message says why in a clause."""


@dataclass(frozen=True)
class Taker:
    """A row of the table; `name` is shown to people, and `calls` are full dotted names."""

    name: str
    mode: str
    calls: Tuple[str, ...] = ()
    method: str = ""
    classes: Tuple[str, ...] = ()
    attribute: str = ""
    shape: str = "text"
    pattern: int = -1
    keywords: Tuple[str, ...] = ()
    flags: int = -1
    flags_keyword: str = ""
    always: int = 0
    needs: str = ""
    when: Tuple[Tuple[str, Any], ...] = ()
    unless: Tuple[Tuple[str, Any], ...] = ()
    note: str = ""
    is_list: bool = False
    least: int = 0
    beside: Tuple[str, ...] = ()
    around: str = ""


@dataclass(frozen=True)
class Found:
    """An expression that a source gives as a pattern, with one value that it has.

    `place` is that of the literal with which the expression begins, or else of the expression, and `end` is where it ends. If
    the pattern or the flags aren't known, `why` gives the reason. `call` is the function of `re` that has the same mode.
    `is_literal` says that the expression is one literal of a call of `re`.
    """

    place: Place
    end: Place
    call: str
    mode: str
    site: Optional[Site] = None
    needs: Tuple[Need, ...] = ()
    why: str = ""
    is_literal: bool = False


# ---- the table

def takers_of(rows: Sequence[Any]) -> List[Taker]:
    """Returns the takers that rows of TOML describe, one for each method of a row. Raises TakersError."""
    return [taker_of(it, f"row {number} of takers") for number, row in enumerate(rows, 1)
            for it in ([{**row, "method": one} for one in row["method"]] if isinstance(row.get("method"), list) else [row])]


def own_rows() -> List[Any]:
    """Returns the package's own rows."""
    return list(read_toml(TABLE.read_text(encoding="utf-8"))["taker"])


def rows_in(text: str, place: str) -> List[Any]:
    """Returns the rows of a file of takers: its list `taker`, or that of `tool.relint.wide`. Raises TakersError."""
    try:
        found: Any = read_toml(text)
    except (OptionsError, ValueError) as error:
        raise TakersError(f"{place} can't be read as a table of takers: {error}") from error
    for name in ("tool", "relint", "wide") if "taker" not in found else ():
        found = found.get(name, {})
        if not isinstance(found, dict):
            raise TakersError(f"{place}: {name} is no table")
    rows = found.get("taker", [])
    return rows if isinstance(rows, list) else [rows]


def taker_of(row: Any, place: str) -> Taker:
    """Returns the taker that a row describes. Raises TakersError, which names `place`, if the row is wrong."""
    if not isinstance(row, dict):
        raise TakersError(f"{place} is no table")
    for key, value in row.items():
        kind = KEYS.get(key)
        if kind is None:
            raise TakersError(f"{place} has a key that isn't known: {key}")
        is_right = isinstance(value, kind) and not (kind is int and isinstance(value, bool))
        if not is_right or isinstance(value, list) and not all(isinstance(it, str) for it in value):
            raise TakersError(f"{place}: {key} has to be {WORDS_OF_KINDS[kind]}")
    if row.get("mode") not in MODES:
        raise TakersError(f"{place}: mode has to be one of {', '.join(MODES)}")
    if not (row.get("call") or row.get("method") or row.get("attribute")):
        raise TakersError(f"{place} names no call, method or attribute")
    if (row.get("call") or row.get("method")) and row.get("pattern", -1) < 0 and not row.get("keyword"):
        raise TakersError(f"{place} doesn't say which argument the pattern is: give pattern or keyword")
    if row.get("shape", "text") not in SHAPES:
        raise TakersError(f"{place}: shape has to be one of {', '.join(SHAPES)}")
    unknown = [it for it in row.get("always", []) if it not in FLAGS]
    if unknown:
        raise TakersError(f"{place}: {unknown[0]} is no flag of re")
    calls = tuple(row.get("call", ()))
    named = row.get("method") or row.get("attribute")
    name = calls[0] if calls else named if named != "*" else row["keyword"][0]
    return Taker(
        str(name), row["mode"], calls, str(row.get("method", "")), tuple(row.get("class", ())), row.get("attribute", ""),
        row.get("shape", "text"), row.get("pattern", -1), tuple(row.get("keyword", ())), row.get("flags", -1),
        row.get("flags-keyword", ""), sum({FLAGS[it] for it in row.get("always", [])}), row.get("needs", ""),
        tuple(sorted(row.get("when", {}).items())), tuple(sorted(row.get("unless", {}).items())), row.get("note", ""),
        row.get("is-list", False), row.get("least", 0), tuple(row.get("beside", ())), row.get("around", ""),
    )


class Sign(NamedTuple):
    """What a source has to have for a row to fit: a word, or only a part of one, and one of some others, if there are any."""

    word: bytes
    is_whole: bool
    others: Tuple[bytes, ...]

    def is_in(self, data: bytes) -> bool:
        """Returns whether the bytes of a source have all that."""
        if self.word not in data or self.others and not any(it in data for it in self.others):
            return False
        return not self.is_whole or any(True for _ in places(data, self.word))


class Takers:
    """The table, by what calls and names have to be for a row to fit."""

    def __init__(self, rows: Sequence[Taker], wide: bool) -> None:
        """Takes the rows; those for whole files of patterns count only if `wide` is set."""
        self.rows = [it for it in rows if wide or it.shape != "tokens"]
        self.calls: Dict[str, List[Taker]] = {}
        self.methods: Dict[str, List[Taker]] = {}
        self._signs: Dict[bytes, Dict[bytes, List[Sign]]] = {}
        self.last_names = {*CALLS, "partial", *(it.rpartition(".")[2] for row in self.rows for it in row.calls)}
        for row in self.rows:
            for name in row.calls:
                self.calls.setdefault(name, []).append(row)
                self._sign(name.partition(".")[0], name.rpartition(".")[2], row)
            name = row.method.rpartition(".")[2]
            if name:
                self.methods.setdefault(name, []).append(row)
                # (a row for all methods needs its argument's name; what is a function of `re` is found by that)
                for it in row.keywords if name == "*" else [name] if row.needs != "re" else []:
                    self._sign(row.needs, it, row)
            if row.attribute:
                self._sign(row.needs, row.beside[0] if row.beside else row.attribute, row)

    def _sign(self, module: str, word: str, row: Taker) -> None:
        """Notes a word, perhaps with stars, without which a row fits nothing in files that import a module, or in all for "".

        If the pattern is given only by a name, that has to be there too.
        """
        others = [it.strip("*").encode() for it in row.keywords] if row.pattern < 0 and not row.attribute else []
        plain = word.strip("*").partition("*")[0].encode()
        its = self._signs.setdefault(module.encode(), {}).setdefault(next((it for it in COMMON if it in plain), plain), [])
        its += [it for it in [Sign(plain, "*" not in word, tuple(others))] if it not in its]

    def may_take(self, data: bytes) -> bool:
        """Returns whether the bytes of a source show that something in it may take a pattern that the program doesn't read."""
        statements = b"\n".join(import_statements(data))
        words = set(WORDS.findall(statements))
        if IMPORTS_RE.search(statements):
            return True
        if b"re" in words and any(data[it.start() - 1:it.start()] not in LETTERS for it in OF_RE.finditer(data)):
            return True
        return any(part in data and any(it.is_in(data) for it in its) for module, signs in self._signs.items()
                   if not module or module in words for part, its in signs.items())


# ---- places

def places_in(unit: Unit, takers: Takers, folder: Folder) -> List[Found]:
    """Returns what a source gives as patterns, known or not, in order; once for each value. Raises SourceError."""
    folder.begin()
    one = _Finder(unit, takers, folder)
    found = [it for call in unit.scopes.calls if one.may_take(call.func) for it in one.of_call(call)]
    found += [it for row in takers.rows if row.attribute and one.imports(row.needs) for it in one.of_attribute(row)]
    found += [it for row in takers.methods.get("*", ()) if any(it.strip("*") in unit.text for it in row.keywords)
              for call in unit.scopes.calls for it in one.of_row(row, call)]
    return sorted(dict.fromkeys(found), key=lambda it: it.place)


class _Finder:
    """Finds the patterns of one source."""

    def __init__(self, unit: Unit, takers: Takers, folder: Folder) -> None:
        """Takes the source, the table, and what folds expressions."""
        self.unit, self.takers, self.folder = unit, takers, folder
        self.in_tests = is_test(unit.path)
        self._visits = 0
        self._given: Dict[Tuple[Scope, str], bool] = {}
        self.imported = {part for it in unit.scopes.imports for part in (
            [(it.module or "").partition(".")[0]] if isinstance(it, ast.ImportFrom) else [
                one.name.partition(".")[0] for one in it.names])}

    def imports(self, name: str) -> bool:
        """Whether the source imports a top-level module, or a part of it; True for ""."""
        return not name or name in self.imported

    def of_call(self, call: ast.Call) -> Iterator[Found]:
        """Yields the patterns of a call of `re` or of a taker."""
        name = call.func.attr if isinstance(call.func, ast.Attribute) else ""
        rows = [it for it in self.takers.methods.get(name, ())
                if self.imports(it.needs) and self._is_method(call.func, it.method) and self._fits(it, call)]
        if rows:
            longest = max(len(it.method) for it in rows)
            for row in rows:
                # ("str.replace" is another method than "replace")
                yield from self.of_row(row, call) if len(row.method) == longest else ()
            return
        is_named = not isinstance(call.func, ast.Attribute) or name in self.takers.last_names
        full = self.folder.qualified(call.func, self.unit) if is_named else None
        if full is None:
            if isinstance(call.func, ast.Name) and call.func.id == "map" and len(call.args) == 2:
                yield from self.of_map(call)
                return
            full, call = self._as_above(call)
        front, _, last = full.rpartition(".")
        if front == "re" and last in FLAGS_AT:
            yield from self.of_re(last, call)
        elif full == "functools.partial" and call.args and self._of_re(call.args[0]):
            inner = ast.Call(call.args[0], call.args[1:], call.keywords)
            yield from self.of_re(self._of_re(call.args[0]), inner) if inner.args or inner.keywords else ()
        for row in self.takers.calls.get(full, ()):
            if self._fits(row, call):
                yield from self.of_row(replace(row, name=full), call)

    def _as_above(self, call: ast.Call) -> Tuple[str, ast.Call]:
        """The full name of what a call of a class of the file, of `__init__`, or of a partial function calls, and how."""
        function, names = call.func, self.unit.scopes
        if isinstance(function, ast.Attribute):
            if function.attr != "__init__":
                return "", call
            scope = names.inside[call].parent
            if not isinstance(function.value, ast.Call):
                return self.folder.qualified(function.value, self.unit) or "", ast.Call(function, call.args[1:], call.keywords)
            is_super = last_name(function.value) == "super" and scope is not None and (
                not function.value.args or last_name(function.value.args[0]) == getattr(scope.node, "name", ""))
            return self._only_base(scope.node) if is_super and scope is not None else "", call
        nodes = names.meant(function) if isinstance(function, ast.Name) else []
        if len(nodes) == 1 and isinstance(nodes[0], ast.ClassDef):
            return self._only_base(nodes[0], True) if nodes[0].bases else "", call
        value = getattr(names.parents.get(nodes[0]), "value", None) if len(nodes) == 1 else None
        if isinstance(value, ast.Call) and value is bound(nodes[0], names).value and len(value.args) == 1 and (
                self.folder.qualified(value.func, self.unit) == "functools.partial" and "pattern" not in dict(_named(value))):
            given = dict([*_named(value), *_named(call)])
            keywords = [ast.keyword(name, it) for name, it in given.items()]
            return self.folder.qualified(value.args[0], self.unit) or "", ast.Call(value.args[0], call.args, keywords)
        return "", call

    def _only_base(self, node: ast.AST, is_made: bool = False, depth: int = 0) -> str:
        """The full name of the only base of a class, over classes of the file that don't say how they are made; or "".

        With `is_made`, the class itself mustn't say that.
        """
        if not isinstance(node, ast.ClassDef) or len(node.bases) != 1 or node.keywords or depth > 8:
            return ""
        base, names = node.bases[0], self.unit.scopes
        if is_made and (node.decorator_list or {"__init__", "__new__"} & names.scopes[node].bindings.keys()):
            return ""
        above = names.meant(base) if isinstance(base, ast.Name) else []
        if len(above) == 1 and isinstance(above[0], ast.ClassDef):
            return self._only_base(above[0], True, depth + 1)
        return self.folder.qualified(base, self.unit) or ""

    def may_take(self, function: ast.AST) -> bool:
        """Whether a called expression may name what takes a pattern, by its last name or its bindings here."""
        takers = self.takers
        if isinstance(function, ast.Attribute):
            return function.attr in takers.last_names or function.attr in takers.methods or function.attr == "__init__"
        if not isinstance(function, ast.Name):
            return False
        nodes = self.unit.scopes.meant(function)
        return not nodes and function.id == "map" or any(
            isinstance(it, (ast.Name, ast.ClassDef)) or isinstance(it, ast.alias) and (
                it.name.rpartition(".")[2] in takers.last_names) for it in nodes)

    def _of_re(self, node: ast.AST) -> str:
        """The function of `re` that an expression names, or ""."""
        front, _, last = (self.folder.qualified(node, self.unit) or "").rpartition(".")
        return last if front == "re" and last in FLAGS_AT else ""

    def of_map(self, call: ast.Call) -> List[Found]:
        """The patterns of `map(re.compile, ..)`."""
        name = self._of_re(call.args[0])
        if name != "compile" or not isinstance(call.func, ast.Name) or self.unit.scopes.meant(call.func):
            return []
        node = call.args[1]
        items = node.elts if isinstance(node, (ast.List, ast.Tuple)) else None
        if items is not None:
            return [replace(one, is_literal=False) for it in items for one in self.found(it, name, None)]
        try:
            values = self.folder.items(node, self.unit)
        except NotKnown as error:
            return [replace(self._empty(node, name, None), why=error.why)]
        return self._made(node, name, None, [(it, 0, [it]) for it in values])

    def _is_method(self, function: ast.expr, method: str) -> bool:
        """Whether a called expression is an object followed by the dotted names of `method`; a single name not on a module."""
        names = method.split(".")
        for name in reversed(names):
            if not isinstance(function, ast.Attribute) or function.attr != name:
                return False
            function = function.value
        return len(names) > 1 or self.folder.qualified(function, self.unit) is None

    def _fits(self, row: Taker, call: ast.Call) -> bool:
        """Whether a call has all arguments in the row's `when`, with their values, and none in its `unless`."""
        given = dict(_named(call))
        for name, value in row.unless:
            if name in given and self._constant(given[name]) in (value, None):
                return False
        return all(name in given and value in (self._constant(given[name]), self.folder.qualified(given[name], self.unit))
                   for name, value in row.when)

    def _constant(self, node: ast.AST) -> Any:
        """The value of an expression; None if it isn't known, or is None."""
        try:
            return self.folder.fold(node, self.unit).value
        except NotKnown:
            return None

    def of_re(self, name: str, call: ast.Call) -> List[Found]:
        """The patterns of a call of a function of `re`; none for a pattern that is compiled elsewhere."""
        node = _argument(call, 0, ("pattern",))
        if node is None:
            return [replace(self._empty(call, name, None), why="no pattern argument")] if hasattr(call, "lineno") else []
        return self.found(node, name, _argument(call, FLAGS_AT[name], ("flags",)))

    def of_row(self, row: Taker, call: ast.Call) -> Iterator[Found]:
        """Yields the patterns of a call of a taker; nothing if it has no such argument, or None for it."""
        nodes = [it for name, it in _named(call) if any(fnmatch.fnmatchcase(name, one) for one in row.keywords)]
        flags = _argument(call, row.flags, (row.flags_keyword,))
        for node in nodes or [it for it in [_argument(call, row.pattern, ())] if it is not None]:
            shape = "list" if row.is_list and isinstance(node, (ast.List, ast.Tuple)) else row.shape
            for it in self.in_shape(shape, node):
                yield from self.of_held(it, flags, row)

    def of_held(self, held: Held, flags: Optional[ast.AST], row: Taker) -> Iterator[Found]:
        """Yields what is known of an expression that is held as a pattern; nothing if it surely is none."""
        node, through = held
        if isinstance(node, ast.Constant) and node.value is None:
            return
        for it in self.found(node, row.mode, flags, row):
            if it.site is None:
                yield from [it] if it.why != "not a text" else []
            elif len(it.site.pattern) >= row.least:
                site = replace(it.site, holders=tuple(dict.fromkeys(
                    [*it.site.holders, *(one for known in through for one in known.holders)])))
                needs = {*it.needs, *(need for known in through for need in known.needs)}
                yield replace(it, site=site, needs=tuple(sorted(needs)))

    def in_shape(self, shape: str, node: ast.expr) -> Iterator[Held]:
        """Yields the expressions of the patterns in an expression of a shape."""
        left: List[Tuple[str, ast.expr, Tuple[Known, ...]]] = [(shape, node, ())]
        while left and self._visits < MOST_VISITS:
            self._visits += 1
            shape, node, through = left.pop()
            if shape not in HOLDING:
                yield node, through
                continue
            if not isinstance(node, DISPLAYS) and len(through) < DEEPEST:
                node, known = self.folder.display(node, self.unit, self._takes)
                through = (*through, *known)
            if isinstance(node, ast.Dict):
                left += [(one, it, through) for one, it in _in_table(shape, node)]
            for it in node.elts if isinstance(node, (ast.List, ast.Tuple)) else []:
                if shape == "list" or shape.startswith("schema"):
                    left.append(("text" if shape == "list" else "schema", it, through))
                elif isinstance(it, ast.Tuple) and len(it.elts) > 1:
                    left.append(("text", it.elts[0], through))

    def _takes(self, node: ast.AST, depth: int = 0) -> bool:
        """Whether an expression is given to a taker only, which doesn't change it: at once, or in what a name holds."""
        names = self.unit.scopes
        above = names.parents.get(node)
        while isinstance(above, DISPLAYS):
            node, above = above, names.parents.get(above)
        target = above.targets[0] if isinstance(above, ast.Assign) and len(above.targets) == 1 else None
        if isinstance(target, ast.Name):
            home = names.inside[target].home(target.id)
            if (home, target.id) not in self._given:
                self._given[home, target.id] = False
                self._given[home, target.id] = depth < DEEPEST and home.kind != "class" and all(
                    self._takes(it, depth + 1) for it in names.loads(home, target.id))
            return self._given[home, target.id]
        call = names.parents.get(above) if isinstance(above, ast.keyword) else above
        if not isinstance(call, ast.Call) or call.func is node:
            return False
        full = self.folder.qualified(call.func, self.unit) or self._as_above(call)[0]
        return full in self.takers.calls

    def found(self, node: ast.expr, call: str, flags: Optional[ast.AST], row: Optional[Taker] = None) -> List[Found]:
        """What is known of an expression that is given as a pattern; `flags` gives the flags."""
        def fold() -> Values:
            """The pattern, its flags, and what both were made from, at the present choices."""
            known = _as_taken(self.folder.fold(node, self.unit), row)
            number, given = self._flags(flags, row)
            return known, number, [known, *given]

        try:
            values = self.folder.each(fold, node, self.unit)
            return self._made(node, call, row, values)
        except NotKnown as error:
            if error.why == COMPILED:
                return []
            parts = [it for it in (node, flags) if it is not None]
            given = self.of_calls(parts, call, row, fold) if error.why in ("parameter", "flags: parameter") else []
            return given or [replace(self._empty(node, call, row), why=error.why)]

    def of_calls(self, parts: Sequence[ast.AST], call: str, row: Optional[Taker], fold: Callable[[], Values]) -> List[Found]:
        """The patterns that the calls of a function around a place give it, and the defaults of the function's parameters."""
        names = self.unit.scopes
        loads = [it for part in parts for it in ast.walk(part) if isinstance(it, ast.Name) and self_class(it, names) is None]
        wanted = [one for it in loads for one in self._parameters(it, 0)]
        function: Any = names.parents.get(names.parents.get(wanted[0], wanted[0])) if wanted else None
        if function is None or any(names.parents.get(names.parents[it]) is not function for it in wanted):
            return []
        found: List[Found] = []
        calls, need = self._calls_of(function)
        for site in [None, *calls]:
            nodes = {it: _argument_for(it, function, site) for it in dict.fromkeys(wanted)}
            first = next((it for it in nodes.values() if it is not None), None)
            if first is None or None in nodes.values():
                continue

            def with_arguments() -> Values:
                """The pattern with the arguments of this call."""
                values = {it: self.folder.fold(value, self.unit) for it, value in nodes.items() if value is not None}
                return self.folder.given(values, fold)

            what = "the default of a parameter of" if site is None else "given to"
            note = f"{what} {getattr(function, 'name', 'a lambda')} (line {function.lineno})"
            try:
                values = self.folder.each(with_arguments, first, self.unit)
                mode = "search" if call == "compile" else call
                its = self._made(first, mode, row, values)
                found += [replace(it, is_literal=False, needs=tuple(sorted({*it.needs, *need})),
                                  site=replace(it.site, notes=(*it.site.notes, note))) for it in its if it.site is not None]
            except NotKnown as error:
                found += [replace(self._empty(first, call, row), why=error.why)] if site is not None else []
        return found

    def _parameters(self, node: ast.Name, depth: int) -> List[ast.AST]:
        """The parameters on which the value of a name depends, directly or by other names of the function."""
        home, nodes = self.unit.scopes.inside[node].lookup(node.id)
        if home is None or home.kind != "function" or len(nodes) != 1 or depth > 8:
            return []
        if isinstance(nodes[0], ast.arg):
            return [nodes[0]]
        value = bound(nodes[0], self.unit.scopes).value
        loads = [it for it in ast.walk(value) if isinstance(it, ast.Name)] if value is not None else []
        return [one for it in loads for one in self._parameters(it, depth + 1)]

    def _calls_of(self, function: Any) -> Tuple[List[ast.Call], List[Need]]:
        """The calls of a function in its file, with what they need; none if something else may be called by its name.

        That of a lambda is the name to which it is bound. A method is looked for only on `self`, which is given to it then.
        """
        names = self.unit.scopes
        home, name, above = names.inside[function], getattr(function, "name", ""), names.parents.get(function)
        decorators = [it for it in getattr(function, "decorator_list", ()) if last_name(it) != "staticmethod"]
        if isinstance(function, ast.Lambda) and isinstance(above, ast.Assign) and isinstance(above.targets[0], ast.Name):
            name = above.targets[0].id
        is_other = any(self.folder.qualified(it.func if isinstance(it, ast.Call) else it, self.unit) not in SAME_RESULT
                       for it in decorators)
        is_module = home.kind == "module"
        if is_other or len(home.bindings.get(name, ())) != 1 or is_module and (is_set(name, names) or can_set_names(names)):
            return [], []
        loads: List[Any] = [*names.loads(home, name)]
        need = [Need("name", self.unit.path, name)] if is_module else []
        is_given = False
        if isinstance(home.node, ast.ClassDef):
            loads = [it for it in names.attributes.get(name, ()) if self_class(it.value, names) is home.node]
            if not is_alone(name, home.node, names):
                return [], []
            need = [Need("attribute", self.unit.path, name, home.node.name)]
            is_given = len(decorators) == len(function.decorator_list)
        calls = [(it, names.parents.get(it)) for it in loads]
        return [ast.Call(it, [*([it.value] if is_given else []), *call.args], call.keywords) for it, call in calls
                if isinstance(call, ast.Call) and call.func is it], need

    def _empty(self, node: ast.expr, call: str, row: Optional[Taker]) -> Found:
        """A place of which nothing else is known."""
        first = _first_literal(node)
        is_literal = isinstance(node, ast.Constant) and isinstance(node.value, (str, bytes)) and self._is_read(node)
        mode = row.mode if row else call if call in MODES else "" if call == "compile" else "search"
        end = self._place(node.end_lineno or node.lineno, node.end_col_offset or node.col_offset)
        return Found(self._place(first.lineno, first.col_offset), end, call, mode, is_literal=is_literal and row is None)

    def _is_read(self, node: ast.AST) -> bool:
        """Whether the program reads a literal itself: it is the first argument of a call whose function is imported."""
        names = self.unit.scopes
        above: Any = names.parents.get(node)
        call: Any = names.parents.get(above) if isinstance(above, ast.keyword) else above
        if not isinstance(call, ast.Call) or [*call.args, *call.keywords][:1] not in ([node], [above]):
            return False
        function = call.func.value if isinstance(call.func, ast.Attribute) else call.func
        return isinstance(function, ast.Name) and all(isinstance(it, ast.alias) for it in names.meant(function))

    def _place(self, line: int, column: int) -> Place:
        """The place of a position of `ast`, whose columns count bytes from 0."""
        text = self.unit.line(line)
        if text.isascii():
            return Place(line, column + 1)
        return Place(line, len(text.encode("utf-8", "surrogatepass")[:column].decode("utf-8", "replace")) + 1)

    def _made(self, node: ast.expr, call: str, row: Optional[Taker], values: Sequence[Values]) -> List[Found]:
        """What is found for the values that an expression has, each different one once. Raises NotKnown."""
        empty = self._empty(node, call, row)
        found: Dict[Tuple[Text, int], Found] = {}
        # (if one of the values isn't known, the place isn't)
        needs = tuple(sorted({it for _, _, parts in values for part in parts for it in part.needs}))
        for known, flags, parts in values:
            pattern, stands_in = texts.without_marks(known.text())
            if flags & ~EVERY_FLAG:
                raise NotKnown("flags: others")
            holders = tuple(dict.fromkeys(it for part in parts for it in part.holders))
            notes = [it for part in parts for it in part.notes] + ([row.note] if row and row.note else [])
            plain = self.unit.site(empty.place, call) if isinstance(node, ast.Constant) else None
            site = plain if plain is not None and plain.pattern == pattern else Site(
                pattern, flags, end=empty.end, function=self.unit.function_at(empty.place), in_tests=self.in_tests)
            site = replace(site, flags=flags, taker=row.name if row else "", holders=holders,
                           notes=tuple(dict.fromkeys(notes)), stands_in=stands_in)
            found.setdefault((pattern, flags), replace(empty, site=site, needs=needs))
        return list(found.values())

    def _flags(self, node: Optional[ast.AST], row: Optional[Taker]) -> Tuple[int, List[Known]]:
        """The flags that an expression gives, and a list with its value; without one, those of the row."""
        if node is None:
            return row.always if row else 0, []
        try:
            known = self.folder.fold(node, self.unit)
        except Varies:
            raise
        except NotKnown as error:
            raise NotKnown(f"flags: {error.why}") from error
        if known.value is None and row is not None:
            return row.always, []
        if not isinstance(known.value, int):
            raise NotKnown("flags: no number")
        return int(known.value), [known]

    def of_attribute(self, row: Taker) -> Iterator[Found]:
        """Yields the patterns that names hold in the bodies of classes with a base of the row; without bases, of all."""
        for scope in list(self.unit.scopes.scopes.values()):
            if isinstance(scope.node, ast.ClassDef):
                is_plain = not row.beside or not scope.node.bases and all(it in scope.bindings for it in row.beside)
                if is_plain if not row.classes else self._is_below((scope.node, self.unit), row.classes, 0):
                    yield from self._of_body(row, scope)
            elif scope.kind == "module" and not row.classes and not row.beside:
                yield from self._of_body(row, scope)

    def _is_below(self, found: Class, names: Sequence[str], depth: int) -> bool:
        """Whether a class has a base with one of these names, or one of the sources that has."""
        for base in found[0].bases:
            if any(fnmatch.fnmatchcase(last_name(base), it) for it in names):
                return True
            above = self.folder.class_of(base, found[1]) if depth < 8 else None
            if above is not None and self._is_below(above[0], names, depth + 1):
                return True
        return False

    def _of_body(self, row: Taker, scope: Scope) -> Iterator[Found]:
        """Yields the patterns that names of a scope hold, if they fit the row and are bound once."""
        is_plain = row.attribute.isidentifier()
        for name in [row.attribute] if is_plain else fnmatch.filter(scope.bindings, row.attribute):
            nodes = scope.bindings.get(name, [])
            if len(nodes) != 1 or name in NO_RULES:
                continue
            given = scope.bindings.get(row.flags_keyword, [])
            flags = bound(given[0], self.unit.scopes).value if len(given) == 1 else None
            held = bound(nodes[0], self.unit.scopes)
            for it in _of_rule(held) if row.shape == "rules" and held.kind == "function" else [held.value]:
                for one in self.in_shape(row.shape, it) if it is not None and held.kind in ("value", "function") else ():
                    yield from self.of_held(one, flags, row)
        if scope.kind == "class" and row.shape == "text" and "*" not in row.attribute:
            for store in self.unit.scopes.attributes.get(row.attribute, ()):
                above, owner = self.unit.scopes.parents.get(store), self_class(store.value, self.unit.scopes)
                if isinstance(above, ast.Assign) and store in above.targets and owner is scope.node:
                    yield from self.found(above.value, row.mode, None, row)


def _named(call: ast.Call) -> Iterator[Tuple[str, ast.expr]]:
    """Yields the arguments that a call gives by name, also those in a dictionary behind `**`."""
    for it in call.keywords:
        if it.arg is not None:
            yield it.arg, it.value
        elif isinstance(it.value, ast.Dict) and all(isinstance(key, ast.Constant) for key in it.value.keys):
            yield from ((str(getattr(key, "value")), value) for key, value in zip(it.value.keys, it.value.values))


def _argument(call: ast.Call, position: int, names: Sequence[str]) -> Optional[ast.expr]:
    """The first argument with one of the names, or else the one at the position; None if there is none."""
    for name, value in _named(call) if names else ():
        if name in names:
            return value
    if position < 0 or position >= len(call.args) or any(isinstance(it, ast.Starred) for it in call.args[:position + 1]):
        return None
    return call.args[position]


def _argument_for(parameter: ast.AST, function: Any, call: Optional[ast.Call]) -> Optional[ast.expr]:
    """What a call gives a parameter: an argument or the default, only the latter without a call; None if it isn't clear."""
    given = function.args
    placed = [*given.posonlyargs, *given.args]
    if parameter in (given.vararg, given.kwarg):
        return None
    if call is not None:
        if any(it.arg is None for it in call.keywords):
            return None
        position = placed.index(parameter) if parameter in placed else -1
        found = _argument(call, position, (getattr(parameter, "arg"),))
        if found is not None or any(isinstance(it, ast.Starred) for it in call.args):
            return found
    pairs = [*zip(reversed(placed), reversed(given.defaults)), *zip(given.kwonlyargs, given.kw_defaults)]
    return next((value for it, value in pairs if it is parameter), None)


def _first_literal(node: ast.expr) -> ast.expr:
    """The literal that is the leftmost operand of an expression, or the object of a method there; or the expression itself."""
    first = node
    while isinstance(first, ast.BinOp):
        first = first.left
    if isinstance(first, ast.Call) and isinstance(first.func, ast.Attribute):
        first = first.func.value
    is_text = isinstance(first, ast.Constant) and isinstance(first.value, (str, bytes))
    return first if is_text or isinstance(first, ast.JoinedStr) else node


def _of_rule(found: Bound) -> Iterator[ast.expr]:
    """Yields the expression of the pattern of a function that is a rule of PLY."""
    calls = [it for it in found.node.decorator_list if isinstance(it, ast.Call) and it.args]
    token = [it.args[0] for it in calls if last_name(it) == "TOKEN"]
    first = found.node.body[0]
    if token or isinstance(first, ast.Expr) and isinstance(first.value, ast.Constant):
        yield token[0] if token else first.value


def _in_table(shape: str, node: ast.Dict) -> Iterator[Tuple[str, ast.expr]]:
    """Yields what is in a dictionary of a shape and may hold patterns, each with its own shape."""
    # (what stands before a `**` may be replaced by that)
    last = max((at for at, key in enumerate(node.keys) if key is None), default=-1)
    for key, value in list(zip(node.keys, node.values))[last + 1:]:
        word = key.value if isinstance(key, ast.Constant) else None
        if shape == "keys" and key is not None:
            yield "text", key
        elif shape == "tokens":
            yield "pairs", value
        elif shape == "schemas":
            yield "schema", value
        elif shape == "schema" and word not in NO_SCHEMAS:
            yield "text" if word == "pattern" else "schemas" if word in SCHEMAS else "schema", value
            if word == "patternProperties":
                yield "keys", value


def _as_taken(known: Known, row: Optional[Taker]) -> Known:
    """The pattern that a taker makes of what it gets. Raises NotKnown."""
    if row is not None and row.shape in routes.FORMS:
        return texts.made(routes.routed(row.shape, known.whole()), (known,))
    if row is None or not row.around:
        return known
    if not isinstance(known.value, str):
        raise NotKnown("not a text")
    return texts.made(row.around.replace("{}", known.value), (known,))


# ---- notebooks

class Notebook(NamedTuple):
    """The code of a notebook: the lines of all code cells in one text, and for each its cell and its line there, from 1.

    `left_out` are the numbers of the code cells that can't be read as Python; their lines are empty.
    """

    text: str
    origins: Tuple[Tuple[int, int], ...]
    left_out: Tuple[int, ...]

    def origin(self, line: int) -> Tuple[int, int]:
        """Returns the cell from which a line comes, and the line in it."""
        return self.origins[min(max(line, 1), len(self.origins)) - 1]

    def in_cell(self, found: Found, path: str) -> Found:
        """Returns what was found with its lines counted in its cell."""
        cell, line = self.origin(found.place.line)
        end = Place(self.origin(found.end.line)[1], found.end.column)
        holders = tuple(Holder(f"{it.name}, cell {self.origin(it.line)[0]}", path, self.origin(it.line)[1]) if it.path == path
                        else it for it in (found.site.holders if found.site else ()))
        site = replace(found.site, cell=cell, end=end, holders=holders, literals=(), offsets=()) if found.site else None
        return replace(found, place=Place(line, found.place.column), end=end, site=site, is_literal=False)


def notebook(data: bytes) -> Notebook:
    """Returns the notebook in the bytes of a file. Raises NotebookError."""
    try:
        whole = json.loads(data.decode("utf-8-sig"))
    except (ValueError, RecursionError) as error:
        raise NotebookError("it isn't JSON in UTF-8") from error
    sheets = whole.get("worksheets") if isinstance(whole, dict) else None
    first = sheets[0] if isinstance(sheets, list) and sheets and isinstance(sheets[0], dict) else {}
    cells = whole.get("cells", first.get("cells")) if isinstance(whole, dict) else None
    if not isinstance(cells, list):
        raise NotebookError("it is JSON, but no notebook: it has no list of cells")
    lines: List[str] = []
    origins: List[Tuple[int, int]] = []
    left_out: List[int] = []
    for number, text in _code(cells):
        of_cell = LINE_END.split(text)
        magic = CELL_MAGIC.match(text)
        is_other = magic is not None and magic[1].lower() in OTHER_LANGUAGES
        if is_other or not _is_python("\n".join(of_cell)):
            of_cell = [_without_magic(it) for it in of_cell]
        if is_other or not _is_python("\n".join(of_cell)):
            left_out += [] if is_other else [number]
            of_cell = [""] * len(of_cell)
        lines += of_cell
        origins += [(number, line) for line in range(1, len(of_cell) + 1)]
    return Notebook("\n".join(lines) + "\n", tuple(origins) or ((1, 1),), tuple(left_out))


def _code(cells: List[Any]) -> Iterator[Tuple[int, str]]:
    """Yields the number, from 1, and the text of each cell that holds code."""
    for number, cell in enumerate(cells, 1):
        if isinstance(cell, dict) and cell.get("cell_type") == "code":
            source = cell.get("source", cell.get("input", ""))
            if isinstance(source, list) and all(isinstance(it, str) for it in source):
                source = "".join(source)
            if isinstance(source, str):
                yield number, source


def _without_magic(line: str) -> str:
    """The line, or `pass` for a command of the notebook: one that begins with %, ! or ?, or a name with ? behind it.

    What a command times stays, at its place.
    """
    begun = line.lstrip()
    front = line[:len(line) - len(begun)]
    timed = TIMED.match(begun)
    if timed is not None:
        return front + "pass;".ljust(timed.end()) + begun[timed.end():]
    return front + "pass" if begun[:1] in ("%", "!", "?") or HELP.match(begun) else line


def _is_python(text: str) -> bool:
    """Whether the running Python can parse a text."""
    try:
        with warnings.catch_warnings():
            warnings.simplefilter("ignore")
            ast.parse(text)
        return True
    except (SyntaxError, ValueError, RecursionError, MemoryError):
        return False
