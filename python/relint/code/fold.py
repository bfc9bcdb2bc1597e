"""Folds an expression of a source into the value that it always has, without running any of the source.

The value of a name is known if the name is bound once, to an expression that can be folded, and nothing else may bind it or
change what it holds; for other files, `writes` tells that. The variable of a loop, and a name that is bound in each branch of
an `if`, have several values: then the expression is folded once for each. The work on one file is limited.
"""
from __future__ import annotations

import ast
import os
import string
import sys
from collections import ChainMap
from dataclasses import replace
from typing import (
    Any, Callable, Dict, Hashable, List, MutableMapping, NamedTuple, Optional, Sequence, Set, Tuple, TypeVar, Union,
)

from ..base.model import Holder
from ..base.safe import OpenError
from . import texts
from .names import Names, Scope
from .source import FLAGS, FLAGS_AT, SourceError, Unit
from .texts import Items, Known, Need, NotKnown, Table, made
from .writes import (
    Binder, binders, can_give, can_set_attributes, can_set_names, is_kept, is_leaf, is_set, last_name, self_class,
)

MOST_STEPS, DEEPEST, MOST_LOOPS, MOST_VALUES = 200_000, 60, 20, 64
TOO_MANY = f"loop over more than {MOST_VALUES} values"
# Why the value of what `re.compile` gives isn't known: it is no text.
COMPILED = "compiled pattern"
# Constants of the module `string`.
CHARACTERS = ("ascii_letters", "ascii_lowercase", "ascii_uppercase", "digits", "hexdigits", "octdigits", "punctuation",
              "printable", "whitespace")
ENUMS = frozenset(("Enum", "StrEnum", "IntEnum"))
# Bases from outside that set no attributes of their own under other names than theirs, and decorators that return the class.
PLAIN_BASES = frozenset((
    "abc.ABC", "ast.NodeVisitor", "ast.NodeTransformer", "click.ParamType", "markdown.blockprocessors.BlockProcessor",
    "markdown.postprocessors.Postprocessor", "markdown.preprocessors.Preprocessor", "markdown.treeprocessors.Treeprocessor",
    "threading.Thread", "typing.Generic", "typing.Protocol", "unittest.TestCase", "unittest.case.TestCase",
))
PLAIN_DECORATORS = frozenset(("total_ordering", "dataclass", "final", "runtime_checkable", "unique"))
# What the evaluation of an expression may raise: the source may be hostile, as in `sorted(["a", b"b"])` or `"" * 2**64`.
FAILURES = (ArithmeticError, LookupError, MemoryError, RecursionError, TypeError, ValueError)
STANDARD = frozenset(getattr(sys, "stdlib_module_names", sys.builtin_module_names))
FOLDERS_OF_CODE = ("src", "lib", "python")
ENDS = (ast.Break, ast.Return, ast.Raise)
AT_ONCE = (ast.ListComp, ast.SetComp, ast.DictComp)
Value = TypeVar("Value")
Class = Tuple[ast.ClassDef, Unit]


class Bound(NamedTuple):
    """What a node that binds a name gives it: `kind` is value, import, class, function, parameter, loop, or another word.

    `value` is the expression of the value, or what the loop `loop` goes over; `part` says how an item is unpacked down to the
    name: for each step the number of the part and how many there are. `above` is the statement or comprehension around it.
    """

    kind: str
    node: Any
    value: Optional[ast.expr] = None
    loop: Optional[ast.AST] = None
    part: Tuple[Tuple[int, int], ...] = ()
    above: Any = None

    @property
    def line(self) -> int:
        """The line of the binding."""
        return int(getattr(self.node, "lineno", 0) or getattr(self.above, "lineno", 0))


def bound(node: Any, names: Names) -> Bound:
    """Returns what a node that binds a name gives it."""
    if isinstance(node, ast.alias):
        return Bound("import", node, above=names.parents[node])
    kinds = {ast.arg: "parameter", ast.ClassDef: "class", ast.FunctionDef: "function", ast.AsyncFunctionDef: "function"}
    if not isinstance(node, ast.Name):
        return Bound(kinds.get(type(node), "match"), node, above=node)
    steps: List[Tuple[int, int]] = []
    child: Any = node
    above: Any = names.parents[child]
    while isinstance(above, (ast.Tuple, ast.List, ast.Starred)):
        elements = [] if isinstance(above, ast.Starred) else above.elts
        is_plain = bool(elements) and not any(isinstance(it, ast.Starred) for it in elements)
        steps.insert(0, (elements.index(child), len(elements)) if is_plain else (-1, 0))
        child, above = above, names.parents[above]
    if isinstance(above, (ast.For, ast.AsyncFor, ast.comprehension)):
        is_followed = all(it[0] >= 0 for it in steps) and not isinstance(above, ast.AsyncFor) and child is above.target
        return Bound("loop", node, above.iter, above if is_followed else None, tuple(steps), above)
    if isinstance(above, ast.AnnAssign) and above.value is None:
        return Bound("declared", node, above=above)
    if not isinstance(above, (ast.Assign, ast.AnnAssign, ast.NamedExpr)):
        words = {ast.AugAssign: "changed", ast.Delete: "deleted", ast.withitem: "with"}
        return Bound(words.get(type(above), "match"), node, above=above)
    value: Any = above.value
    for number, count in steps:
        is_same = isinstance(value, (ast.Tuple, ast.List)) and len(value.elts) == count
        if number < 0 or not is_same or any(isinstance(it, ast.Starred) for it in value.elts):
            return Bound("unpacked", node, above=above)
        value = value.elts[number]
    return Bound("value", node, value, above=above)


class Varies(NotKnown):
    """Raised if a value depends on a choice: the item of a loop, by `bound` in the scope `home`, or one of `count` branches.

    `through` are the expressions that were followed to get there, and `lists` those that other loops go over.
    """

    def __init__(self, key: Hashable, count: int = 0, bound: Optional[Bound] = None, home: Optional[Scope] = None) -> None:
        """Takes what identifies the choice, and the number of branches or the loop."""
        super().__init__("choice" if count else "loop")
        self.key, self.count, self.bound, self.home = key, count, bound, home
        self.through: List[Any] = []
        self.lists: List[Any] = []


class Sources:
    """The files that imports lead to."""

    def __init__(self, unit: Callable[[str], Unit]) -> None:
        """Takes what returns the source at a path, or raises OpenError or SourceError."""
        self._unit = unit
        self._units: Dict[str, Optional[Unit]] = {}
        self._there: Dict[str, bool] = {}
        self._found: Dict[Tuple[str, str], Optional[str]] = {}

    def get(self, path: str) -> Optional[Unit]:
        """Returns the source at a path, or None if it can't be read or parsed; it is kept until `begin`."""
        if path not in self._units:
            try:
                found = self._unit(path)
                self._units[path] = found if found.is_parsed else None
            except (OpenError, SourceError):
                self._units[path] = None
        return self._units[path]

    def begin(self) -> None:
        """Begins a file: forgets the sources that were kept."""
        self._units.clear()

    def has(self, path: str) -> bool:
        """Returns whether there is a source at a path."""
        if path not in self._there:
            try:
                self._there[path] = self._unit(path) is not None
            except (OpenError, SourceError):
                self._there[path] = False
        return self._there[path]

    def find(self, name: str, importer: str) -> Optional[str]:
        """Returns the path of the module that a file imports by a name, relative if it begins with dots.

        A folder needs no `__init__.py`. Returns None if there is no such file, or if it isn't clear which is meant.
        """
        key = (os.path.dirname(importer), name)
        if key not in self._found:
            found = self._relative(*key) if name.startswith(".") else self._absolute(*key)
            self._found[key] = found[0] if len(found) == 1 else None
        return self._found[key]

    def _files(self, base: str) -> List[str]:
        """The files that a module may have whose path without an ending is `base`."""
        return [it for it in (base + ".py", os.path.join(base, "__init__.py")) if self.has(it)]

    def _relative(self, folder: str, name: str) -> List[str]:
        """The files of a name with dots in front."""
        rest = name.lstrip(".")
        for _ in range(len(name) - len(rest) - 1):
            if not folder:
                return []
            folder = os.path.dirname(folder)
        path = os.path.join(folder, "__init__.py")
        return self._files(os.path.join(folder, *rest.split("."))) if rest else [path] if self.has(path) else []

    def _absolute(self, folder: str, name: str) -> List[str]:
        """The files of a name below the folders above the importer that aren't packages."""
        found: List[str] = []
        at, parts = folder, name.split(".")
        while True:
            is_package = at not in ("", ".", os.sep) and self.has(os.path.join(at, "__init__.py"))
            if not is_package and (parts[0] not in STANDARD or self.has(os.path.join(at, "os.py"))):
                for root in (at, *(os.path.join(at, it) for it in FOLDERS_OF_CODE if it != parts[0])):
                    found += self._files(os.path.join(root, *parts))
            above = os.path.dirname(at)
            if above == at:
                return list(dict.fromkeys(found))
            at = above


class Folder:
    """Folds expressions of sources, one file after the other. In all methods, `unit` is the file of the expression.

    The methods in FOLDERS return the value that an expression of one kind always has, and raise NotKnown if it isn't known.
    """

    def __init__(self, sources: Sources) -> None:
        """Takes the files in which imported names are looked up."""
        self.sources = sources
        self.begin()

    def begin(self) -> None:
        """Begins a file: sets the counts of work to 0, and forgets what was kept."""
        self.sources.begin()
        self._steps = self._depth = 0
        self._kept: MutableMapping[Any, Union[Known, NotKnown, None]] = {}
        # For each choice that is gone through its item, the number of the branch, or the reason why its items aren't known.
        self._at: Dict[Hashable, Any] = {}
        self._taken: List[Hashable] = []
        self._given: Dict[ast.AST, Known] = {}
        self._tests: Dict[Any, List[Any]] = {}

    def each(self, fold: Callable[[], Value], place: ast.expr, unit: Unit) -> List[Value]:
        """Returns the results of `fold`: one or, if it depends on choices, one for each.

        A loop is gone through only if the expression `place` is run with each of its items. Raises NotKnown.
        """
        try:
            return [fold()]
        except Varies as error:
            varies, items = self._choices(error, place, unit)
        if len(self._taken) >= MOST_LOOPS:
            raise NotKnown("too deep")
        found: List[Value] = []
        kept = self._kept
        self._taken.append(varies.key)
        try:
            for it in items:
                # (what was folded before doesn't depend on this choice)
                self._kept = ChainMap({}, kept)
                self._at[varies.key] = it
                found += self.each(fold, place, unit)
                if len(found) > MOST_VALUES:
                    raise NotKnown(TOO_MANY)
        finally:
            self._kept = kept
            self._taken.pop()
            self._at.pop(varies.key, None)
        return found

    def given(self, values: Dict[ast.AST, Known], fold: Callable[[], Value]) -> Value:
        """Returns the result of `fold` if parameters, which are the keys, have these values. Raises NotKnown."""
        kept = self._kept
        # (what was found without the parameters doesn't count with them)
        self._kept, self._given = {}, values
        try:
            return fold()
        finally:
            self._kept, self._given = kept, {}

    def _choices(self, varies: Varies, place: ast.expr, unit: Unit) -> Tuple[Varies, List[Any]]:
        """The choice to go through first, and its items: those of a loop may depend on another choice."""
        for _ in range(MOST_LOOPS):
            if varies.count:
                return varies, list(range(varies.count))
            assert varies.bound is not None and varies.bound.value is not None
            try:
                why = self._reason(varies, place, unit)
                if why:
                    raise NotKnown(why)
                found = self._turns(varies.bound.value, unit)
                return varies, [it.with_note(f"item {number} of {len(found)} of the loop in line {varies.bound.line}")
                                for number, it in enumerate(found, 1)]
            except Varies as error:
                error.lists.append(varies.bound.value)
                varies = error
            except NotKnown as error:
                return varies, [error if error.why.startswith("loop") else NotKnown("loop")]
        raise NotKnown("too deep")

    def _turns(self, node: ast.expr, unit: Unit) -> List[Known]:
        """The items of a loop over an expression; for a set the order doesn't matter here."""
        found = list(self.sequence(node, unit).value.items) if isinstance(node, ast.Set) else self.items(node, unit)
        if len(found) > MOST_VALUES:
            raise NotKnown(TOO_MANY)
        if not found:
            raise NotKnown("loop over nothing")
        return found

    def _reason(self, varies: Varies, place: ast.expr, unit: Unit) -> str:
        """Why the code at a place may not run with each item of a loop, or ""."""
        loop: Any = varies.bound.loop if varies.bound else None
        scopes = [unit.scopes.scope_of(place)]
        while isinstance(scopes[-1].node, AT_ONCE) and scopes[-1].parent is not None:
            scopes.append(scopes[-1].parent)
        if loop is None or not any(varies.home is it for it in scopes):
            return "loop"
        if isinstance(loop, ast.For):
            body = _span(loop.body[0])[0], _span(loop.body[-1])[1]
            if any(isinstance(it, ENDS) for it in loop.body) or not _is_within(_span(place), body):
                return "loop"
            if not all(_is_within(_span(it), body) for it in (*varies.through, *varies.lists)):
                return "loop"
            if any(_span(it)[1] > _span(place)[0] for it in varies.through):
                return "loop"
        elif loop.is_async or varies.through:
            return "loop"
        if loop not in self._tests:
            names = {it.id for it in ast.walk(loop.target) if isinstance(it, ast.Name)}
            nodes: List[Any] = [*loop.body] if isinstance(loop, ast.For) else [varies.home.node if varies.home else loop]
            self._tests[loop] = [_span(it) for node in nodes for it in _tests_of(node) if _is_on(it, names)]
        return "loop with a test on its variable" if any(not _is_within(_span(place), it) for it in self._tests[loop]) else ""

    def fold(self, node: ast.AST, unit: Unit) -> Known:
        """Returns the value that an expression always has. Raises NotKnown, or Varies if it depends on a choice."""
        self._steps += 1
        if self._steps > MOST_STEPS:
            raise NotKnown("too much work")
        if self._depth >= DEEPEST:
            raise NotKnown("too deep")
        self._depth += 1
        try:
            folder = FOLDERS.get(type(node).__name__)
            if folder is None:
                raise NotKnown(WORDS.get(type(node).__name__, "expression"))
            return folder(self, node, unit)
        except FAILURES as error:
            raise NotKnown("expression that fails") from error
        finally:
            self._depth -= 1

    # Names that are imported.

    def qualified(self, node: ast.AST, unit: Unit, depth: int = 0) -> Optional[str]:
        """Returns the full dotted name of the imported thing that an expression names, such as "re.compile".

        The path of a source that was found stands between two NULs in front. Returns None if it names nothing imported.
        """
        names: List[str] = []
        while isinstance(node, ast.Attribute):
            names.append(node.attr)
            node = node.value
        if not isinstance(node, ast.Name):
            return None
        start = self._imported(unit.scopes.meant(node), unit, depth)
        return ".".join([start, *reversed(names)]) if start else None

    def _imported(self, nodes: Sequence[ast.AST], unit: Unit, depth: int) -> Optional[str]:
        """The full dotted name of what nodes bind a name to; only imports of `regex` and `re` under one name count as `re`."""
        found = [bound(it, unit.scopes) for it in nodes]
        if not found or depth > 8:
            return None
        if len(found) == 1 and found[0].kind == "value" and found[0].value is not None:
            return self.qualified(found[0].value, unit, depth + 1)
        if any(it.kind != "import" for it in found):
            return None
        origins = {self._origin(it, unit, depth) for it in found}
        return origins.pop() if len(origins) == 1 else "re" if origins == {"re", "regex"} else None

    def _origin(self, found: Bound, unit: Unit, depth: int) -> Optional[str]:
        """The full dotted name of what an import binds a name to; the imports of other sources are followed."""
        if isinstance(found.above, ast.Import):
            return str(found.node.name if found.node.asname else found.node.name.partition(".")[0])
        source, member = "." * found.above.level + (found.above.module or ""), found.node.name
        path = self.sources.find(source, unit.path)
        other = self.sources.get(path) if path else None
        if other is not None and member in other.scopes.module.bindings:
            further = self._imported(other.scopes.module.bindings[member], other, depth + 1)
            return further or f"\0{path}\0.{member}"
        below = self.sources.find(source + ("" if source.endswith(".") else ".") + member, unit.path)
        if below:
            return f"\0{below}\0"
        return None if source.startswith(".") else f"{source}.{member}"

    def _place_of(self, node: ast.AST, unit: Unit) -> Optional[Tuple[str, str]]:
        """The path of the source, and the name in it, that an expression names by an import; None if it names none."""
        full = self.qualified(node, unit)
        if full is None:
            return None
        if full.startswith("\0"):
            _, path, rest = full.split("\0")
            return (path, rest[1:]) if rest.count(".") == 1 else None
        front, _, last = full.rpartition(".")
        found = self.sources.find(front, unit.path) if front else None
        return (found, last) if found else None

    # Kinds of expressions.

    def constant(self, node: ast.Constant, unit: Unit) -> Known:
        """Folds None, True, False, a text, bytes or a whole number."""
        if isinstance(node.value, str) and texts.MARKS[0] in node.value:
            raise NotKnown("expression")
        if node.value is None or isinstance(node.value, (str, bytes, int)):
            return made(node.value)
        raise NotKnown("constant of another kind")

    def f_string(self, node: ast.JoinedStr, unit: Unit) -> Known:
        """Folds an f-string whose fields have no format except `!s` or `!r`."""
        parts: List[Known] = []
        for it in node.values:
            if isinstance(it, ast.FormattedValue):
                if it.format_spec is not None or it.conversion not in (-1, 114, 115):
                    raise NotKnown("formatting with a width")
                part = self.fold(it.value, unit)
                parts.append(made(texts.shown(part, it.conversion == 114), (part,)))
            else:
                parts.append(self.fold(it, unit))
        return texts.joined(Known(""), parts)

    def operation(self, node: ast.BinOp, unit: Unit) -> Known:
        """Folds `+`, `*`, `%` and `|`; a long sum is folded in a loop, so it isn't deep."""
        terms: List[ast.BinOp] = []
        left: ast.AST = node
        while isinstance(left, ast.BinOp):
            terms.append(left)
            left = left.left
        found = self.fold(left, unit)
        for it in reversed(terms):
            apply = OPERATORS.get(type(it.op).__name__)
            if apply is None:
                raise NotKnown("operator")
            self._steps += 1
            found = apply(found, self.fold(it.right, unit))
        return found

    def negative(self, node: ast.UnaryOp, unit: Unit) -> Known:
        """Folds `-` before a whole number."""
        part = self.fold(node.operand, unit)
        if isinstance(node.op, ast.USub) and isinstance(part.value, int):
            return made(-part.value, (part,))
        raise NotKnown("operator")

    def choice(self, node: ast.IfExp, unit: Unit) -> Known:
        """Folds `a if x else b`, which has two values."""
        key = _test_key(node, unit)
        at = self._at.get(key)
        if at is None:
            raise Varies(key, 2)
        return self.fold(node.orelse if at else node.body, unit)

    def name(self, node: ast.Name, unit: Unit) -> Known:
        """Folds a name."""
        home, nodes = unit.scopes.inside[node].lookup(node.id)
        if len(nodes) > MOST_VALUES:
            raise NotKnown("bound more than once")
        found = [it for it in (bound(one, unit.scopes) for one in nodes) if it.kind != "declared"]
        if home is None or not found:
            return self._from_star(node.id, unit)
        one = found[0] if len(found) == 1 else _in_line(found, home, unit, node) or self._of_branches(found, home, unit, node)
        if home.kind == "class" and (one.line >= node.lineno or unit.scopes.parents.get(one.above) is not home.node):
            raise NotKnown("bound later or in a branch")
        if home.kind == "module":
            self._check_module(node.id, one, unit, node)
        if one.kind == "loop":
            return self._of_loop(node.id, one, home, unit)
        if one.kind == "parameter" and one.node in self._given:
            return self._given[one.node]
        return self._bound(node.id, one, home, unit)

    def _of_branches(self, found: List[Bound], home: Scope, unit: Unit, load: Optional[ast.Name]) -> Bound:
        """The binding, in the branch that is chosen, of a name that each branch of one `if` binds once."""
        why = NotKnown("parameter" if any(it.kind == "parameter" for it in found) else "bound more than once")
        parents = unit.scopes.parents
        tops = [parents.get(it.above) for it in found]
        if any(it.kind != "value" for it in found) or any(not isinstance(it, ast.If) for it in tops) or home.kind == "class":
            raise why
        top: Any = min(tops, key=lambda it: getattr(it, "lineno", 0))
        branches, at = [top.body], top
        while len(at.orelse) == 1 and isinstance(at.orelse[0], ast.If):
            at = at.orelse[0]
            branches.append(at.body)
        branches.append(at.orelse)
        chosen = [[it for it in found if it.above in branch] for branch in branches]
        if any(len(it) != 1 for it in chosen) or sum(map(len, chosen)) != len(found):
            raise why
        inside: Any = load
        while inside is not None and inside is not top:
            inside = parents.get(inside)
        if inside is not None or load is not None and home.kind != "module" and unit.scopes.inside[load] is not home:
            raise why
        key = _test_key(top, unit) if len(branches) == 2 else top
        number = self._at.get(key)
        if number is None:
            raise Varies(key, len(branches))
        one: Bound = chosen[number][0]
        return one

    def _check_module(self, name: str, found: Bound, unit: Unit, load: Optional[ast.Name]) -> None:
        """Raises NotKnown if a name of the module may be bound by its text or by a star import."""
        if can_set_names(unit.scopes):
            raise NotKnown("names set by exec or globals()")
        if is_set(name, unit.scopes):
            raise NotKnown("attribute that is set")
        for it in _stars(unit.scopes):
            is_plain = unit.scopes.parents.get(found.above) is unit.scopes.tree and it.lineno < found.line
            if not is_plain or load is not None and load.lineno <= found.line:
                raise NotKnown("star import")

    def _of_loop(self, name: str, found: Bound, home: Scope, unit: Unit) -> Known:
        """The value of a loop's variable at the loop's present item."""
        if found.loop is None:
            raise NotKnown("loop")
        value: Any = self._at.get(found.loop)
        if value is None:
            raise Varies(found.loop, 0, found, home)
        if not isinstance(value, Known):
            raise NotKnown(value.why)
        for number, count in found.part:
            if not isinstance(value.value, Items) or len(value.value.items) != count:
                raise NotKnown("loop")
            value = made(value.value.items[number].value, (value, value.value.items[number]))
        self._check_kept(value, name, home, unit)
        return value if found.loop not in self._taken else self._held(value, name, found, home, unit)

    def _held(self, value: Known, name: str, found: Bound, home: Scope, unit: Unit) -> Known:
        """A value with the name that holds it, on which it depends if other files can bind it."""
        is_list = value.can_change()
        need = [Need("name", unit.path, name, is_list=is_list)] if home.kind == "module" else []
        if home.kind == "class" and is_list:
            need = [Need("attribute", unit.path, name, is_list=True)]
        return value.with_name(Holder(name, unit.path, found.line), *need)

    def _check_kept(self, value: Known, name: str, home: Scope, unit: Unit) -> None:
        """Raises NotKnown if code of the file may change the value of a name in place."""
        if value.is_nested():
            raise NotKnown("changed in place")
        if value.can_change():
            loads: List[ast.AST] = [*unit.scopes.loads(home, name)]
            if home.kind in ("module", "class"):
                loads += unit.scopes.attributes.get(name, ())
            if not all(is_kept(it, unit.scopes) for it in loads) or can_give(name, unit.scopes):
                raise NotKnown("changed in place")

    def _bound(self, name: str, found: Bound, home: Scope, unit: Unit) -> Known:
        """The value that a binding gives a name, folded once and kept."""
        kept = self._kept.get(found.node, False)
        if kept is None:
            raise NotKnown("recursion")
        if isinstance(kept, NotKnown):
            raise NotKnown(kept.why)
        if isinstance(kept, Known):
            return kept
        self._kept[found.node] = None
        try:
            value = self._value_of(name, found, home, unit)
        except Varies as error:
            del self._kept[found.node]
            if found.value is not None:
                error.through.append(found.value)
            raise
        except NotKnown as error:
            self._kept[found.node] = error
            raise
        self._kept[found.node] = value
        return value

    def _value_of(self, name: str, found: Bound, home: Scope, unit: Unit) -> Known:
        """Folds what a binding gives a name."""
        if found.kind == "import":
            value = self._from_import(found, unit)
            self._check_kept(value, name, home, unit)
            need = [Need("name", unit.path, name, is_list=value.can_change())] if home.kind == "module" else []
            return replace(value, needs=value.needs.union(need))
        if found.kind == "changed" and isinstance(found.above, ast.AugAssign):
            return self._held(self._grown(found, unit), name, found, home, unit)
        if found.kind != "value" or found.value is None:
            raise NotKnown(found.kind)
        value = self.fold(found.value, unit)
        if value.can_change() and isinstance(found.above, ast.Assign) and len(found.above.targets) > 1:
            raise NotKnown("changed in place")
        self._check_kept(value, name, home, unit)
        return self._held(value, name, found, home, unit)

    def _grown(self, found: Bound, unit: Unit) -> Known:
        """The text or number that a statement such as `name += ..` gives."""
        apply = OPERATORS.get(type(found.above.op).__name__)
        value = apply(self.fold(found.node, unit), self.fold(found.above.value, unit)) if apply else Known(None)
        if not isinstance(value.value, (str, bytes, int)):
            raise NotKnown("changed in place" if apply else "operator")
        return value

    def display(self, node: ast.expr, unit: Unit, takes: Callable[[ast.AST], bool]) -> Tuple[ast.expr, List[Known]]:
        """Returns the list, tuple or dictionary that a name holds, as it is written, and the name as what holds a value.

        Nothing in the file may change it: all loads of the name are arguments for which `takes` says so. Otherwise it returns
        what it got.
        """
        home, nodes = unit.scopes.inside[node].lookup(node.id) if isinstance(node, ast.Name) else (None, [])
        found = bound(nodes[0], unit.scopes) if len(nodes) == 1 else None
        if home is None or found is None or not isinstance(node, ast.Name) or found.value is None or found.kind != "value":
            return node, []
        loads: List[ast.AST] = [*unit.scopes.loads(home, node.id)]
        loads += unit.scopes.attributes.get(node.id, ()) if home.kind == "module" else []
        is_alone = isinstance(found.above, ast.Assign) and len(found.above.targets) == 1 and (
            unit.scopes.parents.get(found.above) is home.node)
        if home.kind == "class" or not is_alone or not all(map(takes, loads)) or can_give(node.id, unit.scopes):
            return node, []
        try:
            if home.kind == "module":
                self._check_module(node.id, found, unit, node)
        except NotKnown:
            return node, []
        need = [Need("name", unit.path, node.id, is_list=True)] if home.kind == "module" else []
        return found.value, [Known(None).with_name(Holder(node.id, unit.path, found.line), *need)]

    def _from_import(self, found: Bound, unit: Unit) -> Known:
        """The value of a name that an import binds: a flag, or a name of another source."""
        if isinstance(found.above, ast.Import):
            raise NotKnown("import from outside")
        module = "." * found.above.level + (found.above.module or "")
        if module in ("re", "regex") and found.node.name in FLAGS:
            return Known(FLAGS[found.node.name])
        path = self.sources.find(module, unit.path)
        if path is None and module == "string" and found.node.name in CHARACTERS:
            return Known(getattr(string, found.node.name))
        if path is None:
            raise NotKnown("import from outside")
        return self._member(path, found.node.name)

    def _member(self, path: str, name: str) -> Known:
        """The value of a name at the top level of a source."""
        other = self.sources.get(path)
        if other is None:
            raise NotKnown("import from a file that can't be read")
        home = other.scopes.module
        found = [it for it in (bound(one, other.scopes) for one in home.bindings.get(name, ())) if it.kind != "declared"]
        if not found:
            return self._from_star(name, other)
        one = self._of_branches(found, home, other, None) if len(found) > 1 else found[0]
        self._check_module(name, one, other, None)
        return self._bound(name, one, home, other)

    def _from_star(self, name: str, unit: Unit) -> Known:
        """The value of a name that only a star import can bind: the only one, from a source without `__all__`."""
        stars = _stars(unit.scopes)
        if stars and is_set(name, unit.scopes):
            raise NotKnown("attribute that is set")
        modules = {"." * it.level + (it.module or "") for it in stars}
        path = self.sources.find(modules.pop(), unit.path) if len(modules) == 1 else None
        if path is None or name.startswith("_") or self._depth >= DEEPEST or can_set_names(unit.scopes):
            raise NotKnown("star import" if stars else "not bound")
        self._depth += 1
        try:
            other = self.sources.get(path)
            if other is None or "__all__" in other.scopes.module.bindings:
                raise NotKnown("star import")
            value = self._member(path, name)
            self._check_kept(value, name, unit.scopes.module, unit)
            return replace(value, needs=value.needs | {Need("name", unit.path, name, is_list=value.can_change())})
        finally:
            self._depth -= 1

    def attribute(self, node: ast.Attribute, unit: Unit) -> Known:
        """Folds a flag, a name of another source, an attribute of a class, or an enum member's `.value`."""
        full = self.qualified(node, unit)
        front, _, last = (full or "").rpartition(".")
        if front in ("re", "regex", "re.RegexFlag") and last in FLAGS:
            return Known(FLAGS[last])
        place = self._place_of(node, unit)
        if place is not None:
            return self._member(*place)
        if front == "string" and last in CHARACTERS:
            return Known(getattr(string, last))
        if node.attr == "value" and isinstance(node.value, ast.Attribute):
            found = self.class_of(node.value.value, unit)
            if found is not None:
                return self._of_enum(node.value.attr, *found[0])
        found = self.class_of(node.value, unit)
        if found is None:
            raise NotKnown("attribute")
        is_private = found[1] and node.attr.startswith("__") and not node.attr.endswith("__")
        name = f"_{found[0][0].name.lstrip('_')}{node.attr}" if is_private else node.attr
        value = self._of_class(name, found[0], found[1], 0)
        if value is None:
            raise NotKnown("attribute")
        is_named = not found[1] and isinstance(node.value, (ast.Name, ast.Attribute))
        need = Need("name", found[0][1].path, found[0][0].name)
        return value.with_name(value.holders[0], need) if is_named and value.holders else value

    # Classes.

    def _of_enum(self, name: str, node: ast.ClassDef, unit: Unit) -> Known:
        """The value of a member of an enum."""
        scope = unit.scopes.scopes[node]
        found = [bound(it, unit.scopes) for it in scope.bindings.get(name, ())]
        is_plain = not node.decorator_list and not {"__new__", "__init__"} & set(scope.bindings)
        if not (is_plain and node.bases and all(last_name(it) in ENUMS for it in node.bases)) or len(found) != 1:
            raise NotKnown("member of an enum")
        return self._bound(name, found[0], scope, unit)

    def _of_class(self, name: str, found: Class, is_own: bool, depth: int) -> Optional[Known]:
        """The value of an attribute of a class or of one of its bases; None if none of them binds it."""
        node, unit = found
        self._check_class(node, unit, depth)
        bases = [it for it in node.bases if not self._is_plain_base(it, unit)]
        its = binders(name, unit.scopes)
        mine = [it for it in its if it.owner is node]
        if not mine:
            for base in bases:
                above = self.class_of(base, unit)
                value = self._of_class(name, above[0], is_own, depth + 1) if above else None
                if value is not None:
                    if any(above is None or it.owner is not above[0][0] for it in its):
                        raise NotKnown("attribute that is set")
                    return value
            return None
        others = [it for it in its if it.owner is not node]
        is_alone = depth == 0 and all(map(_is_object, node.bases)) and is_leaf(node, unit.scopes)
        if len(mine) > 1 or any(it.owner is None for it in its) or others and not is_alone or can_set_attributes(unit.scopes):
            raise NotKnown("attribute that is set")
        value = self._of_binder(name, mine[0], unit, is_own)
        need = Need("attribute", unit.path, name, node.name if is_alone else "", value.can_change())
        return value.with_name(Holder(name, unit.path, mine[0].node.lineno), need)

    def _of_binder(self, name: str, binder: Binder, unit: Unit, is_own: bool) -> Known:
        """The value that a class's body, or an assignment to `self`, gives an attribute."""
        node, owner = binder.node, binder.owner
        assert owner is not None
        scope = unit.scopes.scopes[owner]
        if isinstance(node, ast.Attribute):
            above: Any = unit.scopes.parents.get(node)
            is_one = isinstance(above, ast.AnnAssign) or isinstance(above, ast.Assign) and len(above.targets) == 1
            if not is_own or not is_one or above.value is None or "__setattr__" in scope.bindings:
                raise NotKnown("attribute that is set")
            try:
                value = self.fold(above.value, unit)
            except Varies as error:
                error.through.append(above.value)
                raise
            self._check_kept(value, name, scope, unit)
            return value
        found = bound(node, unit.scopes)
        has_fields = owner.decorator_list or any(not _is_object(it) for it in owner.bases)
        if isinstance(found.above, ast.AnnAssign) and has_fields and "ClassVar" not in ast.dump(found.above.annotation):
            raise NotKnown("field")
        return self._bound(name, found, scope, unit)

    def _check_class(self, node: ast.ClassDef, unit: Unit, depth: int) -> None:
        """Raises NotKnown for a class whose attributes code that isn't seen may set or read in another way."""
        is_plain = all(last_name(it) in PLAIN_DECORATORS for it in node.decorator_list)
        if not is_plain or any(it.arg != "metaclass" or last_name(it.value) != "ABCMeta" for it in node.keywords):
            raise NotKnown("class that is made by others")
        if "__getattribute__" in unit.scopes.scopes[node].bindings or depth > 8:
            raise NotKnown("class with attributes of its own")
        for base in node.bases:
            if not self._is_plain_base(base, unit):
                above = self.class_of(base, unit)
                if above is None or above[0][0] is node or can_set_attributes(above[0][1].scopes):
                    raise NotKnown("attribute of a base class")
                self._check_class(*above[0], depth + 1)

    def _is_plain_base(self, node: ast.AST, unit: Unit) -> bool:
        """Whether a base is `object`, an exception, or one from outside that is known to be harmless."""
        if isinstance(node, ast.Subscript):
            node = node.value
        if isinstance(node, ast.Name) and not unit.scopes.meant(node):
            return not _stars(unit.scopes) and (node.id == "object" or node.id.endswith(("Error", "Exception")))
        return self.qualified(node, unit) in PLAIN_BASES

    def class_of(self, node: ast.AST, unit: Unit) -> Optional[Tuple[Class, bool]]:
        """The class that an expression names, and whether that is `self`, `cls`, or their `__class__`; None if it is none."""
        own = self_class(node, unit.scopes)
        if own is not None:
            return (own, unit), True
        if isinstance(node, ast.Name):
            nodes = unit.scopes.meant(node)
            if len(nodes) == 1 and isinstance(nodes[0], ast.ClassDef):
                return (nodes[0], unit), False
        place = self._place_of(node, unit)
        other = self.sources.get(place[0]) if place else None
        nodes = other.scopes.module.bindings.get(place[1], []) if other and place else []
        if other is None or len(nodes) != 1 or not isinstance(nodes[0], ast.ClassDef):
            return None
        return (nodes[0], other), False

    # Sequences, dictionaries and calls.

    def sequence(self, node: Any, unit: Unit) -> Known:
        """Folds a list or a tuple; for loops also a set, in the order of the source."""
        items: List[Known] = []
        for it in node.elts:
            items += self.items(it.value, unit) if isinstance(it, ast.Starred) else [self.fold(it, unit)]
        return made(Items(tuple(items), isinstance(node, ast.List)), items)

    def table(self, node: ast.Dict, unit: Unit) -> Known:
        """Folds a dictionary whose keys are texts or whole numbers, and which has no `**`."""
        items: Dict[Any, Known] = {}
        for key, value in zip(node.keys, node.values):
            known = self.fold(key, unit) if key is not None else None
            if known is None or not isinstance(known.value, (str, bytes, int)):
                raise NotKnown("dictionary")
            if isinstance(known.value, str):
                known.whole()
            items[known.value] = self.fold(value, unit)
        return made(Table(items), items.values())

    def subscript(self, node: ast.Subscript, unit: Unit) -> Known:
        """Folds an item of a sequence or a dictionary, or a slice of a sequence or a text."""
        subject = self.fold(node.value, unit)
        value: Any = subject.value
        if isinstance(node.slice, ast.Slice):
            given = (node.slice.lower, node.slice.upper, node.slice.step)
            ends = [None if it is None else self.fold(it, unit).value for it in given]
            if any(it is not None and not isinstance(it, int) for it in ends) or ends[2] == 0:
                raise NotKnown("subscript")
            taken = slice(*ends)
            if isinstance(value, Items):
                return made(Items(value.items[taken], value.is_list), (subject,))
            return made(subject.whole()[taken], (subject,))
        key = self.fold(node.slice, unit).value
        is_there = isinstance(value, Table) and isinstance(key, (str, bytes, int)) and key in value.items
        if is_there or isinstance(value, Items) and isinstance(key, int) and -len(value.items) <= key < len(value.items):
            return made(value.items[key].value, (subject, value.items[key]))
        raise NotKnown("subscript")

    def call(self, node: ast.Call, unit: Unit) -> Known:
        """Folds a call of `re.escape`, `textwrap.dedent`, a builtin, or a method of a text."""
        full = self.qualified(node.func, unit)
        is_single = len(node.args) == 1 and not node.keywords
        if full in ("re.escape", "regex.escape") and is_single:
            return self._escape(node.args[0], unit)
        if full == "textwrap.dedent" and is_single:
            return texts.dedented(self.fold(node.args[0], unit))
        if full == "fnmatch.translate" and is_single:
            return texts.translated(self.fold(node.args[0], unit))
        if full in ("re.compile", "regex.compile"):
            raise NotKnown(COMPILED)
        if isinstance(node.func, ast.Name) and not unit.scopes.meant(node.func) and not _stars(unit.scopes):
            return self._builtin(node.func.id, node, unit)
        if isinstance(node.func, ast.Attribute) and full is None:
            return self._method(node.func, node, unit)
        raise NotKnown("call")

    def _escape(self, node: ast.AST, unit: Unit) -> Known:
        """The value of `re.escape(node)`; if `node` isn't known, a word in its place."""
        try:
            return texts.escaped(self.fold(node, unit))
        except Varies:
            raise
        except NotKnown:
            return texts.stand_in(f"re.escape({_shortened(node)})")[0]

    def _builtin(self, name: str, node: ast.Call, unit: Unit) -> Known:
        """The value of a call of range, zip, enumerate, list, tuple, reversed, sorted, str, or dict with keywords."""
        if name == "dict" and not node.args and all(it.arg is not None for it in node.keywords):
            table: Dict[Any, Known] = {it.arg: self.fold(it.value, unit) for it in node.keywords}
            return made(Table(table), table.values())
        if node.keywords or any(isinstance(it, ast.Starred) for it in node.args):
            raise NotKnown("call")
        if name == "range":
            return _range([self.fold(it, unit).value for it in node.args])
        if name == "zip":
            return _rows(list(zip(*(self.items(it, unit) for it in node.args))))
        if len(node.args) != 1:
            raise NotKnown("call")
        if name == "enumerate":
            return _rows([(Known(number), it) for number, it in enumerate(self.items(node.args[0], unit))])
        if name in ("list", "tuple", "reversed", "sorted"):
            items = self.items(node.args[0], unit)
            if name == "sorted":
                items = sorted(items, key=lambda it: it.whole())
            elif name == "reversed":
                items = items[::-1]
            return made(Items(tuple(items), name != "tuple"), items)
        if name == "str":
            part = self.fold(node.args[0], unit)
            return made(texts.shown(part), (part,))
        raise NotKnown("call")

    def _method(self, function: ast.Attribute, node: ast.Call, unit: Unit) -> Known:
        """The value of a call of a method of a known text, or of `get` of a dictionary."""
        if any(isinstance(it, ast.Starred) for it in node.args) or any(it.arg is None for it in node.keywords):
            raise NotKnown("call")
        subject = self.fold(function.value, unit)
        if function.attr == "join" and len(node.args) == 1 and not node.keywords:
            return self._join(subject, node.args[0], unit)
        parts = [self.fold(it, unit) for it in node.args]
        if function.attr == "format":
            return texts.formatted(subject, parts, {str(it.arg): self.fold(it.value, unit) for it in node.keywords})
        if node.keywords:
            raise NotKnown("call")
        return texts.method(function.attr, subject, parts)

    def _join(self, separator: Known, node: ast.AST, unit: Unit) -> Known:
        """The value of `separator.join(node)`; if the items aren't known but all escaped, two words in their place."""
        try:
            return texts.joined(separator, self.items(node, unit))
        except Varies:
            raise
        except NotKnown:
            words = self._escapes_of(node, unit)
            if words is None:
                raise
            return texts.joined(separator, texts.stand_in(words, 2))

    def _escapes_of(self, node: ast.AST, unit: Unit) -> Optional[str]:
        """The code of an expression, for a note, if `re.escape` made each of its items; otherwise None."""
        if isinstance(node, (ast.GeneratorExp, ast.ListComp)):
            element = node.elt
            if isinstance(element, ast.Call) and self.qualified(element.func, unit) == "re.escape":
                return _shortened(element)
        return _shortened(node) if self._maps_escape(node, unit) else None

    def _maps_escape(self, node: ast.AST, unit: Unit) -> bool:
        """Whether an expression is `map(re.escape, ..)`."""
        if not isinstance(node, ast.Call) or not isinstance(node.func, ast.Name) or len(node.args) != 2:
            return False
        return node.func.id == "map" and self.qualified(node.args[0], unit) == "re.escape"

    def items(self, node: ast.AST, unit: Unit) -> List[Known]:
        """The items of a loop over an expression, in order, such as the keys of a dictionary."""
        if isinstance(node, (ast.GeneratorExp, ast.ListComp)):
            return self._comprehended(node, unit)
        if isinstance(node, ast.Call) and self._maps_escape(node, unit):
            return [texts.escaped(it) for it in self.items(node.args[1], unit)]
        function = node.func if isinstance(node, ast.Call) and not node.args else None
        kind = function.attr if isinstance(function, ast.Attribute) else ""
        if isinstance(function, ast.Attribute) and kind in ("keys", "values", "items"):
            found = self.fold(function.value, unit)
            if not isinstance(found.value, Table):
                raise NotKnown("call")
        else:
            found, kind = self.fold(node, unit), "keys"
        value: Any = found.value
        if isinstance(value, Table):
            if kind == "items":
                return [made(Items((Known(key), it)), (found, it)) for key, it in value.items.items()]
            return [made(key if kind == "keys" else it.value, (found, it)) for key, it in value.items.items()]
        if isinstance(value, Items):
            return [made(it.value, (found, it)) for it in value.items]
        if isinstance(value, str):
            return [made(it, (found,)) for it in str(found.whole())]
        raise NotKnown("loop over another kind")

    def _comprehended(self, node: Any, unit: Unit) -> List[Known]:
        """The items of a list comprehension or generator with one loop over known items and no condition."""
        loop = node.generators[0]
        if len(node.generators) != 1 or loop.ifs or loop.is_async or loop in self._at:
            raise NotKnown("comprehension")
        items = self.items(loop.iter, unit)
        found: List[Known] = []
        kept = self._kept
        try:
            for it in items:
                self._kept = ChainMap({}, kept)
                self._at[loop] = it
                found.append(self.fold(node.elt, unit))
        finally:
            self._kept = kept
            self._at.pop(loop, None)
        return found

    def comprehension(self, node: Any, unit: Unit) -> Known:
        """Folds a list comprehension with one loop over known items and no condition."""
        items = self._comprehended(node, unit)
        return made(Items(tuple(items), True), items)


def _in_line(found: Sequence[Bound], home: Scope, unit: Unit, load: ast.Name) -> Optional[Bound]:
    """The last binding of a name before a load in its scope, if all bindings are statements of a block that the load is in."""
    parents = unit.scopes.parents
    top: Any = parents.get(found[0].above)
    blocks = {(parents.get(it.above), _block(it.above, parents.get(it.above))) for it in found}
    at: Any = load
    while at is not None and parents.get(at) is not top:
        at = parents.get(at)
    is_plain = all(it.kind in ("value", "changed") for it in found) and unit.scopes.inside[load] is home
    if not is_plain or len(blocks) != 1 or at is None or (top, _block(at, top) or None) not in blocks:
        return None
    before = [it for it in found if _span(it.above) < _span(at)]
    return max(before, key=lambda it: _span(it.above)) if before else None


def _block(node: Any, above: Any) -> str:
    """The field of a statement that holds another one in a list; "" if none does."""
    for name in ("body", "orelse", "finalbody"):
        its = getattr(above, name, None)
        if isinstance(its, list) and isinstance(node, ast.stmt) and its and _span(its[0]) <= _span(node) <= _span(its[-1]):
            return name
    return ""


def _stars(names: Names) -> List[ast.ImportFrom]:
    """The star imports of a source."""
    return [it for it in names.imports if isinstance(it, ast.ImportFrom) and it.names[0].name == "*"]


def _test_key(node: Any, unit: Unit) -> Hashable:
    """What identifies a choice: a name that a module binds once decides the same wherever it is the test."""
    test = node.test
    if isinstance(test, ast.Name):
        home, nodes = unit.scopes.inside[test].lookup(test.id)
        if home is unit.scopes.module and len(nodes) == 1 and not can_set_names(unit.scopes):
            return unit.path, test.id
    return id(node)


def _is_object(node: ast.AST) -> bool:
    """Whether a base is named `object`."""
    return isinstance(node, ast.Name) and node.id == "object"


def _range(ends: List[Any]) -> Known:
    """The numbers of `range(*ends)` as a tuple."""
    if not 1 <= len(ends) <= 3 or any(type(it) is not int for it in ends) or ends[2:] == [0]:
        raise NotKnown("call")
    # (the slice has a length that fits in an index, which the whole range may not have)
    numbers = range(*ends)[:texts.LONGEST_LIST + 1]
    return made(Items(tuple(map(Known, numbers))))


def _rows(rows: List[Tuple[Known, ...]]) -> Known:
    """The rows of `zip` or `enumerate` as a tuple of tuples."""
    found = [made(Items(row), row) for row in rows]
    return made(Items(tuple(found)), found)


def _shortened(node: ast.AST) -> str:
    """An expression as text, for notes."""
    try:
        text = ast.unparse(node)
    except (RecursionError, ValueError):
        return ".."
    return text if len(text) <= 40 else text[:38] + ".."


def _span(node: Any) -> Tuple[Tuple[int, int], Tuple[int, int]]:
    """Where an expression or a statement begins and ends."""
    return (node.lineno, node.col_offset), (node.end_lineno, node.end_col_offset)


def _is_within(inner: Tuple[Any, Any], outer: Tuple[Any, Any]) -> bool:
    """Whether a span lies within another one."""
    return bool(outer[0] <= inner[0] and inner[1] <= outer[1])


def _tests_of(top: Any) -> List[ast.expr]:
    """The tests in a node and below it."""
    found: List[ast.expr] = []
    for node in ast.walk(top):
        if isinstance(node, (ast.If, ast.While, ast.IfExp, ast.Assert)):
            found.append(node.test)
        elif isinstance(node, ast.BoolOp):
            found += node.values[:-1]
        elif isinstance(node, ast.comprehension):
            found += node.ifs
        elif type(node).__name__ in ("Match", "match_case"):
            found += [it for it in (getattr(node, "subject", None), getattr(node, "guard", None)) if it is not None]
    return found


def _is_on(test: ast.expr, names: Set[str]) -> bool:
    """Whether a test contains one of the names, except in an argument of a method with the name of a function of `re`."""
    left: List[ast.AST] = [test]
    while left:
        node = left.pop()
        if isinstance(node, ast.Name) and node.id in names:
            return True
        is_match = isinstance(node, ast.Call) and isinstance(node.func, ast.Attribute) and node.func.attr in FLAGS_AT
        left += [node.func] if is_match and isinstance(node, ast.Call) else ast.iter_child_nodes(node)
    return False


OPERATORS: Dict[str, Callable[[Known, Known], Known]] = {
    "Add": texts.plus, "Mult": texts.times, "Mod": texts.percent, "BitOr": texts.either,
}
FOLDERS: Dict[str, Callable[[Folder, Any, Unit], Known]] = {
    "Constant": Folder.constant, "JoinedStr": Folder.f_string, "BinOp": Folder.operation, "Name": Folder.name,
    "Attribute": Folder.attribute, "List": Folder.sequence, "Tuple": Folder.sequence, "Dict": Folder.table,
    "UnaryOp": Folder.negative, "Subscript": Folder.subscript, "Call": Folder.call, "ListComp": Folder.comprehension,
    "IfExp": Folder.choice,
}
# Words for the reason why an expression of another kind isn't known.
WORDS = {"BoolOp": "choice", "Lambda": "function", "Await": "call", "GeneratorExp": "comprehension"}
