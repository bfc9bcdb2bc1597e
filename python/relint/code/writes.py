"""Tells whether code may bind a name or an attribute again, or change in place what it holds.

Only where that can be ruled out is a value known. What isn't seen: code outside of the project.
"""
from __future__ import annotations

import ast
import os
import re
from typing import Any, Dict, List, NamedTuple, Optional, Sequence, Set, Tuple

from .elsewhere import BEHIND_DOT, LETTERS, WORDS, as_python_reads, import_statements
from .names import FUNCTIONS, Names
from .source import SourceError, Unit
from .texts import Need

# Functions that take a list and leave it as it is, methods of lists and dictionaries that do, and functions that test a class.
TAKING = frozenset((
    "all", "any", "bool", "enumerate", "filter", "frozenset", "isinstance", "len", "list", "max", "min", "print", "range",
    "repr", "set", "sorted", "str", "sum", "tuple", "type", "zip", "map", "reversed",
))
READING = frozenset(("items", "keys", "values", "get", "index", "count", "copy"))
ASKING = frozenset(("isinstance", "issubclass", "super", "type", "cast", "len", "repr", "print"))
OPEN = frozenset(("__dict__", "__subclasses__", "__bases__", "__mro__", "mro", "__setattr__", "__new__"))
# Ways to bind a name that is given as a text.
SETTERS = ("setattr", "delattr", "__setattr__", "__delattr__")
WRITERS = (*SETTERS, "vars", "globals", "locals", "__dict__", "modules", "patch", "new_class", "make_dataclass")
GIVERS = ("getattr", "attrgetter", "globals", "vars", "locals", "eval", "exec", "__dict__", "getmembers", "get_objects")
# Names and dots in front of a dot, and a name with blanks between it and a dot.
CHAIN, APART = re.compile(rb"[\w\x80-\xff.]+\Z"), re.compile(rb"\.[\s\\]+([\w\x80-\xff]+)")
# What gives a module by its name, or by what stands in it.
REACHING = ("modules", "import_module", "__import__", "getmodule")
# Words without which a file doesn't bind by a text at all.
WRITING = (b"setattr", b"delattr", b"vars", b"__dict__", b"getattr", b"attrgetter", b"getmembers", b"globals", b"locals",
           b"modules", b"patch", b"eval", b"type", b"new_class", b"make_dataclass")
CONSTANT = re.compile(rb"etattr\s*\(\s*[\w.\[\]]+\s*,\s*[\"']\w+[\"']\s*[,)]")
VARS, TYPE, DELETES = re.compile(rb"(?<![\w.])vars\b"), re.compile(rb"type[\s\\]*\("), re.compile(rb"\bdel\b")
# The module from which an import statement takes names.
FROM = re.compile(rb"\bfrom[ \t]+[\w.\x80-\xff]+[ \t]+(?=import\b)")
# Up to so many names are looked for one by one; for more, the bytes are split into words, of which these are the letters.
FEW = 40
SPACED = bytes(it if bytes((it,)) in LETTERS else 32 for it in range(256))
# What stands behind an attribute that may be bound: an assignment, a target, a loop, `with`, or the end of a line.
STORED = r"\.\s*{}\s*(?:=(?!=)|[-+*/%&|^@]=|//=|\*\*=|<<=|>>=|[,)\]:]|\\|in\b|\n|\Z|#|;)"


class Binder(NamedTuple):
    """A node that binds an attribute: in the body of the class `owner` or on `self` in it; None is for other objects."""

    node: Any
    owner: Optional[ast.ClassDef]


def last_name(node: Optional[ast.AST]) -> str:
    """Returns the last part of a dotted name or of the name that is called, "b" for `a.b` and `a.b(1)`; "" for the rest."""
    named = node.func if isinstance(node, ast.Call) else node
    return named.attr if isinstance(named, ast.Attribute) else named.id if isinstance(named, ast.Name) else ""


def self_class(node: ast.AST, names: Names) -> Optional[ast.ClassDef]:
    """Returns the class whose object, or which itself, an expression names as the first parameter of a method, or None."""
    if isinstance(node, ast.Attribute) and node.attr == "__class__":
        node = node.value
    if not isinstance(node, ast.Name):
        return None
    home, bound = names.inside[node].lookup(node.id)
    function = home.node if home is not None and len(bound) == 1 and isinstance(bound[0], ast.arg) else None
    if not isinstance(function, (ast.FunctionDef, ast.AsyncFunctionDef)):
        return None
    first = [*function.args.posonlyargs, *function.args.args][:1]
    is_static = any(last_name(it) == "staticmethod" for it in function.decorator_list)
    owner = home.parent.node if home is not None and home.parent is not None else None
    return owner if not is_static and first and first[0] is bound[0] and isinstance(owner, ast.ClassDef) else None


def binders(name: str, names: Names) -> List[Binder]:
    """Returns all nodes that bind an attribute of this name, in the bodies of classes and on objects."""
    found = [Binder(node, scope.node) for scope in names.scopes.values() if isinstance(scope.node, ast.ClassDef)
             for node in scope.bindings.get(name, ()) if not _is_declared(node, names)]
    stores = [it for it in names.attributes.get(name, ()) if not isinstance(it.ctx, ast.Load)]
    found += [Binder(it, self_class(it.value, names)) for it in stores]
    if by_text(name, names):
        found.append(Binder(None, None))
    return found


def _is_declared(node: ast.AST, names: Names) -> bool:
    """Whether a node only declares a name, as `x: int` does."""
    above = names.parents.get(node)
    return isinstance(above, ast.AnnAssign) and above.value is None


def _loads(word: str, names: Names) -> List[Any]:
    """The loads of a builtin or of a name of the module, and of an attribute."""
    return [*names.loads(names.module, word), *names.attributes.get(word, ())]


def by_text(name: str, names: Names) -> bool:
    """Returns whether a name is in a string of a source that may bind names that it has as texts."""
    if name not in names.ways():
        return False
    makes = any(isinstance(call, ast.Call) and len(call.args) > 2 for call in map(names.parents.get, _loads("type", names)))
    return makes or any(_loads(it, names) for it in WRITERS)


def is_set(name: str, names: Names) -> bool:
    """Returns whether a source may bind a name of a module as an attribute or by a text."""
    stores = (it for it in names.attributes.get(name, ()) if not isinstance(it.ctx, ast.Load))
    return by_text(name, names) or any(self_class(it.value, names) is None for it in stores)


def can_set_attributes(names: Names, is_module: bool = False) -> bool:
    """Returns whether a source may bind attributes by names that aren't written in it; with `is_module`, those of modules."""
    for word in SETTERS:
        for load in _loads(word, names):
            call = names.parents.get(load)
            if not isinstance(call, ast.Call) or call.func is not load:
                return True
            given = [*call.args, *(it.value for it in call.keywords)]
            is_plain = any(isinstance(it, ast.Constant) and isinstance(it.value, str) for it in given[:2])
            is_other = is_module and bool(given) and self_class(given[0], names) is not None
            # (a module of `sys.modules` is no pattern)
            is_other = is_other or is_module and any(isinstance(it, ast.Subscript) and last_name(it.value) == "modules"
                                                     for it in given[2:3])
            if not is_plain and not is_other and not (word[0] == "_" and _is_super(load)):
                return True
    for load in names.loads(names.module, "vars"):
        call = names.parents.get(load)
        if not isinstance(call, ast.Call) or call.args and not _is_read(call, names):
            return True
    makes = [it for it in map(names.parents.get, _loads("type", names)) if isinstance(it, ast.Call) and len(it.args) > 2]
    if not is_module and any(not _has_constant_keys(it.args[2]) for it in makes):
        return True
    return any(not _is_read(it, names) for it in names.attributes.get("__dict__", ())
               if not (is_module and self_class(it.value, names)))


def _has_constant_keys(node: ast.AST) -> bool:
    """Whether an expression is a dictionary whose keys are all written there."""
    return isinstance(node, ast.Dict) and all(isinstance(it, ast.Constant) for it in node.keys)


def _is_super(node: Any) -> bool:
    """Whether a method is taken of `super()`, as one calls it that is inherited."""
    return isinstance(node, ast.Attribute) and last_name(node.value) == "super"


def can_give(name: str, names: Names) -> bool:
    """Returns whether a source may get what a name or an attribute holds without writing the name."""
    for word in GIVERS:
        for load in _loads(word, names):
            call = names.parents.get(load)
            given = call.args[1:2] if isinstance(call, ast.Call) and call.func is load and word == "getattr" else []
            if not given or not isinstance(given[0], ast.Constant) or given[0].value == name:
                return True
    return False


def can_set_names(names: Names) -> bool:
    """Returns whether a source may bind names of its module by their texts."""
    if names.loads(names.module, "exec") or names.loads(names.module, "execfile"):
        return True
    for word in ("globals", "vars", "locals"):
        for load in names.loads(names.module, word):
            call = names.parents.get(load)
            if not isinstance(call, ast.Call) or call.func is not load:
                return True
            is_module = word == "globals" or names.inside[load].kind in ("module", "class")
            if not call.args and is_module and not _is_read(call, names):
                return True
    return any(_loads(it, names) for it in REACHING) and can_set_attributes(names, True)


def _is_read(node: ast.AST, names: Names) -> bool:
    """Whether a dictionary of names is only read where it stands, or gets a constant key."""
    above: Any = names.parents.get(node)
    if isinstance(above, ast.Subscript) and above.value is node:
        return isinstance(above.ctx, ast.Load)
    return is_kept(node, names) or isinstance(above, ast.keyword) and above.arg is None or (
        isinstance(above, ast.Call) and isinstance(above.func, ast.Name) and above.func.id in ("eval", "hasattr", "dict"))


def is_kept(node: ast.AST, names: Names) -> bool:
    """Returns whether what an expression gives, a list or a dictionary without others in it, isn't changed where it stands."""
    if not isinstance(getattr(node, "ctx", ast.Load()), ast.Load):
        return isinstance(node, ast.Name)
    above: Any = names.parents.get(node)
    if isinstance(above, ast.Subscript):
        return above.value is node and isinstance(above.ctx, ast.Load)
    if isinstance(above, ast.Attribute):
        call = names.parents.get(above)
        return above.attr in READING and isinstance(call, ast.Call) and call.func is above
    if isinstance(above, ast.Call):
        if isinstance(above.func, ast.Attribute):
            return above.func.attr == "join" and len(above.args) == 1
        if not isinstance(above.func, ast.Name) or names.meant(above.func):
            return False
        return above.func.id in TAKING and node in above.args
    if isinstance(above, (ast.For, ast.comprehension)):
        return above.iter is node
    if isinstance(above, ast.BinOp):
        return isinstance(above.op, (ast.Add, ast.Mult, ast.Mod))
    if isinstance(above, (ast.If, ast.While, ast.IfExp, ast.Assert)):
        return above.test is node
    if isinstance(above, ast.UnaryOp):
        return isinstance(above.op, ast.Not)
    if isinstance(above, ast.Dict):
        return any(key is None and value is node for key, value in zip(above.keys, above.values))
    return isinstance(above, (ast.Compare, ast.Starred, ast.FormattedValue, ast.Expr))


def is_alone(name: str, node: ast.ClassDef, names: Names) -> bool:
    """Returns whether only the body of a class binds an attribute of its objects, as far as a source can tell.

    The class has no base and no class below it, so it is alone with the name.
    """
    its = binders(name, names)
    is_plain = all(isinstance(it, ast.Name) and it.id == "object" for it in node.bases) and not node.keywords
    return is_plain and not node.decorator_list and is_leaf(node, names) and not can_set_attributes(names) and (
        len([it for it in its if it.owner is node]) == 1 and all(it.owner is not None for it in its))


def is_leaf(node: ast.ClassDef, names: Names) -> bool:
    """Returns whether a source has no class below this one, and gives the class to nothing that may change it."""
    return _is_untouched(node.name, names)


def _is_untouched(name: str, names: Names) -> bool:
    """Whether all loads of a class's name only call it, read an attribute of it, or ask for it."""
    loads = [*(it for it in names.inside if isinstance(it, ast.Name) and it.id == name and isinstance(it.ctx, ast.Load)),
             *names.attributes.get(name, ())]
    return name not in names.ways() and all(_is_asked(it, names) for it in loads)


def _is_asked(node: Any, names: Names) -> bool:
    """Whether an expression that may name a class can't change it where it stands."""
    above: Any = names.parents.get(node)
    if isinstance(above, ast.Call):
        return above.func is node or isinstance(above.func, ast.Name) and above.func.id in ASKING
    if isinstance(above, ast.Attribute):
        return above.attr not in OPEN
    if isinstance(above, (ast.Raise, ast.ExceptHandler, ast.Compare, ast.Expr)):
        return True
    child = node
    while isinstance(above, (ast.Subscript, ast.Tuple, ast.List, ast.BinOp)) and getattr(above, "value", None) is not child:
        child, above = above, names.parents.get(above)
    if isinstance(above, (ast.arg, ast.arguments)) or isinstance(above, ast.AnnAssign):
        return getattr(above, "annotation", None) is child
    return isinstance(above, FUNCTIONS) and getattr(above, "returns", None) is child


# Other files.

class Changes:
    """What is asked of many files: whether they may bind some names again, or change what these hold."""

    def __init__(self, needs: Sequence[Need]) -> None:
        """Takes the names."""
        self.needs = needs
        self._by_name: Dict[bytes, List[int]] = {}
        self._by_stem: Dict[bytes, List[int]] = {}
        for at, it in enumerate(needs):
            for name in {it.name, it.owner} - {""}:
                self._by_name.setdefault(name.encode(), []).append(at)
            self._by_stem.setdefault(_stem(it.path), []).append(at)
        self._asked_of_imports = {name.encode() for it in needs if it.is_list or it.owner for name in (it.name, it.owner)}
        self._are_of_classes = any(it.kind == "attribute" for it in needs)
        self._stored = {it.name: re.compile(STORED.format(re.escape(it.name)).encode()) for it in needs}

    def candidates(self, path: str, data: bytes) -> List[int]:
        """Returns the numbers of the names that the bytes of a file may concern; only its tree tells more."""
        read: Optional[bytes] = as_python_reads(data)
        if read is None:
            return [at for at, it in enumerate(self.needs) if it.path != path]
        data = read
        there = {it for it in self._by_name if it in data} if len(self._by_name) <= FEW else (
            self._by_name.keys() & set(data.translate(SPACED).split()))
        is_dynamic = _is_dynamic(data, b"s")
        makes = self._are_of_classes and TYPE.search(data) is not None
        is_asked = is_dynamic or makes or any(it in self._asked_of_imports for it in there)
        statements = b"\n".join(import_statements(data)) if is_asked else b""
        words = set(WORDS.findall(statements))
        found: Set[int] = set()
        reaches = is_dynamic and any(it.encode() in data for it in REACHING)
        apart = set(APART.findall(data)) if is_dynamic else set()
        modules = set(WORDS.findall(FROM.sub(b"", statements))) if is_dynamic else set()
        for word in self._by_stem if is_dynamic or makes else ():
            # (names of a module are bound by a text only where the module is imported, or reached in another way)
            is_quoted = reaches and (word in words or word + b'"' in data or word + b"'" in data)
            is_module = is_dynamic and (word in modules or is_quoted or word in apart or _is_part(word, data, words))
            found.update(at for at in self._by_stem[word] if is_module or word in words and self.needs[at].kind == "attribute")
        for name in sorted(there):
            is_text = name + b'"' in data or name + b"'" in data
            is_attribute = _is_behind_dot(name, data)
            found.update(at for at in self._by_name[name] if is_text and any(it in data for it in WRITING)
                         or self._concerns(at, data, words, (name, is_attribute)))
        return sorted(at for at in found if self.needs[at].path != path)

    def _concerns(self, at: int, data: bytes, words: Set[bytes], seen: Tuple[bytes, bool]) -> bool:
        """Whether a file that has the name of a need, or its owner's, and may have it behind a dot, has to be parsed."""
        need, (name, is_attribute) = self.needs[at], seen
        if need.owner and name == need.owner.encode():
            return is_attribute or name in words or b"*" in data
        if need.is_list:
            gives = _stem(need.path) in words and (b"*" in data or _is_dynamic(data, b"g"))
            return is_attribute or name in words or gives
        if need.kind == "attribute" and not need.owner and b"class" in data:
            return True
        return is_attribute and bool(self._stored[need.name].search(data) or DELETES.search(data))

    def of(self, unit: Unit, candidates: Sequence[int]) -> List[int]:
        """Returns the numbers of those among the candidates that the file may bind or change."""
        try:
            names = unit.scopes
        except SourceError:
            return list(candidates)
        return [at for at in candidates if may_change(names, self.needs[at])]


def _is_behind_dot(name: bytes, data: bytes) -> bool:
    """Whether a name may stand behind a dot in the bytes of a file."""
    at = data.find(name)
    while at >= 0:
        before = data[max(0, at - 400):at]
        if before.endswith(b".") or before[-1:] in b" \t\r\n\f\\" and BEHIND_DOT.search(before):
            return True
        at = data.find(name, at + len(name))
    return False


def _is_part(name: bytes, data: bytes, imported: Set[bytes]) -> bool:
    """Whether a name may stand right behind an imported one and a dot in the bytes of a file."""
    at = data.find(b"." + name)
    while at >= 0:
        end = at + 1 + len(name)
        chain = CHAIN.search(data, max(0, at - 400), at) if data[end:end + 1] not in LETTERS else None
        if chain and not imported.isdisjoint(chain.group().split(b".")):
            return True
        at = data.find(b"." + name, at + 1)
    return False


def _is_dynamic(data: bytes, kind: bytes) -> bool:
    """Whether the bytes of a file show that it may get, or bind, attributes by names that aren't in it."""
    if b"__dict__" in data or b"vars" in data and VARS.search(data):
        return True
    if kind == b"s" and (b"delattr" in data or b"__setattr__" in data):
        return True
    constant = sum(data[it.start() - 1:it.start()] == kind for it in CONSTANT.finditer(data))
    return data.count(kind + b"etattr") > constant


def _stem(path: str) -> bytes:
    """The last part of a file's name as a module."""
    folder, name = os.path.split(path)
    stem = os.path.basename(folder) if name == "__init__.py" else os.path.splitext(name)[0]
    return stem.encode("utf-8", "surrogateescape")


def may_change(names: Names, need: Need) -> bool:
    """Returns whether a file other than that of a name may bind the name again, or change what it holds."""
    name = need.name
    if by_text(name, names) or need.kind == "name" and is_set(name, names):
        return True
    stem = _stem(need.path).decode("utf-8", "surrogateescape")
    words = {part.name for it in names.imports for part in it.names}
    if need.kind == "attribute":
        words.update(it.module or "" for it in names.imports if isinstance(it, ast.ImportFrom))
    is_near = any(stem in it.split(".") for it in words) or (
        any(_is_of_import(it, names) for it in names.attributes.get(stem, ())))
    is_reached = is_near or any(stem in it.split(".") for it in reached(names))
    if is_reached and can_set_attributes(names, need.kind == "name"):
        return True
    attributes = names.attributes.get(name, ())
    if need.is_list and (is_near or name in names.ways()) and can_give(name, names):
        return True
    if need.is_list and not all(is_kept(it, names) for it in attributes):
        return True
    if need.kind == "attribute":
        if need.owner:
            is_renamed = any(part.asname not in (None, need.owner) for it in names.imports for part in it.names
                             if part.name.rpartition(".")[2] == need.owner)
            its = binders(name, names)
            return is_renamed or any(it.owner is None for it in its) or not _is_untouched(need.owner, names)
        return bool(binders(name, names))
    return need.is_list and _is_list_changed(name, names)


def reached(names: Names) -> Set[str]:
    """Returns the names of modules that a source may get by a text, as in `sys.modules["a.b"]`.

    For a text that isn't known they are all names with dots in its strings, and the modules from which it imports.
    """
    found: Set[str] = set()
    for above in [names.parents.get(load) for word in REACHING for load in _loads(word, names)]:
        texts = [it.value for it in ast.walk(above) if isinstance(it, ast.Constant)] if above is not None else []
        found.update(it for it in texts if isinstance(it, str))
        if not texts:
            found |= names.dotted() | {it.module or "" for it in names.imports if isinstance(it, ast.ImportFrom)}
    return found


def _is_of_import(node: ast.AST, names: Names) -> bool:
    """Whether an attribute is one of what is imported, as `b` and `c` in `a.b.c` behind `import a`."""
    while isinstance(node, ast.Attribute):
        node = node.value
    return isinstance(node, ast.Name) and any(isinstance(it, ast.alias) for it in names.meant(node))


def _is_list_changed(name: str, names: Names) -> bool:
    """Whether a file may change a list of another one that it imports, also by a star."""
    for it in names.imports:
        if any(part.name == name and part.asname not in (None, name) for part in it.names):
            return True
    its = [it for it in names.inside if isinstance(it, ast.Name) and it.id == name]
    outside = [it for it in its if not names.meant(it) or any(isinstance(one, ast.alias) for one in names.meant(it))]
    return not all(is_kept(it, names) for it in outside) or any(not isinstance(it.ctx, ast.Load) for it in outside)
