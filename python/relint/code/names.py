"""The names of a source by Python's rules for scopes: which nodes bind them, and which scope's name each load may mean.

A binding is the node that binds the name. The walk over the tree is one plain loop, so a source may be nested as deeply as
`ast` allows. Nothing is run.
"""
from __future__ import annotations

import ast
import re
from collections import defaultdict
from operator import attrgetter
from typing import Any, Callable, DefaultDict, Dict, Iterable, Iterator, List, Optional, Sequence, Set, Tuple, Union

Function = Union[ast.FunctionDef, ast.AsyncFunctionDef, ast.Lambda]
Import = Union[ast.Import, ast.ImportFrom]
FUNCTIONS = (ast.FunctionDef, ast.AsyncFunctionDef, ast.Lambda)
COMPREHENSIONS = (ast.ListComp, ast.SetComp, ast.DictComp, ast.GeneratorExp)
# Kinds of nodes that bind a name given as a text, with the field that holds it. Some are only in newer versions of Python.
NAMED_BY_TEXT = {getattr(ast, kind): field for kind, field in (
    ("MatchAs", "name"), ("MatchStar", "name"), ("MatchMapping", "rest"), ("TypeVar", "name"), ("ParamSpec", "name"),
    ("TypeVarTuple", "name"), ("ExceptHandler", "name")) if hasattr(ast, kind)}
MATCH_CLASS = getattr(ast, "MatchClass", None)
SCOPED = {*FUNCTIONS, ast.ClassDef, *COMPREHENSIONS}
# Fields that hold no nodes, or nodes that tell nothing here.
PLAIN_FIELDS = {"ctx", "op", "ops", "id", "attr", "arg", "kind", "type_comment", "level", "module", "is_async", "conversion",
                "simple", "type_ignores", "kwd_attrs"}
# A text that may be a name, or a way to one: `X`, `a.b.X`, `a:X`, `%s.X`.
WAY = re.compile(r"[\w.:{}%]{1,200}")
WORD = re.compile(r"\w+")
# Kinds of nodes that tell something apart from their children.
NOTED = {ast.Call, ast.Import, ast.ImportFrom, ast.Global, ast.Nonlocal, MATCH_CLASS, *NAMED_BY_TEXT}
_getters: Dict[type, Callable[[Any], Tuple[Any, ...]]] = {}


class Scope:
    """A scope and its bindings by name. `kind` is module, class, function (for a lambda too) or comprehension.

    `node` is the node whose scope it is, and `parent` is the scope around it, or None for a module. `outer` has the names that
    are declared to be of another scope, with the word that declares them: global or nonlocal.
    """

    __slots__ = ("kind", "node", "parent", "bindings", "outer")

    def __init__(self, kind: str, node: ast.AST, parent: Optional["Scope"] = None) -> None:
        """Makes a scope without bindings."""
        self.kind, self.node, self.parent = kind, node, parent
        self.bindings: Dict[str, List[ast.AST]] = {}
        self.outer: Dict[str, str] = {}

    def top(self) -> "Scope":
        """Returns the scope of the module."""
        scope = self
        while scope.parent is not None:
            scope = scope.parent
        return scope

    def around(self) -> "Scope":
        """Returns the scope in which `:=` binds a name: the nearest one that isn't a comprehension."""
        scope = self
        while scope.kind == "comprehension" and scope.parent is not None:
            scope = scope.parent
        return scope

    def declare(self, node: Union[ast.Global, ast.Nonlocal]) -> None:
        """Notes the names of a `global` or `nonlocal`. If a name was declared before, that declaration stays."""
        for name in node.names:
            self.outer.setdefault(name, "global" if isinstance(node, ast.Global) else "nonlocal")

    def lookup(self, name: str) -> Tuple[Optional["Scope"], List[ast.AST]]:
        """Returns the scope in which a name is found, and its bindings there; None and no bindings if it isn't found.

        Names bound in the body of a class are found only from that body itself, not from scopes inside of it. A name that is
        declared `global` is found in the module, even if it has no bindings there.
        """
        at: Optional[Scope] = self
        while at is not None:
            said = at.outer.get(name)
            if said == "global":
                at = self.top()
                return at, at.bindings.get(name, [])
            if said is None and name in at.bindings and (at is self or at.kind != "class"):
                return at, at.bindings[name]
            at = at.parent
        return None, []

    def home(self, name: str) -> "Scope":
        """Returns the scope in which a name is found, or the scope of the module if it isn't found."""
        return self.lookup(name)[0] or self.top()


def kind_of(node: ast.AST) -> Optional[str]:
    """Returns the kind of the scope that a node has of its own: function, class or comprehension; None if it has none."""
    if isinstance(node, FUNCTIONS):
        return "function"
    return "class" if isinstance(node, ast.ClassDef) else "comprehension" if isinstance(node, COMPREHENSIONS) else None


def parameters(node: Function) -> List[ast.arg]:
    """Returns the parameters of a function, which are bound in its scope: those with a star come last."""
    given = node.args
    return [it for it in (*given.posonlyargs, *given.args, *given.kwonlyargs, given.vararg, given.kwarg) if it is not None]


def parts(node: ast.AST) -> Iterator[Tuple[ast.AST, ast.AST, bool]]:
    """Yields the parts of a node with a scope of its own: the part, the node it is directly in, and if it is read inside.

    The names of parameters aren't parts, but their annotations and defaults are.
    """
    if isinstance(node, ast.ClassDef):
        # (type parameters count as bound around the class, where its bases and its methods find them)
        yield from ((it, node, False) for it in (*node.decorator_list, *getattr(node, "type_params", ()), *node.bases))
        yield from ((it, node, False) for it in node.keywords)
        yield from ((it, node, True) for it in node.body)
    elif isinstance(node, FUNCTIONS):
        if not isinstance(node, ast.Lambda):
            outside: List[Optional[ast.expr]] = [*node.decorator_list, node.returns]
            yield from ((it, node, False) for it in outside if it is not None)
        yield from ((it, node, True) for it in getattr(node, "type_params", ()))
        yield from ((it.annotation, it, False) for it in parameters(node) if it.annotation is not None)
        yield from ((it, node.args, False) for it in (*node.args.defaults, *node.args.kw_defaults) if it is not None)
        yield from ((it, node, True) for it in (node.body if isinstance(node.body, list) else (node.body,)))
    else:
        for number, one in enumerate(getattr(node, "generators")):
            yield one.iter, one, number > 0
            yield one.target, one, True
            yield from ((it, one, True) for it in one.ifs)
        values = (getattr(node, name, None) for name in ("elt", "key", "value"))
        yield from ((it, node, True) for it in values if it is not None)


def imported(node: Import) -> Iterator[Tuple[str, ast.alias]]:
    """Yields each name that an import binds, with its alias node; a star is left out. `import a.b` binds `a`."""
    for it in node.names:
        if it.name != "*":
            yield it.asname or (it.name if isinstance(node, ast.ImportFrom) else it.name.partition(".")[0]), it


class Names:
    """The names that a source binds and loads.

    `tree` is the tree of the source, and `module` the scope of the module. `parents` has the parent of each node, `inside`
    the scope in which a name, attribute, call or import is read, and `scopes` the scope that a node opens, if any.
    `attributes` has the nodes `x.NAME` by NAME, `calls` the calls, `imports` the import statements, and `cases` the attributes
    that `case C(NAME=..)` reads.
    `patterns` has calls by the line (from 1) and the column (in bytes, from 0) where the first argument without a name, or
    the argument `pattern`, begins; a call that has neither isn't in it. `kept` is for what others find out once.
    A private name in a class counts both as it is written and as Python changes it: `__x` in a class C also counts as `_C__x`.
    """

    def __init__(self, tree: ast.Module) -> None:
        """Walks over the tree."""
        self.tree = tree
        self.module = Scope("module", tree)
        self.scopes: Dict[ast.AST, Scope] = {tree: self.module}
        self.parents: Dict[ast.AST, ast.AST] = dict.fromkeys(tree.body, tree)
        self.inside: Dict[ast.AST, Scope] = {}
        self.attributes: Dict[str, List[ast.Attribute]] = {}
        self.cases: Set[str] = set()
        self.imports: List[Import] = []
        self.calls: List[ast.Call] = []
        self.patterns: Dict[Tuple[int, int], ast.Call] = {}
        self._ways: Optional[Set[str]] = None
        self._by_base: Optional[Dict[str, List[ast.ClassDef]]] = None
        self.kept: Dict[str, Any] = {}
        self._strings: List[ast.Constant] = []
        self._loads: Dict[str, Dict[Scope, List[ast.Name]]] = {}
        self._bound: List[Tuple[Scope, str, ast.AST]] = []
        self._loaded: DefaultDict[str, List[ast.Name]] = defaultdict(list)
        left: List[Tuple[ast.AST, Scope]] = [(it, self.module) for it in tree.body]
        while left:
            node, scope = left.pop()
            nodes = [node]
            while left and left[-1][1] is scope:
                nodes.append(left.pop()[0])
            self._walk(nodes, scope, left)
        _settle(self._bound)

    def loads(self, scope: Scope, name: str) -> Sequence[ast.Name]:
        """Returns the loads of a name that may mean the name of that scope; none if there is no such load.

        A load of a name that isn't bound in the source, such as that of a builtin function, belongs to the scope `module`.
        """
        found = self._loads.get(name)
        if found is None:
            found = self._loads[name] = {}
            for node in self._loaded.get(name, ()):
                home = self.inside[node].home(name)
                found.setdefault(home, []).append(node)
                if home.kind == "class":
                    # (before the class binds it, the name means that of the module)
                    found.setdefault(self.module, []).append(node)
        return found.get(scope, ())

    def named(self, name: str) -> Sequence[ast.Name]:
        """Returns all loads of a name, whatever it means there."""
        return self._loaded.get(name, ())

    def meant(self, node: ast.Name) -> List[ast.AST]:
        """Returns the nodes that bind the name that `node` loads, in the scope where it is found; none if it isn't bound."""
        return self.inside[node].lookup(node.id)[1]

    def ways(self) -> Set[str]:
        """Returns the words of all strings that are a name or a way to one, such as those of "X", "a.X" and "a:X".

        Those in `__slots__` and `__all__` don't count.
        """
        if self._ways is None:
            self._ways = {word for it in self._strings if WAY.fullmatch(it.value) and not self._is_slot(it)
                          for word in WORD.findall(it.value)}
        return self._ways

    def dotted(self) -> Set[str]:
        """Returns all strings that are names with dots, such as "a.b"."""
        return {it.value for it in self._strings if "." in it.value and WAY.fullmatch(it.value)}

    def classes_with(self, base: str) -> Sequence[ast.ClassDef]:
        """Returns the classes with a base that is written `base` or `x.base`, or, for "", one that is written otherwise."""
        if self._by_base is None:
            self._by_base = {}
            for node in [it for it in self.scopes if isinstance(it, ast.ClassDef)]:
                for it in node.bases:
                    name = it.id if isinstance(it, ast.Name) else it.attr if isinstance(it, ast.Attribute) else ""
                    self._by_base.setdefault(name, []).append(node)
        return self._by_base.get(base, ())

    def scope_of(self, node: ast.AST) -> Scope:
        """Returns the scope in which a node of the tree is read."""
        while node not in self.inside:
            above = self.parents.get(node)
            if above is None or above is self.tree:
                return self.module
            if above in self.scopes and any(it is node and inside for it, _, inside in parts(above)):
                return self.scopes[above]
            if isinstance(above, ast.comprehension):
                whole: Any = self.parents[above]
                if node is not above.iter or above is not whole.generators[0]:
                    return self.scopes[whole]
            node = above
        return self.inside[node]

    def _walk(self, nodes: List[ast.AST], scope: Scope, left: List[Tuple[ast.AST, Scope]]) -> None:
        """Goes over nodes that are read in one scope; those of other scopes go on the stack `left`."""
        parents, inside, attributes, loaded = self.parents, self.inside, self.attributes, self._loaded
        strings, pop, push = self._strings, nodes.pop, nodes.append
        name_of, attribute_of, constant, load, tree = ast.Name, ast.Attribute, ast.Constant, ast.Load, ast.AST
        while nodes:
            node: Any = pop()
            kind = node.__class__
            if kind is name_of:
                inside[node] = scope
                if node.ctx.__class__ is not load:
                    self._bind(node, scope)
                elif node.id[:2] != "__":
                    loaded[node.id].append(node)
                else:
                    for name in self._as_seen(node.id, scope):
                        loaded[name].append(node)
                continue
            if kind is constant:
                if node.value.__class__ is str:
                    strings.append(node)
                continue
            if kind is attribute_of:
                inside[node] = scope
                for name in (node.attr,) if node.attr[:2] != "__" else self._as_seen(node.attr, scope):
                    attributes.setdefault(name, []).append(node)
                parents[node.value] = node
                push(node.value)
                continue
            if kind in SCOPED:
                self._open(node, scope, left)
                continue
            if kind in NOTED:
                self._note(node, kind, scope)
            for it in (_getters.get(kind) or _getter_of(kind))(node):
                if it.__class__ is list:
                    for one in it:
                        if isinstance(one, tree):
                            parents[one] = node
                            push(one)
                elif isinstance(it, tree):
                    parents[it] = node
                    push(it)

    def _note(self, node: Any, kind: type, scope: Scope) -> None:
        """Notes what a node adds apart from its children: a call, an import, a declaration, or a name bound by its text."""
        if kind is ast.Call:
            self.inside[node] = scope
            self.calls.append(node)
            for first in (*node.args[:1], *(it.value for it in node.keywords if it.arg == "pattern")):
                self.patterns[first.lineno, first.col_offset] = node
        elif kind is ast.Import or kind is ast.ImportFrom:
            self.inside[node] = scope
            self.imports.append(node)
            self._bound += [(scope, name, it) for name, it in imported(node)]
        elif kind is ast.Global or kind is ast.Nonlocal:
            scope.declare(node)
        elif kind is MATCH_CLASS:
            self.cases.update(node.kwd_attrs)
        elif kind in NAMED_BY_TEXT:
            given = getattr(node, NAMED_BY_TEXT[kind])
            if isinstance(given, str):
                self._bound.append((scope, given, node))

    def _open(self, node: ast.AST, scope: Scope, left: List[Tuple[ast.AST, Scope]]) -> None:
        """Opens the scope of a node, and puts its parts on the stack."""
        inner = self.scopes[node] = Scope(kind_of(node) or "", node, scope)
        self.inside[node] = scope
        if isinstance(node, FUNCTIONS):
            self.parents[node.args] = node
            for it in parameters(node):
                self._bound.append((inner, it.arg, it))
                self.parents[it] = node.args
        if isinstance(node, (ast.FunctionDef, ast.AsyncFunctionDef, ast.ClassDef)):
            self._bound.append((scope, node.name, node))
        self.parents.update((it, node) for it in getattr(node, "generators", ()))
        for part, parent, is_inside in parts(node):
            self.parents[part] = parent
            left.append((part, inner if is_inside else scope))

    def _is_slot(self, node: ast.AST) -> bool:
        """Whether a string is assigned to `__slots__` or `__all__` by `=`, alone or directly in a tuple or list."""
        above = self.parents.get(node)
        if isinstance(above, (ast.Tuple, ast.List)):
            above = self.parents.get(above)
        names = above.targets if isinstance(above, ast.Assign) else []
        return any(isinstance(it, ast.Name) and it.id in ("__slots__", "__all__") for it in names)

    def _bind(self, node: ast.Name, scope: Scope) -> None:
        """Notes that a name is bound or deleted, which counts as binding it; `:=` does so around a comprehension."""
        home = scope.around() if isinstance(self.parents.get(node), ast.NamedExpr) else scope
        self._bound += [(home, name, node) for name in self._as_seen(node.id, scope)]

    def _as_seen(self, name: str, scope: Scope) -> Tuple[str, ...]:
        """The name and, for a private name such as `__x` in a class, also the name to which Python changes it."""
        at: Optional[Scope] = scope
        while at is not None and name.startswith("__") and not name.endswith("__"):
            if isinstance(at.node, ast.ClassDef) and at.kind == "class":
                return name, f"_{at.node.name.lstrip('_')}{name}"
            at = at.parent
        return (name,)


def _getter_of(kind: type) -> Callable[[Any], Tuple[Any, ...]]:
    """What returns the values of those fields of a kind of node that may hold nodes; it is kept."""
    names = [it for it in getattr(kind, "_fields", ()) if it not in PLAIN_FIELDS]
    if len(names) > 1:
        _getters[kind] = attrgetter(*names)
    else:
        _getters[kind] = lambda node: tuple(getattr(node, it) for it in names)
    return _getters[kind]


def _settle(bound: Iterable[Tuple[Scope, str, ast.AST]]) -> None:
    """Adds each binding to its scope, once all `global` and `nonlocal` are known; those by them come last."""
    said: Dict[str, List[Tuple[Scope, str, ast.AST]]] = {"global": [], "nonlocal": []}
    for it in bound:
        scope, name, binding = it
        if name in scope.outer:
            said[scope.outer[name]].append(it)
        else:
            scope.bindings.setdefault(name, []).append(binding)
    for scope, name, binding in said["global"]:
        scope.top().bindings.setdefault(name, []).append(binding)
    for scope, name, binding in said["nonlocal"]:
        scope.home(name).bindings.setdefault(name, []).append(binding)
