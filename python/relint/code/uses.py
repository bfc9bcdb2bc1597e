"""Follows one compiled pattern through a file, and finds out how it is used there.

A pattern is followed if a method is called on it at once; if it is bound to a name that a module, class or function binds only
once, or to an attribute of `self` or `cls` that its class binds only once; or if it is the default of a parameter. A load is
an expression that reads such a name or attribute. Each load has to take a method or a property of the pattern, be the first
argument of a function of `re`, or only be tested for truth. Anywhere else the pattern is lost: its uses aren't known then. It
is lost too where code may reach it without writing its name: by `getattr`, `vars()`, `f_locals`, `sys.modules` and the like.

What the code sees of a match is TRUTH if that is only whether there is one, SPANS if it may also be where the match begins and
ends or its text, and GROUPS if it may be anything. A match that goes elsewhere gives the pattern again, as `match.re`.
"""
from __future__ import annotations

import ast
import builtins
from dataclasses import dataclass, field
from typing import Any, Dict, FrozenSet, Iterator, List, NamedTuple, Optional, Sequence, Set, Tuple

from ..base.model import Place, Use
from .names import COMPREHENSIONS, FUNCTIONS, Names, Scope
from .source import Unit, Unparsed

# The methods of a compiled pattern that match; the functions of `re` have the same names.
METHODS = frozenset(("match", "fullmatch", "search", "findall", "finditer", "split", "sub", "subn"))
# The methods that take the arguments `pos` and `endpos`.
PLACED = frozenset(("match", "fullmatch", "search", "findall", "finditer"))
# The attributes of a compiled pattern that aren't methods, and those of a match that don't give the pattern.
TELLS = frozenset(("pattern", "flags", "groups", "groupindex"))
OF_MATCH = frozenset((
    "group", "groups", "groupdict", "start", "end", "span", "expand", "pos", "endpos", "lastindex", "lastgroup", "string",
    "regs",
))
TRUTH, SPANS, GROUPS = "truth", "spans", "groups"
# From the least to the most that the code may see.
SEEN_ORDER = (TRUTH, SPANS, GROUPS)
# Functions by which a name can be read without being written in the source.
READS_GLOBALS = frozenset(("globals", "vars", "locals", "exec", "eval", "execfile"))
READS_LOCALS = frozenset(("vars", "locals", "exec", "eval", "execfile"))
READS_ATTRIBUTES = frozenset(("vars", "exec", "eval", "execfile", "getmembers", "getattr_static"))
RUNS_TEXT = frozenset(("exec", "eval", "execfile"))
CATCHES_ATTRIBUTES = frozenset(("__setattr__", "__getattribute__"))
GIVES_ATTRIBUTES = ("__dict__", "__getattribute__", "__getattr__", "__getstate__", "__reduce__", "__reduce_ex__")
# Attributes and functions that give the names of a running function, of its module, or of any object.
ANY_OBJECT = ("get_objects", "get_referrers", "get_referents")
FRAMES = {
    "local": ("f_locals", "getargvalues", "cell_contents", "getclosurevars"),
    "default": ("f_locals", "getargvalues", "cell_contents", "getclosurevars", "__defaults__", "__kwdefaults__"),
    "module": ("f_globals", "f_locals", "__globals__", "getclosurevars"), "attribute": (),
}
KEYED = frozenset(("f_locals", "f_globals", "__globals__", "__kwdefaults__"))
# Functions that give a module by its name, and those that give what is in one.
IMPORTERS = ("import_module", "__import__", "load_module", "load_source", "module_from_spec")
LOCATORS = ("import_string", "resolve_name", "locate", "run_path", "run_module")
PLAIN_BASES = frozenset(name for name, it in vars(builtins).items() if isinstance(it, type)) - {"type"}


class Lost(Exception):
    """Raised if the uses of a pattern can't be found; the message says where it is lost, or why, in a clause."""


class Name(NamedTuple):
    """Something by which other files may reach the pattern.

    `kind` is "module" for a name of the module; "attribute" for one of a class or its instances; "class" for the class whose
    subclasses may read that; "local" and "default" for names that only frames and functions give; "match" for an attribute
    that gives the pattern of a match or a method; and "match", "search" .. behind "method " for a name of that method.
    """

    name: str
    kind: str


@dataclass
class LocalUses:
    """What is found of a pattern in one file.

    `is_read` says that code reads the pattern's text, its flags or its groups. `names` are to be looked for in other files.
    `lost` says in a clause why the uses aren't known, or is "".
    """

    uses: List[Use] = field(default_factory=list)
    is_read: bool = False
    names: List[Name] = field(default_factory=list)
    lost: str = ""


def uses_at(unit: Unit, place: Place, call: str) -> LocalUses:
    """Returns what is found in a file of the pattern at a place, which `call`, a function of `re`, takes."""
    found = LocalUses()
    try:
        node = unit.call_at(place)
        if node is None:
            raise Lost("no call is there for the running Python")
        follower = Follower(unit, found)
        if call == "compile":
            follower.value(node, True)
        elif call in METHODS:
            follower.called(node, call, 1)
        else:
            raise Lost(f"{call} is no method of a pattern")
        follower.finish()
    except Unparsed:
        found.lost = "the file can't be parsed"
    except RecursionError:
        found.lost = "its file is nested too deeply"
    except Lost as lost:
        found.lost = str(lost)
    return found


class Follower:
    """Follows one pattern through one file. Its methods raise Lost if the pattern can't be followed."""

    def __init__(self, unit: Unit, found: LocalUses) -> None:
        """Takes the file, and the object to which everything that is found is added. Raises Unparsed."""
        self.path = unit.path
        self.names: Names = unit.scopes
        self.found = found
        self.gives: Set[str] = set()
        self.home: Optional[Scope] = None

    def finish(self) -> None:
        """Follows the pattern where a match, or a method of it, that went elsewhere gives it again."""
        for name in sorted(self.gives):
            self.found.names.append(Name(name, "match"))
            self.giving(name)

    def giving(self, name: str) -> None:
        """Follows all loads of an attribute that gives the pattern: `re` of a match, or `__self__` of a method."""
        for it in self.names.attributes.get(name, ()):
            above = self.names.parents.get(it)
            is_other = isinstance(above, ast.Attribute) and above.attr not in METHODS | TELLS
            # (no class can inherit from that of a match, so `self` isn't one)
            if is_loaded(it) and not is_other and not self.is_imported(it.value) and self.class_of(it) is None:
                self.value(it)
        if name in self.taken()[0]:
            raise Lost(f"getattr in line {self.taken()[0][name]} takes {name}")

    def value(self, node: ast.AST, may_bind: bool = False) -> None:
        """Follows the pattern that is the value of `node`; with `may_bind`, it may also be bound. A test of it is no use."""
        parent: Any = self.names.parents.get(node)
        if isinstance(parent, ast.Attribute):
            self.member(parent)
        elif is_passed_on(node, parent):
            self.value(parent, may_bind)
        elif isinstance(parent, (ast.Call, ast.keyword)) and not self.is_tested(node):
            self.argument(node, parent)
        elif may_bind and isinstance(parent, ast.NamedExpr):
            self.bound(parent.target)
            self.value(parent)
        elif may_bind and isinstance(parent, (ast.Assign, ast.AnnAssign)):
            targets = parent.targets if isinstance(parent, ast.Assign) else [parent.target]
            if len(targets) != 1:
                raise Lost(f"it has several names in line {parent.lineno}")
            self.bound(targets[0])
        elif may_bind and isinstance(parent, ast.arguments):
            self.default(node, parent)
        elif not isinstance(parent, ast.Expr) and not self.is_tested(node):
            raise Lost(f"it goes elsewhere in line {getattr(node, 'lineno', 0)}")

    # Its uses.

    def member(self, node: ast.Attribute) -> None:
        """Notes what an attribute of the pattern means: a method is a use, and one of TELLS reads the pattern."""
        above = self.names.parents.get(node)
        if node.attr in TELLS and is_loaded(node):
            self.found.is_read = True
        elif node.attr not in METHODS or not is_loaded(node) or isinstance(above, ast.Attribute):
            raise Lost(f"its attribute {node.attr} is taken in line {node.lineno}")
        elif isinstance(above, ast.Call) and above.func is node:
            self.called(above, node.attr, 0, node.lineno)
        else:
            self.handed(node, node.attr)

    def called(self, call: ast.Call, method: str, text: int, line: int = 0) -> None:
        """Adds the use that a call is; `text` is the position of the text to match: 1 for a function of `re`."""
        repeated = method in ("match", "fullmatch") and self.is_repeated(call, text)
        if repeated and method == "fullmatch":
            raise Lost(f"fullmatch is tried from several positions in line {call.lineno}")
        position = not text and has_position(call, method)
        self.use(method, line or call.lineno, position, self.seen(call, method, text), repeated)

    def use(self, method: str, line: int, position: bool, sees: str, repeated: bool = False) -> None:
        """Adds a use in this file."""
        self.found.uses.append(Use(method, self.path, line, position, sees, repeated))

    def handed(self, node: Any, method: str) -> None:
        """Adds the use that a method is which isn't called at once. Out of sight, it may be called with any positions."""
        parent: Any = self.names.parents.get(node)
        loads: Optional[Sequence[ast.AST]] = None
        if isinstance(parent, (ast.Assign, ast.AnnAssign)):
            targets = parent.targets if isinstance(parent, ast.Assign) else [parent.target]
            if len(targets) == 1 and isinstance(targets[0], ast.Name):
                home = self.names.inside[targets[0]].home(targets[0].id)
                if home.kind != "class":
                    loads = self.names.loads(home, targets[0].id)
                if home.kind == "module":
                    self.found.names.append(Name(targets[0].id, f"method {method}"))
        elif isinstance(parent, ast.arguments):
            home, name = self.parameter(node, parent)
            loads = self.names.loads(home, name)
        nodes = [node] if loads is None else loads
        is_plain = all(self.is_plain_call(it) for it in nodes)
        repeated = not is_plain and method in ("match", "fullmatch")
        if repeated and method == "fullmatch":
            raise Lost(f"its method is given on in line {node.lineno}")
        if not is_plain or loads is None:
            self.gives |= {"re", "__self__"}
        for call in map(self.names.parents.get, nodes if is_plain and loads is not None else ()):
            if isinstance(call, ast.Call):
                self.seen(call, method, 0)
        self.use(method, node.lineno, method in PLACED, GROUPS, repeated)

    def is_plain_call(self, node: ast.AST) -> bool:
        """Whether a load of a method only calls it with a text, at once or by `map` or `filter`."""
        parent = self.names.parents.get(node)
        if not isinstance(parent, ast.Call):
            return isinstance(parent, ast.Expr) or self.is_tested(node)
        if parent.func is node:
            return not self.is_repeated(parent, 0)
        named = parent.func.id if isinstance(parent.func, ast.Name) and not self.names.meant(parent.func) else ""
        return named in ("map", "filter") and parent.args[:1] == [node] and len(parent.args) == 2

    def is_repeated(self, call: ast.Call, text: int) -> bool:
        """Whether a call of `match` may try one position of a text after the other: a position, or a rest in a loop."""
        given = [*call.args[text + 1:], *(it.value for it in call.keywords if it.arg in ("pos", "endpos"))] if not text else []
        stars = any(isinstance(it, ast.Starred) for it in call.args) or any(it.arg is None for it in call.keywords)
        if any(not isinstance(it, ast.Constant) for it in given) or stars and not text:
            return True
        for subject in [it.value for it in call.keywords if it.arg == "string"] or call.args[text:text + 1]:
            for loop in self.loops_around(call):
                if is_rest(subject) or isinstance(subject, ast.Name) and self.is_consumed(subject, loop):
                    return True
        return False

    def loops_around(self, node: ast.AST) -> Iterator[ast.AST]:
        """Yields the loops of its function, or of the module, in which a node is."""
        at = self.names.parents.get(node)
        while at is not None and not isinstance(at, FUNCTIONS):
            if isinstance(at, (ast.For, ast.AsyncFor, ast.While, *COMPREHENSIONS)):
                yield at
            at = self.names.parents.get(at)

    def is_consumed(self, node: ast.Name, loop: ast.AST) -> bool:
        """Whether all that a loop binds to a name is made from the name itself, and there is something."""
        found = []
        for bound in self.names.meant(node):
            at: Any = bound
            while at is not None and at is not loop and not isinstance(at, (ast.stmt, ast.NamedExpr, *COMPREHENSIONS)):
                at = self.names.parents.get(at)
            value, around = getattr(at, "value", None) if at is not loop else None, at
            while around is not None and around is not loop:
                around = self.names.parents.get(around)
            if around is loop:
                itself = isinstance(at, ast.AugAssign) or value is not None and any(
                    isinstance(it, ast.Name) and it.id == node.id for it in ast.walk(value))
                found.append(itself)
        return bool(found) and all(found)

    def argument(self, node: ast.AST, parent: Any) -> None:
        """Adds the use of the pattern as the argument `pattern` of a function of `re`; `parent` is the call or keyword."""
        call = parent if isinstance(parent, ast.Call) else self.names.parents.get(parent)
        if isinstance(call, ast.Call):
            is_pattern = parent.arg == "pattern" if isinstance(parent, ast.keyword) else call.args[:1] == [node]
            method = self.function_of_re(call.func) if is_pattern else None
            if method is not None:
                self.called(call, method, 1)
                return
        raise Lost(f"it is given to a call in line {getattr(node, 'lineno', 0)}")

    def function_of_re(self, node: ast.AST) -> Optional[str]:
        """Returns the name of the function of `re` that an expression surely names, as `re.match` does; otherwise None."""
        if isinstance(node, ast.Attribute) and isinstance(node.value, ast.Name):
            bound = self.names.meant(node.value)
            is_re = all(isinstance(it, ast.alias) and it.name == "re" and isinstance(self.names.parents.get(it), ast.Import)
                        for it in bound)
            return node.attr if bound and is_re and node.attr in METHODS else None
        if not isinstance(node, ast.Name):
            return None
        found = {self.imported_from_re(it) for it in self.names.meant(node)}
        return found.pop() if len(found) == 1 else None

    def imported_from_re(self, node: ast.AST) -> Optional[str]:
        """Returns the name of the function that a binding imports, as `from re import match` does, or None."""
        above = self.names.parents.get(node)
        is_re = isinstance(above, ast.ImportFrom) and above.module == "re" and not above.level
        return node.name if is_re and isinstance(node, ast.alias) and node.name in METHODS else None

    def is_imported(self, node: ast.AST) -> bool:
        """Whether an expression is a name that only imports bind."""
        bound = self.names.meant(node) if isinstance(node, ast.Name) else []
        return bool(bound) and all(isinstance(it, ast.alias) for it in bound)

    def calls_of(self, name: str) -> List[ast.Call]:
        """The calls of a builtin function."""
        above = [self.names.parents.get(it) for it in self.names.loads(self.names.module, name)]
        return [it for it in above if isinstance(it, ast.Call) and isinstance(it.func, ast.Name) and it.func.id == name]

    # What it is bound to.

    def bound(self, target: ast.AST) -> None:
        """Follows the name or the attribute that the pattern is bound to; the name must be bound only here."""
        if isinstance(target, ast.Attribute):
            self.of_instance(target)
            return
        if not isinstance(target, ast.Name):
            raise Lost(f"it is put into something in line {getattr(target, 'lineno', 0)}")
        home = self.names.inside[target].around().home(target.id)
        if len(home.bindings.get(target.id, ())) != 1:
            raise Lost(f"the name {target.id} is bound more than once")
        if home.kind == "class":
            self.of_class(home, target.id)
        else:
            self.name(home, target.id, "module" if home.kind == "module" else "local")

    def parameter(self, node: ast.AST, arguments: ast.arguments) -> Tuple[Scope, str]:
        """The scope and the name of the parameter whose default is `node`."""
        placed = [*arguments.posonlyargs, *arguments.args]
        pairs = [*zip(reversed(placed), reversed(arguments.defaults)), *zip(arguments.kwonlyargs, arguments.kw_defaults)]
        return self.names.scopes[self.names.parents[arguments]], next(it.arg for it, default in pairs if default is node)

    def default(self, node: ast.AST, arguments: ast.arguments) -> None:
        """Follows the parameter whose default is `node`. Raises Lost if its function is decorated or binds the name again."""
        home, name = self.parameter(node, arguments)
        if getattr(home.node, "decorator_list", ()):
            raise Lost(f"it is a default of a decorated function in line {getattr(node, 'lineno', 0)}")
        if len(home.bindings[name]) != 1:
            raise Lost(f"the name {name} is bound more than once")
        self.name(home, name, "default")

    def name(self, home: Scope, name: str, kind: str) -> None:
        """Follows all loads of a name of the module or of a function, whose scope is `home`."""
        self.refuse_loaded(READS_GLOBALS if kind == "module" else READS_LOCALS)
        self.refuse_frames(name, kind)
        if kind == "module":
            self.refuse_string(name)
            self.refuse_open_modules()
        self.found.names.append(Name(name, kind))
        for load in self.names.loads(home, name):
            self.value(load)

    def of_class(self, home: Scope, name: str) -> None:
        """Follows a name that the body of a class, the scope `home`, binds, also as an attribute of any object."""
        node = home.node
        if isinstance(node, ast.ClassDef) and (node.decorator_list or node.keywords):
            raise Lost(f"its class {node.name} is given to a decorator or a metaclass")
        self.refuse_foreign_bases(home, set())
        if any(not is_loaded(it) for it in self.names.attributes.get(name, ())):
            raise Lost(f"the attribute {name} is bound more than once")
        for load in self.names.loads(home, name):
            self.value(load)
        self.of_attribute(home, name)

    def of_instance(self, target: ast.Attribute) -> None:
        """Follows an attribute of the class that a method binds, as `self.x = P` does, and nothing else does."""
        home = self.class_of(target)
        if home is None:
            raise Lost(f"it is put into an attribute in line {target.lineno}")
        if target.attr in home.bindings or home.bindings.keys() & CATCHES_ATTRIBUTES:
            raise Lost(f"the class binds {target.attr} too, or catches its attributes")
        self.refuse_foreign_bases(home, set())
        stores = [it for it in self.names.attributes.get(target.attr, ()) if not is_loaded(it)]
        if any(it is not target and self.class_of(it) in (home, None) for it in stores):
            raise Lost(f"the attribute {target.attr} is bound more than once")
        self.of_attribute(home, target.attr)

    def class_of(self, node: ast.Attribute) -> Optional[Scope]:
        """Returns the scope of the class if `node` is an attribute of a method's first parameter, as `self.x` is; or None."""
        if not isinstance(node.value, ast.Name):
            return None
        scope = self.names.inside[node].home(node.value.id)
        function = scope.node
        if not isinstance(function, FUNCTIONS) or isinstance(function, ast.Lambda) or scope.parent is None:
            return None
        given = [*function.args.posonlyargs, *function.args.args]
        static = any(isinstance(it, ast.Name) and it.id == "staticmethod" for it in function.decorator_list)
        is_first = bool(given) and given[0].arg == node.value.id and len(scope.bindings[node.value.id]) == 1
        return scope.parent if scope.parent.kind == "class" and is_first and not static else None

    def is_own(self, node: ast.Attribute) -> bool:
        """Whether `node` is an attribute of `self` that surely is another one: its class binds it, and has no foreign base."""
        scope = self.class_of(node)
        if scope is None or scope is self.home:
            return False
        stores = [it for it in self.names.attributes[node.attr] if not is_loaded(it) and self.class_of(it) is scope]
        if node.attr not in scope.bindings and not stores:
            return False
        above: Set[Scope] = set()
        try:
            self.refuse_foreign_bases(scope, above)
        except Lost:
            return False
        return self.home not in above

    def of_attribute(self, home: Scope, name: str) -> None:
        """Follows all attributes in the file that are written `.name`, also by a private name, and the class's subclasses."""
        self.home = home
        self.found.names.append(Name(name, "attribute"))
        self.refuse_reading_attributes()
        self.refuse_frames(name, "attribute")
        self.attributes(name)
        if isinstance(home.node, ast.ClassDef):
            self.found.names.append(Name(home.node.name, "class"))
            self.subclasses(home.node.name, home)
            if name.startswith("__") and not name.endswith("__"):
                mangled = f"_{home.node.name.lstrip('_')}{name}"
                self.found.names.append(Name(mangled, "attribute"))
                self.loads_of_attribute(mangled)

    def attributes(self, name: str) -> None:
        """Follows all loads in the file of attributes that are written `.name`, of any object."""
        self.refuse_string(name)
        self.refuse_open_getattr(name)
        self.refuse_open_attrgetter(name)
        self.loads_of_attribute(name)

    def loads_of_attribute(self, name: str) -> None:
        """Follows the loads of attributes that are written `.name`, except those that surely are another class's own."""
        for it in self.names.attributes.get(name, ()):
            if it.attr == name and is_loaded(it) and not self.is_own(it):
                self.value(it)

    def subclasses(self, name: str, home: Optional[Scope]) -> None:
        """Notes the subclasses of a class, whose scope is `home` if it is of this file; refuses those with other bases."""
        aliases = self.aliases().get(name, ()) if home is None else ()
        for node in dict.fromkeys(it for base in (name, "", *aliases) for it in self.names.classes_with(base)):
            scope = self.names.scopes[node]
            bases = [it for it in node.bases if self.is_base(it, name, home)]
            if not bases:
                continue
            others = [it for it in node.bases if it not in bases and not self.class_named(it, scope)]
            if others or node.keywords or node.decorator_list:
                raise Lost(f"the subclass {node.name} has another base, a metaclass or a decorator in line {node.lineno}")
            if Name(node.name, "class") not in self.found.names:
                self.found.names.append(Name(node.name, "class"))
                self.subclasses(node.name, scope)

    def aliases(self) -> Dict[str, List[str]]:
        """The names under which imports bind a name, by the name itself."""
        if "aliases" not in self.names.kept:
            found: Dict[str, List[str]] = {}
            for node in self.names.imports:
                for it in node.names:
                    if it.asname:
                        found.setdefault(it.name.split(".")[-1], []).append(it.asname)
            self.names.kept["aliases"] = found
        given: Dict[str, List[str]] = self.names.kept["aliases"]
        return given

    def is_base(self, base: ast.expr, name: str, home: Optional[Scope]) -> bool:
        """Whether a base of a class may be the class `name`."""
        if isinstance(base, ast.Attribute):
            return base.attr == name
        if not isinstance(base, ast.Name):
            return True
        bound = self.names.meant(base)
        if home is not None:
            return home.node in bound
        is_imported = any(isinstance(it, ast.alias) and it.name.split(".")[-1] == name for it in bound)
        return is_imported or base.id == name and (not bound or all(isinstance(it, ast.alias) for it in bound))

    def refuse_foreign_bases(self, home: Scope, seen: Set[Scope]) -> None:
        """Raises Lost for a metaclass or a base of another file, whose methods may use the names. Adds to `seen`."""
        seen.add(home)
        for base in getattr(home.node, "bases", ()):
            above = self.class_named(base, home)
            if above is None:
                raise Lost("a base of its class is not in this file")
            if above is not home and above not in seen:
                self.refuse_foreign_bases(above, seen)
        if getattr(home.node, "keywords", ()):
            raise Lost("its class has a metaclass")

    def class_named(self, base: ast.AST, home: Scope) -> Optional[Scope]:
        """The scope of the class that a base names; `home`, which has the base, for a builtin one; None for the rest."""
        if not isinstance(base, ast.Name):
            return None
        bound = self.names.meant(base)
        if not bound:
            return home if base.id in PLAIN_BASES else None
        return self.names.scopes[bound[0]] if len(bound) == 1 and isinstance(bound[0], ast.ClassDef) else None

    # Ways to read a name without writing it.

    def refuse_loaded(self, names: FrozenSet[str]) -> None:
        """Raises Lost if the file loads one of these names as a builtin or a name of the module, or one as an attribute."""
        for it in sorted(names):
            if self.names.loads(self.names.module, it) or it[:3] == "get" and it in self.names.attributes:
                raise Lost(f"the file uses {it}, which may reach the pattern")

    def refuse_reading_attributes(self) -> None:
        """Raises Lost if the file may read the attributes of an object without their names."""
        self.refuse_loaded(READS_ATTRIBUTES)
        for it in GIVES_ATTRIBUTES:
            if it in self.names.attributes:
                raise Lost(f"the file may read its attributes through {it}")

    def refuse_string(self, name: str) -> None:
        """Raises Lost if a string literal of the file is the name or a way to it, as "a.NAME", or if a `case` reads it."""
        if name in self.names.ways():
            raise Lost(f"the name {name} is in a string, as for getattr")
        if name in self.names.cases:
            raise Lost(f"a case reads the attribute {name}")

    def refuse_frames(self, name: str, kind: str, is_near: bool = True) -> None:
        """Raises Lost if the file reads what frames, functions or the collector of garbage hold, and may read the name.

        A constant key, as in `frame.f_locals["y"]`, and a test with `in` are no harm. In a file that isn't near, they are only
        harm if the name is in a string there, or a pattern is used that comes from elsewhere.
        """
        for word in (*FRAMES[kind], *ANY_OBJECT):
            nodes: List[Any] = [*self.names.attributes.get(word, ()), *self.names.loads(self.names.module, word)]
            lines = [it.lineno for it in nodes if word not in KEYED or not self.has_other_key(it, name)]
            if word in self.names.ways():
                lines += [it.lineno for it in self.names.loads(self.names.module, "getattr")]
            if lines and (is_near or name in self.names.ways() or self.takes_patterns()):
                raise Lost(f"{word} may give it in line {min(lines)}")

    def takes_patterns(self) -> bool:
        """Whether the file takes a method, as patterns have it, of something that it doesn't import or bind, nor of `self`."""
        for method in sorted(METHODS - {"split"}):
            for it in self.names.attributes.get(method, ()):
                base: Any = it.value
                if self.class_of(it) is not None:
                    continue
                if isinstance(base, ast.Name):
                    above = [self.names.parents.get(one) for one in self.names.meant(base)]
                    if not above or not all(isinstance(one, (ast.Import, ast.ImportFrom, ast.Assign)) for one in above):
                        return True
                elif isinstance(base, ast.Call) and getattr(base.func, "attr", "") == "compile":
                    continue
                elif not isinstance(base, ast.Attribute) or not self.is_stored(base.attr):
                    return True
        return False

    def is_stored(self, name: str) -> bool:
        """Whether the file binds an attribute of this name, in a class or on an object."""
        in_class = any(name in it.bindings for it in self.names.scopes.values() if it.kind == "class")
        return in_class or not all(map(is_loaded, self.names.attributes[name]))

    def has_other_key(self, node: ast.AST, name: str, depth: int = 0) -> bool:
        """Whether a dictionary, or a name for it, is only compared or asked for a constant key other than the name."""
        key, above = self.key_of(node), self.names.parents.get(node)
        if isinstance(above, ast.Assign) and len(above.targets) == 1 and isinstance(above.targets[0], ast.Name) and not depth:
            home = self.names.inside[above.targets[0]].home(above.targets[0].id)
            loads = self.names.loads(home, above.targets[0].id)
            return home.kind == "function" and all(self.has_other_key(it, name, 1) for it in loads)
        if isinstance(above, ast.Call) and isinstance(above.func, ast.Name) and above.func.id in ("type", "len", "id"):
            return True
        is_bound = isinstance(node, ast.Attribute) and not is_loaded(node)
        return is_bound or isinstance(above, ast.Compare) or isinstance(key, ast.Constant) and key.value != name

    def key_of(self, node: ast.AST) -> Optional[ast.AST]:
        """Returns the key in `d[key]`, or the first argument in `d.get(key, ..)`, if `node` is `d`; otherwise None."""
        above = self.names.parents.get(node)
        if isinstance(above, ast.Subscript) and above.value is node:
            return above.slice
        call = self.names.parents.get(above) if isinstance(above, ast.Attribute) else None
        return call.args[0] if isinstance(call, ast.Call) and call.func is above and call.args else None

    def refuse_open_modules(self) -> None:
        """Raises Lost unless each `sys.modules` is compared or takes a constant key, so that it can't give this file."""
        for it in self.module_tables():
            if not isinstance(self.names.parents.get(it), ast.Compare) and not isinstance(self.key_of(it), ast.Constant):
                raise Lost(f"sys.modules in line {getattr(it, 'lineno', 0)} may give the file itself")

    def module_tables(self) -> List[ast.AST]:
        """The expressions that may be `sys.modules`."""
        return [*self.names.attributes.get("modules", ()), *self.names.loads(self.names.module, "modules")]

    def refuse_open_attrgetter(self, name: str) -> None:
        """Raises Lost for an `attrgetter` or `methodcaller`, unless it is called at once with other names only."""
        for it in ("attrgetter", "methodcaller"):
            nodes: List[ast.expr] = [*self.names.attributes.get(it, ()), *self.names.loads(self.names.module, it)]
            for node in nodes:
                call = self.names.parents.get(node)
                asked = call.args if isinstance(call, ast.Call) and call.func is node else []
                texts = [one.value for one in asked if isinstance(one, ast.Constant) and isinstance(one.value, str)]
                if not asked or len(texts) < len(asked) or any(name in one.split(".") for one in texts):
                    raise Lost(f"{it} in line {node.lineno} may take {name}")

    def refuse_open_getattr(self, name: str) -> None:
        """Raises Lost for a `getattr`, unless it is called at once with a name that surely is another one."""
        fixed, fronts = self.taken()
        lines = [fixed[name]] if name in fixed else []
        lines += [line for front, line in fronts.items() if name.startswith(front)]
        if lines:
            raise Lost(f"getattr in line {min(lines)} may take {name}")

    def taken(self) -> Tuple[Dict[str, int], Dict[str, int]]:
        """The names that `getattr` surely takes, and the texts with which others that it takes begin, each with a line."""
        if "taken" not in self.names.kept:
            fixed: Dict[str, int] = {}
            fronts: Dict[str, int] = {}
            for load in self.names.loads(self.names.module, "getattr"):
                call = self.names.parents.get(load)
                asked = call.args[1] if isinstance(call, ast.Call) and call.func is load and len(call.args) > 1 else None
                if isinstance(asked, ast.Constant) and isinstance(asked.value, str):
                    fixed.setdefault(asked.value, load.lineno)
                else:
                    fronts.setdefault("" if asked is None else front_of(asked), load.lineno)
            self.names.kept["taken"] = fixed, fronts
        found: Tuple[Dict[str, int], Dict[str, int]] = self.names.kept["taken"]
        return found

    # What the code sees of a match.

    def seen(self, call: ast.Call, method: str, text: int) -> str:
        """Returns what the code sees of the result of a call. `sub` with a literal without a backslash sees SPANS."""
        if method in ("match", "fullmatch", "search"):
            return self.seen_of(call)
        if method in ("sub", "subn"):
            given = replacement(call, text)
            if not isinstance(given, (str, bytes)):
                self.gives.add("re")
                return GROUPS
            return GROUPS if "\\" in (given if isinstance(given, str) else given.decode("latin-1")) else SPANS
        if method == "finditer":
            parent: Any = self.names.parents.get(call)
            is_loop = isinstance(parent, (ast.For, ast.comprehension)) and parent.iter is call
            if not is_loop or not isinstance(parent.target, ast.Name) or self.seen_by_name(parent.target) == "":
                self.gives.add("re")
        return GROUPS

    def seen_of(self, node: ast.AST) -> str:
        """Returns the most that the code sees of the match that is the value of `node`; TRUTH if it isn't used."""
        parent = self.names.parents.get(node)
        if self.is_tested(node) or isinstance(parent, ast.Expr):
            return TRUTH
        if isinstance(parent, ast.Attribute):
            return self.seen_by_member(parent)
        if isinstance(parent, ast.NamedExpr):
            return max(self.seen_of(parent), self.seen_by_name(parent.target) or GROUPS, key=SEEN_ORDER.index)
        if isinstance(parent, ast.Assign) and len(parent.targets) == 1 and isinstance(parent.targets[0], ast.Name):
            return self.seen_by_name(parent.targets[0]) or GROUPS
        if not isinstance(parent, ast.Subscript) or parent.value is not node:
            self.gives.add("re")
        return GROUPS

    def seen_by_name(self, target: ast.Name) -> str:
        """Returns the most that the code sees of a match by the name it is bound to; "" if that isn't known."""
        scope = self.names.inside[target]
        home = (scope.around() if isinstance(self.names.parents.get(target), ast.NamedExpr) else scope).home(target.id)
        hidden = any(self.names.loads(self.names.module, it) for it in READS_LOCALS)
        if home.kind not in ("function", "comprehension") or hidden:
            self.gives.add("re")
            return ""
        kinds = [TRUTH]
        for load in self.names.loads(home, target.id):
            parent = self.names.parents.get(load)
            if isinstance(parent, ast.Attribute):
                kinds.append(self.seen_by_member(parent))
            elif isinstance(parent, ast.Subscript) and parent.value is load:
                kinds.append(GROUPS)
            elif not self.is_tested(load) and not isinstance(parent, ast.Expr):
                self.gives.add("re")
                return ""
        return max(kinds, key=SEEN_ORDER.index)

    def seen_by_member(self, node: ast.Attribute) -> str:
        """Returns what the code sees by `node`, an attribute of a match; follows the pattern if that is `re`."""
        parent = self.names.parents.get(node)
        if node.attr == "re" and is_loaded(node):
            self.value(node)
        elif node.attr not in OF_MATCH or isinstance(parent, ast.Attribute) and node.attr not in ("string", "regs"):
            self.gives |= {"re", "__self__"}
        if node.attr not in ("start", "end", "span", "group") or not isinstance(parent, ast.Call) or parent.func is not node:
            return GROUPS
        whole = all(isinstance(it, ast.Constant) and it.value == 0 for it in parent.args) and not parent.keywords
        return SPANS if whole and len(parent.args) < 2 else GROUPS

    def is_tested(self, node: ast.AST) -> bool:
        """Returns whether a value is only tested for truth, or for None; `or` and `and` around it are looked through."""
        parent = self.names.parents.get(node)
        while isinstance(parent, ast.BoolOp) and (isinstance(parent.op, ast.Or) or node is parent.values[-1]):
            node, parent = parent, self.names.parents.get(parent)
        if isinstance(parent, ast.Call):
            is_bool = isinstance(parent.func, ast.Name) and parent.func.id == "bool" and not self.names.meant(parent.func)
            return is_bool and parent.args == [node] and not parent.keywords
        return is_test(node, parent)


def is_passed_on(node: ast.AST, parent: Optional[ast.AST]) -> bool:
    """Returns whether the value of an expression may be that of its parent: by a condition, or by `or` and `and`."""
    if isinstance(parent, ast.IfExp):
        return node is not parent.test
    return isinstance(parent, ast.BoolOp) and (isinstance(parent.op, ast.Or) or node is parent.values[-1])


def is_test(node: ast.AST, parent: Optional[ast.AST]) -> bool:
    """Returns whether `parent` only tests whether the value of its child `node` is true, or whether it is None."""
    if isinstance(parent, (ast.If, ast.While, ast.IfExp, ast.Assert)):
        return parent.test is node
    if isinstance(parent, ast.UnaryOp):
        return isinstance(parent.op, ast.Not)
    if isinstance(parent, ast.comprehension):
        return node in parent.ifs
    if isinstance(parent, ast.BoolOp):
        return isinstance(parent.op, ast.And) and node is not parent.values[-1]
    if isinstance(parent, ast.Compare):
        sides: Tuple[ast.AST, ...] = (parent.left, *parent.comparators)
        other = [it for it in sides if it is not node]
        is_none = len(other) == 1 and isinstance(other[0], ast.Constant) and other[0].value is None
        return is_none and isinstance(parent.ops[0], (ast.Is, ast.IsNot, ast.Eq, ast.NotEq))
    return False


def has_position(call: ast.Call, method: str) -> bool:
    """Returns whether a call of a method of a pattern may give the argument `pos` or `endpos`; False if it takes neither."""
    if method not in PLACED:
        return False
    stars = any(isinstance(it, ast.Starred) for it in call.args) or any(it.arg is None for it in call.keywords)
    return stars or len(call.args) > 1 or any(it.arg in ("pos", "endpos") for it in call.keywords)


def is_loaded(node: ast.Attribute) -> bool:
    """Returns whether an expression `x.NAME` loads the attribute, and doesn't bind or delete it."""
    return isinstance(node.ctx, ast.Load)


def is_rest(node: ast.AST) -> bool:
    """Returns whether an expression is a slice of something from a position that isn't a constant, as `text[at:]`."""
    return isinstance(node, ast.Subscript) and isinstance(node.slice, ast.Slice) and not isinstance(
        node.slice.lower, (type(None), ast.Constant))


def replacement(call: ast.Call, text: int) -> object:
    """Returns the replacement in a call of `sub` or `subn` if it is a literal; otherwise None."""
    given = [it.value for it in call.keywords if it.arg == "repl"] or call.args[text:text + 1]
    if any(isinstance(it, ast.Starred) for it in call.args[:text + 1]):
        return None
    return given[0].value if len(given) == 1 and isinstance(given[0], ast.Constant) else None


def is_other(asked: ast.AST, name: str) -> bool:
    """Returns whether the value of an expression surely isn't the text `name`; `"get_" + x` isn't if it begins otherwise."""
    if isinstance(asked, ast.Constant) and isinstance(asked.value, str):
        return asked.value != name
    return not name.startswith(front_of(asked))


def front_of(asked: ast.AST) -> str:
    """Returns a text with which the value of an expression, a text, begins: "get_" for `"get_" + x`; "" if unknown."""
    first: ast.AST = asked
    while isinstance(first, ast.BinOp) and isinstance(first.op, (ast.Add, ast.Mod)):
        first = first.left
    if isinstance(first, ast.JoinedStr) and first.values:
        first = first.values[0]
    return first.value.partition("%")[0] if isinstance(first, ast.Constant) and isinstance(first.value, str) else ""
