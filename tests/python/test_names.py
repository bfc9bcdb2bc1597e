"""The names of a source: what each scope binds is what Python's own `symtable` says."""
from __future__ import annotations

import ast
import symtable
import sys
import unittest
from pathlib import Path
from typing import Dict, List, Set, Tuple

from relint.code.names import Names, Scope

PACKAGE = Path(__file__).resolve().parents[2] / "python" / "relint"

SOURCE = """
import a.b, c.d as e
from f import g as h, i
from star import *
x = y = 1
(z, [k, *rest]), o.attribute = 1, 2
for v in range(3): w = v
with open(p) as q, r as (s, t): pass
try:
    pass
except (E1, E2) as error:
    pass
def outer(one, two=lambda p1: (p2 := p1), *three, four: int = 5, **six) -> "x":
    global made_global, x
    made_global = x = 1
    shared = [l1 + l2 for l1 in one for l2 in l1 if (walrus := l2)]
    def inner():
        nonlocal shared
        shared = 1
        def innermost():
            nonlocal shared
            shared += 1
            own = {d1: d2 for d1, d2 in shared}
        del shared
    class Local(Base, metaclass=Meta):
        shared = 3
        def method(self):
            return shared, {s1 for s1 in (g1 for g1 in shared)}
    return inner
async def later():
    async for n1 in o:
        async with n1 as n2: pass
class Whole:
    import m1
    from m2 import n3 as n4
    field = [m1 for m1 in (1, 2)]
    for field2 in field: pass
    def __private(self): __private = 1
    class Nested: deep = 1
"""
Bound = Set[Tuple[str, int, Tuple[str, ...]]]


def wanted(source: str) -> Bound:
    """What Python says that each scope binds: its kind, its line, and its names in order."""
    found: Bound = set()
    top = symtable.symtable(source, "<source>", "exec")
    module = {it.get_name() for it in top.get_symbols() if it.is_assigned() or it.is_imported() or it.is_namespace()}
    left = list(top.get_children())
    while left:
        table = left.pop()
        left += table.get_children()
        names = [it for it in table.get_symbols()
                 if it.is_assigned() or it.is_parameter() or it.is_imported() or it.is_namespace()]
        module |= {it.get_name() for it in names if it.is_declared_global()}
        own = sorted(it.get_name() for it in names if it.is_local() and it.get_name() != ".0")
        found.add((str(table.get_type()).rpartition(".")[2].lower(), table.get_lineno(), tuple(own)))
    found.add(("module", 0, tuple(sorted(module))))
    return found


def as_written(bound: Bound) -> Bound:
    """The same with private names as they are written: Python has `_Whole__x` for `__x`."""
    return {(kind, line, tuple(sorted({it.replace("_Whole__", "__") for it in names}))) for kind, line, names in bound}


def as_given(scopes: Dict[ast.AST, Scope]) -> Bound:
    """What the walk found, in the same form."""
    found: Bound = set()
    for node, scope in scopes.items():
        kind = "function" if scope.kind == "comprehension" else scope.kind
        names: List[str] = sorted(name for name, its in scope.bindings.items() if its)
        found.add((kind, getattr(node, "lineno", 0), tuple(names)))
    return found


@unittest.skipIf(sys.version_info >= (3, 12), "from Python 3.12 on, symtable may count comprehensions to what is around them")
class Bindings(unittest.TestCase):
    def test_all_kinds(self) -> None:
        self.assertEqual(as_written(as_given(Names(ast.parse(SOURCE)).scopes)), as_written(wanted(SOURCE)))

    def test_files_of_the_package(self) -> None:
        for path in sorted(PACKAGE.rglob("*.py"))[::3]:
            text = path.read_text(encoding="utf-8")
            with self.subTest(path=path.name):
                self.assertEqual({it for it in as_given(Names(ast.parse(text)).scopes) if it[2]},
                                 {it for it in wanted(text) if it[2]})


class Lookup(unittest.TestCase):
    def test_a_class_is_seen_only_from_its_body(self) -> None:
        names = Names(ast.parse("x = 1\nclass C:\n    x = x\n    def f(self):\n        return x\n"))
        self.assertEqual(sorted(it.lineno for it in names.loads(names.module, "x")), [3, 5])
        body = next(it for it in names.scopes.values() if it.kind == "class")
        self.assertEqual((body.home("x"), body.lookup("y"), body.home("y")), (body, (None, []), names.module))

    def test_the_scope_of_any_node(self) -> None:
        names = Names(ast.parse("def f(x: 1 = 2) -> 3:\n    4\n    return [5 for a in 6 for b in 7 if 8], lambda y=9: 10\n"))
        found = {node.value: names.scope_of(node).kind for node in ast.walk(names.tree) if isinstance(node, ast.Constant)}
        outside, inside, inner = dict.fromkeys((1, 2, 3), "module"), dict.fromkeys((4, 6, 9, 10), "function"), "comprehension"
        self.assertEqual(found, {**outside, **inside, **dict.fromkeys((5, 7, 8), inner)})

    def test_ways_in_strings(self) -> None:
        names = Names(ast.parse("'a.X'\nf'{m}.Y'\n'b:Z'\n'some V'\n__slots__ = ('W', 'U')\n# T\n"))
        self.assertEqual(names.ways() & set("XYZVWUT"), set("XYZ"))


if __name__ == "__main__":
    unittest.main()
