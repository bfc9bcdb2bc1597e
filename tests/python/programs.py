"""Makes small programs with patterns, runs them, and compares what `re.compile` got with what is folded.

    programs.py [COUNT [FIRST SEED]]

A program has a few modules, in folders with and without `__init__.py`. They bind names, lists and attributes, and change some
of them in the many ways that Python has. What is folded has to have every pattern that a place really takes.
"""
from __future__ import annotations

import json
import os
import random
import subprocess
import sys
import tempfile
from pathlib import Path
from typing import Dict, List, Sequence, Set, Tuple

from relint.code.fold import Folder, Sources
from relint.code.places import Takers, own_rows, places_in, takers_of
from relint.code.source import SourceError, Unit
from relint.code.writes import Changes

Program = Dict[str, str]
Place = Tuple[str, int]
IMPORTS = "import re, sys, heapq, fnmatch, functools, string\nimport taking"
TEXTS = ("a", "b+", "c|d", "x{2}", "[y]", "(z)", "e.", "f*")
# With rows for a module that is there only when a program is run: its functions take pairs with patterns, and schemas.
TAKERS = Takers(takers_of([*own_rows(), {"call": ["taking.pairs"], "pattern": 0, "shape": "pairs", "mode": "search"},
                           {"call": ["taking.schema"], "pattern": 0, "shape": "schema", "mode": "search"}]), True)
# Runs programs, each in a folder of its own, with a `re.compile` that notes its caller, and behind a "+" all callers of that;
# prints what it got.
RUN = """
import collections, json, os, re, runpy, sys
noted = collections.defaultdict(list)
class Nothing:
    def __getattr__(self, name):
        return lambda *args: None
def note(at, pattern, flags=0):
    sign = ""
    while at is not None and isinstance(pattern, str):
        if at.f_code.co_filename.startswith(os.getcwd()):
            noted[os.path.relpath(at.f_code.co_filename) + ":" + sign + str(at.f_lineno)].append([pattern, int(flags)])
        at, sign = at.f_back, "+"
def compile(pattern, flags=0):
    note(sys._getframe(1), pattern, flags)
    return Nothing()
def pairs(given):
    for it in given:
        note(sys._getframe(1), it[0])
def schema(given, at=None):
    at = at or sys._getframe(1)
    for key, it in given.items():
        if key == "pattern":
            note(at, it)
        elif isinstance(it, dict):
            schema(it, at)
re.compile, real = compile, re.compile
sys.modules["taking"] = taking = type(sys)("taking")
taking.pairs, taking.schema = pairs, schema
before = set(sys.modules)
path = list(sys.path)
for name in sorted(os.listdir(".")):
    sys.path[:] = [os.path.abspath(name), *path]
    sys.path_importer_cache.clear()
    try:
        runpy.run_path(os.path.join(os.path.abspath(name), "main.py"), run_name="__main__")
    except Exception as error:
        noted[name + "/main.py:0"].append([type(error).__name__ + ": " + str(error), 0])
    for it in set(sys.modules) - before:
        del sys.modules[it]
print(json.dumps(noted))
"""


class Maker:
    """Makes one program."""

    def __init__(self, seed: int) -> None:
        """Takes the seed, from which alone the program follows."""
        self.random = random.Random(seed)
        self.most = self.random.choice((0, 0, 1, 1, 2))
        self.files: Program = {}

    def pick(self, *its: str) -> str:
        """Returns one of some texts."""
        return self.random.choice(its)

    def text(self) -> str:
        """Returns a literal."""
        return repr(self.pick(*TEXTS))

    def program(self) -> Program:
        """Returns the program: a source for each path."""
        folder = self.pick("", "p/", "p/q/")
        names = [f"m{it}" for it in range(self.random.randint(1, 3))]
        if folder and self.random.random() < 0.5:
            for at in range(1, len(folder.split("/"))):
                self.files["/".join(folder.split("/")[:at]) + "/__init__.py"] = ""
        package = folder.strip("/").replace("/", ".")
        for at, name in enumerate(names):
            others = names[:at]
            self.files[f"{folder}{name}.py"] = "\n".join(self.module(package, others)) + "\n"
        main = self.imports(package, names, "main")
        ways = [self.change(it) for it in names for _ in range(self.random.randint(0, self.most))]
        self.random.shuffle(ways)
        cut = self.random.randint(0, len(ways))
        calls = [f"for run in {it}.RUNS:\n    try: run()\n    except Exception: pass" for it in names]
        lines = [*main, *self.safe(ways[:cut]), *calls, *self.safe(ways[cut:]), *calls]
        self.files["main.py"] = "\n".join([IMPORTS, *lines]) + "\n"
        return self.files

    def safe(self, ways: Sequence[str]) -> List[str]:
        """Returns statements, each of which may fail."""
        return [line for it in ways for line in ("try:", *("    " + one for one in it.split("\n")), "except Exception: pass")]

    def imports(self, package: str, names: Sequence[str], where: str) -> List[str]:
        """Returns imports under which each module has its own name."""
        lines = []
        for it in names:
            full = f"{package}.{it}" if package else it
            ways = [f"import {full} as {it}", f"import {full}\n{it} = sys.modules[{full!r}]" if where == "main" else ""]
            ways += [f"from {package} import {it}"] if package else []
            ways += [f"from . import {it}"] if where != "main" and package else []
            lines += self.pick(*(way for way in ways if way)).split("\n")
        return lines

    def expression(self, names: Sequence[str]) -> str:
        """Returns an expression of a text."""
        name = self.pick(*names) if names else self.text()
        return self.pick(name, name, f"{name} + {self.text()}", f"'(%s)' % {name}", f'f"<{{{name}}}>"', self.text(),
                         f"'{{}}-{{}}'.format({name}, {self.text()})", f"'|'.join(({name}, {self.text()}))", f"{name} * 2",
                         f"dict(k={name}, m='x')['k']", f"string.digits + {name}", "fnmatch.translate('*.[co]')")

    def module(self, package: str, others: Sequence[str]) -> List[str]:
        """Returns the lines of a module."""
        self.lines = [IMPORTS, "RUNS = []", "FLAG = bool(int('%d'))" % self.random.randint(0, 1)]
        self.lines += self.imports(package, others, "module")
        seen = [f"{it}.P{number}" for it in others for number in range(2)]
        for it in others:
            full = f"{package}.{it}" if package else it
            if self.random.random() < 0.3:
                self.lines.append(f"from {full} import *")
                seen += ["P0"]
            elif self.random.random() < 0.3:
                self.lines.append(f"from {full} import P0 as O{it}, L0 as K{it}")
                seen += [f"O{it}"]
                self.lines.append(f"def run():\n    return re.compile('|'.join(K{it}))\nRUNS.append(run)")
        for number in range(2):
            self.lines.append(self.binding(f"P{number}", seen))
            seen.append(f"P{number}")
        self.lines.append(self.pick("L0 = ['a', 'b']", "L0 = ('a', 'b')", "L0 = {'a': 'x', 'b': 'y'}", "L0 = L1 = ['a', 'b']",
                                    "L0 = dict(a='x', b=P0)", "L0 = dict(b='y', a='x')", "L0 = dict(L1=1)",
                                    "L0, L1 = ['a'], ['b']", "L0 = [P0, P1]", "L0 = 'a b'.split()", "L0 = list(('a', P0))"))
        self.classes(others)
        for _ in range(self.random.randint(2, 5)):
            self.lines += self.safe([self.place(seen)])
        self.lines += self.safe([self.own() for _ in range(self.random.randint(0, self.most))])
        return "\n".join(self.lines).split("\n")

    def binding(self, name: str, seen: Sequence[str]) -> str:
        """Returns a statement that binds a name."""
        one, two = self.expression(seen), self.text()
        return self.pick(
            f"{name} = {one}", f"{name} = {one}", f"{name}: str = {one}", f"{name} = X{name} = {one}",
            f"{name}, Y{name} = {one}, {two}",
            f"if FLAG:\n    {name} = {one}\nelse:\n    {name} = {two}", f"{name} = {one} if FLAG else {two}",
            f"{name} = {two}\nif FLAG:\n    {name} = {one}", f"if ({name} := {one}):\n    pass",
            f"try:\n    {name} = {one}\nexcept NameError:\n    {name} = {two}", f"for {name} in ({one}, {two}):\n    pass",
            f"def bind():\n    global {name}\n    {name} = {one}\nbind()", f"{name} = {one}\n{name} += {two}",
            f"if FLAG:\n    {name} = {one}\nelif not FLAG:\n    {name} = {two}\nelse:\n    {name} = {one}",
        )

    def classes(self, others: Sequence[str]) -> None:
        """Adds classes with patterns as attributes."""
        base = self.pick("", "(object)", *(f"({it}.A)" for it in others), *(f"({it}.B)" for it in others))
        body = self.pick(f"    Q = {self.text()}", f"    Q = {self.text()}\n    R = Q + {self.text()}", "    pass",
                         f"    def __init__(self):\n        self.Q = {self.text()}", f"    Q: str = {self.text()}",
                         f"    if FLAG:\n        Q = {self.text()}\n    else:\n        Q = {self.text()}")
        method = self.pick("self.Q", "self.Q + 'm'", "type(self).Q", "A.Q", "self.__class__.Q")
        self.lines.append(f"class A{base}:\n{body}\n    def f(self):\n        return re.compile({method})")
        self.lines.append(self.pick(
            "class B(A):\n    pass", f"class B(A):\n    Q = {self.text()}", f"Z = A\nclass B(Z):\n    Q = {self.text()}",
            f"class B:\n    Q = {self.text()}\n    def f(self):\n        return re.compile(self.Q)",
            f"class B(A):\n    def g(self):\n        self.Q = {self.text()}\n        self.f()", "B = A",
            f"class C:\n    Q = {self.text()}\nclass B(C, A):\n    pass", f"B = type('B', (A,), {{'Q': {self.text()}}})",
            "class B(A):\n    def __init__(self, **more):\n        vars(self).update(more)",
            "class B(A):\n    def __init__(self, **more):\n        for it in more: setattr(self, it, more[it])"))
        owner = self.pick("class H:\n", "class H:\n", "class H(A):\n", "same = lambda it: it\n@same\nclass H:\n")
        kind = self.pick("    def c(self, it, flags=0):\n", "    def c(self, it='h', flags=0):\n",
                         "    @staticmethod\n    def c(it, flags=0):\n")
        self.lines.append(f"{owner}{kind}        return re.compile('h' + it, flags)\n    def g(self):\n"
                          f"        return self.c({self.pick(self.text(), 'P0')}{self.pick('', ', re.I', ', flags=re.M')})")
        self.lines.append("RUNS.append(lambda: H().g())")
        self.lines.append("RUNS.append(lambda: A().f())\nRUNS.append(lambda: B().f())")
        if self.random.random() < 0.3:
            self.lines.append(f"RUNS.append(lambda: B(Q={self.text()}).f())")

    def place(self, seen: Sequence[str]) -> str:
        """Returns code with a place that takes a pattern."""
        one, flags = self.expression(seen), self.pick("", "", "", ", re.I", ", re.I | re.M", ", re.I + re.U", ", flags=re.M")
        two, change = self.text(), self.pick("pass", "pass", *(it.format(self.text()) for it in (
            "D.append(({}, 2))", "D[0] = ({}, 3)", "K = D; K.append(({}, 4))", "D += [({}, 5)]", "vars()['D'] = [({}, 6)]",
            "taking.pairs(D)", "len(D)", "D = D + [({}, 7)]", "D.clear()")))
        deep = self.pick("pass", "pass", *(it.format(self.text()) for it in (
            "S['x']['pattern'] = {}", "T['pattern'] = {}", "S.update(pattern={})", "taking.schema(T)", "T = dict(pattern={})",
            "K = S['x']; K['pattern'] = {}", "(lambda K: K.update(pattern={}))(S['x'])")))
        return self.pick(
            f"re.compile({one}{flags})", f"def run():\n    re.compile({one}{flags})\nRUNS.append(run)",
            f"def run():\n    it = {one}\n    re.compile(it)\nRUNS.append(run)",
            f"def run(it={one}):\n    re.compile(it)\nRUNS.append(run)",
            "def run():\n    re.compile('|'.join(L0))\nRUNS.append(run)",
            "def run():\n    for it in L0:\n        re.compile(it)\nRUNS.append(run)",
            "RUNS.append(lambda: [re.compile(it) for it in L0])", "for it in L0:\n    re.compile('^' + it)",
            "def run():\n    re.compile(''.join(it + 'q' for it in L0))\nRUNS.append(run)",
            "def run():\n    for it in sorted(L0):\n        two = it + 'w'\n        re.compile(two)\nRUNS.append(run)",
            "re.compile('%s%s' % tuple(L0)[:2])", "def run():\n    re.compile(list(L0)[0])\nRUNS.append(run)",
            f"def run():\n    def inner():\n        return re.compile(it)\n    it = {one}\n    inner()\nRUNS.append(run)",
            f"def helper(it):\n    return re.compile(it)\nhelper({one})\nRUNS.append(lambda: helper({self.text()}))",
            f"c = re.compile\nc({one})", f"list(map(re.compile, [{one}]))", self.helper(one, flags),
            self.in_line(one), self.lists(one),
            f"D = [({one}, 1), ({two}, 2)]; {change}; taking.pairs(D)", f"taking.pairs([({one}, 1)])",
            f"def run():\n    D = [({one}, 1)]; {change}; taking.pairs(D)\nRUNS.append(run)",
            f"T = {{'pattern': {one}}}; S = {{'properties': {{'x': T}}, 'x': T}}; {deep}; taking.schema(S)",
            f"taking.schema({{'x': {{'pattern': {one}}}}})",
        )

    def helper(self, one: str, flags: str) -> str:
        """Returns code with a function around `re.compile`, and calls of it."""
        two = self.text()
        return self.pick(
            f"@functools.lru_cache(maxsize=None)\ndef cached(it, flags=0):\n    return re.compile(it + 'c', flags)\n"
            f"cached({one}{flags})\nRUNS.append(lambda: cached({two}))",
            f"def twice(f): return lambda it: f(it + it)\n@twice\ndef other(it):\n    re.compile(it + 'c')\nother({one})",
            f"short = lambda it, flags=0: re.compile('l' + it, flags)\nshort({one}{flags})\nshort(it={two})",
            f"part = functools.partial(re.compile, flags=re.I)\npart({one})\npart({two}, flags=0)",
            f"part = functools.partial(re.compile)\npart({one}{flags})\nRUNS.append(lambda: part({two}))",
            f"part = functools.partial(re.compile, {one}{flags})\npart()\nRUNS.append(part)",
            f"part = functools.partial(re.compile)\npart = functools.partial(re.compile, flags=re.M)\npart({one})",
            f"def given(it, flags=re.I):\n    its = it + 'g'\n    return re.compile(its, flags)\ngiven({one}{flags})\n"
            f"given(**{{'it': {two}}})\ngiven(*[{two}])",
            f"def given(*its):\n    return re.compile(its[0])\ngiven({one})",
            f"def given(it):\n    it += 'w'\n    return re.compile(it)\ngiven({one})",
            f"re.compile(**{{'pattern': {one}}})\nre.compile(flags=re.I, pattern={two})",
        )

    def lists(self, one: str) -> str:
        """Returns code that binds and changes a list in a block, with places between."""
        two = self.text()
        ways = ["L = ['a']", f"L = ['b', {one}]", f"L = L + [{two}]", "M = L", "M = L[:]", "M = list(L)",
                "re.compile('|'.join(L))", "for x in L: re.compile(x)", "[re.compile(x) for x in L]", "re.compile(L[0])",
                f"L += [{two}]", "L, x = ['c'], 1", f"L.append({two})", f"M.append({two})", "print(end=str(L)[:0])",
                "M = (L,)", f"M[0].append({two})"]
        body = "\n".join(["L = M = ['s']" if self.random.random() < 0.2 else "L = ['s']", "M = []",
                          *(self.random.choice(ways) for _ in range(self.random.randint(2, 6))), "re.compile('|'.join(L))"])
        within = "def run():\n    " + body.replace("\n", "\n    ") + "\nRUNS.append(run)"
        return self.pick(body, within, "class J:\n    " + body.replace("\n", "\n    "))

    def in_line(self, one: str) -> str:
        """Returns code that binds a name several times in a block, with places between."""
        two = self.text()
        ways = [f"it = {one}", f"it = {two}", f"it += {two}", f"it = it + {two}", f"it, x = {one}, 1", f"it: str = {two}",
                "re.compile(it)", "re.compile('(%s)' % it)", "[re.compile(it + x) for x in 'ab']", "lambda: it",
                f"for x in (1, 2):\n    re.compile(it)\n    {self.pick('pass', f'it = {two}', f'it += {two}')}",
                f"for it in ({one}, {two}):\n    re.compile(it)", "if FLAG:\n    re.compile(it)", "del it",
                f"if FLAG:\n    it = {two}\n    it += 'i'\n    re.compile(it)\nelse:\n    it = {one}\n    re.compile(it)",
                f"try:\n    it = {two}\n    int(it)\n    it = {one}\nexcept ValueError:\n    re.compile(it)",
                f"while True:\n    re.compile(it)\n    it = {two}\n    re.compile(it)\n    break",
                f"print(end=(it := {two})[:0])",
                f"for x in (1, 2):\n    re.compile(it + 'x')\n    it = {one}\n    re.compile(it)\n    it += {two}"]
        lines = [ways[0], *(self.random.choice(ways) for _ in range(self.random.randint(2, 6))), "re.compile(it)"]
        body = "\n".join(lines)
        within = "def run():\n    " + body.replace("\n", "\n    ")
        inner = self.pick(f"def change():\n    nonlocal it\n    it = {two}\nchange()\nre.compile(it)", "re.compile(it)")
        inside = inner.replace("\n", "\n    ")
        its = within.replace("it: str", "it").replace("run():", "run():\n    global it", 1)
        return self.pick(body, f"{within}\nRUNS.append(run)", f"{within}\n    {inside}\nRUNS.append(run)",
                         f"{its}\nRUNS.append(run)", "class I:\n    " + body.replace("\n", "\n    "))

    def own(self) -> str:
        """Returns code of a module that may change what it holds."""
        new, name = self.text(), self.pick("P0", "P1")
        return self.pick(
            f"globals()[{name!r}] = {new}", f"sys.modules[__name__].{name} = {new}",
            f"setattr(sys.modules[__name__], {name!r}, {new})",
            f"vars(sys.modules[__name__])[{name!r}] = {new}", f"exec('{name} = 1')", f"vars()[{name!r}] = {new}",
            f"def change():\n    global {name}\n    {name} = {new}\nRUNS.append(change)",
            f"def change(o, k):\n    setattr(o, k, {new})\nchange(sys.modules[__name__], {name!r})",
            f"globals().update({name}={new})", f"L0.append({new})", f"g = L0.append\ng({new})", f"heapq.heappush(L0, {new})",
            f"T = [L0]\nT[0].append({new})", f"def change(x=L0):\n    x.append({new})\nRUNS.append(change)",
            f"K = L0\nK += [{new}]", f"def register(w, m):\n    w.append(m)\nregister(L0, {new})", f"L0['a'] = {new}",
            f"L0[0] = {new}",
            "del L0[0]", f"A.Q = {new}", f"a = A()\na.Q = {new}\na.f()", f"setattr(A, 'Q', {new})",
            f"def change(o):\n    o.Q = {new}\nchange(A)",
            f"{name} += {new}", f"{name} = {new}\n{name} += {new}", "def cached(it): return re.compile(it + 'o')",
            "H.c = lambda self, it, flags=0: re.compile('m' + it)", "del functools.partial.x",
            f"class D(A):\n    Q = {new}\nD().f()", "A.Q", f"list.append(L0, {new})", f"K = {{'k': L0}}\nK['k'].append({new})",
            f"RUNS.append(lambda k=L0: k.append({new}))", f"for K in [L0]:\n    K.append({new})",
            f"K, = (L0,)\nK.append({new})",
        )

    def change(self, it: str) -> str:
        """Returns code of the main file that may change what the module of this name holds."""
        new, name = self.text(), self.pick("P0", "P1")
        return self.pick(
            f"{it}.{name} = {new}", f"setattr({it}, {name!r}, {new})", f"vars({it})[{name!r}] = {new}",
            f"{it}.__dict__[{name!r}] = {new}",
            f"{it}.__dict__.update({name}={new})", f"for {it}.{name} in ({new},): pass", f"({it}.{name}, x) = {new}, 1",
            f"def change(o, k):\n    setattr(o, k, {new})\nchange({it}, {name!r})", f"exec('{name} = 1', {it}.__dict__)",
            f"{it}.L0.append({new})", f"l = {it}.L0\nl += [{new}]", f"{it}.L0 += [{new}]",
            f"def change(x={it}.L0):\n    x.append({new})\nchange()",
            f"heapq.heappush({it}.L0, {new})", f"[{it}.L0][0].append({new})", f"{it}.L0['a'] = {new}",
            f"g = {it}.L0.append\ng({new})",
            f"class X({it}.A):\n    Q = {new}\nX().f()", f"Z = {it}.A\nclass X(Z):\n    Q = {new}\nX().f()",
            f"a = {it}.A()\na.Q = {new}\na.f()", f"{it}.A.Q = {new}", f"type('X', ({it}.A,), {{'Q': {new}}})().f()",
            f"class X({it}.B):\n    def g(self):\n        self.Q = {new}\n        self.f()\nX().g()",
            f"class X({it}.H):\n    def c(self, it, flags=0):\n        return re.compile('o' + it)\nX().g()",
            f"{it}.H.c = lambda self, it, flags=0: re.compile('m' + it)\n{it}.H().g()", f"{it}.D.append(({new}, 8))",
            f"h = {it}.H()\nh.c = lambda it, flags=0: re.compile('i' + it)\nh.g()",
            f"{it}.S['x'] = {{'pattern': {new}}}",
            f"from {it} import H as G\nclass X(G):\n    def c(self, it):\n        return re.compile('p' + it)\nX().g()",
            f"{it}.it = {new}", f"{it}.cached = {it}.short = {it}.part = lambda it, flags=0: re.compile('n' + it)",
            f"print(end={it}.{name}[:0])",
            f"k = getattr({it}, 'L0')\nk.append({new})", f"a = {it}.B()\nvars(a)['Q'] = {new}\na.f()", f"del {it}.{name}",
            f"n = {it}\nn.{name} = {new}", f"sys.modules[{it}.__name__].{name} = {new}",
            f"x = {it}.L0.copy()\nx.append({new})",
        )


def folded(program: Program) -> Tuple[Dict[Place, Set[Tuple[object, int]]], Set[Place]]:
    """Returns the patterns and flags that are known at each line of a program, and the lines that only call a function for it.

    A line with a pattern that isn't known isn't there.
    """
    units: Dict[str, Unit] = {}

    def unit(path: str) -> Unit:
        """The source at a path."""
        if path not in program:
            raise SourceError("it isn't there")
        if path not in units:
            units[path] = Unit(path, program[path].encode())
        return units[path]

    folder = Folder(Sources(unit))
    rows = [(path, it) for path in program for it in places_in(unit(path), TAKERS, folder)]
    needs = list({need for _, it in rows for need in it.needs})
    changes = Changes(needs)
    changed = {needs[at] for path in program
               for at in changes.of(unit(path), changes.candidates(path, program[path].encode()))}
    found: Dict[Place, Set[Tuple[object, int]]] = {}
    lost, helped = set(), set()
    for path, it in rows:
        place = path, it.place.line
        if it.site is None or changed.intersection(it.needs):
            lost.add(place)
        else:
            found.setdefault(place, set()).add((it.site.pattern, it.site.flags or 0))
            helped |= {place} if any(one.startswith("given to") for one in it.site.notes) else set()
    return {place: its for place, its in found.items() if place not in lost}, helped


def ran(programs: Sequence[Program]) -> List[Dict[Place, Set[Tuple[object, int]]]]:
    """Runs programs, and returns for each what `re.compile` got at each place."""
    with tempfile.TemporaryDirectory() as made:
        for number, program in enumerate(programs):
            for path, text in program.items():
                file = Path(made, f"{number:06}", path)
                file.parent.mkdir(parents=True, exist_ok=True)
                file.write_text(text, encoding="utf-8")
        done = subprocess.run([sys.executable, "-B", "-c", RUN], cwd=made, stdout=subprocess.PIPE, check=True)
    found: List[Dict[Place, Set[Tuple[object, int]]]] = [{} for _ in programs]
    for where, its in json.loads(done.stdout).items():
        path, _, line = where.rpartition(":")
        name, _, inside = path.partition("/")
        # (a negative number is that of a line that called what called `re.compile`)
        number = -int(line[1:]) if line.startswith("+") else int(line)
        found[int(name)][inside, number] = {(pattern, flags) for pattern, flags in its}
    return found


class Count:
    """What was compared: places that were run, those that were folded, and programs that failed."""

    run = known = failed = 0


def of_seeds(seeds: Sequence[int]) -> Dict[str, Program]:
    """Returns the programs of some seeds, by "seed 3"."""
    return {f"seed {it}": Maker(it).program() for it in seeds}


def kept() -> Dict[str, Program]:
    """Returns programs that were folded wrongly once, by the names of their files in tests/data/programs."""
    found: Dict[str, Program] = {}
    for it in sorted((Path(__file__).parents[1] / "data" / "programs").glob("*.txt")):
        parts = it.read_text(encoding="utf-8").split("--- ")[1:]
        found[it.name] = dict(part.split("\n", 1) for part in parts)
    return found


def wrong(programs: Dict[str, Program], count: Count) -> List[str]:
    """Returns a line for each place of some programs that took a pattern which isn't among those folded."""
    lines = []
    for (name, program), noted in zip(programs.items(), ran(list(programs.values()))):
        known, helped = folded(program)
        its_callers = {(path, -line): its for (path, line), its in noted.items() if line < 0 and (path, -line) in helped}
        for (path, line), its in [*(it for it in noted.items() if it[0][1] >= 0), *its_callers.items()]:
            count.run += line > 0
            count.failed += line == 0
            if line == 0 and os.environ.get("SHOW"):
                print(name, its)
            count.known += (path, line) in known
            if (path, line) in known and not its <= known[path, line]:
                text = program[path].split("\n")[line - 1].strip()
                got, thought = (sorted(map(str, it)) for it in (its, known[path, line]))
                lines.append(f"{name}: {path}:{line}: {text}: {got}, but folded: {thought}")
    return lines


def main() -> int:
    """Compares programs, and prints the differences; with SHOW set, the programs too."""
    total, first = (int(it) for it in [*sys.argv[1:3], "300", "0"][:2]) if len(sys.argv) != 2 else (int(sys.argv[1]), 0)
    count, differences = Count(), 0
    for at in range(first, first + total, 500):
        for it in wrong(of_seeds(range(at, min(at + 500, first + total))), count):
            differences += 1
            print(it)
            if os.environ.get("SHOW"):
                for path, text in Maker(int(it.split(":")[0].split()[1])).program().items():
                    print(f"--- {path}\n{text}")
    print(f"{total} programs: {count.run} places run, {count.known} folded, {differences} wrong; {count.failed} failed")
    return 1 if differences else 0


if __name__ == "__main__":
    sys.exit(main())
