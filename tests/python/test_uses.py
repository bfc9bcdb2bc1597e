"""What is followed of a compiled pattern: small sources, each with the uses that a reader finds, or with none.

The pattern of each source is the literal 'P', at its first place. The lines count from the source's first one.
"""
from __future__ import annotations

import json
import sys
import unittest
from typing import Any, Dict, Iterator, List, NamedTuple, Optional, Sequence, Set, Tuple

from relint.base.model import Uses
from relint.base.safe import OpenError
from relint.code.elsewhere import imported_words, module_parts
from relint.code.source import Unit
from relint.stages.across import PROJECT_ENDINGS, across, look
from relint.stages.worker import Worker

Lines = Optional[Dict[str, List[int]]]


class Case(NamedTuple):
    """A source, the lines of each method, or None where the pattern goes elsewhere; and the Python that it needs."""

    name: str
    source: str
    lines: Lines
    python: Tuple[int, int] = (3, 8)


R = "import re\n"
SOURCES = [
    # On the spot
    Case("on the spot", R + "re.compile('P').match(s)\n", {"match": [2]}),
    Case("on the spot, and its answer's method", R + "re.compile('P').search(s).group()\n", {"search": [2]}),
    Case("a method that isn't called", R + "find = re.compile('P').fullmatch\n", {"fullmatch": [2]}),
    Case("a method given on", R + "list(map(re.compile('P').sub, a, b))\n", {"sub": [2]}),
    Case("a method's own attribute", R + "re.compile('P').match.__self__.search(s)\n", None),
    Case("scanner", R + "re.compile('P').scanner(s).search()\n", None),
    Case("a function of re", R + "re.split(re.compile('P'), s)\n", {"split": [2]}),
    Case("a function of re by keyword", R + "re.sub(repl='', string=s, pattern=re.compile('P'))\n", {"sub": [2]}),
    Case("as the text of a function of re", R + "re.match('a', re.compile('P'))\n", None),
    Case("thrown away", R + "re.compile('P')\n", None),
    Case("on the spot beside exec", R + "exec(code)\nre.compile('P').match(s)\n", {"match": [3]}),
    # A name of the module
    Case("a name", R + "X = re.compile('P')\nX.match(s)\nX.match(t)\n", {"match": [3, 4]}),
    Case("a name in functions", R + "X = re.compile('P')\ndef f(s):\n    return X.match(s)\ndef g(s):\n    X.fullmatch(s)\n",
         {"match": [4], "fullmatch": [6]}),
    Case("a name used before it is bound in the text", R + "def f(s):\n    return X.match(s)\nX = re.compile('P')\n",
         {"match": [3]}),
    Case("re.match of a name", R + "X = re.compile('P')\nre.match(X, s)\nre.findall(X, s)\n", {"match": [3], "findall": [4]}),
    Case("never used", R + "X = re.compile('P')\n", None),
    Case("a name with an annotation", R + "X: object = re.compile('P')\nX.match(s)\n", {"match": [3]}),
    Case("a walrus", R + "if (m := re.compile('P')).match(s):\n    m.search(t)\n", {"match": [2], "search": [3]}),
    Case("one of two by a condition", R + "X = re.compile('P') if a else None\nif X is not None:\n    X.match(s)\n",
         {"match": [4]}),
    Case("its text is read", R + "X = re.compile('P')\nprint(X.pattern)\nX.match(s)\n", {"match": [4]}),
    Case("an argument", R + "X = re.compile('P')\nX.match(s)\nf(X)\n", None),
    Case("a keyword argument", R + "X = re.compile('P')\nX.match(s)\nf(x=X)\n", None),
    Case("a return", R + "def f():\n    X = re.compile('P')\n    X.match(s)\n    return X\n", None),
    Case("a yield", R + "def f():\n    X = re.compile('P')\n    X.match(s)\n    yield X\n", None),
    Case("a list", R + "X = re.compile('P')\nX.match(s)\nY = [X]\n", None),
    Case("in a list from the first", R + "Y = [re.compile('P')]\nY[0].match(s)\n", None),
    Case("a dict", R + "Y = {'a': re.compile('P')}\n", None),
    Case("another name", R + "X = re.compile('P')\nX.match(s)\nY = X\nY.search(s)\n", None),
    Case("two targets", R + "X = Y = re.compile('P')\nX.match(s)\n", None),
    Case("unpacking", R + "X, Y = re.compile('P'), 1\nX.match(s)\n", None),
    Case("__all__", R + "__all__ = ['X']\nX = re.compile('P')\nX.match(s)\n", {"match": [4]}),
    Case("two bindings", R + "X = re.compile('P')\nX.match(s)\nX = re.compile('Q')\nX.search(s)\n", None),
    Case("two bindings by a condition",
         R + "if a:\n    X = re.compile('P')\nelse:\n    X = re.compile('Q')\nX.match(s)\n", None),
    Case("one binding under a condition", R + "if a:\n    X = re.compile('P')\nif a:\n    X.match(s)\n", {"match": [5]}),
    Case("try and except", R + "try:\n    X = re.compile('P')\nexcept re.error:\n    X = None\nX.match(s)\n", None),
    Case("del", R + "X = re.compile('P')\nX.match(s)\ndel X\n", None),
    Case("an import of the same name", R + "X = re.compile('P')\nX.match(s)\nimport X\n", None),
    Case("a function of the same name", R + "X = re.compile('P')\nX.match(s)\ndef X(): pass\n", None),
    Case("a loop over the same name", R + "X = re.compile('P')\nX.match(s)\nfor X in y: pass\n", None),
    Case("with ..as the same name", R + "X = re.compile('P')\nX.match(s)\nwith y as X: pass\n", None),
    Case("except ..as the same name", R + "X = re.compile('P')\nX.match(s)\ntry: pass\nexcept E as X: pass\n", None),
    Case("an augmented assignment", R + "X = re.compile('P')\nX.match(s)\nX += 1\n", None),
    # Scopes
    Case("shadowed by a parameter", R + "X = re.compile('P')\nX.match(s)\ndef f(X):\n    return g(X)\n", {"match": [3]}),
    Case("shadowed by a local name",
         R + "X = re.compile('P')\nX.match(s)\ndef f():\n    X = 1\n    return X\n", {"match": [3]}),
    Case("shadowed by a comprehension", R + "X = re.compile('P')\nX.match(s)\ny = [X for X in z]\n", {"match": [3]}),
    Case("the first iterable of a comprehension", R + "X = re.compile('P')\nX.match(s)\ny = [X for X in X]\n", None),
    Case("in a comprehension", R + "X = re.compile('P')\ny = [X.match(it) for it in z if X.search(it)]\n",
         {"match": [3], "search": [3]}),
    Case("bound in a comprehension by a walrus", R + "X = re.compile('P')\nX.match(s)\ny = [X := it for it in z]\n", None),
    Case("in a lambda", R + "X = re.compile('P')\nf = lambda s: X.match(s)\n", {"match": [3]}),
    Case("a lambda's parameter", R + "X = re.compile('P')\nX.match(s)\nf = lambda X: X\n", {"match": [3]}),
    Case("global", R + "def f():\n    global X\n    X = re.compile('P')\ndef g(s):\n    return X.match(s)\n", {"match": [6]}),
    Case("global, and bound beside it", R + "X = None\ndef f():\n    global X\n    X = re.compile('P')\nX.match(s)\n", None),
    Case("global of another function", R + "X = re.compile('P')\nX.match(s)\ndef f():\n    global X\n    X = 1\n", None),
    Case("nonlocal",
         R + "def f():\n    X = re.compile('P')\n    def g():\n        nonlocal X\n        X = 1\n    X.match(s)\n", None),
    Case("a closure",
         R + "def f():\n    X = re.compile('P')\n    def g(s):\n        return X.match(s)\n    return g\n", {"match": [5]}),
    Case("a local name", R + "def f(s):\n    x = re.compile('P')\n    return x.match(s)\nx.search(s)\n", {"match": [4]}),
    Case("a local name under locals()", R + "def f(s):\n    x = re.compile('P')\n    x.match(s)\n    return locals()\n", None),
    Case("a name under globals()", R + "X = re.compile('P')\nX.match(s)\nglobals()[n].search(s)\n", None),
    Case("a name under exec", R + "X = re.compile('P')\nX.match(s)\nexec(code)\n", None),
    Case("a name under sys.modules", R + "import sys\nX = re.compile('P')\nX.match(s)\nsys.modules[__name__]\n", None),
    Case("another module of sys.modules",
         R + "import sys\nX = re.compile('P')\nX.match(s)\nsys.modules['y']\n'y' in sys.modules\n",
         {"match": [4]}),
    Case("sys.modules by a function", R + "from sys import modules\nX = re.compile('P')\nX.match(s)\nmodules.get(n)\n", None),
    Case("a local function of the name eval",
         R + "X = re.compile('P')\nX.match(s)\ndef f(eval):\n    eval(s)\n", {"match": [3]}),
    Case("a star import beside it", R + "from y import *\nX = re.compile('P')\nX.match(s)\n", {"match": [4]}),
    Case("a class's own name of it", R + "X = re.compile('P')\nX.match(s)\nclass C:\n    X = X\n", None),
    Case("a method doesn't see a class's name",
         R + "X = re.compile('P')\nclass C:\n    X = 1\n    def f(self):\n        X.match(s)\n",
         {"match": [6]}),
    # Decorators, defaults, getattr
    Case("a decorator's argument", R + "X = re.compile('P')\nX.match(s)\n@d(X)\ndef f(): pass\n", None),
    Case("a decorator that is a method of it", R + "X = re.compile('P')\n@X.sub\ndef f(): pass\n", {"sub": [3]}),
    Case("a parameter's default", R + "def f(s, x=re.compile('P')):\n    return x.match(s)\n", {"match": [3]}),
    Case("a default of a keyword", R + "def f(s, *, x=re.compile('P')):\n    return x.match(s)\n", {"match": [3]}),
    Case("a default, bound again", R + "def f(s, x=re.compile('P')):\n    x = x or 1\n    return x.match(s)\n", None),
    Case("a default of a decorated function", R + "@d\ndef f(s, x=re.compile('P')):\n    return x.match(s)\n", None),
    Case("getattr of it", R + "X = re.compile('P')\nX.match(s)\ngetattr(X, 'search')(s)\n", None),
    Case("getattr by its name", R + "import m\nX = re.compile('P')\nX.match(s)\ngetattr(m, 'X')\n", None),
    # Classes
    Case("a class's name", R + "class C:\n    x = re.compile('P')\n    def f(self, s):\n        return self.x.match(s)\n",
         {"match": [5]}),
    Case("a class's name in its body", R + "class C:\n    x = re.compile('P')\n    y = x.match(s)\n", {"match": [4]}),
    Case("through an instance",
         R + "class C:\n    x = re.compile('P')\nC().x.search(s)\nC.x.match(s)\n", {"search": [4], "match": [5]}),
    Case("through a subclass",
         R + "class C:\n    x = re.compile('P')\nclass D(C):\n    def f(self):\n        super().x.match(s)\n",
         {"match": [6]}),
    Case("bound again in a subclass",
         R + "class C:\n    x = re.compile('P')\nclass D(C):\n    x = 1\nC.x.match(s)\n", {"match": [6]}),
    Case("bound again from outside", R + "class C:\n    x = re.compile('P')\nC.x = 1\nC.x.match(s)\n", None),
    Case("a class with a base from elsewhere", R + "class C(B):\n    x = re.compile('P')\nC.x.match(s)\n", None),
    Case("a class with a builtin base", R + "class C(dict):\n    x = re.compile('P')\nC.x.match(s)\n", {"match": [4]}),
    Case("a base named as a builtin", R + "from y import dict\nclass C(dict):\n    x = re.compile('P')\nC.x.match(s)\n", None),
    Case("a metaclass", R + "class C(metaclass=M):\n    x = re.compile('P')\nC.x.match(s)\n", None),
    Case("a decorated class", R + "@d\nclass C:\n    x = re.compile('P')\nC.x.match(s)\n", None),
    Case("self.x", R + "class C:\n    def __init__(self):\n        self.x = re.compile('P')\n    def f(self, s):\n"
         "        return self.x.match(s)\n", {"match": [6]}),
    Case("cls.x",
         R + "class C:\n    @classmethod\n    def a(cls):\n        cls.x = re.compile('P')\n        cls.x.search(s)\n",
         {"search": [6]}),
    Case("self.x, bound twice", R + "class C:\n    def f(self):\n        self.x = re.compile('P')\n        self.x = 1\n"
         "        self.x.match(s)\n", None),
    Case("self.x of two classes", R + "class C:\n    def f(self):\n        self.x = re.compile('P')\n        self.x.match(s)\n"
         "class D:\n    def f(self):\n        self.x = 1\n", {"match": [5]}),
    Case("self.x, and the class's x", R + "class C:\n    x = None\n    def f(self):\n        self.x = re.compile('P')\n"
         "        self.x.match(s)\n", None),
    Case("self that isn't the first parameter",
         R + "class C:\n    @staticmethod\n    def f(self):\n        self.x = re.compile('P')\n"
         "        self.x.match(s)\n", None),
    Case("an attribute of another", R + "y.x = re.compile('P')\ny.x.match(s)\n", None),
    Case("a private name",
         R + "class C:\n    __x = re.compile('P')\n    def f(self):\n        self.__x.match(s)\nC._C__x.search(s)\n",
         {"match": [5], "search": [6]}),
    Case("an open getattr",
         R + "class C:\n    x = re.compile('P')\n    def f(self, n):\n        getattr(self, n)\nC.x.match(s)\n", None),
    Case("a getattr of other names",
         R + "class C:\n    x = re.compile('P')\n    def f(self, n):\n        getattr(self, 'do_' + n)\n"
         "C.x.match(s)\n", {"match": [6]}),
    Case("attrgetter of another name",
         R + "class C:\n    x = re.compile('P')\nC.x.match(s)\nattrgetter('y')\n", {"match": [4]}),
    Case("attrgetter of a way to it",
         R + "class C:\n    x = re.compile('P')\nC.x.match(s)\noperator.attrgetter('y.x')\n", None),
    Case("an open attrgetter", R + "class C:\n    x = re.compile('P')\nC.x.match(s)\nattrgetter(n)\n", None),
    Case("an attribute under __dict__", R + "class C:\n    x = re.compile('P')\nC.x.match(s)\nC.__dict__[n]\n", None),
    Case("__slots__",
         R + "class C:\n    __slots__ = ('x',)\n    def f(self):\n        self.x = re.compile('P')\n        self.x.match(s)\n",
         {"match": [6]}),
    Case("__setattr__",
         R + "class C:\n    def __setattr__(self, n, v): pass\n    def f(self):\n        self.x = re.compile('P')\n"
         "        self.x.match(s)\n", None),
    # The module re under other names
    Case("import re as r", "import re as r\nX = r.compile('P')\nr.match(X, s)\n", {"match": [3]}),
    Case("from re import ..", "from re import compile, sub as s\nX = compile('P')\ns(X, '', t)\n", {"sub": [3]}),
    Case("re that may be another",
         "try:\n    import regex as re\nexcept ImportError:\n    import re\nX = re.compile('P')\nre.match(X, s)\n",
         None),
    Case("re that may be another, and a method of it",
         "try:\n    import regex as re\nexcept ImportError:\n    import re\nX = re.compile('P')\nX.match(s)\n",
         {"match": [6]}),
    Case("a parameter named re", R + "X = re.compile('P')\ndef f(re):\n    re.match(X, s)\n", None),
    # Newer syntax, as text
    Case("a match pattern that binds it", R + "X = re.compile('P')\nX.match(s)\nmatch y:\n    case X: pass\n", None, (3, 10)),
    Case("a match pattern that takes a rest",
         R + "X = re.compile('P')\nX.match(s)\nmatch y:\n    case {'a': 1, **X}: pass\n", None,
         (3, 10)),
    Case("the subject of a match", R + "X = re.compile('P')\nX.match(s)\nmatch X:\n    case 1: pass\n", None, (3, 10)),
    Case("a match statement on its answer",
         R + "X = re.compile('P')\nmatch X.match(s):\n    case None: pass\n", {"match": [3]}, (3, 10)),
    Case("a type parameter of the same name", R + "X = re.compile('P')\nX.match(s)\ndef f[X](y: X): pass\n", None, (3, 12)),
]


class Pool:
    """Does pieces at once, with the files of a dictionary."""

    def __init__(self, files: Dict[str, str]) -> None:
        """Takes the texts of the files."""
        self.files, self.worker = files, Worker(())
        self.parsed: List[str] = []
        setattr(self.worker, "_reader", self)

    def read(self, path: str, most: int = 0) -> bytes:
        """The bytes of a file."""
        if path not in self.files:
            raise OpenError("it isn't there")
        return self.files[path].encode("utf-8", "surrogateescape")

    def answers(self, pieces: Sequence[Any]) -> Iterator[Tuple[int, Any]]:
        """The answers, as they come through JSON."""
        for number, piece in enumerate(pieces):
            self.parsed += [piece["path"]] if piece["do"] == "uses" else []
            yield number, json.loads(json.dumps(self.worker.work(json.loads(json.dumps(piece)))))

    def why(self, index: int) -> str:
        """No piece fails."""
        return ""


def used(files: Dict[str, str], home: str = "m.py", call: str = "compile") -> Uses:
    """How the pattern 'P' of a file is used in these files."""
    place = Unit(home, files[home].encode()).place(files[home].index("'P'"))
    pool = Pool(files)
    looked = look({home: [(place.line, place.column, call)]}, pool)
    return across([it for it in files if it.endswith(PROJECT_ENDINGS)], {7: (home, looked[home].local[0])}, pool)[7]


def lines_of(found: Uses) -> Lines:
    """The lines of each method."""
    if found.lost:
        return None
    lines: Dict[str, List[int]] = {}
    for it in found.uses:
        lines.setdefault(it.method, []).append(it.line)
    return lines


class Sources(unittest.TestCase):
    def test_each_source(self) -> None:
        for case in SOURCES:
            with self.subTest(case.name):
                if sys.version_info >= case.python:
                    self.assertEqual(lines_of(used({"m.py": case.source})), case.lines)

    def test_there_are_at_least_sixty(self) -> None:
        self.assertGreaterEqual(len(SOURCES), 60)
        self.assertEqual(len({it.name for it in SOURCES}), len(SOURCES))

    def test_what_this_python_cannot_parse_is_unknown(self) -> None:
        self.assertIsNone(lines_of(used({"m.py": R + "print 1\nre.compile('P').match(s)\n"})))

    def test_deep_sources_end_the_walk(self) -> None:
        chain = " + ".join(["1"] * 900)
        self.assertEqual(lines_of(used({"m.py": R + "X = re.compile('P')\nX.match(s)\ny = " + chain})), {"match": [3]})

    def test_large_and_deep_sources_are_parsed_apart_first(self) -> None:
        source = R + "X = re.compile('P')\nX.match(s)\n"
        for more, wanted in (("# x\n" * 40_000, {"match": [3]}), ("x = [\n" + "1 + 1,\n" * 4_000 + "]\n", {"match": [3]}),
                             ("x = " + "(" * 5_000 + ")" * 5_000, None), ("x = " + "-" * 60_000 + "1\n", None)):
            self.assertEqual(lines_of(used({"m.py": source + more})), wanted, more[:20])

    def test_columns_count_characters(self) -> None:
        self.assertEqual(lines_of(used({"m.py": R + "é = 'é'; re.compile('P').match(s)\n"})), {"match": [2]})


class Seen(unittest.TestCase):
    def seen(self, call: str) -> str:
        found = used({"m.py": R + "X = re.compile('P')\ndef f(s, t):\n" + "".join(f"    {it}\n" for it in call.split("\n"))})
        self.assertEqual(found.lost, "")
        self.assertEqual(len(found.uses), 1)
        return found.uses[0].sees

    def test_only_whether_there_is_a_match(self) -> None:
        for call in ("if X.match(s): pass", "while not X.search(s): pass", "return X.match(s) is not None",
                     "return bool(X.match(s))",
                     "if t and X.match(s): pass", "if t or X.match(s): pass", "return [it for it in t if X.match(it)]",
                     "m = X.match(s)\nif m: return 1", "if (m := X.match(s)): return 1", "assert X.match(s)",
                     "return 1 if X.match(s) else 2"):
            with self.subTest(call):
                self.assertEqual(self.seen(call), "truth")

    def test_spans(self) -> None:
        for call in ("return X.match(s).end()", "return X.match(s).group()", "return X.match(s).group(0)", "X.sub('x', s)",
                     "m = X.match(s)\nif m: return m.end()", "X.subn(repl='', string=s)", "re.sub(X, '', s)"):
            with self.subTest(call):
                self.assertEqual(self.seen(call), "spans")

    def test_groups(self) -> None:
        for call in ("return X.match(s)", "return X.match(s).group(1)", "return X.match(s).groups()", "X.sub(r'\\1', s)",
                     "X.sub(t, s)", "X.findall(s)", "X.split(s)", "m = X.match(s)\nreturn m", "m = X.match(s)\nreturn m[1]",
                     "g = X.match", "X.sub(*t)", "return t or X.match(s)", "return X.match(s).start(1)",
                     "for it in X.finditer(s): pass", "m = X.match(s)\nreturn m.end"):
            with self.subTest(call):
                self.assertEqual(self.seen(call), "groups")


class Direct(unittest.TestCase):
    def test_calls_of_re_with_their_pattern(self) -> None:
        calls = {"re.sub('P', 'x', s)": "spans", "re.sub('P', r'\\1', s)": "groups", "re.sub('P', f, s)": "groups",
                 "re.subn('P', repl='', string=s)": "spans", "re.search('P', s)": "truth", "x = re.search('P', s)": "truth",
                 "f(re.search('P', s))": "groups", "if re.match('P', s): pass": "truth"}
        for call, wanted in calls.items():
            with self.subTest(call):
                name = call[call.index("re.") + 3:call.index("('P'")]
                found = used({"m.py": R + "def f():\n    " + call + "\n"}, call=name)
                self.assertEqual(found.lost, "")
                self.assertEqual([(it.method, it.line, it.position, it.sees) for it in found.uses], [(name, 3, False, wanted)])


class Positions(unittest.TestCase):
    def test_calls_with_a_position(self) -> None:
        given = {"X.match(s)": False, "X.match(s, 1)": True, "X.search(s, pos=1)": True, "X.match(s, endpos=3)": True,
                 "X.match(*s)": True, "X.search(**s)": True, "X.sub('', s, 1)": False, "X.split(s, 1)": False,
                 "re.match(X, s)": False, "X.findall(s, 2)": True, "g = X.match": True, "g = X.sub": False}
        for call, wanted in given.items():
            with self.subTest(call):
                found = used({"m.py": R + "X = re.compile('P')\n" + call + "\n"})
                self.assertEqual(found.lost, "")
                self.assertEqual([it.position for it in found.uses], [wanted])

    def test_text_that_is_read(self) -> None:
        for read in ("X.pattern", "X.flags", "X.groups", "X.groupindex"):
            found = used({"m.py": R + f"X = re.compile('P')\nX.match(s)\n{read}\n"})
            self.assertEqual(found.lost, "")
            self.assertTrue(found.is_read)


X = R + "X = re.compile('P')\nX.match(s)\n"
IMPORTERS: List[Tuple[str, Dict[str, str], Lines]] = [
    ("a module that doesn't import it", {"a/m.py": X, "a/n.py": "X.search(s)\nimport y\ny.X.search(s)\n"}, {"match": [3]}),
    ("import", {"a/m.py": X, "a/n.py": "import m\nm.X.search(s)\n"}, {"match": [3], "search": [2]}),
    ("import as", {"a/m.py": X, "a/n.py": "import a.m as k\nk.X.search(s)\n"}, {"match": [3], "search": [2]}),
    ("from import", {"a/m.py": X, "a/n.py": "from a.m import X\nX.search(s)\n"}, {"match": [3], "search": [2]}),
    ("from import as", {"a/m.py": X, "a/n.py": "from a.m import X as Y\nY.search(s)\n"}, {"match": [3], "search": [2]}),
    ("from a package", {"a/m.py": X, "a/n.py": "from a import m\nm.X.search(s)\n"}, {"match": [3], "search": [2]}),
    ("relative", {"a/m.py": X, "a/n.py": "from .m import X\nX.search(s)\n"}, {"match": [3], "search": [2]}),
    ("relative module", {"a/m.py": X, "a/b/n.py": "from .. import m\nm.X.search(s)\n"}, {"match": [3], "search": [2]}),
    ("a star", {"a/m.py": X, "a/n.py": "from a.m import *\nX.search(s)\n"}, {"match": [3], "search": [2]}),
    ("a package's own file", {"a/__init__.py": X, "a/n.py": "from . import X\nX.search(s)\n"}, {"match": [3], "search": [2]}),
    ("through a package", {"a/m.py": X, "a/__init__.py": "from .m import X\n", "n.py": "import a\na.X.search(s)\n"},
     {"match": [3], "search": [2]}),
    ("through two files", {"a/m.py": X, "a/b.py": "from a.m import X as Y\n",
     "a/n.py": "from a.b import Y as Z\nZ.search(s)\n"},
     {"match": [3], "search": [2]}),
    ("in a function", {"a/m.py": X, "a/n.py": "def f():\n    from a.m import X\n    return X\n"}, None),
    ("given on", {"a/m.py": X, "a/n.py": "from a.m import X\nf(X)\n"}, None),
    ("getattr", {"a/m.py": X, "a/n.py": "import m\ngetattr(m, 'X')\n"}, None),
    ("an open getattr", {"a/m.py": X, "a/n.py": "import m\nX = getattr(m, n)\n"}, None),
    ("exported again", {"a/m.py": X, "a/n.py": "from a.m import X\n__all__ = ['X']\n"}, {"match": [3]}),
    ("a file that can't be parsed", {"a/m.py": X, "a/n.py": "from a.m import X\nprint X.search(s)\n"}, None),
    ("a class's name", {"a/m.py": R + "class C:\n    x = re.compile('P')\nC.x.match(s)\n",
     "a/n.py": "from a.m import C\nC.x.search(s)\n"},
     {"match": [4], "search": [2]}),
]


class Importers(unittest.TestCase):
    def test_files_of_the_run(self) -> None:
        for name, files, wanted in IMPORTERS:
            with self.subTest(name):
                home = next(iter(files))
                self.assertEqual(lines_of(used(files, home)), wanted)

    def test_uses_name_their_file(self) -> None:
        found = used({"a/m.py": X, "a/n.py": "import m\nm.X.search(s)\n"}, "a/m.py")
        self.assertEqual([(it.path, it.line) for it in found.uses], [("a/m.py", 3), ("a/n.py", 2)])

    def test_parts_of_a_module(self) -> None:
        self.assertEqual(module_parts("a/b.py")[-2:], ("a", "b"))
        self.assertEqual(module_parts("a/b/__init__.py")[-2:], ("a", "b"))


# Ways to the object that were not seen before version 2, each with the uses now, or None where they aren't known.
S = "import re, sys, gc, copy, pickle, inspect, operator, functools\n"
IN_ONE_FILE = [
    Case("the pattern of a match", S + "X = re.compile('P')\ndef f(s):\n    m = X.match(s)\n    return m.re.search(s)\n",
         {"match": [4], "search": [5]}),
    Case("the pattern of a match that goes elsewhere",
         S + "X = re.compile('P')\ndef f(s):\n    return X.match(s)\ndef g(m, s):\n    return m.re.search(s)\n",
         {"match": [4], "search": [6]}),
    Case("the pattern of a match in a loop",
         S + "X = re.compile('P')\ndef f(s):\n    for m in X.finditer(s):\n        m.re.fullmatch(s)\n",
         {"finditer": [4], "fullmatch": [5]}),
    Case("the pattern of a replaced match", S + "X = re.compile('P')\nX.sub(lambda m: m.re.match(s), s)\n",
         {"sub": [3], "match": [3]}),
    Case("getattr of a match", S + "X = re.compile('P')\ndef f(s):\n    m = X.match(s)\n    getattr(m, 're').search(s)\n",
         None),
    Case("the pattern of a method", S + "X = re.compile('P')\nf = X.match\nf.__self__.search(s)\n", {"search": [3, 4]}),
    Case("a name of a frame",
         S + "def f(s):\n    x = re.compile('P')\n    x.match(s)\ndef g():\n    sys._getframe(1).f_locals['x'].search(s)\n",
         None),
    Case("all names of a frame",
         S + "def f(s):\n    x = re.compile('P')\n    x.match(s)\nfor it in frame.f_locals.values(): it.search(s)\n",
         None),
    Case("another name of a frame", S + "def f(s):\n    x = re.compile('P')\n    x.match(s)\nframe.f_locals['y']\n",
         {"match": [4]}),
    Case("the globals of a frame", S + "X = re.compile('P')\nX.match(s)\nsys._getframe().f_globals[n]\n", None),
    Case("the globals of a function", S + "X = re.compile('P')\nX.match(s)\ndef f(): pass\nf.__globals__[n]\n", None),
    Case("a cell of a closure",
         S + "def f():\n    X = re.compile('P')\n    def g(s):\n        return X.match(s) is None\n    return g\n"
         "f().__closure__[0].cell_contents.search(s)\n", None),
    Case("the defaults of a function", S + "def f(s, x=re.compile('P')):\n    x.match(s)\nf.__defaults__[0].match(s)\n", None),
    Case("the collector of garbage", S + "X = re.compile('P')\nX.match(s)\ngc.get_objects()\n", None),
    Case("sys.modules", S + "X = re.compile('P')\nX.match(s)\nfor it in sys.modules.values(): it.X.search(s)\n", None),
    Case("vars of the module", S + "X = re.compile('P')\nX.match(s)\nimport m\nvars(m)[n].search(s)\n", None),
    Case("globals", S + "X = re.compile('P')\nX.match(s)\nglobals()[n].search(s)\n", None),
    Case("a copy", S + "X = re.compile('P')\nX.match(s)\ncopy.copy(X).search(s)\n", None),
    Case("pickle", S + "X = re.compile('P')\nX.match(s)\npickle.loads(pickle.dumps(X)).search(s)\n", None),
    Case("functools.partial of a method", S + "X = re.compile('P')\nfunctools.partial(X.search, s)()\n", {"search": [3]}),
    Case("functools.partial of match", S + "X = re.compile('P')\nfunctools.partial(X.match, s)(1)\n", {"search": [3]}),
    Case("functools.partial of the pattern", S + "X = re.compile('P')\nfunctools.partial(re.search, X)(s)\n", None),
    Case("map and filter", S + "X = re.compile('P')\nlist(map(X.match, s))\nlist(filter(X.match, s))\n", {"match": [3, 4]}),
    Case("map of search", S + "X = re.compile('P')\nlist(map(X.search, s))\n", {"search": [3]}),
    Case("map over positions", S + "X = re.compile('P')\nlist(map(X.match, repeat(s), range(9)))\n", {"search": [3]}),
    Case("attrgetter", S + "class A:\n    x = re.compile('P')\nA.x.match(s)\noperator.attrgetter('x')(A).search(s)\n", None),
    Case("getattr_static", S + "class A:\n    x = re.compile('P')\nA.x.match(s)\ninspect.getattr_static(A, n)\n", None),
    Case("a subclass with another base",
         S + "class A:\n    x = re.compile('P')\nA.x.match(s)\nclass B(A, Mixin): pass\n", None),
    Case("a subclass of a subclass, with a metaclass",
         S + "class A:\n    x = re.compile('P')\nA.x.match(s)\nclass B(A): pass\nclass C(B, metaclass=M): pass\n", None),
    Case("a case that reads it",
         S + "class A:\n    x = re.compile('P')\nA.x.match(s)\nmatch a:\n    case A(x=y): y.search(s)\n", None, (3, 10)),
    Case("__getstate__", S + "class A:\n    x = re.compile('P')\nA.x.match(s)\nA().__getstate__()\n", None),
    # Loops
    Case("a loop over positions",
         S + "X = re.compile('P')\ni = 0\nwhile i < len(t):\n    m = X.match(t, i)\n    i = m.end() if m else i + 1\n",
         {"search": [5]}),
    Case("a for loop over positions", S + "X = re.compile('P')\nfor i in range(9):\n    X.match(t, pos=i)\n", {"search": [4]}),
    Case("a comprehension over positions", S + "X = re.compile('P')\n[X.match(t, i) for i in range(9)]\n", {"search": [3]}),
    Case("a position that a caller gives", S + "X = re.compile('P')\ndef f(t, i):\n    return X.match(t, i)\n",
         {"search": [4]}),
    Case("a fixed position", S + "X = re.compile('P')\nfor t in s:\n    X.match(t, 1)\n", {"match": [4]}),
    Case("a loop over what is left", S + "X = re.compile('P')\nwhile t:\n    m = X.match(t)\n    t = t[m.end():]\n",
         {"search": [4]}),
    Case("a loop over what is left, by partition",
         S + "X = re.compile('P')\nwhile t:\n    for _ in y:\n        X.match(t)\n    _, _, t = t.partition('a')\n",
         {"search": [5]}),
    Case("a loop over what is left, by one", S + "X = re.compile('P')\nwhile t:\n    X.match(t)\n    t = t[1:]\n",
         {"search": [4]}),
    Case("a loop over lines that are stripped",
         S + "X = re.compile('P')\nfor t in s:\n    t = t.strip()\n    X.match(t)\nwhile 1:\n    u = f()\n    u = u[2:]\n"
         "    X.match(u)\n", {"match": [5, 9]}),
    Case("a loop over slices", S + "X = re.compile('P')\nfor i in range(9):\n    re.match(X, t[i:])\n", {"search": [4]}),
    Case("a loop over lines", S + "X = re.compile('P')\nfor t in s:\n    X.match(t)\n    X.match(t[1:])\n", {"match": [4, 5]}),
    Case("a slice without a loop", S + "X = re.compile('P')\nX.match(t[len(a):])\n", {"match": [3]}),
    Case("a method by a name, over positions",
         S + "X = re.compile('P')\ndef f(t):\n    match = X.match\n    for i in range(9):\n        match(t, i)\n",
         {"search": [4]}),
    Case("a method by a name", S + "def f(t):\n    match = re.compile('P').match\n    return match(t)\n", {"match": [3]}),
    Case("a method as a default, over positions",
         S + "X = re.compile('P')\ndef f(t, i, _m=X.match):\n    return _m(t, i).end()\n", {"search": [3]}),
    Case("fullmatch over positions", S + "X = re.compile('P')\nfor i in range(9):\n    X.fullmatch(t, i)\n", None),
    Case("a loop over a literal's position", S + "for i in range(9):\n    re.compile('P').match(t, i)\n", {"search": [3]}),
]
Y = S + "class Reader:\n    FLAGS = re.compile('P')\n    def f(self, s):\n        return self.FLAGS.match(s) is None\n"
ACROSS: List[Tuple[str, Dict[str, str], Lines]] = [
    ("import_module", {"a/m.py": X, "b.py": "import importlib\nimportlib.import_module('a.m').X.search(s)\n"},
     {"match": [3], "search": [2]}),
    ("import_module of any module", {"a/m.py": X, "b.py": "m = importlib.import_module(n)\nm.X.search(s)\n"},
     {"match": [3], "search": [2]}),
    ("import_module, and any name", {"a/m.py": X, "b.py": "getattr(importlib.import_module('a.m'), n)\n"}, None),
    ("import_module of any module, and any name, as a pattern",
     {"a/m.py": X, "b.py": "getattr(importlib.import_module(n), k).search(s)\n"}, None),
    ("import_module of another", {"a/m.py": X, "b.py": "getattr(import_module('y'), n).search(s)\n"}, {"match": [3]}),
    ("module_from_spec", {"a/m.py": X, "b.py": "m = module_from_spec(s)\ngetattr(m, n).search(s)\n"}, None),
    ("__import__", {"a/m.py": X, "b.py": "f(__import__('a.m'))\n"}, None),
    ("getattr of the module", {"a/m.py": X, "b.py": "import a.m\ngetattr(a.m, n)\n"}, None),
    ("getattr of something else", {"a/m.py": X, "b.py": "import a.m\ngetattr(c, n)\n"}, {"match": [3]}),
    ("the module goes elsewhere", {"a/m.py": X, "b.py": "from a import m\nf(m)\n"}, None),
    ("the package goes elsewhere", {"a/m.py": X, "b.py": "import a.m\nx = [a]\nx[0].m.X.search(s)\n"},
     {"match": [3], "search": [3]}),
    ("getattr of the package", {"a/m.py": X, "b.py": "import a\ngetattr(a.m, n)\n"}, None),
    ("the module by another name", {"a/m.py": X, "b.py": "from a import m as k\nq = k\nq.X.search(s)\nreturn_ = q.Y\n"},
     {"match": [3], "search": [3]}),
    ("the module is only imported", {"a/m.py": X, "b.py": "import a.m\na.m.f()\n"}, {"match": [3]}),
    ("vars of the module", {"a/m.py": X, "b.py": "import a.m\nvars(a.m)[n]\n"}, None),
    ("__dict__ of the module", {"a/m.py": X, "b.py": "import a.m as k\nk.__dict__[n]\n"}, None),
    ("eval beside the module", {"a/m.py": X, "b.py": "import a.m\neval(n)\n"}, None),
    ("a source that is run", {"a/m.py": X, "b.py": "exec(open('a/m.py').read())\nX.search(s)\n"}, None),
    ("run_path", {"a/m.py": X, "b.py": "runpy.run_path('a/m.py')['X'].search(s)\n"}, None),
    ("sys.modules", {"a/m.py": X, "b.py": "import sys\nsys.modules['a.m'].X.search(s)\n"}, {"match": [3], "search": [2]}),
    ("sys.modules, and its names", {"a/m.py": X, "b.py": "import sys\nvars(sys.modules['a.m'])\n"}, None),
    ("a way in a string", {"a/m.py": X, "b.py": "import_string('a.m.X')\n"}, None),
    ("a package that gives the module",
     {"a/m.py": X, "c.py": "from a import m as k\n", "b.py": "import c\nc.k.X.search(s)\n"},
     {"match": [3], "search": [2]}),
    ("a star of a star", {"a/m.py": X, "c.py": "from a.m import *\n", "b.py": "from c import X\nX.search(s)\n"},
     {"match": [3], "search": [2]}),
    ("__main__", {"a/m.py": X, "b.py": "from __main__ import X\nX.search(s)\n"}, {"match": [3], "search": [2]}),
    ("__main__ itself", {"a/m.py": X, "b.py": "import __main__\n__main__.X.search(s)\n"}, {"match": [3], "search": [2]}),
    ("a frame's globals in a file that is imported", {"a/m.py": "import b\n" + X, "b.py": "x = frame.f_globals\n"}, None),
    ("a frame's globals in another file", {"a/m.py": X, "b.py": "x = frame.f_globals\n"}, {"match": [3]}),
    ("a frame's globals in another file that takes patterns",
     {"a/m.py": X, "b.py": "for it in frame.f_globals.values(): it.search(s)\n"}, None),
    ("a frame's own name", {"a/m.py": X, "b.py": "sys._getframe(1).f_globals.get('__name__')\n"}, {"match": [3]}),
    ("a frame's name elsewhere", {"a/m.py": S + "def f(s):\n    x = re.compile('P')\n    x.match(s)\n    g()\n",
                                  "b.py": "sys._getframe(1).f_locals['x'].search(s)\n"}, None),
    ("garbage in another file", {"a/m.py": X, "b.py": "import gc, re\nprint(len(gc.get_objects()), re.search(s, t))\n"},
     {"match": [3]}),
    ("garbage in another file that takes patterns", {"a/m.py": X, "b.py": "for it in gc.get_objects(): it.search(s)\n"}, None),
    ("a match elsewhere", {"a/m.py": S + "X = re.compile('P')\ndef f(s):\n    return X.match(s)\n",
                           "b.py": "m.re.search(s)\nre.search(s)\nimport y\ny.re.compile(n)\n"},
     {"match": [4], "search": [1]}),
    ("a method elsewhere", {"a/m.py": S + "valid = re.compile('P').match\n", "b.py": "from a.m import valid\nvalid(s)\n"},
     {"match": [2]}),
    ("a method elsewhere, over positions",
     {"a/m.py": S + "valid = re.compile('P').match\n", "b.py": "from a.m import valid\nvalid(s, i)\n"},
     {"match": [2], "search": [2]}),
    # Attributes
    ("a file that doesn't import the class", {"a/m.py": Y, "b.py": "def f(reader, s):\n    return reader.FLAGS.search(s)\n"},
     {"match": [5], "search": [2]}),
    ("a file with a class that has the same name",
     {"a/m.py": Y, "b.py": "class A:\n    FLAGS = 1\n    def f(self):\n        return self.FLAGS\n"}, {"match": [5]}),
    ("a file with a subclass that has the same name",
     {"a/m.py": Y, "b.py": "from a.m import Reader\nclass A(Reader):\n    FLAGS = 1\n    def f(s):\n        return s.FLAGS\n"},
     None),
    ("getattr in a file that imports the class", {"a/m.py": Y, "b.py": "from a.m import Reader\ngetattr(c, n)\n"}, None),
    ("getattr in another file", {"a/m.py": Y, "b.py": "getattr(c, n)\n"}, {"match": [5]}),
    ("getattr of a pattern in another file", {"a/m.py": Y, "b.py": "getattr(c, n).search(s)\n"}, None),
    ("getattr of the name in another file", {"a/m.py": Y, "b.py": "k = 'FLAGS'\nx = getattr(c, k)\n"}, None),
    ("vars beside the attribute", {"a/m.py": Y, "b.py": "x = r.FLAGS.match(s) is None\nvars(r)[n]\n"}, None),
    ("a case that reads it", {"a/m.py": Y, "b.py": "match r:\n    case Reader(FLAGS=x): x.search(s)\n"}, None),
    ("a subclass with another base", {"a/m.py": Y, "b.py": "from a.m import Reader\nclass B(Reader, Mixin): pass\n"}, None),
    ("a subclass by another name", {"a/m.py": Y, "b.py": "from a.m import Reader as R\nclass B(Mixin, R): pass\n"}, None),
    ("a subclass of a subclass", {"a/m.py": Y, "b.py": "from a.m import Reader\nclass B(Reader): pass\n",
                                  "c.py": "import b\nclass C(b.B, Mixin): pass\n"}, None),
    ("a subclass alone", {"a/m.py": Y, "b.py": "import a.m\nclass B(a.m.Reader): pass\n"}, {"match": [5]}),
    ("another class of the same name", {"a/m.py": Y, "b.py": "class Reader: pass\nclass B(Reader, Mixin): pass\n"},
     {"match": [5]}),
    # Files that aren't parsed
    ("Cython", {"a/m.py": Y, "b.pyx": "cdef f(reader, s):\n    return reader.FLAGS.search(s)\n"}, None),
    ("Cython, of the module", {"a/m.py": X, "a/c.pyx": "from a.m cimport X\nX.search(s)\n"}, None),
    ("a comment of Cython", {"a/m.py": Y, "b.pyx": "cdef f():\n    pass  # reader.FLAGS\n"}, {"match": [5]}),
    ("a stub of the same name", {"a/m.py": X, "a/m.pyi": "X: object\n"}, None),
    ("a stub of the same name, without it", {"a/m.py": X, "a/m.pyi": "Y: object\n"}, {"match": [3]}),
    ("another stub", {"a/m.py": X, "a/n.pyi": "X: object\n"}, {"match": [3]}),
    ("a template", {"a/m.py": X, "t/a.html": "{{ m.X.search(s) }}"}, None),
    ("another template", {"a/m.py": X, "t/a.html": "X {{ m.Xs }}"}, {"match": [3]}),
    ("a notebook", {"a/m.py": X, "a.ipynb": '{"cells": [{"source": ["from a.m import X\\n", "X.search(s)"]}]}'}, None),
    ("Python 2", {"a/m.py": Y, "b.py": "print reader.FLAGS.search(s)\n"}, None),
    ("Python 2 with a comment", {"a/m.py": Y, "b.py": "print 1  # reader.FLAGS\n"}, {"match": [5]}),
    ("a file that isn't UTF-8", {"a/m.py": Y, "b.py": "# \udcff\nreader.FLAGS.search(s)\n"}, None),
    ("a coding that hides letters", {"a/m.py": Y, "b.py": "# coding: utf-7\nreader.+AEY-LAGS.search(s)\n"}, None),
    ("a coding that Python doesn't know", {"a/m.py": Y, "b.py": "# coding: uft-8\nreader.FLAGS.search(s)\n"}, {"match": [5]}),
    ("a coding with letters of two bytes", {"a/m.py": Y, "b.py": "# coding: shift_jis\nx = 1\n"}, None),
    ("a usual coding", {"a/m.py": Y, "b.py": "# coding: cp1252\nx = 1\n"}, {"match": [5]}),
    ("letters of another form", {"a/m.py": Y, "b.py": "reader.\uff26LAGS.search(s)\n"}, {"match": [5], "search": [1]}),
    ("an attribute over lines", {"a/m.py": Y, "b.py": "x = (reader.  # c\n     FLAGS.search(s))\n"},
     {"match": [5], "search": [1]}),
    # Comments
    ("a comment that names the module", {"a/config.py": X, "b.py": "import a\n# the config\nX = getattr(c, n)\n"},
     {"match": [3]}),
    ("a comment that names the attribute", {"a/m.py": Y, "b.py": "# the FLAGS\nx = getattr(c, n)\n"}, {"match": [5]}),
]


class Ways(unittest.TestCase):
    def modes(self, found: Uses) -> Lines:
        """The lines of each method, where a match that is tried from place to place counts as a search."""
        if found.lost:
            return None
        lines: Dict[str, List[int]] = {}
        for it in found.uses:
            lines.setdefault(it.mode if it.mode == "search" and it.method == "match" else it.method, []).append(it.line)
        return lines

    def test_in_one_file(self) -> None:
        for case in IN_ONE_FILE:
            with self.subTest(case.name):
                if sys.version_info < case.python:
                    continue
                found = used({"m.py": case.source})
                self.assertEqual(self.modes(found), case.lines, found.lost)

    def test_across_files(self) -> None:
        for name, files, wanted in ACROSS:
            with self.subTest(name):
                found = used(files, next(iter(files)))
                self.assertEqual(self.modes(found), wanted, found.lost)


class Bytes(unittest.TestCase):
    def test_words_of_imports(self) -> None:
        cases: Dict[bytes, Set[bytes]] = {
            b"import a.b as c\n": {b"a", b"b", b"c"}, b"from . import (x,  # )\n  y)\nz = 1\n": {b"x", b"y"},
            b"from a \\\n  import b, \\\r\n  c\nz\n": {b"a", b"b", b"c"}, b"x = 1\n": set(),
            b"if x: import a; import b\n": {b"a", b"b"}, b"import a\rimport b\r": {b"a", b"b"},
        }
        for data, wanted in cases.items():
            with self.subTest(data):
                self.assertEqual(wanted & imported_words(data), wanted)
                self.assertNotIn(b"z", imported_words(data))

    def test_only_files_that_may_use_it_are_parsed(self) -> None:
        files = {"a/m.py": X, **{f"b{number}.py": f"import y{number}\nx.y\n" for number in range(300)},
                 "c.py": "import a.m\na.m.X.search(s)\n"}
        pool = Pool(files)
        looked = look({"a/m.py": [(2, 16, "compile")]}, pool)
        found = across(list(files), {0: ("a/m.py", looked["a/m.py"].local[0])}, pool)[0]
        self.assertEqual((len(found.uses), pool.parsed), (2, ["c.py"]))

    def test_hostile_bytes(self) -> None:
        for data in (b"import " * 100_000, b"import a\\\n" * 100_000, b"from a import (" * 50_000, b"(" * 500_000 + b"import"):
            self.assertLessEqual(len(imported_words(data)), 5)


if __name__ == "__main__":
    unittest.main()
